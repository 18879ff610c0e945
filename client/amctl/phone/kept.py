"""What an interrupted run has pulled: of each APK the manifest and the resources, in a folder that is there until a run ends."""
import hashlib
import os
import shutil
import zipfile
from collections.abc import Mapping
from dataclasses import dataclass
from pathlib import Path

from amctl import words_phone
from amctl.apps.elements import InputFault
from amctl.apps.inputs import MANIFEST, RESOURCES, RESOURCES_LIMIT, ZIP_FAULTS, is_apk
from amctl.errors import BadWords
from amctl.phone.adb import Adb

FOLDER = "from-phone"
PULLED = "pulled"
PART = ".part"


@dataclass(frozen=True)
class Kept:
    """The folder of a phone."""

    folder: Path

    def apk(self, adb: Adb, remote: str) -> Path:
        """The APK of this path on the phone, pulled if it isn't there; an InputFault says why it can't be."""
        path = self.folder / f"{hashlib.sha256(remote.encode()).hexdigest()[:32]}.apk"
        if not path.exists():
            self._pull(adb, remote, path)
        return path

    def _pull(self, adb: Adb, remote: str, path: Path) -> None:
        pulled = self.folder / PULLED
        said = adb.pull(remote, pulled)
        if said.status or not pulled.exists():
            raise InputFault(words_phone.not_pulled(remote, said.last_line))
        part = path.with_suffix(PART)
        _keep(pulled, part)
        pulled.unlink()
        # an archive is there as a whole or not at all
        os.replace(part, path)

    def remove(self) -> None:
        shutil.rmtree(self.folder, ignore_errors=True)


def kept_of(given: Path | None, serial: str, environment: Mapping[str, str] = os.environ) -> Kept:
    """The folder that is named, or one of this phone's among the user's cached files."""
    folder = given if given is not None else _cache(environment) / FOLDER / serial.replace(os.sep, "_")
    kept = Kept(folder)
    if folder.is_dir() and not all(is_apk(it.name) or it.name == PULLED or it.suffix == PART for it in folder.iterdir()):
        raise BadWords(words_phone.others_folder(folder))
    try:
        folder.mkdir(mode=0o700, parents=True, exist_ok=True)
    except OSError as fault:
        raise BadWords(words_phone.no_folder(folder, fault.strerror or str(fault))) from None
    return kept


def _cache(environment: Mapping[str, str]) -> Path:
    stated = environment.get("XDG_CACHE_HOME")
    return Path(stated) / "amctl" if stated else Path.home() / ".cache" / "amctl"


def _keep(pulled: Path, part: Path) -> None:
    """Keeps of an APK what is read of it; what isn't an archive is kept whole, and said when it is read."""
    try:
        with zipfile.ZipFile(pulled) as archive, zipfile.ZipFile(part, "w", zipfile.ZIP_DEFLATED) as kept:
            for entry in (it for it in archive.infolist() if it.filename in (MANIFEST, RESOURCES)):
                if entry.file_size <= RESOURCES_LIMIT:
                    kept.writestr(entry.filename, archive.read(entry))
    except ZIP_FAULTS:
        shutil.copyfile(pulled, part)
