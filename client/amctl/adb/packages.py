"""`pm list packages`, `path`, `install`, `uninstall`, `grant` and `revoke`."""
from dataclasses import dataclass
from pathlib import Path
from typing import ClassVar

from amctl import words_adb
from amctl.adb import apps
from amctl.adb.command import Leaves
from amctl.adb.console import Console, Failed, NotServed, Thrown
from amctl.adb.installed import Installed, find, installed
from amctl.adb.options import Words, user
from amctl.adb.phone import Phone
from amctl.device import Refusal
from amctl.errors import BadWords
from amctl.kept import manifest_of

UNSTATED = (
    "Targeting S+ (version 31 and above) requires that an explicit value for android:exported be defined when intent filters are present"
)
# what is installed at once, tested or older is the same here
GRANTING = "-g"
INSTALL_FLAGS = ("-r", "-R", "-t", "-d", "--streaming", "--no-streaming", "--no-incremental", "--force-sdk", "--full")


@dataclass(frozen=True)
class ListPackages:
    """`pm list packages`. All packages count as third-party ones."""

    leaves: ClassVar[Leaves] = "nothing"

    filter: str = ""
    shown: frozenset[str] = frozenset()

    @property
    def is_none(self) -> bool:
        """No package of the device file is the system's or disabled as a whole."""
        return bool(self.shown & {"-s", "-d"})

    @classmethod
    def read(cls, words: Words, name: str) -> "ListPackages":
        what = words.bare()
        if what not in ("package", "packages"):
            raise NotServed(words_adb.no_subcommand("pm list", what or ""))
        given: set[str] = set()
        while (option := words.option()) is not None:
            if option == "--user":
                user(words.value())
            elif option in ("-3", "-s", "-e", "-d", "-f", "-i", "-u", "-U"):
                given.add(option)
            else:
                raise NotServed(words_adb.no_option("pm list packages", option))
        return cls(words.bare() or "", frozenset(given))

    def run(self, phone: Phone, console: Console) -> int:
        found = installed(phone)
        for package in found:
            if self.filter in package.name and not self.is_none:
                console.say(self._line(package))
        missing = phone.device.system.status().packages - len(found)
        if missing > 0:
            console.note(words_adb.unknown_packages(missing))
        return 0

    def _line(self, package: Installed) -> str:
        path = f"{path_of(package.name)}=" if "-f" in self.shown else ""
        installer = "  installer=null" if "-i" in self.shown else ""
        uid = f" uid:{'?' if package.uid is None else package.uid}" if "-U" in self.shown else ""
        return f"package:{path}{package.name}{installer}{uid}"


@dataclass(frozen=True)
class ApkPath:
    """`pm path`, by which scripts see whether a package is installed."""

    leaves: ClassVar[Leaves] = "nothing"

    package: str

    @classmethod
    def read(cls, words: Words, name: str) -> "ApkPath":
        while (option := words.option()) is not None:
            if option != "--user":
                raise NotServed(words_adb.no_option("pm path", option))
            user(words.value())
        return cls(words.value())

    def run(self, phone: Phone, console: Console) -> int:
        if find(phone, self.package) is None:
            return 1
        console.say(f"package:{path_of(self.package)}")
        return 0


@dataclass(frozen=True)
class Install:
    """`pm install` and `adb install` of a manifest in TOML, or of an app that is converted, with all that it asks for if it `grants`."""

    leaves: ClassVar[Leaves] = "rights"

    path: Path
    grants: bool = False

    @classmethod
    def read(cls, words: Words, name: str) -> "Install":
        grants = False
        while (option := words.option()) is not None:
            if option == "--user":
                user(words.value())
            elif option == GRANTING:
                grants = True
            elif option not in INSTALL_FLAGS:
                raise NotServed(words_adb.NO_INSTALL_OPTIONS.get(option) or words_adb.no_option("install", option))
        path = words.bare()
        if path is None:
            raise BadWords(words_adb.NO_MANIFEST)
        apps.check_name(path)
        if grants and Path(path).suffix == apps.TOML:
            raise NotServed(words_adb.NO_GRANTS_OF_TOML)
        return cls(Path(path), grants)

    def run(self, phone: Phone, console: Console) -> int:
        try:
            failure = self._failure(phone, console)
        except (OSError, UnicodeDecodeError):
            raise Thrown.argument(f"Error: Can't open file: {self.path}") from None
        console.say(f"Failure [{failure}]" if failure else "Success")
        return 1 if failure else 0

    def run_streamed(self, phone: Phone, console: Console) -> int:
        """The same in the lines of adb's own command."""
        console.say("Performing Streamed Install")
        try:
            failure = self._failure(phone, console)
        except (OSError, UnicodeDecodeError) as fault:
            reason = fault.strerror if isinstance(fault, OSError) else "not UTF-8"
            raise Failed(f"adb: failed to stat {self.path}: {reason}") from None
        if failure:
            raise Failed(f"adb: failed to install {self.path}: Failure [{failure}]")
        console.say("Success")
        return 0

    def _failure(self, phone: Phone, console: Console) -> str | None:
        try:
            given = apps.read(self.path)
        except apps.Unparsed as fault:
            console.note(str(fault))
            return f"INSTALL_PARSE_FAILED_NOT_APK: Failed to parse {self.path}"
        failure = installing_failure(phone, console, given.manifest, self.path)
        if failure is None:
            self._tell(phone, console, given)
        return failure

    def _tell(self, phone: Phone, console: Console, given: apps.Given) -> None:
        """What a converted app has that isn't installed with it, and what it is granted."""
        if given.left_out:
            console.note(words_adb.left_out(given.left_out, self.path))
        if self.grants and given.asked:
            package = str(manifest_of(given.manifest)["package"])
            for permission in given.asked:
                phone.device.system.grant(package, permission)
            console.note(words_adb.granted_all(len(given.asked), package))


@dataclass(frozen=True)
class Uninstall:
    leaves: ClassVar[Leaves] = "rights"

    package: str
    user: str | None = None

    @classmethod
    def read(cls, words: Words, name: str) -> "Uninstall":
        users: list[str] = []
        while (option := words.option()) is not None:
            if option == "--user":
                users.append(user(words.value()))
            elif option != "-k":
                raise NotServed(words_adb.no_option("uninstall", option))
        package = words.bare()
        if package is None:
            raise Failed("Error: package name not specified")
        return cls(package, *users[-1:])

    def run(self, phone: Phone, console: Console) -> int:
        try:
            phone.device.system.uninstall(self.package)
        except Refusal as refused:
            if refused.rule != "no_package":
                raise
            console.say("Failure [DELETE_FAILED_INTERNAL_ERROR]" if self.user in (None, "all") else f"Failure [not installed for {self.user}]")
            return 1
        console.say("Success")
        return 0


@dataclass(frozen=True)
class Grant:
    """`pm grant`, or `pm revoke` if it isn't `held`."""

    leaves: ClassVar[Leaves] = "rights"

    package: str
    permission: str
    held: bool

    @classmethod
    def read(cls, words: Words, name: str) -> "Grant":
        while (option := words.option()) is not None:
            if option != "--user":
                raise NotServed(words_adb.no_option(f"pm {name}", option))
            user(words.value())
        package, permission = words.bare(), words.bare()
        if package is None or permission is None:
            raise Failed(f"Error: no {'package' if package is None else 'permission'} specified")
        return cls(package, permission, name == "grant")

    def run(self, phone: Phone, console: Console) -> int:
        try:
            phone.device.system.grant(self.package, self.permission, held=self.held)
        except Refusal as refused:
            if refused.rule != "no_package":
                raise
            raise Thrown.argument(f"Unknown package: {self.package}") from None
        return 0


def path_of(package: str) -> str:
    """Where a phone would have its APK."""
    return f"/data/app/{package}/base.apk"


def installing_failure(phone: Phone, console: Console, manifest: str, path: Path) -> str | None:
    """Installs a package; Android's name for the failure and its reason, if there is one."""
    try:
        phone.device.system.install(manifest)
    except Refusal as refused:
        package = manifest_of(manifest).get("package", "the package")
        if refused.rule == "installed":
            console.note(words_adb.no_update(package))
            return f"INSTALL_FAILED_ALREADY_EXISTS: Attempt to re-install {package} without first uninstalling."
        if refused.rule == "bad_manifest":
            console.note(refused.told)
            return _parse_failure(refused.name or "", path)
        if refused.rule in ("over_limit", "keeper_fault"):
            console.note(refused.told)
            return f"INSTALL_FAILED_INSUFFICIENT_STORAGE: {refused.rule} {refused.name or ''}".rstrip()
        raise
    return None


def _parse_failure(fault: str, path: Path) -> str:
    rule, _, of = fault.partition(" ")
    if rule == "not_toml":
        return f"INSTALL_PARSE_FAILED_NOT_APK: Failed to parse {path}"
    if rule == "exported_unstated":
        return f"INSTALL_PARSE_FAILED_MANIFEST_MALFORMED: {of}: {UNSTATED}"
    if of == "package":
        return f"INSTALL_PARSE_FAILED_BAD_PACKAGE_NAME: {fault}"
    return f"INSTALL_PARSE_FAILED_MANIFEST_MALFORMED: {fault}"
