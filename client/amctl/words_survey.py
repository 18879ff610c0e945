"""Sentences of `amctl survey`: what is so, and what to do."""
from collections.abc import Mapping, Sequence
from pathlib import Path

READING, TRYING, ASKING = "reading apps", "trying manifests", "asking"
COLUMNS = ("package", "components", "open", "activities", "services", "receivers", "callers")

NO_DEVICE = "`--each` puts each app on a copy of a device: name its file by `--on`."
NO_DASK = (
    "`--dask` needs Debian's package python3-distributed: `sudo apt-get install --no-install-recommends python3-distributed`, "
    "or leave out `--dask` to use this machine's processors."
)
JOB_ENDED = "a job's process was ended, perhaps for want of memory: what was done is kept, so run it again, with fewer `--jobs`."
NO_PACKAGE = "it has no `package` at its top: a manifest in TOML has its package's name there."
NOT_UTF8 = "it isn't UTF-8."


def no_folder(folder: Path) -> str:
    return f"{folder} is no folder: name one with APKs, or with manifests in XML or TOML."


def no_apps(folder: Path) -> str:
    return f"{folder} has no APK, no AndroidManifest.xml, and at its top no other file in XML or TOML: name a folder that has."


def others_folder(folder: Path) -> str:
    return f"{folder} has files of others in it: name by `--into` a new folder, an empty one, or one of an earlier survey."


def too_many(files: int, before: int, most: int, *, is_each: bool) -> str:
    if is_each:
        return f"the device has {most} packages already, which is the most that one takes: take one out of its file."
    so = f", beside {before} that the device has" if before else ""
    return (
        f"{files} apps are too many for one device{so}, since it takes {most} packages: move some to another folder, "
        "or give each a copy of a device by `--each --on DEVICE`."
    )


def too_much(why: str) -> str:
    return f"`am` doesn't take all apps on one device, though it takes each alone: {why} Move some to another folder."


def no_into(folder: Path) -> str:
    return f"{folder} is a file: name by `--into` a folder, which needn't be there yet."


def doubled(package: str, first: str, second: str) -> str:
    return f"{package} is in {first} and in {second}, and a package counts once: take one of them out."


def too_large(most: int) -> str:
    return f"it has more than {most:,} bytes."


def not_toml(what: str) -> str:
    return f"it isn't TOML 1.0: {what}."


def refused(why: str, name: str) -> str:
    return f"`am` refuses it, since {why} ({name})"


def no_scheduler(address: str, fault: str) -> str:
    return f"no scheduler of Dask answers at {address} ({fault}): start one by `dask-scheduler`, and name it as in tcp://127.0.0.1:8786."


def no_workers(address: str) -> str:
    return f"the scheduler at {address} has no workers: start some by `dask-worker {address}`, with this package and `am` at hand."


def worker_fault(fault: str) -> str:
    return f"a worker failed ({fault}): what was done is kept; see that all workers have this package and `am`, and run it again."


def remarks(unreadable: Sequence[tuple[str, str]], left_out: Sequence[tuple[str, str, str]], left: int, into: Path) -> list[str]:
    """What a person has to know in addition to the table."""
    found = []
    if unreadable:
        apps = "1 app can't be read" if len(unreadable) == 1 else f"{len(unreadable)} apps can't be read"
        found.append(f"{apps}: {into / 'unreadable.csv'} says why.")
    if left_out:
        what = "1 thing wasn't" if len(left_out) == 1 else f"{len(left_out)} things weren't"
        apps = _counted(len({file for file, _, _ in left_out}), "app")
        found.append(f"{what} looked at in {apps}, since a device file can't say that: {into / 'left-out.csv'} has each.")
    if left:
        found.append(f"{left} links weren't asked about: of a filter that names more than 1,024, the first 1,024 are.")
    return found


KINDS: Mapping[str, str] = {"activity": "activities", "service": "services", "receiver": "receivers"}
ONE = {"activity": "activity", "service": "service", "receiver": "receiver"}
ALL, SOME, NONE = "all of the kind are reached", "some are", "none is"
ROW_REACHES = "The package of a row reaches that of a column, by the names of its components"
APPS_REACH = "The app of a row reaches the device's package of a column"
REACH_APPS = "The device's package of a column reaches the app of a row"


def _counted(count: int, noun: str) -> str:
    return f"1 {noun}" if count == 1 else f"{count} {noun}s"


def title(packages: int) -> str:
    return f"Who reaches whom: {_counted(packages, 'package')} on one device"


def title_each(shown: int, apps: int, others: int) -> str:
    which = _counted(apps, "app") if shown == apps else f"the {shown} most exposed of {apps} apps"
    return f"Who reaches whom: {which}, each on a device with {_counted(others, 'package')}"


def cell(caller: str, target: str, counts: Mapping[str, tuple[int, int]]) -> str:
    parts = [f"{reached} of {total} {(ONE if total == 1 else KINDS)[kind]}" for kind, (reached, total) in counts.items()]
    return f"{caller} reaches of {target}: {', '.join(parts)}"
