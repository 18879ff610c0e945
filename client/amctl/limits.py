"""What the system gives a server: descriptors and threads."""
import os
import resource
from pathlib import Path

from amctl import words_serve
from amctl.errors import BadWords

# the program, its store and its port have some in addition to the connections'
OWN_DESCRIPTORS = 16
# a connection has one; if they run out, the program closes one that rests for each new one
ENOUGH_DESCRIPTORS = 4096
OWN_GROUP = Path("/proc/self/cgroup")
GROUPS = Path("/sys/fs/cgroup")


def check_limits(workers: int) -> None:
    check_descriptors(workers)
    check_threads(workers)


def check_descriptors(workers: int) -> None:
    """Raises the limit to what is enough, as far as it may. Each worker needs one for the connection that it has."""
    needed = workers + OWN_DESCRIPTORS
    limit = raised(resource.RLIMIT_NOFILE, ENOUGH_DESCRIPTORS)
    if limit is not None and limit < needed:
        raise BadWords(words_serve.few_descriptors(limit, needed, max(limit - OWN_DESCRIPTORS, 1)))


def check_threads(workers: int) -> None:
    """A worker has a thread. With fewer the program would answer fewer requests at once, and say nothing."""
    left = [it for it in (threads_left_to_user(workers), threads_left_to_groups()) if it is not None]
    if left and min(left) < workers:
        raise BadWords(words_serve.few_threads(min(left), workers))


def raised(which: int, needed: int) -> int | None:
    """The limit once it is raised to what is needed, as far as it may; None if there is none."""
    soft, hard = resource.getrlimit(which)
    if soft == resource.RLIM_INFINITY or soft >= needed:
        return None if soft == resource.RLIM_INFINITY else soft
    best = needed if hard == resource.RLIM_INFINITY else min(needed, hard)
    if best > soft:
        resource.setrlimit(which, (best, hard))
    return best


def threads_left_to_user(workers: int) -> int | None:
    """How many more threads the user may have; root may have any number."""
    if os.getuid() == 0:
        return None
    used = threads_of(os.getuid())
    limit = raised(resource.RLIMIT_NPROC, used + workers)
    return None if limit is None else max(limit - used, 0)


def threads_of(user: int) -> int:
    """How many threads the user's processes have."""
    count = 0
    for process in Path("/proc").glob("[0-9]*/status"):
        try:
            fields = dict(line.split(":", 1) for line in process.read_text(encoding="utf-8", errors="replace").splitlines() if ":" in line)
        except OSError:
            # it has ended
            continue
        if int(fields["Uid"].split()[0]) == user:
            count += int(fields["Threads"])
    return count


def threads_left_to_groups() -> int | None:
    """How many more threads there may be in each group of processes that this one is in, as systemd and containers set it."""
    try:
        lines = OWN_GROUP.read_text(encoding="utf-8").splitlines()
    except OSError:
        return None
    own = next((GROUPS / line[len("0::/"):] for line in lines if line.startswith("0::/")), GROUPS)
    groups = [own, *(it for it in own.parents if it.is_relative_to(GROUPS))]
    left = [it for it in map(threads_left_to, groups) if it is not None]
    return min(left) if left else None


def threads_left_to(group: Path) -> int | None:
    try:
        most, used = ((group / name).read_text(encoding="ascii").strip() for name in ("pids.max", "pids.current"))
    except OSError:
        # the root of all groups has no limit
        return None
    return None if most == "max" else max(int(most) - int(used), 0)
