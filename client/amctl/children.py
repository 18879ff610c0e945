"""Programs that end with this process, whatever ends it."""
import os
import signal
from collections.abc import Callable

# of prctl(2): the kernel's signal to a process whose parent is gone
PARENT_DEATH_SIGNAL = 1
GONE = 1


def ending_with_this_process() -> Callable[[], None]:
    """What a program runs before its own beginning, so that the kernel kills it once this process is gone.

    The kernel takes the end of the thread that starts the program for the end of its parent.
    """
    # it takes a while to load, and few need it
    import ctypes

    # it is found here, since the program's process may load nothing more
    set_option = ctypes.CDLL(None).prctl
    parent = os.getpid()

    def begin() -> None:
        set_option(PARENT_DEATH_SIGNAL, int(signal.SIGKILL))
        if os.getppid() != parent:
            # it was gone before the kernel was asked
            os._exit(GONE)

    return begin
