"""Sentences of what starts a server: what is in the way, and what to do."""


def port_taken(port: int) -> str:
    return f"port {port} of 127.0.0.1 is in use: stop who listens there, take another one, or leave out --port to get a free one."


def network_fault(port: int) -> str:
    return f"the server ended, since no more connections can be accepted at port {port} of 127.0.0.1: start it again, perhaps at another --port."


def port_forbidden(port: int) -> str:
    return f"port {port} is kept for the machine's administrator: take one from 1024 on, or leave out --port to get a free one."


def store_unwritable(path: str) -> str:
    return f"the store can't be kept, because {path} may not be written: give yourself the right by `chmod u+w {path}`, or name another file."


def few_descriptors(limit: int, needed: int, workers: int) -> str:
    return f"this process may have {limit} descriptors, and so many workers need {needed}: raise the limit (`ulimit -n {needed}`), or take --workers {workers}."


def few_threads(left: int, workers: int) -> str:
    return (
        f"this process may start {left} more threads, and {workers} workers need as many: raise the limit (`ulimit -u`, "
        f"or `TasksMax=` of a unit of systemd), or take --workers {max(left, 1)}."
    )
