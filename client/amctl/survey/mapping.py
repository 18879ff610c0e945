"""Jobs in any order: one after the other, on processors of this machine, or over Dask."""
import concurrent.futures
import importlib
import itertools
import multiprocessing
import os
import signal
import sys
import threading
from collections.abc import Callable, Iterator, Mapping
from concurrent.futures.process import BrokenProcessPool
from contextlib import contextmanager
from functools import partial
from typing import Any

from amctl import words_survey
from amctl.errors import AmctlError, BadWords
from amctl.survey.asking import Sessions
from amctl.survey.jobs import Job, run_job, run_jobs

Done = Iterator[tuple[str, dict[str, Any]]]
Run = Callable[[Mapping[str, Job], str, int], Done]
# the jobs of a batch share a session, and what they carry is sent once; at most so many are lost with a process
MOST_IN_BATCH = 16
# at most so many batches for each thread of a Dask worker are under way: each carries what it reads
AHEAD = 4
PATIENCE = "20s"


class JobFault(AmctlError):
    """A job that had no end of its own."""


@contextmanager
def runner(jobs: int, dask: str | None) -> Iterator[Run]:
    """What runs jobs, for as long as it is open."""
    if dask is not None:
        client = _client(dask)
        try:
            yield partial(_shown, partial(_over_dask, client))
        finally:
            client.close()
    elif jobs == 1:
        yield partial(_shown, _here)
    else:
        # a fork would copy the thread that shows the progress, and not what it holds
        pool = concurrent.futures.ProcessPoolExecutor(jobs, multiprocessing.get_context("spawn"), _begin_worker)
        try:
            yield partial(_shown, partial(_on_processors, pool, jobs))
        finally:
            pool.shutdown(cancel_futures=True)


def _here(jobs: Mapping[str, Job]) -> Done:
    with Sessions() as sessions:
        for key, job in jobs.items():
            yield key, run_job(job, sessions)


def _batches(jobs: Mapping[str, Job], processes: int) -> Iterator[dict[str, Job]]:
    """The jobs in their order: each batch is a process's half of what is left, so that all end at much the same time."""
    rest, left = iter(jobs.items()), len(jobs)
    while left:
        size = max(1, min(MOST_IN_BATCH, left // (2 * processes)))
        yield dict(itertools.islice(rest, size))
        left -= size


def _on_processors(pool: concurrent.futures.Executor, processes: int, jobs: Mapping[str, Job]) -> Done:
    batches = {pool.submit(run_jobs, list(it.values())): it for it in _batches(jobs, processes)}
    try:
        for future in concurrent.futures.as_completed(batches):
            yield from zip(batches[future], future.result())
    except BrokenProcessPool:
        raise JobFault(words_survey.JOB_ENDED) from None


def _begin_worker() -> None:
    # the first process says that it was stopped, and ends the others
    signal.signal(signal.SIGINT, signal.SIG_IGN)
    parent = multiprocessing.parent_process()
    if parent is not None:
        threading.Thread(target=_end_with, args=(parent,), daemon=True).start()


def _end_with(parent: Any) -> None:
    """Nobody waits for a job whose parent was killed."""
    parent.join()
    os._exit(1)


def _client(address: str) -> Any:
    """A client of the scheduler at an address; Debian's package is needed only for that."""
    try:
        distributed = importlib.import_module("distributed")
    except ModuleNotFoundError:
        raise BadWords(words_survey.NO_DASK) from None
    try:
        client = distributed.Client(address, timeout=PATIENCE)
    except (OSError, ValueError) as fault:
        raise BadWords(words_survey.no_scheduler(address, str(fault))) from None
    if not client.ncores():
        client.close()
        raise BadWords(words_survey.no_workers(address))
    return client


def _over_dask(client: Any, jobs: Mapping[str, Job]) -> Done:
    distributed = importlib.import_module("distributed")
    threads = max(1, sum(client.ncores().values()))
    waiting = _batches(jobs, threads)
    keys: dict[str, list[str]] = {}

    def submit(batch: dict[str, Job]) -> Any:
        future = client.submit(run_jobs, list(batch.values()), pure=False)
        keys[future.key] = list(batch)
        return future

    under_way = distributed.as_completed([submit(it) for it in itertools.islice(waiting, AHEAD * threads)])
    for future in under_way:
        yield from zip(keys.pop(future.key), _result(future))
        for batch in itertools.islice(waiting, 1):
            under_way.add(submit(batch))


def _result(future: Any) -> list[dict[str, Any]]:
    try:
        found: list[dict[str, Any]] = future.result()
        return found
    except AmctlError:
        raise
    except Exception as fault:
        # a worker that was killed, or has another version of this package or none
        raise JobFault(words_survey.worker_fault(f"{type(fault).__name__}: {fault}")) from None


def _shown(run: Callable[[Mapping[str, Job]], Done], jobs: Mapping[str, Job], what: str, before: int) -> Done:
    """Shows on a terminal how much was done, with what was kept before."""
    if not jobs or not sys.stderr.isatty():
        yield from run(jobs)
        return
    from rich.console import Console
    from rich.progress import BarColumn, MofNCompleteColumn, Progress, TextColumn, TimeRemainingColumn

    columns = (TextColumn("{task.description}"), BarColumn(), MofNCompleteColumn(), TimeRemainingColumn())
    with Progress(*columns, console=Console(stderr=True), transient=True) as progress:
        task = progress.add_task(what, total=before + len(jobs), completed=before)
        for done in run(jobs):
            yield done
            progress.advance(task)
