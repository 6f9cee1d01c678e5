"""Runs the tasks of packages in a pool of local processes, or on a Dask cluster."""
from __future__ import annotations

import importlib
import multiprocessing
import os
import threading
from collections import deque
from concurrent.futures import FIRST_COMPLETED, Future, ProcessPoolExecutor, wait
from concurrent.futures.process import BrokenProcessPool
from typing import Any, Callable, Iterator, Sequence

from .package_runs import Answer, Done, Job, NoResult, Pool

Call = Callable[[Job], Done]


class NoCluster(Exception):
    """The cluster can't be used: the package `distributed` isn't there, or no scheduler."""


def _answer(job: Job, future: Future[Done]) -> Answer:
    try:
        return job, future.result()
    except BrokenProcessPool:
        raise
    except NoResult as why:
        return job, why
    except Exception as why:
        return job, NoResult(f"{type(why).__name__}: {why}")


def _end_with_parent() -> None:
    """Ends this worker when its parent ends, also by a signal."""
    def wait_for_end() -> None:
        if parent := multiprocessing.parent_process():
            parent.join()
            os._exit(1)
    threading.Thread(target=wait_for_end, daemon=True).start()


class _Local:
    """Jobs that wait, and the number of deaths of workers that each has seen."""

    def __init__(self, jobs: Sequence[Job], call: Call, workers: int) -> None:
        self.waiting = deque((job, 0) for job in jobs)
        self.call, self.workers = call, workers

    def answers(self) -> Iterator[Answer]:
        """Answers until no job is left, or a worker dies. Jobs that saw a death come one by one,
        so that the death of the next worker is known to be of one of them."""
        context = multiprocessing.get_context("spawn")
        pool = ProcessPoolExecutor(self.workers, context, _end_with_parent)
        running: dict[Future[Done], tuple[Job, int]] = {}
        try:
            while self.waiting or running:
                while self.waiting and len(running) < self._room(running):
                    future = pool.submit(self.call, self.waiting[0][0])
                    running[future] = self.waiting.popleft()
                for future in wait(running, return_when=FIRST_COMPLETED).done:
                    answer = _answer(running[future][0], future)
                    del running[future]
                    yield answer
        except BrokenProcessPool:
            yield from self._after_death(running)
        finally:
            pool.shutdown(wait=False, cancel_futures=True)

    def _room(self, running: dict[Future[Done], tuple[Job, int]]) -> int:
        is_suspect = self.waiting[0][1] > 0 or any(deaths for _, deaths in running.values())
        return 1 if is_suspect else self.workers

    def _after_death(self, running: dict[Future[Done], tuple[Job, int]]) -> Iterator[Answer]:
        """Puts back the jobs that were running. A job that saw too many deaths has no result."""
        for future, (job, deaths) in running.items():
            if future.done() and not isinstance(future.exception(), BrokenProcessPool):
                yield _answer(job, future)
            elif deaths >= job.limits.retries:
                yield job, NoResult(f"its worker died {deaths + 1} times")
            else:
                self.waiting.appendleft((job, deaths + 1))


def local(workers: int = 0) -> Pool:
    """A pool of local processes, as many as there are processors if `workers` is 0. If a worker
    dies, the jobs that were running run again in a new pool."""
    def pool(jobs: Sequence[Job], call: Call) -> Iterator[Answer]:
        left = _Local(jobs, call, workers or os.cpu_count() or 1)
        while left.waiting:
            yield from left.answers()
    return pool


def serial(jobs: Sequence[Job], call: Call) -> Iterator[Answer]:
    """The jobs one after another, in this process."""
    for job in jobs:
        try:
            yield job, call(job)
        except NoResult as why:
            yield job, why


def _submitted(client: Any, jobs: Sequence[Job], call: Call) -> dict[Any, Job]:
    """The future of each job. A key of its own for each run, since a scheduler keeps results."""
    return {client.submit(call, job, key=f"mbe-{job.run}-{job.package}", pure=False): job
            for job in jobs}


def cluster(address: str) -> Pool:
    """The workers of a Dask scheduler at an address such as `tcp://10.0.0.1:8786`.

    The scheduler runs the jobs of a dead worker again on another one. Raises `NoCluster` if
    the scheduler can't be reached.
    """
    try:
        distributed: Any = importlib.import_module("distributed")
    except ImportError as why:
        raise NoCluster(f"--scheduler needs the Python package distributed: {why}") from why
    try:
        client = distributed.Client(address, timeout=10)
    except (OSError, ValueError) as why:
        raise NoCluster(f"no scheduler at {address}: {why}") from why

    def pool(jobs: Sequence[Job], call: Call) -> Iterator[Answer]:
        with client:
            futures = _submitted(client, jobs, call)
            for future in distributed.as_completed(list(futures)):
                yield _answer(futures.pop(future), future)
                future.release()
    return pool
