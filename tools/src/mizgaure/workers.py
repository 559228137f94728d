"""Where work on many frames is done: in processes of this machine, or by the workers of a dask.distributed scheduler.

Both are executors of ``concurrent.futures``, and whoever has work knows nothing more: it hands over tasks and takes what comes
of them in their order. A task is done again elsewhere where the process that had it is gone, so what comes of tasks doesn't
depend on who did them, nor on who was killed meanwhile. At most a few tasks for each worker are under way or wait to be
taken, whatever their number, so memory stays bounded.
"""

from __future__ import annotations

import asyncio
import multiprocessing
import os
import signal
from collections import deque
from concurrent.futures import CancelledError, Executor, Future, ProcessPoolExecutor, ThreadPoolExecutor
from concurrent.futures.process import BrokenProcessPool
from contextlib import contextmanager
from itertools import islice
from multiprocessing.context import BaseContext
from multiprocessing.process import BaseProcess
from typing import Any, Callable, Deque, Iterable, Iterator, List, Optional, Tuple

from .errors import InputError, ProgramError

AHEAD = 4  # tasks under way or waiting, for each worker
TRIES = 3  # times that processes may be lost, one behind the other, with nothing done between
CONNECT_SECONDS = 10
WORKER_SECONDS = 30


class Workers:
    """A number of workers.

    Parameters
    ----------
    processes : int, optional
        How many processes of this machine; as many as it has processors by default. With 1 the work is done in this process.
    scheduler : str, optional
        The address of a scheduler of dask.distributed, as ``tcp://host:8786``, whose workers are used instead.

    Raises
    ------
    InputError
        From `run`: if dask.distributed isn't installed, or there is no scheduler at the address, or it has no worker.
    """

    def __init__(self, processes: Optional[int] = None, scheduler: Optional[str] = None) -> None:
        self.processes = processes or os.cpu_count() or 1
        self.scheduler = scheduler

    def run(self, function: Callable[[Any], Any], tasks: Iterable[Any], threads: bool = False) -> Iterator[Tuple[Any, Any]]:
        """Do tasks and give what comes of them.

        Parameters
        ----------
        function : callable
            Of one task; by its name in a module, so that other processes find it.
        tasks : iterable
            Taken as they are needed.
        threads : bool
            Whether on this machine threads will do in place of processes: where a task is another program's work, or too large for
            the pipe to a process, whose end could then wait for ever for what nobody takes any more.

        Yields
        ------
        (task, outcome)
            In the order of the tasks.

        Raises
        ------
        ProgramError
            If processes are lost again and again, the connection to the scheduler is, or a worker lacks this package.
        """
        if self.scheduler is not None:
            with _scheduled(self.scheduler) as (executor, count):
                yield from _in_order(lambda: executor, count, function, tasks)
        elif self.processes == 1:
            for task in tasks:
                yield task, function(task)
        elif threads:
            executor = ThreadPoolExecutor(self.processes)
            try:
                yield from _in_order(lambda: executor, self.processes, function, tasks)
            finally:
                executor.shutdown(wait=False, cancel_futures=True)
        else:
            with _Local(self.processes) as local:
                yield from _in_order(local.fresh, self.processes, function, tasks)


def _in_order(fresh: Callable[[], Executor], count: int, function: Callable, tasks: Iterable) -> Iterator[Tuple[Any, Any]]:
    """Keep some tasks under way, and give their outcomes in order; where an executor broke, go on with a fresh one."""
    waiting: Deque[Tuple[Any, Future]] = deque()
    tasks = iter(tasks)
    executor = fresh()
    lost = 0
    while True:
        waiting.extend((task, _submitted(executor, function, task)) for task in islice(tasks, AHEAD * count - len(waiting)))
        if not waiting:
            return
        task, future = waiting[0]
        try:
            outcome = future.result()
        except BrokenProcessPool:
            lost += 1
            if lost == TRIES:
                raise ProgramError(f"processes that did the work were ended {TRIES} times") from None
            executor = fresh()
            waiting = deque((task, future if _is_done(future) else _submitted(executor, function, task)) for task, future in waiting)
            continue
        except CancelledError:
            raise ProgramError("the scheduler dropped the work, or the connection to it was lost") from None
        except ImportError as error:
            raise ProgramError(f"a worker has no {error.name or 'package mizgaure'}: its PYTHONPATH has to have the package") from error
        lost = 0
        waiting.popleft()
        yield task, outcome


def _submitted(executor: Executor, function: Callable, task: Any) -> Future:
    """The future of a task; where the executor broke meanwhile, one that says so."""
    try:
        return executor.submit(function, task)
    except BrokenProcessPool as error:
        future: Future = Future()
        future.set_exception(error)
        return future


def _is_done(future: Future) -> bool:
    return future.done() and not future.cancelled() and not isinstance(future.exception(), BrokenProcessPool)


class _Local:
    """Pools of processes, one after the other, none of which outlives the block."""

    def __init__(self, count: int) -> None:
        self._count = count
        self._pool: Optional[ProcessPoolExecutor] = None
        self._children: List[BaseProcess] = []
        self._owner = os.getpid()

    def fresh(self) -> ProcessPoolExecutor:
        self._end()
        self._pool = ProcessPoolExecutor(self._count, mp_context=self._context(), initializer=_leave_signals)
        return self._pool

    def _context(self) -> BaseContext:
        """How processes are made, with a note of each."""
        usual, children = multiprocessing.get_context(multiprocessing.get_start_method()), self._children

        class Noting(type(usual)):  # type: ignore[misc]
            def Process(self, *words: Any, **named: Any) -> BaseProcess:  # noqa: N802, since it stands for a class
                made = usual.Process(*words, **named)  # type: ignore[attr-defined]
                children.append(made)
                return made

        return Noting()

    def __enter__(self) -> "_Local":
        return self

    def __exit__(self, kind: Optional[type], *_: object) -> None:
        if kind is None and self._pool is not None:
            self._pool.shutdown()
        else:
            self._end()

    def _end(self) -> None:
        """End the pool at once, whatever is under way; a process that was forked meanwhile has but a copy, and leaves it alone."""
        if self._owner != os.getpid():
            return
        if self._pool is not None:
            self._pool.shutdown(wait=False, cancel_futures=True)
        while self._children:
            child = self._children.pop()
            if child.pid is not None:
                child.terminate()


def _leave_signals() -> None:
    """A worker leaves an interruption to the process that started it, and ends when that one says so."""
    signal.signal(signal.SIGINT, signal.SIG_IGN)
    signal.signal(signal.SIGTERM, signal.SIG_DFL)


@contextmanager
def _scheduled(address: str) -> Iterator[Tuple[Executor, int]]:
    """The workers of a scheduler as an executor, and how many tasks they do at a time."""
    try:
        from distributed import Client
        from distributed.scheduler import KilledWorker
    except ImportError:
        raise InputError("--scheduler needs dask.distributed; on Debian: apt install python3-distributed") from None
    try:
        asyncio.run(_reached(address))  # a Client that can't connect waits for long and writes a traceback when it is dropped
        client = Client(address, timeout=CONNECT_SECONDS, set_as_default=False)
    except (OSError, ValueError) as error:
        raise InputError(f"there is no scheduler of dask.distributed at {address}") from error
    try:
        try:
            client.wait_for_workers(1, timeout=WORKER_SECONDS)
        except (OSError, TimeoutError):
            raise InputError(f"the scheduler at {address} has no worker") from None
        executor = client.get_executor(pure=False)
        try:
            yield executor, sum(client.nthreads().values())
        except KilledWorker as error:
            raise ProgramError(f"workers were lost again and again at the same work; the last was {error.last_worker.address}") from error
        finally:
            executor.shutdown(wait=False)
    finally:
        client.close()


async def _reached(address: str) -> None:
    """See that somebody answers at an address."""
    from distributed.comm import connect
    from distributed.security import Security

    comm = await connect(address, timeout=CONNECT_SECONDS, **Security().get_connection_args("client"))
    await comm.close()
