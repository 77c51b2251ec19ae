"""Does work in several processes, which end with the one that started them, however it ends."""
import contextlib
import multiprocessing
import signal
from multiprocessing.connection import Connection, wait
from typing import Any, Callable, Dict, Iterator, List, Sequence, TypeVar

Item = TypeVar("Item")
Result = TypeVar("Result")

# How many items a process is given at once.
CHUNK = 8

_SIGNALS = (signal.SIGINT, signal.SIGTERM, signal.SIGHUP)


@contextlib.contextmanager
def results(work: Callable[[Item], Result], items: Sequence[Item], jobs: int) -> Iterator[Iterator[Result]]:
    """Yields the result for each item, in the order of the items, from `jobs` processes. No process outlives the block.

    The caller has no threads, since the library for C must not be called in the child of a process that has some. The results raise
    `ChildProcessError` if a process ends too soon.
    """
    workers: List[_Worker] = []
    try:
        for _ in range(jobs):
            workers.append(_Worker(work, items, [it.pipe for it in workers]))
        yield _in_order(workers, len(items))
    except BaseException:
        for worker in workers:
            worker.process.terminate()
        raise
    finally:
        for worker in workers:
            worker.pipe.close()
        for worker in workers:
            worker.process.join()


class _Worker:
    """A process, and this end of the pipe to it."""

    def __init__(self, work: Callable[[Any], Any], items: Sequence[Any], others: List[Connection]):
        context = multiprocessing.get_context("fork")
        self.pipe, its_end = context.Pipe()
        self.process = context.Process(target=_serve, args=(work, items, its_end, [self.pipe, *others]), daemon=True)
        # the process must not be interrupted before it has set how it responds to an interruption
        before = signal.pthread_sigmask(signal.SIG_BLOCK, _SIGNALS)
        try:
            self.process.start()
        finally:
            signal.pthread_sigmask(signal.SIG_SETMASK, before)
        its_end.close()
        self.chunk = -1

    def give(self, chunk: int, count: int) -> bool:
        """Gives the process a chunk of the items, if there is one of this number. Returns whether there is."""
        self.chunk = chunk if chunk * CHUNK < count else -1
        if self.chunk >= 0:
            self.pipe.send(self.chunk)
        return self.chunk >= 0


def _serve(work: Callable[[Any], Any], items: Sequence[Any], pipe: Connection, others: List[Connection]) -> None:
    """Does the work that it is asked for, until no process holds the other end of the pipe any more."""
    signal.signal(signal.SIGINT, signal.SIG_IGN)
    signal.signal(signal.SIGHUP, signal.SIG_IGN)
    signal.signal(signal.SIGTERM, _exit)
    signal.pthread_sigmask(signal.SIG_UNBLOCK, _SIGNALS)
    for other in others:
        other.close()
    with contextlib.suppress(EOFError, ConnectionError):
        while True:
            start, done = pipe.recv() * CHUNK, []
            for item in items[start:start + CHUNK]:
                done.append(work(item))
                # nothing arrives before the results are sent, unless the other end is closed
                if pipe.poll():
                    return
            pipe.send(done)


def _exit(number: int, frame: Any) -> None:
    # what was being written is removed on the way out
    raise SystemExit(128 + number)


def _in_order(workers: List[_Worker], count: int) -> Iterator[Any]:
    given = sum(worker.give(number, count) for number, worker in enumerate(workers))
    done: Dict[int, List[Any]] = {}
    due = 0
    while due * CHUNK < count:
        busy = {worker.pipe: worker for worker in workers if worker.chunk >= 0}
        for pipe in wait(list(busy)):
            worker = busy[pipe]  # type: ignore[index]
            try:
                done[worker.chunk] = worker.pipe.recv()
                given += worker.give(given, count)
            except (EOFError, ConnectionError) as error:
                raise ChildProcessError(None, "a process ended before its work was done") from error
        while due in done:
            yield from done.pop(due)
            due += 1
