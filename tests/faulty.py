"""Programs whose calls of the C library fail or are counted, by preloading `faults.c` or `counts.c`."""
import dataclasses
import functools
import os
import shutil

from tests import support

# beyond any call
ALL = 10**9


@functools.cache
def public_folder():
    """A folder of this process that another user may read, because a case may run as one."""
    folder = support.kept_folder()
    folder.chmod(0o755)
    return folder


@functools.cache
def library(name):
    """The path of `tests/NAME.c` as a library, which is built once per process."""
    built = public_folder() / f"{name}.so"
    support.run(["cc", "-O2", "-Wall", "-shared", "-fPIC", "-o", built, support.ROOT / f"tests/{name}.c", "-ldl"], stderr=None, check=True)
    return built


def preload(*names):
    """The variables with which a program loads these libraries. They are looked up only by their names, because a space in a path
    would end it."""
    libraries = [library(name) for name in names]
    folders = [*(str(it.parent) for it in libraries), os.environ.get("LD_LIBRARY_PATH")]
    return {"LD_PRELOAD": " ".join(it.name for it in libraries), "LD_LIBRARY_PATH": ":".join(filter(None, folders))}


@functools.cache
def program():
    """The path of a copy of the program that another user may run."""
    copy = shutil.copy(support.program(), public_folder() / "latex2mathml")
    copy.chmod(0o755)
    return copy


def open_input(given):
    """A file with these bytes, whose position moves as a program reads it."""
    file = open(os.memfd_create("input"), "r+b", buffering=0)
    file.write(given)
    file.seek(0)
    return file


@dataclasses.dataclass(frozen=True)
class Fault:
    """Calls of one kind that fail: the first and the last of them, and their error number, where 0 is an answer of 0.

    The kinds are those of `faults.c`: memory, open, read, write, list and look.
    """
    kind: str
    first: int
    last: int
    error: int

    def __str__(self):
        return f"{self.kind}:{self.first}:{self.last}:{self.error}"


@dataclasses.dataclass(frozen=True)
class Command:
    """A shell command that is run before the Nth opening of a path, or of something below it."""
    path: str
    time: int
    text: str


def run_with(words, *, fault=None, marked=False, step=None, errors=None, command=None, counts=None, stdin=b"", timeout=60, **more):
    """Runs a command with calls that fail, and returns its `CompletedProcess` and the calls that failed, by their kinds.

    Reading and writing move at most `step` bytes per call. Standard error takes `errors` bytes, one per call, and then fails. If
    `marked`, calls count only between the marks of `faults.c`. `counts` is the file that `counts.c` writes, if it is to count.
    """
    with support.scratch() as folder:
        report = folder / "report"
        told = {"FAULT_REPORT": report, "FAULT": fault, "FAULT_MARKED": 1 if marked else None, "FAULT_STEP": step,
                "FAULT_ERRORS": errors, "COUNTS": counts}
        if counts:
            counts.unlink(missing_ok=True)
        if command:
            told |= {"FAULT_PATH": command.path, "FAULT_TIME": command.time, "FAULT_RUN": command.text}
        environment = os.environ | preload("faults", *(["counts"] if counts else []))
        environment |= {name: str(value) for name, value in told.items() if value is not None}
        done = support.run(words, stdin=stdin, timeout=timeout, env=environment, **more)
        failed = report.read_text().split() if report.exists() else []
    return done, failed


class OneByteAtATime(support.Case):
    """Programs whose calls move one byte each."""

    def fails_at_each(self, kind, number, calls, words, given, answer, due, left=None):
        """Each of this many calls of a kind fails in turn with this error number, and one more that is not made. The
        answer is expected if none fails, and otherwise what `due` gives for the failing call: the status and the streams.
        `left` gives how much is then unread."""
        for call in range(1, calls + 2):
            with self.subTest(words=words[1:], given=given, error=number, call=call), open_input(given) as source:
                done, failed = run_with(words, stdin=source, fault=Fault(kind, call, call, number), step=1)
                self.assertEqual(bool(failed), call <= calls)
                self.expect(done, *(due(call) if failed else (0, answer)))
                if left and failed:
                    self.assertEqual(len(source.read()), left(call))


def counts_of(words, *, stdin=b"", timeout=60, **more):
    """Runs a command and returns its `CompletedProcess` and what it asked of the C library, as `counts.c` counts it."""
    with support.scratch() as folder:
        counts = folder / "counts"
        told = {**preload("counts"), "COUNTS": str(counts)}
        done = support.run(words, stdin=stdin, timeout=timeout, env=os.environ | told, **more)
        return done, counts_in(counts)


def counts_in(path):
    """What `counts.c` wrote to the file: nothing if the program did not end by itself."""
    lines = path.read_text().splitlines() if path.exists() else []
    return {name: int(number) for name, number in map(str.split, lines)}
