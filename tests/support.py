"""What all modules of the tests share: where things are, running a program, and skipping a case whose tool is missing."""
import atexit
import contextlib
import dataclasses
import fcntl
import functools
import importlib.util
import os
import pathlib
import re
import resource
import shutil
import signal
import subprocess
import tempfile
import time
import unittest

ROOT = pathlib.Path(__file__).resolve().parent.parent

# variables that name a folder that all processes of a run share, the file on which a build shows its progress, and a file for the
# counts of passed, failed and skipped cases
RUN, SCREEN, COUNTS = "LATEX2MATHML_RUN", "LATEX2MATHML_SCREEN", "LATEX2MATHML_COUNTS"

# If it is 1, `tools/built` builds nothing: after the proofs of `./test`, only what they built may be used.
BUILD_NOTHING = "LATEX2MATHML_BUILD_NOTHING"

# If it is 1, `./test` counts a case that is skipped as one that failed.
SKIP_NOTHING = "LATEX2MATHML_SKIP_NOTHING"

# Says how much of the processors a container may use: microseconds in a period, or `max`, and the period.
QUOTA = pathlib.Path("/sys/fs/cgroup/cpu.max")

SHOWN = 2000  # the most bytes of a stream that a failure shows
NOBODY = 65534  # the user that no file belongs to


def program():
    """The path of the built program, which is built first if it is missing or older than its sources."""
    return build("latex2mathml_app")


def tex_program():
    """The path of the program `tex2mathml`, which is built first in the same way."""
    return build("latex2mathml_tex_app")


@functools.cache
def build(crate):
    """The path of the built program of a crate, or of its static library."""
    with once(crate), open(os.environ.get(SCREEN, "/dev/stderr"), "ab", buffering=0) as screen:
        done = subprocess.run([ROOT / "tools/built", crate], stdin=subprocess.DEVNULL, stdout=subprocess.PIPE, stderr=screen)
    if done.returncode:
        raise RuntimeError(f"{crate} is not built, or is older than its sources: tools/built {crate} builds it")
    return pathlib.Path(os.fsdecode(done.stdout).strip())


@functools.cache
def c_library():
    """The folder with the library for C, its header and its examples, which `tools/make-c-library` makes once per run."""
    build("latex2mathml_c")
    return made_once("c", ROOT / "tools/make-c-library")


@functools.cache
def dist():
    """The folder for people without Rattle, which `tools/make-dist` makes once per run. Nothing may write into it: tests use copies."""
    temporary = run_folder() / "temporary"
    temporary.mkdir(exist_ok=True)
    return made_once("dist", ROOT / "tools/make-dist", env={**os.environ, "TMPDIR": str(temporary)})


def made_once(name, *words, **more):
    """The folder of this name that all processes of a run share. The first of them makes it by a command, as its last argument."""
    folder, making = (run_folder() / it for it in (name, f"{name} in the making"))
    with once(name):
        if not folder.exists():
            subprocess.run([*words, making], stdin=subprocess.DEVNULL, stdout=subprocess.DEVNULL, check=True, timeout=900, **more)
            making.rename(folder)
    return folder


@functools.cache
def run_folder():
    """The folder that all processes of a run share: that of `./test`, or otherwise one of this process."""
    return pathlib.Path(os.environ[RUN]) if RUN in os.environ else kept_folder()


def kept_folder():
    """A folder that lasts as long as this process."""
    keeping = contextlib.ExitStack()
    folder = keeping.enter_context(scratch())
    atexit.register(keeping.close)
    return folder


@contextlib.contextmanager
def once(name):
    """Keeps the other processes of a run from doing the same at the same time."""
    with open(run_folder() / f"{name}.lock", "w", encoding="utf-8") as lock:
        fcntl.flock(lock, fcntl.LOCK_EX)
        yield


@functools.cache
def kit():
    """The folder of the Rattle toolchain."""
    return pathlib.Path(os.fsdecode(run(["rt", "doc"], stderr=None, check=True).stdout).strip()).parent


def newest_version():
    """The version of the newest heading of the change log."""
    return re.search(r"^## (\d+\.\d+\.\d+)", (ROOT / "CHANGELOG.md").read_text(encoding="utf-8"), re.MULTILINE)[1]


def processors():
    """How many processors the tests may keep busy. A container may show more than it may use."""
    seen = len(os.sched_getaffinity(0))
    try:
        quota, period = QUOTA.read_text(encoding="utf-8").split()
    except (OSError, ValueError):
        return seen
    return seen if quota == "max" else max(min(seen, int(quota) // int(period)), 1)


def run(words, *, stdin=b"", timeout=60, **more):
    """Runs a command to its end and returns its `CompletedProcess`, whose streams are bytes.

    `words` is the whole command line. `stdin` is what it reads: bytes, or anything that `subprocess` takes. All other
    arguments go to `subprocess.run`. A command that takes longer than `timeout` seconds is ended, and the case fails.
    """
    given = {"input" if isinstance(stdin, bytes) else "stdin": stdin, "stdout": subprocess.PIPE, "stderr": subprocess.PIPE, **more}
    return subprocess.run([os.fspath(word) for word in words], timeout=timeout, **given)


def limit(**most):
    """A `preexec_fn` for `run` that sets limits by their names, as in `limit(STACK=8 << 20)`. `CPU` ends a command that
    takes more seconds of a processor, however busy the machine is."""
    limits = [(getattr(resource, f"RLIMIT_{name}"), (value, value)) for name, value in most.items()]
    return lambda: [resource.setrlimit(*it) for it in limits]


def hear_signals():
    """A `preexec_fn`: what a shell runs in the background ignores an interruption, and so would everything that it starts."""
    for number in (signal.SIGINT, signal.SIGTERM, signal.SIGHUP):
        signal.signal(number, signal.SIG_DFL)


def as_nobody(folder):
    """The arguments for `run` with which there are files that a command may not open. If this user may open everything, as root
    may, another user runs it, to whom the folder is given."""
    if os.geteuid():
        return {}
    for path in (folder, *folder.rglob("*")):
        os.chown(path, NOBODY, NOBODY)
    return {"user": NOBODY, "group": NOBODY, "extra_groups": []}


def read_terminal(terminal):
    """Everything that a terminal shows until it is closed. The system passes it on in pieces, and reports the end by an error."""
    shown = b""
    with open(terminal, "rb", buffering=0) as screen, contextlib.suppress(OSError):
        while part := screen.read(1 << 16):
            shown += part
    return shown.decode()


def put(folder, texts):
    """Writes texts or bytes to files below a folder, by their names. What begins with `#!` is made executable."""
    for name, text in texts.items():
        path, held = folder / os.fsdecode(name), text if isinstance(text, bytes) else text.encode()
        path.parent.mkdir(parents=True, exist_ok=True)
        path.write_bytes(held)
        if held.startswith(b"#!"):
            path.chmod(0o755)


def link_tools(folder, *names):
    """A folder with these programs of the system, for a path with no others."""
    folder.mkdir(exist_ok=True)
    for name in names:
        (folder / name).symlink_to(shutil.which(name))
    return folder


@contextlib.contextmanager
def scratch():
    """A folder for the duration of a `with`, as a `pathlib.Path`; removed afterwards, whatever permissions are left in it."""
    # what was ended, such as a browser, may still be tidying up
    with tempfile.TemporaryDirectory(prefix="latex2mathml-", ignore_cleanup_errors=True) as folder:
        yield pathlib.Path(folder)


def is_there(tool):
    kind, _, name = tool.rpartition(":")
    return bool(importlib.util.find_spec(name) if kind == "python" else shutil.which(tool))


def requires(*tools):
    """Skips a case or a class of them if one of these tools or Python modules (`python:NAME`) is missing."""
    lacking = [tool for tool in tools if not is_there(tool)]
    return unittest.skipIf(lacking, f"{', '.join(lacking)} not found")


def each_row(table):
    """Makes a case of each row of a table, which is named by its key. The method is given what is in the row."""
    def mark(method):
        method.rows = table
        return method
    return mark


def case_name(key):
    """The name of the case of a row."""
    return "test_" + re.sub("[ ,]+", "_", key)


@dataclasses.dataclass(eq=False)
class Has:
    """Represents any stream in which this part is found."""
    part: bytes

    def __eq__(self, stream):
        return isinstance(stream, bytes) and self.part in stream


class Case(unittest.TestCase):
    """A case that runs programs."""

    def __init_subclass__(cls):
        for method in list(vars(cls).values()):
            for key, row in getattr(method, "rows", {}).items():
                name = case_name(key)
                if hasattr(cls, name):
                    raise NameError(f"{cls.__name__} has two cases {name}")
                setattr(cls, name, functools.wraps(method)(lambda self, method=method, row=row: method(self, *row)))

    @functools.cached_property
    def folder(self):
        """A folder that lasts as long as the case."""
        return self.enterContext(scratch())

    def wait_for(self, is_so, seconds=30, pause=0.05):
        end = time.monotonic() + seconds
        while not is_so():
            self.assertLess(time.monotonic(), end, f"it did not come to that within {seconds} seconds")
            time.sleep(pause)

    def expect(self, done, status=0, stdout=None, stderr=b""):
        """Checks the status and the streams of a finished command. A stream that is None may contain anything."""
        due = (("status", status, done.returncode), ("stdout", stdout, done.stdout), ("stderr", stderr, done.stderr))
        differs = [it for it in due if it[1] != it[2] and (it[1] is not None or it[0] == "status")]
        if differs:
            lines = [f"{name} wanted: {show(wanted)}\n{name} came:   {show(came)}" for name, wanted, came in differs]
            self.fail("\n".join([f"ran: {' '.join(map(show, done.args))}", *lines]))


def show(value):
    """An argument, a status or a stream as a failure shows it, cut in the middle if it is long."""
    text = str(value) if isinstance(value, (str, pathlib.Path)) else repr(value)
    if len(text) <= SHOWN:
        return text
    return f"{text[:SHOWN // 2]} [{len(text) - SHOWN} characters left out] {text[-SHOWN // 2:]}"
