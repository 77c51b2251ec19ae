"""Proves and tests everything, or runs some of the cases:

    ./test                                   all: `rt ci`, then pytest over what it built
    ./test proofs                            `rt ci` alone
    ./test tests.test_program [test_c.Deep cases/refusals.txt:12 tests/test_c.py ..]      cases, as pytest or Python names them

The last line is 'N passed, M failed', and the status is 1 if a case failed. Words that begin with `-` go to pytest.
"""
import contextlib
import filecmp
import json
import os
import re
import resource
import shutil
import signal
import subprocess
import sys
import time

from tests import cases
from tests.support import BUILD_NOTHING, COUNTS, ROOT, RUN, SCREEN, SKIP_NOTHING, kit, processors, scratch
from tools.memory import free_memory
from tools.progress import Screen, Stopwatch, clock, end_of, follow

OUT = ROOT / "out"
C_LIBRARY = "latex2mathml_c"
# the memory for a check, in bytes: somewhat more than any was seen to take
MEMORY = 3 << 30
LAST_LINE = re.compile(r"(\d+) passed, (\d+) failed")
NO_TOOLCHAIN = "test: the command rt of the Rattle toolchain is not on the path: README.md says under \"Try it\" what is needed"


class Total:
    """What passed and what failed, and the time of each step."""

    def __init__(self, screen):
        self.screen, self.passed, self.failed, self.lines, self.watch = screen, 0, 0, [], Stopwatch()

    def do(self, name, step):
        """Does a step, which returns what passed and what failed, and says whether nothing failed."""
        self.screen.say(name)
        watch, before = Stopwatch(), spent()
        passed, failed = step(self.screen)
        self.screen.renew("")
        self.passed, self.failed = self.passed + passed, self.failed + failed
        self.lines.append(f"{name}: {passed} passed, {failed} failed, {watch} ({clock(spent() - before)} of a processor)")
        self.screen.say(f"    {self.lines[-1]}")
        return not failed

    def say(self):
        for line in (*self.lines, f"all: {self.watch}", f"{self.passed} passed, {self.failed} failed"):
            self.screen.say(line)


def spent():
    """The processor seconds of the commands that have ended."""
    used = resource.getrusage(resource.RUSAGE_CHILDREN)
    return used.ru_utime + used.ru_stime


def look_at_layout(screen):
    """`rt ci` refuses a crate that is not in the layout of `rt fmt`, but only when it reaches that crate. This takes seconds."""
    failed = 0
    with scratch() as folder:
        for name in ("crates.txt", "HANDLES"):
            shutil.copy(ROOT / name, folder)
        shutil.copytree(ROOT / "crates", folder / "crates", ignore=shutil.ignore_patterns("out"))
        for crate in sorted((folder / "crates").iterdir()):
            done = subprocess.run(["rt", "fmt"], cwd=crate, stdin=subprocess.DEVNULL, stdout=subprocess.PIPE, stderr=subprocess.STDOUT)
            files = [it.relative_to(folder) for it in crate.rglob("*") if it.suffix in (".rt", ".antt")]
            wrong = [str(it) for it in files if not filecmp.cmp(folder / it, ROOT / it, shallow=False)]
            if done.returncode or wrong:
                failed += 1
                screen.say(f"    FAILED: not in the layout of `rt fmt`: {', '.join(wrong) or crate.name}")
    return int(not failed), failed


def prove(screen, begun):
    """Runs `rt ci` here. Each line that reports its progress stays, and everything that it prints is kept in a file."""
    watch, log, last = Stopwatch(), OUT / "rt-ci.log", None
    screen.say(f"    all that it prints is kept in {log}")

    def read(line):
        nonlocal last
        last = LAST_LINE.match(line)
        if line.startswith("rt: ") or last:
            screen.say(f"    {line.removeprefix('rt: ')}")

    # How many checks it is to run at once, each with one process. By itself it gives a check all processors that are idle. But each
    # process reads all libraries below the crate, so the gate then takes more processor time.
    at_once = max(min(processors(), free_memory() // MEMORY), 1)
    how = {"cwd": ROOT, "env": {"RT_JOBS": str(at_once), **os.environ}}
    status = follow(["rt", "ci"], log, on_line=read, on_second=lambda: screen.renew(f"    {watch}"), **how)
    passed, failed = (int(last[1]), int(last[2])) if last else (0, 0)
    if status or failed or not last:
        screen.say(end_of(log))
        return passed, failed or 1
    # a source that was edited in the meantime is then newer than what was built
    for made in (ROOT / "crates").glob("*/out/*"):
        if made.is_file() and made.stat().st_mtime >= begun:
            os.utime(made, (begun, begun))
    return passed, failed


def build_c_library(screen, begun):
    """Builds the static library over the libraries that `rt ci` proved and left in `out/rlib`. `rt ci` keeps nothing of a static
    library, and `rt lib` would prove the libraries below it again."""
    archive, log = ROOT / f"crates/{C_LIBRARY}/out/lib{C_LIBRARY}.a", OUT / "library-for-c.log"
    archive.parent.mkdir(exist_ok=True)
    if follow(rattle_words(archive), log, cwd=ROOT / "crates" / C_LIBRARY):
        screen.say(end_of(log))
        return 0, 1
    os.utime(archive, (begun, begun))
    return 1, 0


def rattle_words(archive):
    """The command that proves and builds the static library."""
    lines = [line.partition(":")[::2] for line in (ROOT / "crates.txt").read_text(encoding="utf-8").splitlines()]
    direct = {head.split()[0]: below.split() for head, below in lines if head.strip()}
    found = list(direct[C_LIBRARY])
    for name in found:
        found += [it for it in direct.get(name, []) if it not in found]
    tools, rlibs = kit(), {name: ROOT / "crates" / name / "out/rlib" for name in found if name in direct}
    words = [tools / "bin/rattle", "build", "--crate-name", C_LIBRARY, "src/lib.rt", "--crate-type", "staticlib"]
    for name in ["std", *direct[C_LIBRARY]]:
        words += ["--extern", f"{name}={rlibs.get(name, tools / 'rlibs')}/{name}.rlib"]
    for folder in [tools / "rlibs", *rlibs.values()]:
        words += ["-L", f"dependency={folder}"]
    words += ["--antt-project", tools / "rattle/logic/antt-project.json", "--logic-built", tools / "logic_built"]
    words += ["--jobs", str(min(processors(), 4)), "--links", f"{C_LIBRARY}="]
    return [*words, "--toolchain", tools / "toolchain", "--backend", "llvm", "-o", archive]


def run_to_its_end(words):
    """Runs a command and returns its status. No process that it started outlives it, however this one ends."""
    with subprocess.Popen(words, cwd=ROOT, start_new_session=True) as running:
        try:
            return running.wait()
        finally:
            with contextlib.suppress(ProcessLookupError):
                os.killpg(running.pid, signal.SIGKILL)


def try_cases(words):
    """A step that has pytest run these cases, or all cases."""
    def run(screen):
        with scratch() as folder:
            counts = folder / "counts"
            os.environ[COUNTS] = str(counts)
            # a single case also has a process of its own, which may end before it
            at_once = 1 if any("::" in word for word in words) else processors()
            status = run_to_its_end([sys.executable, "-B", "-m", "pytest", "-n", str(at_once), *words])
            found = json.loads(counts.read_text()) if counts.exists() else {}
        modules = {f"tests/{it.name}" for it in (ROOT / "tests").glob("test_*.py")}
        without = [] if words else sorted(modules.difference(found.get("modules", [])))
        for module in without:
            screen.say(f"    FAILED: no case of {module} was tried")
        passed, failed, skipped = (found.get(name, 0) for name in ("passed", "failed", "skipped"))
        if os.environ.get(SKIP_NOTHING) == "1":
            # where nothing may be skipped, what was skipped has failed
            failed += skipped
        return passed, failed + len(without) or int(status != 0)
    return run


def name_of(word):
    """The name that pytest has for a module, a class or a case, which may also be spelled as Python does, or for a file of cases
    or a line of one, as `cases/refusals.txt:12`."""
    if word.startswith("cases/"):
        word = cases.test_name(word)
    if word.startswith("-") or "/" in word or "::" in word:
        return word
    module, *rest = word.removesuffix(".py").removeprefix("tests.").split(".")
    return "::".join([f"tests/{module}.py", *rest])


def main(words):
    proves = words in ([], ["proofs"])
    if proves and not shutil.which("rt"):
        sys.exit(NO_TOOLCHAIN)
    screen = Screen()
    for number in (signal.SIGTERM, signal.SIGHUP):
        signal.signal(number, lambda number, frame: sys.exit(128 + number))
    total = Total(screen)
    with scratch() as folder:
        os.environ[RUN] = str(folder)
        # where a build that a case needs shows its progress, although pytest captures what cases print
        os.environ[SCREEN] = f"/proc/{os.getpid()}/fd/{os.dup(2)}"
        if proves:
            begun = time.time()
            steps = {"layout": look_at_layout, "rt ci": lambda it: prove(it, begun), "the library for C": lambda it: build_c_library(it, begun)}
            if not all(total.do(*step) for step in steps.items()):
                screen.say("    nothing else is tried")
            elif not words:
                # from here on, the tests use only what was proved and built
                os.environ[BUILD_NOTHING] = "1"
                total.do("pytest", try_cases([]))
        else:
            total.do("pytest", try_cases([name_of(word) for word in words]))
    total.say()
    return 1 if total.failed else 0


if __name__ == "__main__":
    try:
        sys.exit(main(sys.argv[1:]))
    except cases.WrongCase as wrong:
        sys.exit(str(wrong))
    except KeyboardInterrupt:
        sys.exit(130)
