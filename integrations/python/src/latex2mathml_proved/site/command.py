"""The command `latex2mathml-site`, which is also `python3 -m latex2mathml_proved site`."""
import argparse
import contextlib
import importlib.util
import os
import signal
import sys
import time
from typing import Any, List, Optional

from latex2mathml_proved.macros import MacroError
from latex2mathml_proved.site.building import Plan, Summary, build, shown
from latex2mathml_proved.site.pages import Options
from latex2mathml_proved.site.settings import definitions_in

NAME = "latex2mathml-site"

# After how many seconds a terminal shows the progress of a run, and after how many it is updated.
PATIENCE, PERIOD = 1, 0.1

WELL, UNWELL, WRONG_WORDS, INTERRUPTED = 0, 1, 2, 130


def parser() -> argparse.ArgumentParser:
    r"""Returns the parser of the command line."""
    made = argparse.ArgumentParser(prog=NAME, description="Converts the LaTeX formulas in the HTML pages of a site to MathML.")
    made.add_argument("source", metavar="IN", help="the folder of the built site, or a page")
    made.add_argument("target", metavar="OUT", nargs="?", help="the folder of the converted site; without it, IN is converted in place")
    made.add_argument("--dollars", choices=("on", "off"), default="on",
                      help="whether $..$ and $$..$$ are formulas, as \\(..\\) and \\[..\\] are (default: on)")
    made.add_argument("--macros", metavar="FILE", action="append", default=[],
                      help="definitions in LaTeX, a mapping in .json, or settings of MathJax or KaTeX in .js; may be given more than once")
    made.add_argument("--annotation", action="store_true", help="put the LaTeX into the MathML, so that copies take it along")
    made.add_argument("--strict", action="store_true", help="change nothing if a formula is refused, and end with status 1")
    made.add_argument("--check", action="store_true", help="write nothing, and name what is refused")
    made.add_argument("--watch", action="store_true", help="convert again after each change, until interrupted; needs watchdog")
    made.add_argument("--jobs", metavar="N", type=_positive, default=len(os.sched_getaffinity(0)),
                      help="how many processes convert (default: one for each processor)")
    made.add_argument("--fresh", action="store_true", help="read all pages, also those that are as an earlier run left them")
    return made


def _positive(text: str) -> int:
    number = int(text)
    if number < 1:
        raise ValueError
    return number


class Screen:
    """What a run shows: lines about what is refused and, on a terminal, its progress."""

    def __init__(self) -> None:
        self._begun = self._shown = time.monotonic()
        self._has_line = False

    def report(self, line: str) -> None:
        self.clear()
        print(line, file=sys.stderr, flush=True)

    def progress(self, done: int, of: int) -> None:
        now = time.monotonic()
        if now - self._begun >= PATIENCE and now - self._shown >= PERIOD and sys.stderr.isatty():
            print(f"\r{NAME}: {done} of {of} pages", end="\x1b[K", file=sys.stderr, flush=True)
            self._shown, self._has_line = now, True

    def clear(self) -> None:
        if self._has_line:
            print("\r\x1b[K", end="", file=sys.stderr, flush=True)
            self._has_line = False

    def seconds(self) -> float:
        return time.monotonic() - self._begun


def line_of(summary: Summary, plan: Plan, seconds: float) -> str:
    """Returns the one line that a run ends with."""
    done = "to be changed" if plan.check else "changed"
    return (f"{NAME}: {_count(summary.pages, 'page')}, {summary.changed} {done}, {_count(summary.formulas, 'formula')} converted, "
            f"{summary.refused} refused, {seconds:.1f} s")


def _count(number: int, name: str) -> str:
    return f"{number} {name}{'' if number == 1 else 's'}"


def run(plan: Plan, is_quiet: bool = False) -> int:
    """Converts a site once, and returns the status. If `is_quiet` is set, it prints nothing if there was nothing to do."""
    screen = Screen()
    lines: List[str] = []
    try:
        summary = build(plan, lines.append if is_quiet else screen.report, screen.progress)
    except OSError as error:
        screen.report(f"{NAME}: {shown(error.filename) + ': ' if error.filename else ''}{error.strerror}")
        return UNWELL
    finally:
        screen.clear()
    is_well = not summary.errors and not (plan.strict and summary.refused)
    if is_quiet and is_well and not summary.changed:
        return WELL
    for line in lines:
        screen.report(line)
    if plan.strict and not is_well and not summary.changed:
        screen.report(f"{NAME}: nothing was changed")
    print(line_of(summary, plan, screen.seconds()), flush=True)
    return WELL if is_well else UNWELL


def main(words: Optional[List[str]] = None) -> int:
    """Runs the command with these arguments, or with those of the command line, and returns its status."""
    reader = parser()
    given = reader.parse_intermixed_args(words)
    wrong = _wrong(given.source, given.target)
    if wrong:
        reader.error(wrong)
    try:
        definitions = "".join(definitions_in(file) for file in given.macros)
    except (MacroError, OSError) as error:
        print(f"{NAME}: {error}", file=sys.stderr)
        return UNWELL
    options = Options(definitions, given.dollars == "on", given.annotation)
    target = None if given.target is None or _is_same(given.source, given.target) else given.target
    plan = Plan(given.source, target, options, given.strict, given.check, given.fresh, given.jobs)
    for number in (signal.SIGTERM, signal.SIGHUP):
        signal.signal(number, _interrupt)
    try:
        return _watch(plan) if given.watch else run(plan)
    except KeyboardInterrupt:
        print(f"{NAME}: interrupted", file=sys.stderr)
        return INTERRUPTED


def script() -> None:
    """Runs the command and ends the process."""
    sys.exit(main())


def _interrupt(number: int, frame: Any) -> None:
    raise KeyboardInterrupt


def _watch(plan: Plan) -> int:
    if not importlib.util.find_spec("watchdog"):
        print(f"{NAME}: --watch needs the package watchdog, which Debian has as python3-watchdog", file=sys.stderr)
        return WRONG_WORDS
    from latex2mathml_proved.site.watching import watch
    run(plan)
    # watching uses threads, and while they run no other process may convert
    alone = plan._replace(jobs=1, fresh=False)
    watch(plan.source, lambda: run(alone, is_quiet=True))
    return WELL


def _wrong(source: str, target: Optional[str]) -> str:
    """Returns what is wrong with the paths, if anything is."""
    if not os.path.exists(source):
        return f"there is no {shown(source)}"
    if target is None or _is_same(source, target):
        return ""
    if os.path.isdir(source) and os.path.exists(target) and not os.path.isdir(target):
        return "IN is a folder, and OUT is none"
    for inner, outer in ((source, target), (target, source)):
        if os.path.isdir(outer) and os.path.realpath(inner).startswith(os.path.join(os.path.realpath(outer), "")):
            if os.path.isdir(source):
                return "IN and OUT must not contain each other"
    return ""


def _is_same(source: str, target: str) -> bool:
    with contextlib.suppress(OSError):
        return os.path.samefile(source, target)
    return False
