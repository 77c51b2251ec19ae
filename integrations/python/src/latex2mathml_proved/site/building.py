"""Converts a site, in several processes if it has many pages."""
import contextlib
import functools
import itertools
import os
from typing import Callable, Iterable, Iterator, List, NamedTuple, Optional, Tuple

from latex2mathml_proved.site.folders import Copy, Site, find
from latex2mathml_proved.site.pages import Fault, Options, convert
from latex2mathml_proved.site.processes import CHUNK, results
from latex2mathml_proved.site.record import Known, Record
from latex2mathml_proved.site.writing import (
    Signature, check_writable, copy_file, make_link, remove_leftovers, replace, replace_unchanged, signature, write_beside)

# How many pages are worth a second process.
FEW = 32


class Plan(NamedTuple):
    """What a run does: the command-line options of these names."""

    source: str
    target: Optional[str] = None
    options: Options = Options()
    strict: bool = False
    check: bool = False
    fresh: bool = False
    jobs: int = 1


class Outcome(NamedTuple):
    """The outcome for a page. `beside` is the file that is to replace it, if that is still to be done."""

    is_changed: bool = False
    formulas: int = 0
    faults: Tuple[Fault, ...] = ()
    error: str = ""
    signatures: Optional[Tuple[Signature, Signature]] = None
    beside: str = ""


class Summary(NamedTuple):
    """What a run did."""

    pages: int
    changed: int
    formulas: int
    refused: int
    errors: int


# Shows a line about something that was refused or that failed.
Report = Callable[[str], None]
# Shows how many pages are done, and of how many.
Progress = Callable[[int, int], None]


def build(plan: Plan, report: Report, progress: Progress) -> Summary:
    """Converts a site. What is refused and what fails is reported, and the rest of the site is converted.

    If `plan.strict` is set and anything is refused or fails, nothing is changed. However a run ends, each file is the old one or
    the new one, and no other file is left in the site unless the process was killed. The next run removes such files.
    """
    site = find(plan.source, plan.target)
    made = _make_folders(site.folders) if plan.target and not plan.check else []
    run = _Run(plan, site, report, progress)
    try:
        summary = run.convert_pages()
    except BaseException:
        for folder in site.folders:
            remove_leftovers(folder, own=True)
        _remove_folders(made)
        raise
    if plan.strict and (summary.refused or summary.errors):
        _remove_folders(made)
        return summary._replace(changed=0)
    return run.finish(summary)


def _make_folders(folders: Iterable[str]) -> List[str]:
    """Creates the missing folders, and returns those that it created."""
    made: List[str] = []
    for folder in folders:
        missing = itertools.takewhile(lambda it: not os.path.exists(it), _upwards(folder))
        for path in reversed(list(missing)):
            os.mkdir(path)
            made.append(path)
    return made


def _upwards(folder: str) -> Iterator[str]:
    while True:
        yield folder
        folder = os.path.dirname(folder)


def _remove_folders(made: List[str]) -> None:
    for folder in reversed(made):
        with contextlib.suppress(OSError):
            os.rmdir(folder)


class _Run:
    """One run over a site."""

    def __init__(self, plan: Plan, site: Site, report: Report, progress: Progress):
        self._plan = plan
        self._site = site
        self._report = report
        self._progress = progress
        self._record = Record(plan.target or plan.source, plan.options)
        self._waiting: List[Tuple[Copy, str, Signature]] = []
        self._errors = 0
        self._changed = 0
        self._formulas = 0
        self._refused = 0

    def convert_pages(self) -> Summary:
        """Converts the pages. If nothing may be changed before all of them are converted, each waits next to its place."""
        plan, pages = self._plan, self._site.pages
        if not plan.check:
            for folder in self._site.folders:
                remove_leftovers(folder)
        if not plan.fresh:
            self._record.read()
        for error in self._site.errors:
            self._fail(f"{shown(error.filename)}: {error.strerror}")
        work = [(page, self._record.find(page)) for page in pages]
        with _conversions([page for page, known in work if not known], plan) as outcomes:
            for number, (page, known) in enumerate(work):
                self._progress(number, len(pages))
                self._take(page, Outcome(faults=known.faults, signatures=(known.source, known.target)) if known else next(outcomes))
        if plan.strict and (self._refused or self._errors):
            for _, beside, _ in self._waiting:
                with contextlib.suppress(OSError):
                    os.unlink(beside)
        return self._summary()

    def finish(self, summary: Summary) -> Summary:
        """Moves the waiting pages to their places, copies what is not a page to the target, and writes the record. With `check` it
        does nothing."""
        if self._plan.check:
            return summary
        waiting = iter(self._waiting)
        try:
            for page, beside, before in waiting:
                self._changed -= not self._try(page.target, lambda: _put(page, beside, before))
        finally:
            for _, beside, _ in waiting:
                with contextlib.suppress(OSError):
                    os.unlink(beside)
        if self._plan.target:
            for other in self._site.others:
                self._try(other.target, lambda: copy_file(*other))
            for path, text in self._site.links:
                self._try(path, lambda: make_link(path, text))
        if not self._errors:
            self._record.write()
        return self._summary()

    def _summary(self) -> Summary:
        return Summary(len(self._site.pages), self._changed, self._formulas, self._refused, self._errors)

    def _take(self, page: Copy, outcome: Outcome) -> None:
        if outcome.error:
            self._fail(f"{shown(page.target)}: {outcome.error}")
        for fault in outcome.faults:
            place = f"{fault.line}:{fault.column}: " if fault.line else " "
            self._report(f"{shown(page.source)}:{place}{printable(fault.reason)}")
        if outcome.beside and outcome.signatures:
            self._waiting.append((page, outcome.beside, outcome.signatures[0]))
        if outcome.signatures:
            self._record.keep(page, Known(*outcome.signatures, outcome.faults))
        self._refused += len(outcome.faults)
        self._formulas += outcome.formulas
        self._changed += outcome.is_changed

    def _try(self, path: str, step: Callable[[], object]) -> bool:
        """Runs a step, or reports why it failed. Returns whether it succeeded."""
        try:
            step()
        except OSError as error:
            self._fail(f"{shown(path)}: {error.strerror}")
            return False
        return True

    def _fail(self, line: str) -> None:
        self._errors += 1
        self._report(line)


def shown(path: str) -> str:
    """Returns a path as a line of text, even if the path is not one."""
    return printable(os.path.relpath(path) if os.path.isabs(path) else path)


def printable(text: str) -> str:
    """Returns the text with everything that is not text or that ends a line spelled out."""
    spelled = text.encode("utf-8", "surrogateescape").decode("utf-8", "backslashreplace")
    return "".join(it if it.isprintable() else it.encode("unicode_escape").decode() for it in spelled)


@contextlib.contextmanager
def _conversions(pages: List[Copy], plan: Plan) -> Iterator[Iterator[Outcome]]:
    """Yields the outcome for each page, in the order of the pages."""
    if plan.jobs == 1 or len(pages) < FEW:
        yield (_convert_page(plan, page) for page in pages)
    else:
        with results(functools.partial(_convert_page, plan), pages, min(plan.jobs, len(pages) // CHUNK)) as outcomes:
            yield outcomes


def _convert_page(plan: Plan, page: Copy) -> Outcome:
    """Converts a page, and writes it, unless pages are only checked or writing has to wait."""
    try:
        with open(page.source, "rb") as file:
            status = os.fstat(file.fileno())
            content = file.read()
        converted = convert(content, plan.options)
        if plan.check:
            return Outcome(not _holds(page.target, converted.content), converted.formulas, converted.faults)
        return _write_page(page, plan, status, content, converted.content)._replace(
            formulas=converted.formulas, faults=converted.faults)
    except OSError as error:
        return Outcome(error=error.strerror or str(error))
    except MemoryError:
        return Outcome(error="out of memory")


def _write_page(page: Copy, plan: Plan, status: os.stat_result, content: bytes, made: bytes) -> Outcome:
    before = signature(status)
    is_in_place = page.source == page.target
    if is_in_place and made == content:
        return Outcome(signatures=(before, before))
    if not is_in_place and _holds(page.target, made):
        return Outcome(signatures=(before, signature(os.stat(page.target))))
    if is_in_place:
        check_writable(page.target)
    beside, after = write_beside(page.target, made, status)
    if not is_in_place and made == content:
        # a copy also has the times
        os.utime(beside, ns=(status.st_atime_ns, status.st_mtime_ns))
        after = signature(os.stat(beside))
    if plan.strict:
        return Outcome(True, signatures=(before, after), beside=beside)
    _put(page, beside, before)
    return Outcome(True, signatures=(before, after))


def _put(page: Copy, beside: str, before: Signature) -> None:
    """Puts the converted page in its place, unless the page there has been rewritten since it was read."""
    if page.source == page.target:
        replace_unchanged(beside, page.target, before)
    else:
        replace(beside, page.target)


def _holds(path: str, content: bytes) -> bool:
    """Whether a file exists and has this content."""
    with contextlib.suppress(FileNotFoundError):
        if os.stat(path).st_size == len(content):
            with open(path, "rb") as file:
                return file.read() == content
    return False
