"""Converts the formulas of a page. Every other byte stays as it was."""
import html
import re
from typing import Iterator, List, NamedTuple, Tuple

from latex2mathml_proved.rendering import Renderer, shortened
from latex2mathml_proved.site.scanner import Formula, Found, Scanner
from latex2mathml_proved.site.settings import macros_of

# The signs before formulas, and then the dollar sign.
_BRACKETS, _DOLLAR = (b"\\(", b"\\["), b"$"
# The classes and types of elements that are formulas.
_ELEMENTS = re.compile(rb"(?:class|CLASS)\s*=[^>]{0,200}?math|math/tex")


class Options(NamedTuple):
    """How formulas are found and converted: the command-line options of these names."""

    definitions: str = ""
    dollars: bool = True
    annotation: bool = False


class Fault(NamedTuple):
    """What is refused in a page, and where: a line and a column, counted from 1, or 0 for the page as a whole."""

    line: int
    column: int
    reason: str


class Page(NamedTuple):
    """A page after its conversion, with the number of formulas that were converted, and what was refused."""

    content: bytes
    formulas: int
    faults: Tuple[Fault, ...]


def convert(content: bytes, options: Options) -> Page:
    """Returns the page with each formula replaced by its `math` element, or shown as code if it is refused.

    A page that is not UTF-8 is returned as it was, with a fault, unless nothing in it looks like a formula.
    """
    if not _may_have_formulas(content, options.dollars):
        return Page(content, 0, ())
    try:
        text = content.decode()
    except UnicodeDecodeError:
        return Page(content, 0, (Fault(0, 0, "not UTF-8: left as it is"),))
    return _Conversion(text, options).page(content)


def _may_have_formulas(content: bytes, dollars: bool) -> bool:
    """Whether anything in a page looks like a formula. Most pages of a site have none, and are not read further."""
    if any(sign in content for sign in _BRACKETS) or dollars and _DOLLAR in content:
        return True
    return b"math" in content and _ELEMENTS.search(content) is not None


class _Conversion:
    """The conversion of one page."""

    def __init__(self, text: str, options: Options):
        self._text = text
        self._found = Scanner(text, options.dollars).scan()
        self._faults: List[Tuple[int, str]] = []
        definitions = options.definitions + self._own_definitions(self._found)
        self._renderer = Renderer(definitions=definitions, annotation=options.annotation)

    def page(self, content: bytes) -> Page:
        """Returns the converted page. `content` is the page as it was."""
        pieces, end, converted = [], 0, 0
        for formula in self._found.formulas:
            markup, is_refused = self._markup(formula)
            pieces += [self._text[end:formula.start], markup]
            end = formula.end
            converted += not is_refused
        for refused in self._found.refused:
            source = shortened(html.unescape(self._text[refused.start:refused.end]))
            self._faults.append((refused.start, f"{source}: refused before: {refused.says}"))
        made = "".join([*pieces, self._text[end:]]).encode() if pieces else content
        return Page(made, converted, tuple(self._located(sorted(self._faults))))

    def _located(self, faults: List[Tuple[int, str]]) -> Iterator[Fault]:
        """Yields the faults with their lines and columns. The page is read once, however many faults there are."""
        line, start, passed = 1, 0, 0
        for place, reason in faults:
            line += self._text.count("\n", passed, place)
            start = max(start, self._text.rfind("\n", passed, place) + 1)
            passed = place
            yield Fault(line, place - start + 1, reason)

    def _own_definitions(self, found: Found) -> str:
        """Returns the macros of the page's own scripts."""
        made = ""
        for script in found.scripts:
            settings = macros_of(self._text[script.start:script.end])
            made += settings.definitions
            self._faults += [(script.start + it.place, it.reason) for it in settings.refused]
        return made

    def _markup(self, formula: Formula) -> Tuple[str, bool]:
        latex = formula.latex(self._text)
        markup, fault = self._renderer.render(latex, formula.block)
        if fault:
            self._faults.append((formula.place_in(self._text, fault.index), f"{shortened(latex)}: {fault.reason}"))
        return markup, fault is not None
