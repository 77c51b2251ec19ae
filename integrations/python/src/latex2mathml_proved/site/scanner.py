"""Finds the formulas in the text of a page. The parser of the standard library says where the page has text."""
import contextlib
import html
import re
from html.parser import HTMLParser
from typing import Dict, List, NamedTuple, Optional, Tuple

from latex2mathml_proved import delimiters
from latex2mathml_proved.site.elements import (
    ENDED_BY, FOREIGN, IGNORED, PROCESSED, RAW, VOID, WITHOUT_FORMULAS, Attributes, Kind, attribute, classes_of, kind_of)

# HTML does not have this character.
_BARRIER = "\0"

# A paragraph ends at a blank line, and so does anything between dollar signs.
_BLANK_LINE = re.compile(r"\n[ \t\r]*\n")

# A tag, a comment or the like. No text contains one, even where the parser passes it on as text since it does not end.
_MARKUP = re.compile(r"<[A-Za-z/!?]")
_TAG = re.compile(r"<([A-Za-z][^\s/>]*)")

# A character as HTML spells it: a reference, or the character itself.
_SPELLED = re.compile(r"&(?:#[0-9]+;?|#[xX][0-9a-fA-F]+;?|[^\t\n\f <&#;]{1,32};?)|.", re.DOTALL)

# What kramdown writes around a formula in a script, so that XML leaves it alone.
_CDATA = re.compile(r"\s*%\s*<!\[CDATA\[\n?(.*?)\n?\s*%\s*\]\]>\s*", re.DOTALL)

# The types of scripts whose text may have the settings of MathJax or KaTeX.
_SCRIPT_TYPES = ("", "text/javascript", "application/javascript", "module", "text/x-mathjax-config")

# The end of a code block that is a formula.
_PRE_END = re.compile(r"\s*</pre\s*>", re.IGNORECASE)

# The class of a formula that was refused.
REFUSED = "latex2mathml-refused"


class Formula(NamedTuple):
    """A formula: the part of the page that its markup replaces, and the part that is its LaTeX."""

    start: int
    end: int
    latex_start: int
    latex_end: int
    block: bool
    is_script: bool = False

    def latex(self, page: str) -> str:
        """Returns the formula as TeX reads it. A script has no references."""
        written = page[self.latex_start:self.latex_end]
        return written if self.is_script else html.unescape(written)

    def place_in(self, page: str, index: int) -> int:
        """Returns where in the page the character at an index of the formula is spelled."""
        if self.is_script:
            return self.latex_start + index
        passed = 0
        for spelled in _SPELLED.finditer(page, self.latex_start, self.latex_end):
            passed += len(html.unescape(spelled[0]))
            if passed > index:
                return spelled.start()
        return self.latex_end


class Part(NamedTuple):
    """A part of the page, with what has to be known about it."""

    start: int
    end: int
    says: str = ""


class Found(NamedTuple):
    """What a page has: formulas, scripts with text, and formulas that an earlier run refused, with the reasons."""

    formulas: List[Formula]
    scripts: List[Part]
    refused: List[Part]


class _Element(NamedTuple):
    """An open element: whether its text may have formulas, if not, whether that is true of all elements in it too, and whether it
    is in `svg` or `math`."""

    tag: str
    has_formulas: bool
    is_shut: bool
    is_foreign: bool


_PAGE = _Element("", has_formulas=True, is_shut=False, is_foreign=False)


class _Candidate(NamedTuple):
    """An element that is a formula if it contains nothing but text: its start tag, and that of the `pre` around it."""

    kind: Kind
    at: Part
    pre: Optional[Part]

    @property
    def tag(self) -> str:
        return self.at.says


class _Unended(Exception):
    """Raised when markup does not end, so that everything after it belongs to it."""


class Scanner(HTMLParser):
    """Reads one page."""

    def __init__(self, page: str, dollars: bool = True):
        super().__init__()
        self._page = page
        self._pattern = _PATTERNS[dollars]
        self._lines = [0, *(end.end() for end in re.finditer("\n", page))]
        self._is_xml = page.lstrip("\ufeff \t\r\n").startswith("<?xml")
        self._open: List[_Element] = [_PAGE]
        self._counts: Dict[str, int] = {}  # of the open elements of a name
        self._text: Optional[int] = None  # where the text that is being read began
        self._before = Part(0, 0)  # the start tag before
        self._candidate: Optional[_Candidate] = None
        self._script: Optional[int] = None
        self._refused: Optional[Part] = None
        self._found = Found([], [], [])

    def scan(self) -> Found:
        """Returns what the page has."""
        with contextlib.suppress(_Unended):
            self.feed(self._page)
            self.close()
            self._end_text(len(self._page))
        return self._found

    # what the parser reports

    def handle_data(self, data: str) -> None:
        place = self._place()
        if _MARKUP.match(self._page, place) and self._open[-1].tag not in RAW:
            self._take_faulty_markup(data)
        elif self._text is None:
            self._text = place

    def handle_starttag(self, tag: str, attrs: Attributes) -> None:
        self._begin(tag, attrs, ends_itself=False)

    def handle_startendtag(self, tag: str, attrs: Attributes) -> None:
        self._begin(tag, attrs, ends_itself=True)

    def handle_endtag(self, tag: str) -> None:
        place = self._place()
        end = self._page.find(">", place) + 1 or len(self._page)
        candidate, self._candidate = self._candidate, None
        if candidate and candidate.tag == tag and self._add_element(candidate, place, end):
            self._text = None
        self._end_text(place)
        self._end_part(tag, place)
        self._close(tag)

    def handle_comment(self, data: str) -> None:
        self._pass_markup()

    def handle_decl(self, decl: str) -> None:
        self._pass_markup()

    def handle_pi(self, data: str) -> None:
        self._pass_markup()

    def unknown_decl(self, data: str) -> None:
        self._pass_markup()

    def parse_marked_section(self, i: int, report: int = 1) -> int:
        """Skips `<![`, of which the parser knows some kinds and fails at others, and returns its end or -1.

        As in browsers, it ends at the next `>`, except for `<![CDATA[` in XML, `svg` and `math`.
        """
        is_data = self.rawdata.startswith("<![CDATA[", i) and (self._is_xml or self._open[-1].is_foreign)
        end = "]]>" if is_data else ">"
        found = self.rawdata.find(end, i)
        if found < 0:
            return -1
        self._pass_markup()
        return found + len(end)

    # what is done with it

    def _place(self) -> int:
        line, column = self.getpos()
        return self._lines[line - 1] + column

    def _take_faulty_markup(self, data: str) -> None:
        """Takes what the parser passes on as text: a start tag with something in it that is not an attribute, or unended markup."""
        tag = _TAG.match(data)
        if tag and data == self.get_starttag_text():
            self._begin(tag[1].lower(), [], ends_itself=False)
        else:
            self._pass_markup()
            raise _Unended

    def _pass_markup(self) -> int:
        """Ends the text before a tag, a comment or the like, and returns its place."""
        place = self._place()
        self._candidate = None
        self._end_text(place)
        return place

    def _begin(self, tag: str, attributes: Attributes, ends_itself: bool) -> None:
        place = self._pass_markup()
        at = Part(place, place + len(self.get_starttag_text() or ""), tag)
        before, self._before = self._before, at
        while tag in ENDED_BY.get(self._open[-1].tag, ()):
            self._close(self._open[-1].tag)
        above = self._open[-1]
        is_foreign = above.is_foreign or tag in FOREIGN
        if tag in VOID or ends_itself and (is_foreign or self._is_xml):
            return
        in_pre = tag == "code" and before.says == above.tag == "pre" and not self._page[before.end:at.start].strip()
        self._note(tag, attributes, at, before if in_pre else None)
        is_shut = above.is_shut or tag in WITHOUT_FORMULAS
        self._open.append(_Element(tag, not is_shut and _may_have_formulas(attributes, above.has_formulas), is_shut, is_foreign))
        self._counts[tag] = self._counts.get(tag, 0) + 1

    def _note(self, tag: str, attributes: Attributes, at: Part, pre: Optional[Part]) -> None:
        """Notes an element that may be a formula, a script with settings, or a formula that was refused before."""
        above = self._open[-2] if pre else self._open[-1]
        may_be = not above.is_shut and _may_have_formulas(attributes, above.has_formulas)
        kind = kind_of(tag, attributes) if may_be else None
        if kind:
            self._candidate = _Candidate(kind, at, pre)
        elif tag == "script" and attribute(attributes, "type").strip().lower() in _SCRIPT_TYPES:
            self._script = at.end
        elif tag == "code" and REFUSED in classes_of(attributes):
            self._refused = Part(at.end, at.end, attribute(attributes, "title"))

    def _end_text(self, end: int) -> None:
        """Looks for formulas in the text that ends here."""
        start, self._text = self._text, None
        if start is None or not self._open[-1].has_formulas:
            return
        markup = _MARKUP.search(self._page, start, end)
        for found in self._pattern.finditer(self._page, start, markup.start() if markup else end):
            group = found.lastgroup
            if group and not (group.startswith("dollar") and _BLANK_LINE.search(found[0])):
                self._found.formulas.append(Formula(*found.span(), *found.span(group), group in ("dollars", "brackets")))

    def _add_element(self, candidate: _Candidate, place: int, end: int) -> bool:
        """Adds the formula that an element may be, and returns whether it is one."""
        if not self._page[candidate.at.end:place].strip():
            return False
        start = candidate.at.start
        if candidate.pre:
            pre_end = _PRE_END.match(self._page, end)
            if not pre_end:
                return False
            start, end = candidate.pre.start, pre_end.end()
        if not candidate.kind.is_replaced:
            start, end = candidate.at.end, place
        is_script = candidate.tag == "script"
        latex = self._within_signs(candidate.at.end, place, is_script)
        self._found.formulas.append(Formula(start, end, *latex, candidate.kind.block or candidate.pre is not None, is_script))
        return True

    def _within_signs(self, start: int, end: int, is_script: bool) -> Tuple[int, int]:
        """Returns the part of an element's text that is the formula, without the white space and delimiters around it."""
        if is_script:
            wrapped = _CDATA.fullmatch(self._page, start, end)
            return wrapped.span(1) if wrapped else (start, end)
        text = self._page[start:end]
        start, end = start + len(text) - len(text.lstrip()), end - len(text) + len(text.rstrip())
        for opening, closing in _SIGNS:
            if end - start > len(opening + closing) and self._page.startswith(opening, start) and self._page.endswith(closing, start, end):
                return start + len(opening), end - len(closing)
        return start, end

    def _end_part(self, tag: str, place: int) -> None:
        """Adds the script or the refused formula that ends here."""
        if tag == "script" and self._script is not None:
            self._found.scripts.append(Part(self._script, place))
            self._script = None
        if tag == "code" and self._refused:
            self._found.refused.append(self._refused._replace(end=place))
            self._refused = None

    def _close(self, tag: str) -> None:
        """Closes the innermost element of this name, with the elements in it."""
        closed = "" if self._counts.get(tag) else tag
        while closed != tag:
            closed = self._open.pop().tag
            self._counts[closed] -= 1


def _may_have_formulas(attributes: Attributes, above: bool) -> bool:
    """Whether the text of an element may have formulas, according to its classes and the element above."""
    classes = classes_of(attributes)
    return bool(classes & PROCESSED) or above and not classes & IGNORED


_SIGNS = (("\\(", "\\)"), ("\\[", "\\]"), ("$$", "$$"), ("$", "$"))

_PATTERNS = {dollars: re.compile(delimiters.formulas(_BARRIER, dollars)) for dollars in (False, True)}
