r"""An extension for Python-Markdown: `$..$` and `\(..\)` are formulas in a line, `$$..$$` and `\[..\]` in a block of their own.

    markdown.markdown(text, extensions=["latex2mathml"])

A code block in the language `math` is a formula too. `\$` is a dollar sign. Nothing in other code is a formula, and single dollar
signs are not delimiters if there is white space directly inside them or a digit directly after them, as between two prices.
"""
import logging
import re
import xml.etree.ElementTree as etree
from typing import Any, Dict, List, NamedTuple, Optional, Tuple

from markdown import Markdown
from markdown.blockprocessors import BlockProcessor
from markdown.extensions import Extension
from markdown.inlinepatterns import InlineProcessor
from markdown.preprocessors import NormalizeWhitespace, Preprocessor
from markdown.treeprocessors import Treeprocessor
from markdown.util import ETX, STX, AtomicString, code_escape

from latex2mathml_proved.delimiters import between_brackets, between_dollars, formulas
from latex2mathml_proved.fences import fences
from latex2mathml_proved.macros import definitions_of
from latex2mathml_proved.rendering import Fault, FaultyFormula, Renderer

NAME = "latex2mathml"

# What formulas contain. STX marks what Python-Markdown has put aside, such as code.
_CHARACTER = between_dollars(STX)
_IN_PARENTHESES = between_brackets("(", STX)
_IN_BRACKETS = between_brackets("[", STX)

# What represents a formula until the tree is complete. No author's text contains STX.
_PLACE = re.compile(rf"{STX}{NAME}:([0-9]+){ETX}")
_WRITTEN_PLACE = re.compile(rf"(?:<{NAME}>)?{_PLACE.pattern}(?:</{NAME}>)?")

_INLINE = formulas(STX)
_BLOCK = re.compile(
    rf"^[ ]*(?P<place>{_PLACE.pattern})[ ]*$"
    rf"|^[ ]{{0,3}}(?:\$\$(?P<dollars>{_CHARACTER}+?)\$\$|\\\[(?P<brackets>{_IN_BRACKETS}+?)\\\])[ ]*$",
    re.MULTILINE,
)

# Each sign that may begin a formula, with the rest of the formulas that it would begin. Two backslashes are one character.
_FORMULAS = re.compile(
    r"\\[\\$]"
    rf"|\\\((?=({_IN_PARENTHESES}+?\\\))?)"
    rf"|\\\[(?=({_IN_BRACKETS}+?\\\])?)"
    rf"|\$(?=({_CHARACTER}+?\$)?)(?=(\${_CHARACTER}+?\$\$)?)"
)

# The lines of a list are parsed again, item by item.
_LIST = re.compile(r"[ ]{0,3}(?:[*+-]|[0-9]+\.)[ ]")

# After white space is normalized, and before other extensions take code blocks.
_FENCE_PRIORITY = 27
# After code in backticks, and before escapes, links and emphasis.
_INLINE_PRIORITY = 185
# After indented code, and before headings and lists.
_BLOCK_PRIORITY = 75
# Directly after the inline patterns.
_TREE_PRIORITY = 19
# Before everything else.
_FIRST = 1000


class Formula(NamedTuple):
    """A formula as it was found. If it is on its own, its element is a paragraph, with the space that pages give to paragraphs."""

    source: str
    latex: str
    block: bool
    tag: str
    rank: int  # among those that are written the same way


class Page:
    """The current page: its text, and its formulas in the order in which they were found."""

    def __init__(self) -> None:
        self.formulas: List[Formula] = []
        self._text = ""
        self._counts: Dict[str, int] = {}  # of the formulas that are written the same way
        self._lines: Dict[str, List[int]] = {}

    def begin(self, lines: List[str]) -> None:
        """Begins a page of these lines, in which the lines of its formulas are looked up."""
        self.formulas.clear()
        self._counts.clear()
        self._lines.clear()
        self._text = bare(lines)

    def add(self, source: str, latex: str, block: bool, tag: str) -> str:
        """Returns the text that represents a formula. `source` includes the formula's delimiters, and `tag` is its element's."""
        rank = self._counts.get(source, 0)
        self._counts[source] = rank + 1
        self.formulas.append(Formula(source, latex, block, tag, rank))
        return f"{STX}{NAME}:{len(self.formulas) - 1}{ETX}"

    def restore(self, text: str) -> str:
        """Returns the text with each formula as it was written, for places where there can be no element."""
        return _WRITTEN_PLACE.sub(lambda place: self.formulas[int(place[1])].source, text)

    def line_of(self, number: int) -> Optional[int]:
        """Returns the line where a formula begins, or None if the same text also appears elsewhere, as in code."""
        formula = self.formulas[number]
        if not self._lines:
            self._find_lines()
        lines = self._lines.get(bare(formula.source.split("\n")), [])
        if len(lines) != self._counts[formula.source]:
            return None
        return lines[formula.rank] + formula.source.partition(formula.latex)[0].count("\n")

    def _find_lines(self) -> None:
        """Finds the lines of everything that may be a formula in one pass, since each may be written differently."""
        line, before = 1, 0
        for found in _FORMULAS.finditer(self._text):
            line += self._text.count("\n", before, found.start())
            before = found.start()
            for rest in filter(None, found.groups()):
                self._lines.setdefault(found[0] + rest, []).append(line)
        lines = self._text.split("\n")
        for fence in fences(lines):
            self._lines.setdefault("\n".join(lines[fence.first:fence.last + 1]), []).append(fence.first + 1)


def bare(lines: List[str]) -> str:
    """Returns the lines without the indentation and the signs of quotations at their beginnings, which Python-Markdown removes."""
    return "\n".join(line.lstrip(" >").rstrip(" ") for line in lines)


def element_of(place: str) -> etree.Element:
    """Returns the element for the text that represents a formula."""
    element = etree.Element(NAME)
    element.text = AtomicString(place)
    return element


class PageText(Preprocessor):
    """Begins a page with its text, or with that of its file."""

    def __init__(self, md: Markdown, page: Page, extension: "Latex2MathML"):
        super().__init__(md)
        self._page = page
        self._extension = extension

    def run(self, lines: List[str]) -> List[str]:
        text = self._extension.text
        # with line ends and tabs as Python-Markdown reads them later
        self._page.begin(NormalizeWhitespace(self.md).run(lines if text is None else [text]))
        return lines


class FencedFormulas(Preprocessor):
    """Code blocks in the language `math`."""

    def __init__(self, md: Markdown, page: Page):
        super().__init__(md)
        self._page = page

    def run(self, lines: List[str]) -> List[str]:
        made: List[str] = []
        copied = 0
        for fence in fences(lines):
            if fence.language == "math":
                made += [*lines[copied:fence.first], self._place(lines[fence.first:fence.last + 1])]
                copied = fence.last + 1
        return made + lines[copied:]

    def _place(self, lines: List[str]) -> str:
        """Returns the line that represents a block, indented as far, or quoted as deeply, as the first line of the block."""
        margin = lines[0][:len(lines[0]) - len(lines[0].lstrip(" >"))]
        bare_lines = [line.removeprefix(margin) if line.strip(" >") else "" for line in lines]
        return margin + self._page.add("\n".join(bare_lines), "\n".join(bare_lines[1:-1]), block=True, tag="p")


class BlockFormulas(BlockProcessor):
    """Formulas on lines of their own, whatever Markdown signs their lines begin with."""

    def __init__(self, md: Markdown, page: Page):
        super().__init__(md.parser)
        self._page = page

    def test(self, parent: etree.Element, block: str) -> bool:
        return _BLOCK.search(block) is not None and not _LIST.match(block)

    def run(self, parent: etree.Element, blocks: List[str]) -> None:
        block = blocks.pop(0)
        found = _BLOCK.search(block)
        assert found is not None, "test has found one"
        before, behind = block[:found.start()].rstrip("\n"), block[found.end():].lstrip("\n")
        if before:
            self.parser.parseBlocks(parent, [before])
        latex = found["dollars"] or found["brackets"]
        parent.append(element_of(found["place"] or self._page.add(found[0].strip(), latex.strip(), block=True, tag="p")))
        if behind:
            blocks.insert(0, behind)


class InlineFormulas(InlineProcessor):
    """Formulas within other text, and dollar signs that are not formulas."""

    def __init__(self, md: Markdown, page: Page):
        super().__init__(_INLINE, md)
        self._page = page

    def handleMatch(self, m: Any, data: str) -> Tuple[Any, Optional[int], Optional[int]]:
        block, inline = m["dollars"] or m["brackets"], m["dollar"] or m["parentheses"]
        if not block and not inline:
            # two backslashes too: if they were left, they would be found again for each formula after them
            return m[0][1], m.start(), m.end()
        place = self._page.add(m[0], block or inline, block is not None, tag="span")
        return element_of(place), m.start(), m.end()


class IndentedCode(Treeprocessor):
    """Restores formulas between fences that turn out to be indented code."""

    def __init__(self, md: Markdown, page: Page):
        super().__init__(md)
        self._page = page

    def run(self, root: etree.Element) -> None:
        for code in root.iter("code"):
            code.text = AtomicString(_PLACE.sub(lambda place: code_escape(self._page.restore(place[0])), code.text or ""))


class Conversion(Treeprocessor):
    """Converts the formulas, in the order in which they appear in the page."""

    def __init__(self, md: Markdown, page: Page, extension: "Latex2MathML"):
        super().__init__(md)
        self._page = page
        self._extension = extension

    def run(self, root: etree.Element) -> None:
        for link in list(root.iter("a")):
            self._restore_address(link)
        faults: List[str] = []
        for element in root.iter():
            for name, value in element.items():
                element.set(name, self._page.restore(value))
            place = _PLACE.fullmatch(element.text or "")
            if element.tag == NAME and place:
                faults += self._convert(element, int(place[1]))
        stash = self.md.htmlStash.rawHtmlBlocks
        stash[:] = [self._page.restore(raw) if isinstance(raw, str) else raw for raw in stash]
        self._extension.report(faults)

    def _restore_address(self, link: etree.Element) -> None:
        """Makes a link that shows its own address show it as it was written."""
        if len(link):
            shown = self._page.restore("".join(link.itertext()))
            if shown == self._page.restore(link.get("href", "")):
                link[:] = []
                link.text = AtomicString(shown)

    def _convert(self, element: etree.Element, number: int) -> List[str]:
        """Writes the markup of a formula into its element. Returns a line about what is wrong with the formula, if anything is."""
        formula = self._page.formulas[number]
        rendering = self._extension.renderer.render(formula.latex, formula.block)
        element.tag = formula.tag
        element.set("class", "math")
        element.text = AtomicString(self.md.htmlStash.store(rendering.markup))
        return [self._report_of(number, rendering.fault)] if rendering.fault else []

    def _report_of(self, number: int, fault: Fault) -> str:
        line, file = self._page.line_of(number), self._extension.file
        if line is None:
            return f"{file}: {fault}" if file else str(fault)
        line += fault.place.line - 1
        return f"{file}:{line}: {fault}" if file else f"line {line}: {fault}"


class Latex2MathML(Extension):
    """The extension. Its options are `macros`, `annotation` and `strict`. An invalid macro raises `MacroError`, a `ValueError`.

    A caller that knows the file of a page sets `file` to its name, and `text` to its text if that differs from the text to be
    converted. Warnings go to `logger`.
    """

    def __init__(self, **options: Any):
        self.config: Dict[str, List[Any]] = {
            "macros": [{}, "a mapping from names to TeX, or the path of a file of definitions"],
            "annotation": [False, "whether the MathML also has the formula itself"],
            "strict": [False, "whether a formula that is refused is an error"],
        }
        super().__init__(**options)
        definitions = definitions_of(self.getConfig("macros"))
        self.renderer = Renderer(definitions=definitions, annotation=self.getConfig("annotation"))
        self.logger = logging.getLogger(__name__)
        self.file: Optional[str] = None
        self.text: Optional[str] = None

    def extendMarkdown(self, md: Markdown) -> None:
        # a page for each converter, since one may run within another
        page = Page()
        md.preprocessors.register(PageText(md, page, self), NAME, _FIRST)
        md.preprocessors.register(FencedFormulas(md, page), f"{NAME}-fences", _FENCE_PRIORITY)
        md.parser.blockprocessors.register(BlockFormulas(md, page), NAME, _BLOCK_PRIORITY)
        md.inlinePatterns.register(InlineFormulas(md, page), NAME, _INLINE_PRIORITY)
        md.treeprocessors.register(IndentedCode(md, page), f"{NAME}-code", _FIRST)
        md.treeprocessors.register(Conversion(md, page, self), NAME, _TREE_PRIORITY)

    def report(self, faults: List[str]) -> None:
        """Warns about the refused formulas of a page, or raises one error for all of them if the option `strict` is set."""
        if faults and self.getConfig("strict"):
            raise FaultyFormula("\n".join(faults))
        for fault in faults:
            self.logger.warning("%s: %s", NAME, fault)


def makeExtension(**options: Any) -> Latex2MathML:
    """Returns the extension, for a caller that names this module."""
    return Latex2MathML(**options)
