"""Formulas that people wrote: those in the documentation of Python packages, as Sphinx passes them on, and those in pages of HTML."""
import ast
import html.parser
import itertools
import re
import textwrap
import warnings
from pathlib import Path

ROLE = re.compile(r":math:`([^`]+)`")
DIRECTIVE = re.compile(r"^([ \t]*)\.\. math::(.*)$", re.M)
OPTION = re.compile(r"^:[a-z]+:")
DELIMITED = re.compile(r"\\\((.+?)\\\)|\\\[(.+?)\\\]", re.S)


def formulas(folder):
    """Returns each formula of the Python files and the pages under a folder once, and whether it is a block, in the order of the files,
    those of pages last."""
    of_python = (it for file in files(folder, "*.py") for text in texts(file) for it in formulas_of(text))
    of_pages = (it for file in files(folder, "*.html") for it in formulas_of_page(file))
    return list(dict.fromkeys(itertools.chain(of_python, of_pages)))


def files(folder, pattern):
    """The files of this form under a folder, in order. A link that leads nowhere is none, nor is a folder of such a name."""
    return (it for it in sorted(Path(folder).rglob(pattern)) if it.is_file())


def texts(file):
    """Returns the texts of a Python file. A file that this Python cannot read has none."""
    source = file.read_text(encoding="utf-8", errors="replace")
    if ":math:" not in source and ".. math::" not in source:
        return []
    try:
        with warnings.catch_warnings():
            warnings.simplefilter("ignore")
            nodes = ast.walk(ast.parse(source))
    except SyntaxError:
        return []
    return [it.value for it in nodes if isinstance(it, ast.Constant) and isinstance(it.value, str)]


def formulas_of(text):
    for found in ROLE.finditer(text):
        yield " ".join(found[1].split()), False
    for found in DIRECTIVE.finditer(text):
        for part in blocks(found[2], text[found.end():], len(found[1])):
            yield part, True


def blocks(first, rest, indent):
    """Yields the formulas of a directive: what follows it and the lines below that are indented further, separated by blank lines.
    Sphinx sets a formula with several rows in `split`."""
    lines = [first.strip()]
    for line in rest.split("\n")[1:]:
        if line.strip() and len(line) - len(line.lstrip()) <= indent:
            break
        lines.append(line)
    body = textwrap.dedent("\n".join(lines[1:]))
    body = "\n".join(line for line in body.split("\n") if not OPTION.match(line))
    for part in re.split(r"\n\s*\n", f"{lines[0]}\n{body}" if lines[0] else body):
        if part.strip():
            yield rf"\begin{{split}}{part.strip()}\end{{split}}" if r"\\" in part and r"\begin" not in part else part.strip()


class Page(html.parser.HTMLParser):
    """The text of a page. A picture of a formula, as Doxygen makes it, is its formula."""

    def __init__(self):
        super().__init__()
        self.parts, self.is_code = [], False

    def handle_starttag(self, tag, attributes):
        attributes = dict(attributes)
        if tag == "img" and (attributes.get("class") or "").startswith("formula"):
            self.parts.append(re.sub(r"^\$(.*)\$$", r"\\(\1\\)", attributes.get("alt") or "", flags=re.S))
        self.is_code = self.is_code or tag in {"code", "pre", "script", "style"}

    def handle_endtag(self, tag):
        self.is_code = self.is_code and tag not in {"code", "pre", "script", "style"}

    def handle_data(self, data):
        if not self.is_code:
            self.parts.append(data)


def formulas_of_page(file):
    """Yields the formulas that MathJax would find in a page."""
    page = Page()
    page.feed(file.read_text(encoding="utf-8", errors="replace"))
    for found in DELIMITED.finditer("".join(page.parts)):
        if formula := (found[1] or found[2]).strip():
            yield formula, found[1] is None
