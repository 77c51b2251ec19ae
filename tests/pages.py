"""What the documents say: their sections, their tables, and what is code in them."""
import re

from tests.support import ROOT

CODE = re.compile(r"`([^`]+)`")


def read(name):
    return (ROOT / name).read_text(encoding="utf-8")


def section(text, heading):
    return text.partition(f"\n## {heading}\n")[2].partition("\n## ")[0]


def code_blocks(text, language):
    """The blocks of code in a language."""
    return re.findall(rf"^```{language}\n(.*?)^```$", text, re.DOTALL | re.MULTILINE)


def tables(text):
    """The tables of a text: for each the cells of its head, and those of its other rows."""
    for found in re.findall(r"(?:^\|.*\n?)+", text, re.M):
        head, _, *rows = ([cell.strip() for cell in line.strip("|").split("|")] for line in found.splitlines())
        yield head, rows


def rows(text, *head):
    """The cells of the rows of the first table whose head begins with these cells."""
    return next(rows for cells, rows in tables(text) if cells[:len(head)] == list(head))


def column(text, *head):
    """The cells of the first two columns of such a table, without the marks of code."""
    return {name.strip("`"): value.strip("`") for name, value, *_ in rows(text, *head)}
