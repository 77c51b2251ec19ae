"""Checks each entry of cases/commands.txt against the program, the library for C and the definitions."""
import re
import unittest

from tests import cases
from tests.answers import WAYS, AnswerCase, Code
from tests.support import ROOT, each_row
from tests.texts import math
from tools.tables import LITERAL, value

DEFINITIONS = ROOT / "crates/latex2mathml_tokens/specs/Commands.antt"

# Commands that name the next token in a refusal. No parenthesis is missing if one follows a \\left.
SHOWS_TOKEN = "\\left{}"
SHOWS_PARENTHESIS = "\\middle{}'"
TOKEN = re.compile(rb'There must be a parenthesis after "\w+", but not found\. Insted, "(.*)" is found\.', re.DOTALL)

ENTRIES = cases.commands()


def line_of(entry):
    """The line of an entry in the definitions. A character, which is its code there, is repeated in a comment."""
    kind, _, arguments = entry.token.removesuffix(")").partition("(")
    terms = [f"({it.replace('(', ' ')}" if it.startswith("Some(") else re.sub(LITERAL, term, it) for it in arguments.split(", ") if it]
    name = re.sub(r'(["\\])', r"\\\1", entry.name)
    shown = [value(it) for it in re.findall(LITERAL, entry.token) if it[0] == "'" or not it.isascii()]
    return f'    (codes "{name}", {" ".join([kind, *terms])}) ∷' + "".join(f"  -- {it}" for it in shown)


def term(literal):
    """How the definitions write a character, a text or a number."""
    text = value(literal[0])
    if literal[0][0] == "'":
        return f"0x{ord(text):0{2 if ord(text) < 0x100 else 4}X}"
    if literal[0][0] == '"':
        return f'(codes "{text}")' if text.isascii() else f"(encode_utf8 0x{ord(text):04X})"
    return f"(pos {text})" if int(text) >= 0 else f"(negsuc {-1 - int(text)})"


class Table(unittest.TestCase):
    maxDiff = None

    def test_names_ascend(self):
        """So no name has two entries."""
        names = [entry.name.encode() for entry in ENTRIES]
        self.assertEqual(names, sorted(set(names)))

    def test_the_definitions_have_these_entries_in_this_order(self):
        table = re.search(r"^command_entries =\n(.*?)\n    \[\]$", DEFINITIONS.read_text(encoding="utf-8"), re.M | re.S)[1]
        self.assertEqual(table.split("\n"), [line_of(entry) for entry in ENTRIES])


class Entries(AnswerCase):
    """Each entry is a test, named by its line: the command alone is a formula, and a refusal names its token."""

    @each_row({str(entry.line.number): (entry,) for entry in ENTRIES})
    def is_right(self, entry):
        for word in ("inline", "block"):
            due = (Code.DONE, math(entry.alone, word)) if entry.alone.startswith("<") else (Code.REFUSED, entry.alone.encode())
            self.comes_to(entry.line.place, word, entry.formula, *due)
        shows = SHOWS_PARENTHESIS if entry.token.startswith("Paren(") else SHOWS_TOKEN
        given = shows.format(entry.formula.decode()).encode()
        for name, way in WAYS:
            told = TOKEN.fullmatch(way("inline", given)[1])
            self.assertEqual(told and told[1].decode(), entry.token, f"{entry.line.place}: the token by {name}")
