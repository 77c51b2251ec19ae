"""Adds to formulas the braces that make the crate read the operands that are read here.

Operands of roots, fractions, binomials, accents, over and under sets and styles are cores here, so scripts and primes
after them stay outside. In the crate they belong to the operand. Where one follows the last operand, the crate is
given the command with its operands in braces. Where one follows the first of two, it is the second operand here
and is put in braces. Braces around one node are that node on both sides, so nothing else changes.

The places of these braces follow from the formula alone, by the rules of docs/LANGUAGE.md."""

import re
import sys
from dataclasses import dataclass
from pathlib import Path

sys.path.insert(0, str(Path(__file__).resolve().parent.parent))
from tests import cases

SLICE = re.compile(r":=|\\(?:[A-Za-z]+|.|$)|[0-9]+\.?[0-9]*|.", re.S)
WHITE_SPACE = re.compile(r"[ \t\n\r]*")
# The characters that are tokens of a kind of their own, and all that are not letters.
ITSELF = "{}_^'[]"
NO_LETTER = "=;,.+-*/!<>()|:&\0" + ITSELF + "0123456789"

ONE_OPERAND = ("Over", "Under", "Style")
TWO_OPERANDS = ("Frac", "Binom", "Overset", "Underset")
TAKES_DIGIT = ("Sqrt", "Frac", "Binom", "Style")
MARKS = ("_", "^", "'")
# The kind of each command's token.
KINDS = {entry.name: entry.token.partition("(")[0] for entry in cases.commands()}


@dataclass
class Token:
    """A token: its kind, if that decides how reading continues, and its place in the formula."""
    kind: str
    start: int
    end: int


def kind_of(text):
    if text[0] == "\\":
        return KINDS.get(text[1:], "")
    if text in ITSELF:
        return text
    return "Letter" if len(text) == 1 and text not in NO_LETTER else ""


def tokens_of(formula):
    tokens = []
    place = WHITE_SPACE.match(formula).end()
    while place < len(formula):
        text = SLICE.match(formula, place)[0]
        touches = tokens and tokens[-1].end == place
        if text[0] in "0123456789" and touches and tokens[-1].kind in TAKES_DIGIT:
            text = text[0]
        tokens.append(Token(kind_of(text), place, place + len(text)))
        place = WHITE_SPACE.match(formula, place + len(text)).end()
    return tokens


class Reader:
    """Reads tokens by the rules, and notes where braces belong. A method reads a part from one token on, and returns the
    number of the token after it. It ignores refusals, since what follows one decides nothing on either side."""

    def __init__(self, formula):
        self.tokens = tokens_of(formula)
        self.opened, self.closed = [], []

    def kind(self, place):
        return self.tokens[place].kind if place < len(self.tokens) else None

    def behind(self, place):
        """Returns the place after one token, or the end."""
        return min(place + 1, len(self.tokens))

    def put_in_braces(self, start, end):
        self.opened.append(self.tokens[start].start)
        self.closed.append(self.tokens[end - 1].end)

    def members(self, place, end):
        while place < len(self.tokens) and self.kind(place) != end:
            place = self.node(place)
        return self.behind(place)

    def node(self, place):
        place = self.single(place)
        return self.node(place + 1) if self.kind(place) in ("_", "^") else place

    def single(self, place):
        place = self.core(place)
        return place + 1 if self.kind(place) == "'" else place

    def name(self, place):
        place = self.behind(place)
        while self.kind(place) == "Letter":
            place += 1
        return self.behind(place)

    def core(self, place):
        kind = self.kind(place)
        behind = self.behind(place)
        if kind in ONE_OPERAND:
            return self.operands(place, behind, 1)
        if kind in TWO_OPERANDS:
            return self.operands(place, behind, 2)
        if kind == "Sqrt":
            operand = self.members(behind + 1, "]") if self.kind(behind) == "[" else behind
            return self.operands(place, operand, 1)
        if kind == "{":
            return self.members(behind, "}")
        if kind in ("Overbrace", "Underbrace"):
            return self.limit(self.single(behind), "^" if kind == "Overbrace" else "_")
        if kind in ("BigOp", "Integral"):
            return self.limits(behind)
        if kind == "Lim":
            return self.limit(behind, "_")
        if kind == "Big":
            return self.behind(behind)
        if kind in ("Text", "OperatorName"):
            return self.name(behind)
        if kind == "Slashed":
            return self.behind(self.node(self.behind(behind)))
        if kind == "Left":
            return self.behind(self.members(self.behind(behind), "Right"))
        if kind == "Middle":
            return self.single(behind)
        if kind == "Begin":
            return self.name(self.members(self.name(behind), "End"))
        return behind

    def limit(self, place, sign):
        return self.single(place + 1) if self.kind(place) == sign else place

    def limits(self, place):
        first = self.kind(place)
        if first not in ("_", "^"):
            return place
        return self.limit(self.single(place + 1), "^" if first == "_" else "_")

    def operands(self, command, place, count):
        """Reads the operands of a command. If a sign or a prime follows one of them, braces separate the two."""
        end = self.core(place)
        if count == 2:
            first, end = end, self.core(end)
            if self.kind(first) in MARKS:
                self.put_in_braces(first, end)
        if self.kind(end) in MARKS:
            self.put_in_braces(command, end)
        return end


def add_braces(formula):
    """Returns the formula with these braces.

    >>> for formula in [r"\\hat x_1", r"\\sqrt\\sqrt x^2", r"\\frac1 2^3", r"\\frac a^2 b", r"\\frac a'^2", r"\\bm{x_1}'",
    ...                 r"\\hat2", r"\\hat\\sum_a^b'", r"\\slashed{\\hat x_1}", r"\\text\\hat x_1", r"\\sqrt[\\bm x']y^2"]:
    ...     print(add_braces(formula))
    {\\hat x}_1
    {\\sqrt{\\sqrt x}}^2
    {\\frac1 2}^3
    \\frac a{^}2 b
    {\\frac a{'}}^2
    {\\bm{x_1}}'
    \\hat2
    \\hat\\sum_a^b'
    \\slashed{{\\hat x}_1}
    \\text\\hat x_1
    {\\sqrt[{\\bm x}']y}^2
    """
    reader = Reader(formula)
    reader.members(0, None)
    for place in sorted(set(reader.opened + reader.closed), reverse=True):
        marks = "}" * reader.closed.count(place) + "{" * reader.opened.count(place)
        formula = formula[:place] + marks + formula[place:]
    return formula
