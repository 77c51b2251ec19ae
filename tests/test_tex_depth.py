"""Formulas of `tex_to_mathml` that are a million levels deep, on a stack of 8 MiB, tables of a million cells, and a megabyte of each
sign."""
import string

import pytest

from tests import support
from tests.nesting import kinds_of
from tests.runs import Runs
from tests.texts import math

pytestmark = [pytest.mark.long, pytest.mark.timeout(1800)]

LEVELS = 1_000_000  # 8 bytes of stack for each
LIMIT = support.limit(STACK=8 << 20)
MEGABYTE = 1_000_000

KINDS = {name: (kind,) for name, kind in kinds_of("tex_nested.txt").items()}


def ask(formula):
    return support.run([support.tex_program()], stdin=formula.encode(), preexec_fn=LIMIT, timeout=300)


class Deep(support.Case):
    """Each construct in itself."""

    def answers(self, formula, contents):
        done = ask(formula)
        self.assertEqual((done.returncode, done.stderr), (0, b""))
        self.assertTrue(done.stdout == math(contents) + b"\n", f"answered {support.show(done.stdout)}")

    @support.each_row(KINDS)
    def is_answered(self, kind):
        self.answers(kind.nest(LEVELS, "x"), kind.contents(LEVELS))

    def test_as_many_rows_as_cells(self):
        cell = '<mtd style="padding: {}; line-height: 1">{}</mtd>'
        last = '<mrow><mi>x</mi><mspace width="0em" height="0.84em" depth="0.36em"/></mrow>'
        first, later = (cell.format(space, "<mi>x</mi>") for space in ("0", "0 0 0 1em"))
        row = f"<mtr>{first}{later * 998}{cell.format('0 0 0 1em', last)}</mtr>"
        self.answers("\\begin{matrix}" + "\\\\".join(["&".join("x" * 1000)] * 1000) + "\\end{matrix}", f"<mtable>{row * 1000}</mtable>")

    @support.each_row({f"is_cut_off {name}": row for name, row in KINDS.items()})
    def is_cut_off(self, kind):
        """It is refused at the place of the innermost construct."""
        reason, _, place = kind.refused.rpartition(" at ")
        outer = len(kind.cut(LEVELS - 1))
        self.expect(ask(kind.cut(LEVELS)), 1, b"", f"tex2mathml: {reason} at {outer + int(place)}\n".encode())


class Wide(Runs, file="tex_deep.txt"):
    """Tables of a million cells, and groups a million levels deep in macros."""

    def run_as(self, tool, words, **more):
        return super().run_as(tool, words, preexec_fn=LIMIT, **more)


class Long(support.Case):
    """A megabyte of each sign and of each command that needs no operand has an answer or a refusal."""

    def is_told(self, piece):
        done = ask(piece * (MEGABYTE // len(piece)))
        self.assertIn(done.returncode, (0, 1))
        if done.returncode == 0:
            self.assertTrue(done.stdout.startswith(b"<math ") and done.stdout.endswith(b"</math>\n") and not done.stderr)
        else:
            self.assertRegex(done.stderr, rb"^tex2mathml: .* at \d+\n$")
            self.assertEqual(done.stdout, b"")

    def test_characters(self):
        for character in string.printable[:-2] + "\u00e9\u2211\u2192\U0001d431":
            with self.subTest(character):
                self.is_told(character)

    def test_commands(self):
        for command in ("\\alpha ", "\\sum", "\\sin ", "\\left(", "\\right)", "\\frac", "\\sqrt", "\\not=", "\\text a", "\\,", "\\foo ", "x_1^2", "x'"):
            with self.subTest(command):
                self.is_told(command)
