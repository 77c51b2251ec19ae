"""What `tex2mathml` takes for macros: many definitions, and both limits of expansion, in instructions and in memory.

A run whose answer is not the expected one does not count: a program that gives up would count as cheap.
"""
import math

import pytest

from tests import faulty, support
from tests.instructions import instructions
from tests.tex_limits import AT_LIMITS, definitions
from tests.texts import math as element

pytestmark = [pytest.mark.long, pytest.mark.timeout(1800)]

# A search among four times the names takes a few steps more.
FEW, MANY = 10_000, 40_000
MOST_TIMES = 4.1 * math.log(MANY) / math.log(FEW)
# what it takes to compare a name with all of a node, which are at most eleven
OF_A_NODE = 11 * 60
# what a run takes at most, whatever it expands
MOST_INSTRUCTIONS = 150_000_000
MOST_BYTES = 32 << 20


class Limits(support.Case):
    """Each gives its answer or its refusal, with few instructions and little memory."""

    @support.requires("cc")
    @support.each_row(AT_LIMITS)
    def judge(self, formula, answer):
        done, counts = faulty.counts_of([support.tex_program()], stdin=formula.encode())
        if answer.startswith("<"):
            self.expect(done, 0, element(answer) + b"\n")
        else:
            self.expect(done, 1, b"", f"tex2mathml: {answer}\n".encode())
        self.assertLessEqual(counts["peak"], MOST_BYTES)

    @support.requires("valgrind")
    def test_instructions(self):
        for name, (formula, answer) in AT_LIMITS.items():
            with self.subTest(name):
                count = instructions([support.tex_program()], stdin=formula.encode(), status=int(not answer.startswith("<")))
                self.assertLessEqual(count, MOST_INSTRUCTIONS)


class Definitions(support.Case):
    """Four times the definitions take about four times the instructions and the memory, in a file and in a formula."""

    def runs(self, defined, formula):
        """The words and the inputs that read these definitions."""
        file = self.folder / "macros.tex"
        file.write_text(defined)
        return {"in a file": (["--definitions", file], formula.encode()), "in a formula": ([], (defined + formula).encode())}

    def judge(self, texts, of):
        few, many = ({where: self.count(of, *run) for where, run in self.runs(*texts(count)).items()} for count in (FEW, MANY))
        for where in few:
            with self.subTest(where):
                self.assertLessEqual(many[where], MOST_TIMES * few[where])

    def count(self, of, words, given):
        """What a run takes whose answer is the expected one."""
        command = [support.tex_program(), *words]
        self.expect(support.run(command, stdin=given), stdout=element("<mi>x</mi>" * 2) + b"\n")
        return of(command, given)

    @support.requires("valgrind")
    def test_instructions(self):
        self.judge(definitions, instructions)

    @support.requires("valgrind")
    def test_instructions_of_one_name(self):
        """Each replaces the one before it."""
        self.judge(lambda count: ("\\def\\a{y}" * (count - 1) + "\\def\\a{x}", "\\a\\a"), instructions)

    @support.requires("cc")
    def test_memory(self):
        self.judge(definitions, lambda command, given: faulty.counts_of(command, stdin=given)[1]["peak"])

    @support.requires("valgrind")
    def test_formulas(self):
        """A formula takes hardly more if there are four times as many macros: what a search among one more node of names takes, for
        each of its two names."""
        counts = []
        for count in (FEW, MANY):
            defined, formula = definitions(count)
            words, given = self.runs(defined, f"{formula}\0")["in a file"]
            command = [support.tex_program(), "--null", *words]
            one, many = (instructions(command, stdin=given * formulas) for formulas in (1, 1001))
            counts.append((many - one) / 1000)
        self.assertLessEqual(counts[1] - counts[0], 2 * OF_A_NODE)
