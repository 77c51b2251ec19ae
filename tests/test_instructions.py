"""The instructions of each workload of `bench/` are those of `bench/instructions.txt`, and those of one call from C are those of
`bench/calls.txt`, within 5 %.

So a change that makes the program or the library for C slower or faster is noticed. `bench/measure.py --renew` and
`bench/calls.py --renew` then write the files.
"""
import sys

from tests import support

sys.path.append(str(support.ROOT / "bench"))
import calls  # noqa: E402
import measure  # noqa: E402
import workloads  # noqa: E402

MARGIN = 0.05
LOADS = {name.strip(): (word, text) for word, name, text in workloads.workloads()}
TEX_LOADS = {name.strip(): (words, text) for words, name, text in workloads.tex_workloads()}


class Figures(support.Case):
    def test_names(self):
        """Each workload and each formula of `bench/calls.py` has a figure, and each figure is of one of them."""
        self.assertEqual(list(measure.figures()), [*LOADS, *TEX_LOADS])
        self.assertEqual(list(calls.figures()), calls.FORMULAS)


class Counted(support.Case):
    def compare(self, counted, name, script, file):
        due = script.figures()[name]
        change = f"{counted:,.0f} instructions, and {due:,} stand in bench/{file}: {counted / due:.3f} times as many"
        self.assertLessEqual(abs(counted - due), MARGIN * due, f"{change}; bench/{script.__name__}.py --renew takes the new ones")


@support.requires("valgrind")
class Instructions(Counted):
    @support.each_row({str(number): row for number, row in enumerate(LOADS.items())})
    def judge(self, name, load):
        self.compare(measure.count_instructions([support.program()], *load), name, measure, "instructions.txt")


@support.requires("valgrind")
class TexInstructions(Counted):
    @support.each_row({str(number): row for number, row in enumerate(TEX_LOADS.items())})
    def judge(self, name, load):
        self.compare(measure.count_tex(support.tex_program(), *load), name, measure, "instructions.txt")


@support.requires("cc", "valgrind")
class Calls(Counted):
    """One call of the library for C: the cost of a call apart from its formula does not show in long texts."""

    @classmethod
    def setUpClass(cls):
        cls.caller = calls.build(support.c_library(), cls.enterClassContext(support.scratch()) / "calls")

    @support.each_row({str(number): (latex,) for number, latex in enumerate(calls.FORMULAS)})
    def judge(self, latex):
        self.compare(calls.a_call(self.caller, latex), latex, calls, "calls.txt")
