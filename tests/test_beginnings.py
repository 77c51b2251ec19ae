"""Each prefix of a formula, cut between characters, is converted, or is refused only because it ends too soon."""
import re

from tests import cases
from tests.support import Case, program, run

FILES = [name for name in cases.files("formulas/*.txt") if name != "formulas/large.txt"]
# what is left of a sign that is cut off may be one that cannot be stretched
STRETCHED = re.compile(r"\\(?:left|middle|right)(?::=|\\[a-z])")
FORMULAS = {case.input.decode() for name in FILES for case in cases.read(name) if not STRETCHED.search(case.input.decode())}

ANSWER = re.compile(rb'<math xmlns="http://www\.w3\.org/1998/Math/MathML" display="inline">.*</math>\n', re.DOTALL)


def is_answered(done):
    return done.returncode == 0 and ANSWER.fullmatch(done.stdout) and not done.stderr


def ends_too_soon(done, beginning):
    """Whether it is refused for its end, or for a command whose name was cut off after the backslash."""
    end = rb'(?:EOF|Command\(""\))' if beginning.endswith("\\") else b"EOF"
    return done.returncode == 1 and not done.stdout and re.fullmatch(rb'LaTeX2MathML Error: .*"%s" is found\..*\n' % end, done.stderr)


class Beginnings(Case):
    def test_cut_off(self):
        for beginning in sorted({formula[:end] for formula in FORMULAS for end in range(len(formula) + 1)}):
            with self.subTest(beginning):
                done = run([program(), "inline"], stdin=beginning.encode())
                self.assertTrue(is_answered(done) or beginning not in FORMULAS and ends_too_soon(done, beginning), msg=done)
