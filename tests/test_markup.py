"""The markup of random formulas, read with Python's XML parser: it is one well-formed `math` element that obeys the child table.

LATEX2MATHML_RANDOM is the number of formulas, and LATEX2MATHML_SEED the seed: the same seed tries the same formulas. Of one that fails,
hypothesis finds the shortest.
"""
import os
import re
import xml.etree.ElementTree as ElementTree

from hypothesis import HealthCheck, given, seed, settings
from hypothesis import strategies as st

from tests import cases
from tests.support import Case, program, run

COUNT = int(os.environ.get("LATEX2MATHML_RANDOM", "400"))
SEED = int(os.environ.get("LATEX2MATHML_SEED", "1"))

MATHML = "{http://www.w3.org/1998/Math/MathML}"

# the elements that have text, and what the names of an element's children match, each with a space after it
TEXT = ("mi", "mn", "mo", "mtext")
CHILD = "(?!(?:mtr|mtd|math) )[a-z]+ "
CHILDREN = {
    **dict.fromkeys([*TEXT, "mspace"], ""), "mtable": "(?:mtr )+", "mtr": "(?:mtd )+",
    **dict.fromkeys(["msqrt", "mstyle", "mrow", "mtd", "math"], f"(?:{CHILD})*"),
    **dict.fromkeys(["mfrac", "mroot", "msub", "msup", "mover", "munder"], CHILD * 2), **dict.fromkeys(["msubsup", "munderover"], CHILD * 3),
}


def local_name(element):
    if not element.tag.startswith(MATHML):
        raise ValueError(f"the element {element.tag} is of no MathML")
    return element.tag[len(MATHML):]


def check_element(element):
    """Whether an element and all that it contains obey the child table; a `ValueError` says what does not."""
    name = local_name(element)
    children = "".join(f"{local_name(child)} " for child in element)
    has_text = bool(element.text) or any(child.tail for child in element)
    if name not in CHILDREN or not re.fullmatch(CHILDREN[name], children) or has_text and name not in TEXT:
        raise ValueError(f"{name} has the children {children}{'and text' if has_text else ''}")
    for child in element:
        check_element(child)


def check_answer(answer, display):
    """Whether an answer is one `math` element; a `ValueError` or a `ParseError` says why not."""
    root = ElementTree.fromstring(answer)
    if local_name(root) != "math" or root.get("display") != display:
        raise ValueError("the answer is no math element of this display")
    check_element(root)


# characters that XML allows, some of them hostile
CHARACTERS = list("abcxyzABC0123456789.+-*/=,;:!?|()[]{}<>&\"'~@%$^_# \t\n") + list("é∂∑−⟨⟩字ℝ𝔸😀\u0338")


def joined(parts, most):
    """Up to this many of these parts, one after another."""
    return st.lists(parts, max_size=most).map("".join)


def around(before, inner, after="}"):
    return inner.map(lambda text: f"{before}{text}{after}")


def longer(inner):
    """What is built from formulas: groups, scripts, operands, fences, environments."""
    formula = joined(inner, 3)
    group = around("{", formula)
    begun = ["\\sqrt", "\\sqrt[3]", "\\lim_", "\\hat", "\\overbrace", "\\underbrace", "\\slashed", "\\mathbf", "\\mathbb"]
    paired = ["\\frac{}{}", "\\binom{}{}", "\\sum_{}^{}", "\\int_{}^{}", "\\overset{}{}", "\\underset{}{}"]
    kinds = ["matrix", "pmatrix", "bmatrix", "vmatrix", "align", "cases"]
    lines = st.lists(st.lists(formula, min_size=1, max_size=3).map(" & ".join), min_size=1, max_size=3).map(r" \\ ".join)
    return st.one_of(
        group,
        st.tuples(inner, st.sampled_from("_^"), group).map("".join),
        around("", inner, "'"),
        st.tuples(st.sampled_from(begun), group).map("".join),
        st.builds(str.format, st.sampled_from(paired), group, group),
        st.builds("\\left{}{}\\right{}".format, st.sampled_from("([|."), formula, st.sampled_from(")]|.")),
        st.builds("\\begin{{{0}}}{1}\\end{{{0}}}".format, st.sampled_from(kinds), lines))


def formulas():
    """Formulas: most are built as one would write them, some are noise."""
    command = st.sampled_from(sorted(it.name for it in cases.commands())).map(lambda name: "\\" + name + (" " if name[-1].isalpha() else ""))
    sizes = st.builds("\\big{}{}".format, st.sampled_from("lr"), st.sampled_from("()[]|"))
    words = around("", st.builds("{}{{{}".format, st.sampled_from(["\\text", "\\operatorname"]), st.sampled_from(["abc", "a<b & c", "if "])))
    noise = joined(st.one_of(st.sampled_from(CHARACTERS), command), 11)
    leaf = st.sampled_from(["x", "7", "3.14", "+", "\\alpha ", "\\, ", "<", "&", "'", "\\sin "]) | command | sizes | words
    built = joined(st.recursive(leaf, longer, max_leaves=12), 3)
    return st.one_of(built, built, built, noise)


class Markup(Case):
    def test_random_formulas(self):
        answered = []

        @seed(SEED)
        @settings(max_examples=COUNT, deadline=None, database=None, suppress_health_check=list(HealthCheck))
        @given(formulas(), st.sampled_from(["inline", "block"]))
        def check(formula, word):
            done = run([program(), word], stdin=formula.encode())
            if done.returncode == 1:
                self.assertRegex(done.stderr, rb"\ALaTeX2MathML Error: [^\n]+\n\Z")
                self.assertEqual(done.stdout, b"")
            else:
                self.expect(done)
                check_answer(done.stdout.decode(), word)
                answered.append(formula)

        check()
        self.assertGreater(len(answered), COUNT // 2)
