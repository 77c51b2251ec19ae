"""Random formulas, each of which is read as KaTeX reads it.

LATEX2MATHML_RANDOM is the number of formulas, and LATEX2MATHML_SEED the seed: the same seed tries the same formulas. Of one that
fails, hypothesis finds the shortest.
"""
import json
import os
import subprocess
import sys
import unittest
from pathlib import Path

from hypothesis import HealthCheck, given, seed, settings
from hypothesis import strategies as st

from tests.support import ROOT, Case, requires, run, tex_program

sys.path.insert(0, str(ROOT / "diff"))

import structure  # noqa: E402

KATEX = Path("/usr/share/nodejs/katex")

COUNT = int(os.environ.get("LATEX2MATHML_RANDOM", "1200"))
SEED = int(os.environ.get("LATEX2MATHML_SEED", "1"))


def joined(*parts):
    """Texts and strategies of texts, one after another."""
    return st.tuples(*(st.just(part) if isinstance(part, str) else part for part in parts)).map("".join)


def one_of(texts):
    return st.sampled_from(texts.split())


def command(names):
    return one_of(names).map(lambda name: f"\\{name} ")


# Some things are left out that are read alike, but whose MathML by KaTeX does not show it: lines through or around something,
# scripts on a sign with a stroke, and names such as `\sin` that are all of a script. So are `\dots`: KaTeX centers them less often.
ROWS = st.deferred(lambda: st.lists(SCRIPTED, max_size=4).map("".join))
GROUPS = joined("{", ROWS, "}")
LETTERS = one_of("a b c x y z A B N")
OPERANDS = st.one_of(GROUPS, LETTERS, one_of("1 2 0"))
SIGNS = st.one_of(one_of("+ - = < > , ; ! : / | * ( ) [ ]"),
                  command("cdot times le ne to in mid perp colon pm oplus forall nabla ldots cdots"),
                  command("alpha Gamma infty partial ell hbar sum int prod bigcup langle rangle lVert rVert"))
TABLES = ("matrix", "pmatrix", "vmatrix", "cases", "aligned", "smallmatrix")
MAYBE_BRACKETS = st.one_of(st.just(""), joined("[", LETTERS, "]"))
NAMES = joined(command("sin log max lim det Pr"), "x")
CELLS = joined(ROWS, "&", ROWS)
WORDS = st.deferred(lambda: st.lists(WORD, max_size=4).map("".join))
WORD = st.one_of(one_of("if a b,"), st.just(" "), joined("$", ROWS, "$"), joined("{", WORDS, "}"), joined(r"\textbf{", WORDS, "}"),
                 command(r"small tiny Large normalsize bf rm"), one_of(r"\hspace{1em} \kern1em"), one_of("- -- --- ` `` ' ''"),
                 joined(one_of(r"\underline \textcolor{red} \phantom \raisebox{1em}"), "{", WORDS, "}"))

BODIES = one_of(r"a B 1 + = x_1 y^2 \frac12 \sqrt{x} {ab} \mathrm{d} \alpha{}")
PAIRS = r"\frac \dfrac \binom \overset \underset \stackrel"

CONSTRUCTS = [
    joined(one_of(r"\frac \dfrac \tfrac \cfrac \binom \overset \underset \stackrel"), GROUPS, GROUPS),
    joined(r"\sqrt", MAYBE_BRACKETS, GROUPS),
    joined(r"\left", one_of(r"( [ \{ | . \langle"), " ", ROWS, st.one_of(st.just(""), joined(r"\middle|", ROWS)),
           r"\right", one_of(r") ] \} | . \rangle"), " "),
    joined(one_of(r"\hat \bar \vec \tilde \dot \ddot \overline \underline \widehat \mathring \check \breve"), GROUPS),
    joined(one_of(r"\mathbf \mathrm \mathcal \mathbb \mathfrak \mathsf \boldsymbol"), "{", one_of(r"A AB x R1 \Gamma ab+c"), "}"),
    joined(one_of(r"\text \textbf \textrm"), "{", WORDS, "}"),
    joined(one_of(r"\mathrel \mathbin \mathord \mathopen \mathpunct \mathop \phantom \smash \textcolor{red}"), GROUPS),
    joined(r"\operatorname{lcm}", "x"),
    joined(one_of(r"\sum \int \bigcup"), one_of(r"\limits \nolimits"), "_", OPERANDS, "^", OPERANDS),
    joined(one_of(r"\big \Big \bigl \Biggr \bigm"), one_of(r"( | / \rangle"), " "),
    joined(r"\overbrace", GROUPS, "^", GROUPS), joined(r"\underbrace", GROUPS, "_", GROUPS),
    joined(one_of(r"\xrightarrow \xleftarrow"), MAYBE_BRACKETS, GROUPS),
    joined(one_of(r"\not= \not\in"), " "),
    joined("{", ROWS, one_of(r"\over \choose \atop"), " ", ROWS, "}"),
    joined("{", one_of(r"\bf \rm \displaystyle \scriptstyle \large \color{blue}"), " ", ROWS, "}"),
    *(joined(rf"\begin{{{name}}}", CELLS, r"\\{}", CELLS, rf"\end{{{name}}}") for name in TABLES),
    joined(r"\begin{array}{c|c}", CELLS, r"\\\hline ", CELLS, r"\end{array}"),
    joined(r"\substack{", ROWS, r"\\{}", ROWS, "}"),
    joined(r"\begin{CD}", LETTERS, "@>", GROUPS, ">>", LETTERS, r"\\@VV", GROUPS, r"V@|\\", LETTERS, "@=", LETTERS, r"\end{CD}"),
    joined(r"\def\f#1{", one_of("#1 {#1}_1 x"), r"}\f", OPERANDS),
    # a macro is an operand, as a whole or not
    joined(r"\def\g{", st.lists(BODIES, max_size=3).map("".join), "}", st.one_of(
        joined(one_of(PAIRS), r"\g", one_of(r"\g 1 {ab} \alpha").map(lambda text: text + " ")),
        joined(one_of(PAIRS), one_of(r"1 x {ab} {\hat{x}y} {\frac12} \alpha"), r"\g "),
        joined(one_of(r"\hat \bar \vec \underline \mathrm \text \phantom \overbrace \xrightarrow \textcolor{red}"), r"\g "))),
    joined(r"\def\g{", st.lists(BODIES, max_size=3).map("".join), "}", one_of(r"\sqrt[3] \sqrt[\g] \xrightarrow[a] \smash[b]"), r"\g "),
    joined(one_of(r"\set \Set \Braket"), "{", LETTERS, one_of("| x|"), GROUPS, "}"),
    joined(r"\def\g{x", BODIES, "}", one_of(r"\sqrt x^ x_ \mathrel \mathord"), r"\g "),
    one_of(r"\, \; \quad ~ \! \hspace{1em} \rule{1em}{2pt}").map(lambda text: text + " "),
]
ATOMS = st.one_of(LETTERS, LETTERS, one_of("1 2 12 3.5"), SIGNS, NAMES, GROUPS, *CONSTRUCTS)
SCRIPTS = [st.just("'"), joined("_", OPERANDS), joined("^", OPERANDS), joined("_", OPERANDS, "^", OPERANDS), joined("'^", OPERANDS),
           joined("''_", OPERANDS)]
SCRIPTED = st.one_of(ATOMS, ATOMS, joined(st.one_of(LETTERS, SIGNS, GROUPS), st.one_of(*SCRIPTS)))


@unittest.skipUnless(KATEX.is_dir(), "KaTeX is not installed")
@requires("node")
class AsKatexReads(Case):
    def test_formulas(self):
        words = ["node", ROOT / "diff/katex.js", KATEX]
        with subprocess.Popen(words, stdin=subprocess.PIPE, stdout=subprocess.PIPE, text=True, bufsize=1) as katex:
            @seed(SEED)
            @settings(max_examples=COUNT, deadline=None, database=None, suppress_health_check=list(HealthCheck))
            @given(ROWS)
            def check(formula):
                katex.stdin.write(json.dumps([[formula, True]]) + "\n")
                [markup] = json.loads(katex.stdout.readline())
                if markup is None:
                    refused.append(formula)
                    return
                done = run([tex_program(), "--display", "block"], stdin=formula.encode())
                self.expect(done, 0, None, b"")
                self.assertEqual(structure.structure(done.stdout.decode()), structure.structure(markup), formula)

            refused = []
            check()
            self.assertLess(len(refused), COUNT // 4)
