"""The cases of `cases/tex/`, and usual names of LaTeX, against KaTeX: each is read as KaTeX reads it, except for those that
`tests/katex` lists with the reason."""
import json
import sys
import unittest
from pathlib import Path

from tests import cases
from tests.support import ROOT, Case, requires, run, tex_program
from tests.texts import math

sys.path.insert(0, str(ROOT / "diff"))

import structure  # noqa: E402

KATEX = Path("/usr/share/nodejs/katex")

# the formulas that KaTeX reads differently, those that it refuses, and those that it reads in `aligned`
OTHERWISE, REFUSED, IN_ALIGNED = (cases.listed(ROOT / f"tests/katex/{name}.txt") for name in ("otherwise", "refused", "in_aligned"))

# and the environments that it reads only in a block
BLOCK_ALONE = ("\\begin{alignat*}", "\\begin{CD}")


@unittest.skipUnless(KATEX.is_dir(), "KaTeX is not installed")
@requires("node")
class AsKatexReads(Case):
    def structures(self, display, names):
        """For each formula of these files: the expected structure, and that of KaTeX, or None if KaTeX refuses it."""
        pairs = [(case.input.decode(), case.answer) for name in names for case in cases.read(name)]
        asked = [f"\\begin{{aligned}}{formula}\\end{{aligned}}" if formula in IN_ALIGNED else formula for formula, _ in pairs]
        theirs = self.structures_of_katex(asked, display)
        for (formula, contents), its in zip(pairs, theirs):
            yield formula, structure.structure(math(contents, display).decode()), its

    def structures_of_katex(self, formulas, display):
        asked = json.dumps([[formula, display == "block"] for formula in formulas]).encode()
        done = run(["node", ROOT / "diff/katex.js", KATEX], stdin=asked)
        self.assertEqual(done.returncode, 0, done.stderr.decode())
        return [markup and structure.structure(markup) for markup in json.loads(done.stdout)]

    def compare(self, formula, ours, theirs):
        if formula in REFUSED:
            self.assertIsNone(theirs)
        elif formula in OTHERWISE:
            self.assertNotEqual(ours, theirs)
        else:
            self.assertEqual(ours, theirs)

    def test_cases(self):
        for display in ("inline", "block"):
            for formula, ours, theirs in self.structures(display, [*cases.files("tex/*.txt"), f"tex_{display}.txt"]):
                with self.subTest(f"{display}: {formula}"):
                    if display == "inline" and formula.startswith(BLOCK_ALONE):
                        self.assertIsNone(theirs)
                    else:
                        self.compare(formula, ours, theirs)

    def test_usual_names(self):
        """Each is read. The packages for tools replaced these names by other commands before they used `tex_to_mathml`."""
        formulas = (ROOT / "tests/katex/usual_names.txt").read_text(encoding="utf-8").splitlines()
        done = run([tex_program(), "--null"], stdin="\0".join(formulas).encode())
        self.expect(done, 0, None, b"")
        replies = done.stdout.decode().removesuffix("\0").split("\0")
        for formula, reply, theirs in zip(formulas, replies, self.structures_of_katex(formulas, "inline"), strict=True):
            with self.subTest(formula):
                kind, _, ours = reply.partition("\n")
                self.assertEqual(kind, "mathml", ours)
                self.compare(formula, structure.structure(ours), theirs)
