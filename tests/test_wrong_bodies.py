"""The wrong bodies: few, each of a clause of the function that it edits, and all in the table docs/WRONG_BODIES.md."""
import collections
import functools
import re
import subprocess
import unittest

from tests.support import ROOT

MOST, MOST_OF_A_CRATE = 60, 10

# a function of a module of laws: its name, and its body
LAW = re.compile(r"^pub fn (\w+).*?(?:\{\}$|^\{\n(.*?)^\}$)", re.M | re.S)

Edit = collections.namedtuple("Edit", "function clause path pairs")


@functools.cache
def edits():
    """The wrong bodies, by `CRATE/NAME`: the function and the clause that each names, the source file, and each replacement."""
    return {f"{it.parent.parent.name}/{it.stem}": edit(it.parent.parent, it.read_text()) for it in sorted(ROOT.glob("crates/*/must-fail/*.edit"))}


def edit(crate, text):
    clause = re.match(r"# clause: (?:\w+::)?(\w+) (\w+) — \S.*\n", text)
    file = re.search(r"^file: (src/\S+)$", text, re.M)
    return Edit(*(clause.groups() if clause else ("", "")), crate / file[1], re.findall(r"^old: (.*)\nnew: (.*)$", text, re.M))


class WrongBodies(unittest.TestCase):
    """They do not show that the prover rejects them: `rt ci` does."""

    def test_are_few(self):
        of_crates = collections.Counter(name.partition("/")[0] for name in edits())
        self.assertIn(len(edits()), range(1, MOST + 1))
        self.assertLessEqual(max(of_crates.values()), MOST_OF_A_CRATE, of_crates)

    def test_table_is_of_the_edits(self):
        printed = subprocess.run([ROOT / "tools/wrong-bodies"], capture_output=True, text=True, check=True, timeout=60).stdout
        self.assertEqual((ROOT / "docs/WRONG_BODIES.md").read_text(), printed, "run tools/wrong-bodies >docs/WRONG_BODIES.md")

    def test_each_can_be_applied(self):
        for name, it in edits().items():
            with self.subTest(edit=name):
                self.assertTrue(it.pairs)
                text = it.path.read_text()
                for old, new in it.pairs:
                    self.assertEqual(text.count(old), 1, old)
                    text = text.replace(old, new)
                self.assertNotEqual(text, it.path.read_text())

    def test_each_names_a_clause_of_the_edited_function(self):
        for name, it in edits().items():
            with self.subTest(edit=name):
                before, old, _ = it.path.read_text().partition(it.pairs[0][0])
                clause = "ensures" if it.clause == "ensures" else rf"(?:ensures|ghost) {it.clause}"
                self.assertEqual(re.findall(r"\bfn (\w+)", before + old)[-1], it.function)
                self.assertRegex(before, rf"\b{clause} (?:= )?\{{")

    def test_no_two_break_the_same_clause(self):
        broken = collections.Counter((it.path, it.function, it.clause) for it in edits().values())
        self.assertEqual([it for it, count in broken.items() if count > 1], [])

    def test_laws_do_nothing(self):
        """So they need no wrong body: each only drops its arguments and calls other laws."""
        laws = [law for path in ROOT.glob("crates/*/src/laws.rt") for law in LAW.findall(path.read_text())]
        names = "|".join(sorted(name for name, _ in laws))
        self.assertTrue(laws)
        for name, body in laws:
            with self.subTest(law=name):
                self.assertRegex(body, rf"\A(\s*(let _ = \w+|(\w+::)*({names})\([\w, ]*\));)*\s*\Z")
