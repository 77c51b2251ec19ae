"""Gives each case of `cases/` to the built programs and to the library for C. Each case is a test, named by its line."""
import functools

from tests import cases
from tests.answers import WAYS, AnswerCase, Code, tex_by_library
from tests.support import Case, build, each_row, put, run, show, tex_program
from tests.texts import NO_TEXT, math

WHITE_SPACE = [space * count for space in (b" ", b"\t", b"\n", b"\r") for count in (1, 1000)]
NO_WHITE_SPACE = ["\u000c".encode(), "\u00a0".encode()]


class CaseOfFile(AnswerCase):
    """How a case is tested, by the kind of its file."""

    def formula(self, case):
        for word in ("inline", "block"):
            self.comes_to(case.place, word, case.input, Code.DONE, math(case.answer, word))

    def refusal(self, case, words=("inline", "block")):
        code = Code.NOT_UTF8 if case.answer == NO_TEXT.encode() else Code.REFUSED
        for word in words:
            self.comes_to(case.place, word, case.input, code, case.answer)

    def document(self, case):
        """An answer is its own answer."""
        for given in (case.input, case.document_answer):
            self.comes_to(case.place, "document", given, Code.DONE, case.document_answer)

    def white_space(self, case):
        """White space at one place changes nothing, and a character that is not white space changes the result."""
        answer = math(case.answer)
        self.comes_to(case.place, "inline", case.with_space(0, b""), Code.DONE, answer)
        for number in case.places:
            for space in WHITE_SPACE:
                self.comes_to(f"{case.place}, place {number}", "inline", case.with_space(number, space), Code.DONE, answer)
            for character in NO_WHITE_SPACE:
                given = case.with_space(number, character)
                for name, way in WAYS:
                    self.assertNotEqual(way("inline", given), (Code.DONE, answer), f"{case.place}, place {number}: {show(given)} by {name}")

    def counts(self, case):
        """The steps of a formula: a command takes 1 to 9 comparisons."""
        done = run([build("latex2mathml_single_calls"), "steps", case.input])
        outcome, steps = done.stdout.decode().splitlines()
        found = dict(reversed(part.split()) for part in steps.split(", "))
        kind, *wanted = case.answer.decode().split(", ")
        self.assertEqual(outcome.partition(":")[0], kind, case.place)
        for count, name in map(str.split, wanted):
            if name.startswith("command"):
                self.assertIn(int(found["comparisons"]), range(int(count), 9 * int(count) + 1), case.place)
            else:
                self.assertEqual(found[f"{name.removesuffix('s')}s"], count, f"{case.place}: {name}")

    def tex_formula(self, case, displays=("inline", "block")):
        for display in displays:
            markup = math(case.answer, display)
            self.expect(run([tex_program(), "--display", display], stdin=case.input), stdout=markup + b"\n")
            self.assertEqual(tex_by_library(display, case.input), (Code.DONE, markup, 0), case.place)

    def tex_refusal(self, case):
        place = int(case.answer.rpartition(b" at ")[2])
        for display in ("inline", "block"):
            self.expect(run([tex_program(), "--display", display], stdin=case.input), 1, b"", b"tex2mathml: %s\n" % case.answer)
            self.assertEqual(tex_by_library(display, case.input), (Code.REFUSED, case.answer, place), case.place)


# The files by their kind. A class of tests is made for each file.
KINDS = [
    ("formulas/*.txt", CaseOfFile.formula),
    ("refusals.txt", CaseOfFile.refusal),
    ("documents/*.txt", CaseOfFile.document),
    ("document_refusals.txt", functools.partial(CaseOfFile.refusal, words=["document"])),
    ("white_space.txt", CaseOfFile.white_space),
    ("counts.txt", CaseOfFile.counts),
    ("tex/*.txt", CaseOfFile.tex_formula),
    ("tex_inline.txt", functools.partial(CaseOfFile.tex_formula, displays=["inline"])),
    ("tex_block.txt", functools.partial(CaseOfFile.tex_formula, displays=["block"])),
    ("tex_refusals.txt", CaseOfFile.tex_refusal),
]

for pattern, check in KINDS:
    for file in cases.files(pattern):
        row = each_row({str(case.first.number): (case,) for case in cases.read(file)})
        globals()[cases.class_name(file)] = type(cases.class_name(file), (CaseOfFile,), {"__doc__": f"cases/{file}", "check": row(check)})


class Reader(Case):
    """The reader of the files: a mistake in the form is reported with its line."""

    def test_wrong_cases(self):
        for text, told in [
            ("a\nb\nc\n", "1: a case has 2 lines"),
            ("\n\na\n\nb\nc\n", "3: a case has 2 lines"),
            ("a\nb\n\na\nc\n", "4: the input stands in line 1 as well"),
            ("a\n b\n", "2: a space at an end of a line is [U+0020]"),
            ("a\tb\nc\n", "1: a character that cannot be seen is [U+0009]"),
            ("a\u00a0b\nc\n", "1: a character that cannot be seen is [U+00A0]"),
        ]:
            with self.subTest(text):
                put(self.folder, {"wrong.txt": text})
                with self.assertRaises(cases.WrongCase) as raised:
                    cases.read(self.folder / "wrong.txt")
                self.assertIn(f"wrong.txt:{told}", str(raised.exception))

    def test_every_rule(self):
        """Each is a formula of the grammar, because other tests convert them all together."""
        for formula, contents in cases.every_rule():
            self.assertTrue(formula and contents.startswith("<"), formula)

    def test_all_files_are_read(self):
        """Here, or by the class that the file names."""
        read = {file for pattern, _ in KINDS for file in cases.files(pattern)}
        self.assertEqual([it for it in cases.files("**/*.txt") if (it in read) == bool(cases.reader_of(it))], [])
