"""The program `tex2mathml`: its arguments, its streams, its statuses and its replies to many formulas."""
import os
import re
import runpy
import threading
import xml.etree.ElementTree as ElementTree

from tests import cases, faulty
from tests.runs import Runs
from tests.support import ROOT, Case, each_row, newest_version, put, requires, run, tex_program
from tests.texts import UNREAD, X, math

X_LINE = X + b"\n"


def ask(*words, stdin=b"", **more):
    return run([tex_program(), *words], stdin=stdin, **more)


class Answers(Runs, file="tex2mathml.txt"):
    def test_input_that_cannot_be_read(self):
        folder = os.open("/", os.O_RDONLY)
        self.addCleanup(os.close, folder)
        self.expect(ask(stdin=folder), 1, b"", b"tex2mathml: The input could not be read.\n")

    def test_output_that_is_full(self):
        with open("/dev/full", "wb") as full:
            self.expect(ask(stdin=b"x", stdout=full), 1, None, b"tex2mathml: The output stopped after 0 bytes.\n")

    def test_launcher(self):
        self.expect(run([ROOT / "tex2mathml"], stdin=b"x"), stdout=X_LINE)
        put(self.folder, {"a b.tex": "\\def\\a{x}"})
        self.expect(run([ROOT / "tex2mathml", "--definitions", "a b.tex"], stdin=b"\\a", cwd=self.folder), stdout=X_LINE)

    def test_annotation_of_each_case(self):
        """An XML parser finds the formula in the annotation, and next to it what the case shows."""
        of_tex = [case for name in cases.files("tex/*.txt") for case in cases.read(name)]
        done = ask("--null", "--annotation", stdin=b"".join(case.input + b"\0" for case in of_tex))
        replies = done.stdout.split(b"\0")[:-1]
        for case, reply in zip(of_tex, replies, strict=True):
            with self.subTest(case.place):
                math = ElementTree.fromstring(reply.removeprefix(b"mathml\n"))
                shown, annotation = math[0]
                self.assertEqual(annotation.text, case.input.decode())
                # a parser reads the white space of an attribute as spaces
                self.assertEqual(math.get("alttext"), re.sub(r"[\t\n\r]", " ", annotation.text))
                self.assertEqual(*map(ElementTree.tostring, (self.one_element(case.answer), shown)))

    def one_element(self, contents):
        """The only element of these contents, or an `mrow` of all."""
        found = ElementTree.fromstring(math(contents))
        return found[0] if len(found) == 1 else ElementTree.fromstring(math(b"<mrow>%s</mrow>" % contents))[0]


# definitions, and what may be between them
WHOLE = ["\\newcommand{\\R}{\\mathbb{R}}", "\\newcommand*\\half[1]{\\frac{#1}{2}}", "\\def\\pair#1#2{(#1,#2)}", "\\DeclareMathOperator*{\\argmax}{arg\\,max}"]
BETWEEN = "% é\n "


class Definitions(Case):
    """`--definitions FILE`."""

    def setUp(self):
        self.file = self.folder / "a b.tex"

    def ask(self, definitions, formula):
        self.file.write_text(definitions, encoding="utf-8")
        return ask("--definitions", self.file, stdin=formula)

    def test_data(self):
        """The file of the program's own run."""
        words = ["--definitions", ROOT / "crates/latex2mathml_tex_app/data/macros.tex"]
        half = '<mrow style="padding: 0 calc(0.12em - 1px)"><mfrac><mi>ℝ</mi><mn>2</mn></mfrac><mo lspace="0" rspace="0"></mo></mrow>'
        self.expect(ask(*words, stdin=b"\\half{\\R}"), stdout=math(half.encode()) + b"\n")

    @each_row(cases.by_heading("tex_definition_refusals.txt"))
    def are_refused(self, *refused):
        for case in refused:
            definitions, told = case.input.decode(), case.answer.decode()
            with self.subTest(case.place):
                for before, line in (("", int(told[0])), ("\n\n", int(told[0]) + 2)):
                    reason = f"tex2mathml: {self.file}:{line}{told[1:]}\n"
                    self.expect(self.ask(before + definitions, b"x"), 1, b"", reason.encode())

    def test_beginnings(self):
        """A text of definitions that is cut off between two of them is read. Otherwise it is refused, at a place in it."""
        text, between = "", {0}
        for definition in WHOLE:
            between |= set(range(len(text + definition), len(text + definition + BETWEEN) + 1))
            text += definition + BETWEEN
        for end in range(len(text) + 1):
            with self.subTest(text[:end]):
                done = self.ask(text[:end], b"x")
                if end in between:
                    self.expect(done, stdout=X_LINE)
                    continue
                self.expect(done, 1, b"", None)
                line, column = map(int, re.fullmatch(rb"tex2mathml: .*/a b\.tex:(\d+):(\d+): [^:]+\n", done.stderr).groups())
                lines = text[:end].split("\n")
                self.assertIn(line, range(1, len(lines) + 1))
                self.assertIn(column, range(1, len(lines[line - 1]) + 2))

    def test_input_is_left_alone(self):
        """If there are no macros, nothing of the input is read."""
        put(self.folder, {"letter.tex": b"x", "no text.tex": b"\xff"})
        for name in ("letter.tex", "no text.tex", "none.tex"):
            with self.subTest(name), faulty.open_input(b"x") as given:
                self.assertEqual(ask("--definitions", self.folder / name, stdin=given).returncode, 1)
                self.assertEqual(given.read(), b"x")

    def test_pipes(self):
        """A pipe with a name, and one of a shell."""
        pipe = self.folder / "pipe"
        os.mkfifo(pipe)
        writer = threading.Thread(target=pipe.write_bytes, args=[b"\\def\\a{x}"])
        writer.start()
        self.expect(ask("--definitions", pipe, stdin=b"\\a"), stdout=X_LINE)
        writer.join()
        reading, writing = os.pipe()
        os.write(writing, b"\\def\\a{y}")
        os.close(writing)
        self.addCleanup(os.close, reading)
        self.expect(ask("--definitions", f"/dev/fd/{reading}", stdin=b"\\a", pass_fds=[reading]), stdout=math(b"<mi>y</mi>") + b"\n")


@requires("cc")
class Calls(faulty.OneByteAtATime):
    """What the program does if a call for its definitions fails. `test_faults` has all others."""

    def test_each_read_of_definitions_fails(self):
        """The file is read to its end before the input is."""
        definitions, given, file = b"\\def\\a{x}", b"\\a", self.folder / "a.tex"
        file.write_bytes(definitions)
        words = [tex_program(), "--definitions", file]
        in_file, in_input = (f"tex2mathml: {named}{UNREAD}\n".encode() for named in (f"{file}: ", ""))
        for number in (5, 4):
            self.fails_at_each("read", number, len(definitions) + len(given) + 2, words, given, X_LINE, lambda call: (
                1, b"", in_file if call <= len(definitions) + 1 else in_input))

    def test_definitions_that_cannot_be_opened(self):
        put(self.folder, {"a.tex": ""})
        for number in (13, 24):
            with self.subTest(number):
                fault = faulty.Fault("open", 1, 1, number)
                done, failed = faulty.run_with([tex_program(), "--definitions", "a.tex"], fault=fault, cwd=self.folder)
                self.assertTrue(failed)
                self.expect(done, 1, b"", b"tex2mathml: a.tex: The input could not be read.\n")

    def test_definitions_are_closed(self):
        file = self.folder / "a.tex"
        for definitions in (b"", b"\\def\\a{x}", b"x", b"\xff"):
            with self.subTest(definitions):
                file.write_bytes(definitions)
                done, counts = faulty.counts_of([tex_program(), "--definitions", file], stdin=b"x")
                self.assertIn(done.returncode, (0, 1))
                self.assertEqual((counts["open"], counts["held"]), (counts["close"], 0))


class Words(Case):
    def test_version(self):
        self.expect(ask("--version"), stdout=f"tex2mathml {newest_version()}\n".encode())


class Page(Case):
    def test_the_page_of_formulas_is_of_today(self):
        made = runpy.run_path(ROOT / "tools/draw-tex-formulas")["page"](tex_program())
        self.assertTrue(made == (ROOT / "docs/tex-formulas.html").read_text(), "tools/draw-tex-formulas makes it anew")
