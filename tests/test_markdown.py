"""The extension of Python-Markdown: the formulas that it finds, the text that it leaves alone, and its output."""
import collections
import concurrent.futures
import importlib
import logging
import multiprocessing
import re
import sys
import time

import pytest

from tests.cases import by_heading
from tests.environments import environment, proved, requires_python, run_python
from tests.runs import Runs
from tests.support import ROOT, Case, each_row, limit, requires

pytestmark = pytest.mark.long

OPEN = "{ is not closed at column 1"

# with which other extensions the cases under a heading are read, if with any
EXTENSIONS = {"code": [["fenced_code"]], "fences": [[], ["fenced_code"], ["extra", "codehilite"]],
              "fences around fences": [["fenced_code"]], "other extensions": [["extra", "toc"]]}


def markdown():
    """The module of Python-Markdown, which finds our extension."""
    proved()
    return importlib.import_module("markdown")


def convert(text, others=()):
    """The page of a text, and its log."""
    said, handler = [], logging.Handler()
    handler.emit = lambda record: said.append(record.getMessage())
    logging.getLogger().addHandler(handler)
    try:
        return markdown().markdown(text, extensions=["latex2mathml", *others]), said
    finally:
        logging.getLogger().removeHandler(handler)


def convert_apart(*texts):
    """The page of each text, and its log, in a process of its own, which is ended after 20 processor seconds."""
    with concurrent.futures.ProcessPoolExecutor(1, multiprocessing.get_context("fork"), limit(CPU=20)) as pool:
        return list(pool.map(convert, texts))


def calls_of(text):
    """The number of function calls, in Python and in C, that the conversion of a text takes."""
    calls = collections.Counter()
    sys.setprofile(lambda frame, event, argument: calls.update([event]))
    try:
        convert(text)
    finally:
        sys.setprofile(None)
    return calls["call"] + calls["c_call"]


def seconds_for_lines(sources):
    """The processor seconds for finding the lines of formulas, between lines of prose: the least of three times."""
    taken = []
    for _ in range(3):
        page = proved(".markdown").Page()
        page.begin([line for source in sources for line in (source, *["prose"] * 100)])
        for source in sources:
            page.add(source, source, False, "span")
        begun = time.process_time()
        lines = [page.line_of(number) for number in range(len(sources))]
        taken.append(time.process_time() - begun)
        assert lines == list(range(1, 101 * len(sources), 101))
    return min(taken)


def letters_of(page):
    """A page with each formula as its letters, in a notation of ours: [x] in a line, [[x]] as a block."""
    # `codehilite` puts an element around code
    page = re.sub('<div class="codehilite">(.*?)</div>', r"\1", page.replace("<span></span>", ""), flags=re.DOTALL)
    page = re.sub(r'<(span|p) class="math">(.*?)</\1>', r"\2", page, flags=re.DOTALL)
    page = re.sub(r'<math [^>]*display="block">(.*?)</math>', r"[\g<0>]", page)
    return re.sub(r"<math .*?</math>", lambda math: "[{}]".format(re.sub("<[^>]*>", "", math[0])), page)


@requires_python()
@requires("python:markdown")
class Formulas(Case):
    @each_row({name: (name, *row) for name, row in by_heading("markdown.txt").items()})
    def are_converted(self, name, *cases):
        for others in EXTENSIONS.get(name, [[]]):
            for case in cases:
                with self.subTest(case.place, others=others):
                    self.assertEqual(letters_of(convert(case.input.decode(), others)[0]), case.answer.decode())

    @each_row(by_heading("markdown_slow.txt"))
    def are_found(self, *cases):
        """Before the process that looks for them is ended."""
        for case, (page, said) in zip(cases, convert_apart(*(it.input.decode() for it in cases)), strict=True):
            with self.subTest(case.place):
                self.assertEqual((page.count("<math "), said), (int(case.answer), []))

    def test_calls_of_functions(self):
        """Four times the text takes four times as many, even if its formulas are refused, or follow backslashes."""
        for pieces in (["${x$\n\n"], ["\\\\ ", "$a$ "]):
            with self.subTest(pieces):
                # the first conversion also loads the extension
                _, few, many = map(calls_of, ["${x$", *("".join(piece * count for piece in pieces) for count in (100, 400))])
                self.assertLessEqual(many, 4.1 * few, f"{few:,} for 100 pieces")

    def test_lines_of_white_space(self):
        """The line of a formula with no-break spaces is found, and quickly if there are lines of spaces elsewhere."""
        [[_, [said]]] = convert_apart("$$\n" + "    \n" * 30 + "x\n\n$$\n" + "\u00a0\n" * 30 + "{b\n$$")
        self.assertEqual(said, f"latex2mathml: line 65: {{b: {OPEN}")

    def test_lines_of_formulas_that_are_written_alike(self):
        _, said = convert("${x$ and ${x$\n\n" * 50)
        self.assertEqual(said, [f"latex2mathml: line {line}: {{x: {OPEN}" for line in range(1, 100, 2) for _ in range(2)])

    def test_lines_of_many_formulas(self):
        """Four times the text takes four times as long, whether or not its formulas are written alike."""
        for source in ("${{x$", "${{x{}$"):
            with self.subTest(source):
                few, many = (seconds_for_lines([source.format(number) for number in range(count)]) for count in (500, 2000))
                self.assertLess(many, 8 * few, f"{few} s for 500 formulas")

    def test_by_the_name_of_the_module(self):
        """A caller that names the module, as one that names the entry point, gives options and catches `FaultyFormula`."""
        rendering, name = proved(".rendering"), "latex2mathml_proved.markdown"
        how = {"extensions": [name], "extension_configs": {name: {"macros": {"R": "x"}, "strict": True}}}
        self.assertIn("<mi>x</mi></math>", markdown().markdown(r"$\R$", **how))
        with self.assertRaisesRegex(rendering.FaultyFormula, f"^{re.escape(f'line 1: {{x: {OPEN}')}$"):
            markdown().markdown("${x$", **how)

    def test_one_converter_for_many_pages(self):
        converter = markdown().Markdown(extensions=["latex2mathml"])
        pages = [letters_of(converter.reset().convert(text)) for text in ("$x$", "a $y$")]
        self.assertEqual(pages, ["<p>[x]</p>", "<p>a [y]</p>"])

    def test_a_converter_at_work_within_another(self):
        """As in an extension that converts docstrings: each has its own formulas, although both have the same extension."""
        convert, ours = markdown().markdown, proved(".markdown").Latex2MathML()

        class Inner(markdown().inlinepatterns.InlineProcessor):
            def handleMatch(self, m, data):
                return self.md.htmlStash.store(convert("$c$", extensions=[ours])), m.start(), m.end()

        class Outer(markdown().extensions.Extension):
            def extendMarkdown(self, md):
                md.inlinePatterns.register(Inner("HERE", md), "inner", 1)

        self.assertEqual(letters_of(convert("$a$ HERE $b$", extensions=[ours, Outer()])), "<p>[a] <p>[c]</p> [b]</p>")


@requires_python("markdown")
class Pages(Runs, file="markdown.txt"):
    def test_example(self):
        """The example of the package is converted without a warning."""
        folder = self.folder / "out"
        script = ROOT / "integrations/python/examples/markdown/build.py"
        self.expect(run_python(environment("markdown"), script, folder), 0, b"", b"")
        page = (folder / "page.html").read_text(encoding="utf-8")
        self.assertEqual((page.count("<math "), page.count("<code>"), page.count("\\")), (7, 1, 0))
        self.assertEqual([path.name for path in folder.iterdir()], ["page.html"])
