"""The extension of Sphinx: projects that are built, compared with the output of Sphinx's own renderer."""
import re
import textwrap
import time
import timeit

import pytest

from tests.cases import by_heading
from tests.environments import proved, requires_python
from tests.integration import math_in
from tests.pages import read
from tests.runs import Runs
from tests.support import ROOT, each_row, put, requires

pytestmark = pytest.mark.long

CONF = 'extensions = ["latex2mathml_proved.sphinx"]\nhtml_math_renderer = "latex2mathml"\n'


@requires_python("sphinx")
class Project(Runs):
    """A case with a folder for its project."""

    def build(self, conf, *words, **pages):
        """Builds all pages of a project, and returns what is said."""
        put(self.folder, {"conf.py": conf, **{f"{name}.rst": text for name, text in pages.items()}})
        done = self.run_as("sphinx", ["-E", "-a", *words, ".", "out"], cwd=self.folder, timeout=300)
        self.expect(done, stderr=None)
        return done.stderr.decode()

    def page(self, name="index"):
        return (self.folder / f"out/{name}.html").read_text(encoding="utf-8")


@requires_python("sphinx", "myst_parser")
class Pages(Runs, file="sphinx.txt"):
    """Projects, and the pages that are due."""


class Markup(Project):
    @each_row(by_heading("sphinx_rows.txt"))
    def are_made(self, *cases):
        for case in cases:
            with self.subTest(case.place):
                text = f"Title\n=====\n\n.. math::\n\n{textwrap.indent(case.input.decode(), '   ')}\n"
                self.assertEqual(self.build(CONF, index=text), "")
                self.assertEqual("{} rows, {} cells".format(*map(self.page().count, ("<mtr>", "<mtd"))), case.answer.decode())

    @requires("python:sphinx")
    def test_texts_that_are_slow_to_read(self):
        """Making rows of four times the text takes four times as long."""
        rows_of = proved(".sphinx").rows_of
        for piece in ("a\n\n", "%", "\\", "\n", "% \n\n", " ", "a\\\n\n", "\\\\\n\n"):
            with self.subTest(piece):
                texts = ["a" + piece * count for count in (20_000, 80_000)]
                self.assertEqual([len(rows_of(it)) for it in texts], [len(it) for it in texts])
                few, many = (min(timeit.repeat(lambda: rows_of(it), timer=time.process_time, number=1, repeat=3)) for it in texts)
                self.assertLess(many, 8 * few + 0.05)

    def test_parallel(self):
        """Many pages, read and written by several processes, are the same as with one process."""
        pages = {f"page{n}": f"Page\n====\n\n.. math:: x_{{{n}}}\n   :label: l{n}\n\n:math:`{{{n}` :eq:`l{n}`\n" for n in range(30)}
        toc = "Title\n=====\n\n.. toctree::\n\n" + "".join(f"   {name}\n" for name in pages)
        one, four = ((sorted(self.build(CONF, "-j", jobs, index=toc, **pages).splitlines()), [self.page(name) for name in pages])
                     for jobs in ("1", "4"))
        self.assertEqual(len(one[0]), 30)
        self.assertEqual(one, four)

    def test_readme(self):
        """The README's lines of conf.py are enough."""
        [conf] = re.findall(r"In `conf.py`:\n\n```python\n(.*?)```", read("integrations/python/README.md"), re.DOTALL)
        self.assertEqual(self.build(conf, index="Title\n=====\n\n:math:`\\norm{x} \\in \\R`\n"), "")
        self.assertEqual(re.sub("<[^>]*>", "", math_in(self.page())[0]), "∥x∥∈ℝ")


class Numbers(Project):
    """Everything except the formulas, and the paragraphs around those in blocks, is as with Sphinx's `mathjax` renderer, on pages of
    every kind."""

    PAGES = {name: (ROOT / f"tests/sphinx/{name}.rst").read_text() for name in ("index", "other")}
    FORMULA = re.compile(r'<math .*?</math>|\\[(\[].*?\\[)\]]', re.DOTALL)
    PARAGRAPH = re.compile(r'(<div class="(?:wide )?math [^>]*>\n?(?:<span id="[^"]*"></span>)*)<p>(.*)</p></div>')
    LINKS = re.compile(r'.*mathjax.*\n')

    def bodies(self, conf, builder, names):
        self.assertEqual(self.build(conf, "-b", builder, **self.PAGES), "")
        return [self.PARAGRAPH.sub(r"\1\2</div>", self.FORMULA.sub("FORMULA", self.LINKS.sub("", self.page(name)))) for name in names]

    @each_row({"html": ("html", "index", "other"), "dirhtml": ("dirhtml", "index", "other/index"), "singlehtml": ("singlehtml", "index")})
    def are_equal(self, builder, *names):
        for options in ("", "math_number_all = True\n", "numfig = True\nmath_numfig = True\n",
                        'math_eqref_format = "Eq. {number}"\n', 'language = "de"\n'):
            with self.subTest(options):
                ours, theirs = (self.bodies(it, builder, names) for it in (CONF + options, options))
                self.assertIn("FORMULA", ours[0])
                self.assertIn('<span class="eqno">(', ours[0])
                self.assertEqual(ours, theirs)
