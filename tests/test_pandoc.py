"""The filter for pandoc, in pandoc."""
import functools
import html
import json
import os
import posixpath
import re
import zipfile

from tests.cases import rows_of_lines
from tests.integration import tex_answer_of
from tests.runs import Runs, pandoc
from tests.support import ROOT, Has, each_row, limit, put, requires, run, tex_program

FOLDER = ROOT / "integrations/pandoc"

# Runs the program, and writes a line for each run.
COUNTER = '#!/bin/sh\necho "$@" >>"$0.count"\nexec {program} "$@"\n'

UNCLOSED = "{ is not closed at 0"
FILTER_ENDED = 83  # pandoc's status if a filter ends the run


def refused(latex, reason):
    """What a page shows of a refused formula."""
    source, title = (html.escape(it, quote=True).replace("$", "&#x24;").replace("&#x27;", "'") for it in (latex, reason))
    return f'<code class="latex2mathml-refused" title="{title}">{source}</code>'


def meta_of(value):
    """An option in the notation of pandoc's JSON."""
    if isinstance(value, str):
        return {"t": "MetaString", "c": value}
    if isinstance(value, list):
        return {"t": "MetaList", "c": [meta_of(it) for it in value]}
    return {"t": "MetaMap", "c": {name: meta_of(it) for name, it in value.items()}}


@functools.cache
def api_version():
    """The version of pandoc's JSON that this pandoc reads."""
    return json.loads(run(["pandoc", "-t", "json"]).stdout)["pandoc-api-version"]


def json_of(blocks, **options):
    """A document in pandoc's JSON, with options for the filter."""
    return json.dumps({"pandoc-api-version": api_version(), "meta": {"latex2mathml": meta_of(options)}, "blocks": blocks})


@requires("pandoc")
class Pandoc(Runs):
    def pandoc(self, source, *words, **more):
        """Runs pandoc with the filter over a source."""
        return pandoc(words, stdin=source.encode(), cwd=self.folder, **more)

    def page(self, source, *words, stderr=b"", **more):
        """The page of a source, by default of one that raises no warning."""
        done = self.pandoc(source, *words, **more)
        self.expect(done, stderr=stderr)
        return done.stdout.decode()

    def places(self, formulas, display="InlineMath", stderr=b"", **options):
        """The output for formulas that are given without any syntax of pandoc."""
        # a rule behind each
        blocks = [it for latex in formulas for it in ({"t": "Plain", "c": [{"t": "Math", "c": [{"t": display}, latex]}]}, {"t": "HorizontalRule"})]
        return self.page(json_of(blocks, **options), "-f", "json", "-t", "html", stderr=stderr).split("\n<hr />\n")[:-1]

    def ends(self, source, fault, *words, **more):
        """The filter ends the run, and says why."""
        self.expect(self.pandoc(source, *words, **more), FILTER_ENDED, b"", Has(f"latex2mathml: {fault}".encode()))

    def script(self, text):
        put(self.folder, {"script": text})
        return self.folder / "script"


class Pages(Pandoc, file="pandoc.txt"):
    def test_images(self):
        """The alternative text of an image has formulas as pandoc itself has them there. Its caption has the markup."""
        source = "![The $x<y$](i.png)\n\na ![$x<y$](i.png) b ![$x<y$](i.png){alt=own} c ![d](i.png)"
        page = self.page(source, "-t", "html")
        of_pandoc = run(["pandoc", "-t", "html", "--mathml"], stdin=source.encode()).stdout.decode()
        texts = ["The x&lt;y", "x&lt;y", "own", "d"]
        for each in (of_pandoc, page):
            self.assertEqual(re.findall(r'alt="([^"]*)"', each), texts)
        self.assertRegex(page, r"<figcaption[^>]*>The\s+" + re.escape(tex_answer_of("x<y")))

    def test_an_epub(self):
        """Its pages have the markup, and links find formulas in other pages."""
        source = "# A\n\nBy \\eqref{eq:a}.\n\n# B\n\n$$x<y\\label{eq:a}$$"
        self.expect(self.pandoc(source, "-M", "title=T", "-t", "epub", "-o", "a.epub"))
        with zipfile.ZipFile(self.folder / "a.epub") as book:
            pages = {posixpath.basename(name): book.read(name).decode() for name in book.namelist() if name.endswith(".xhtml")}
        [target] = [name for name, page in pages.items() if tex_answer_of("x<y\\label{eq:a}", "block") in page]
        self.assertIn('id="eq:a"', pages[target])
        [link] = [found for page in pages.values() for found in re.findall(r'<a\s+href="([^"]*)"[^>]*>\(1\)</a>', page)]
        self.assertEqual(link, f"{target}#eq:a")

    def test_references_in_latex(self):
        """They have the numbers of formulas. All other links are those that pandoc makes."""
        source = ("\\section{A}\\label{sec:a} \\eqref{eq:a}, \\ref{eq:b}, \\autoref{eq:a}, \\cref{eq:b}, \\ref{sec:a}, \\eqref{none}, \\pageref{eq:a}\n"
                  "\\begin{equation}\\label{eq:a} x \\end{equation}\n\\begin{equation*} y \\end{equation*}\n\\[ z \\label{eq:b} \\]\n")
        page = self.page(source, "-f", "latex", "-t", "html")
        of_pandoc = run(["pandoc", "-f", "latex", "-t", "html", "--wrap=preserve"], stdin=source.encode()).stdout.decode()
        links, pandocs = (re.findall(r'<a href="#([^"]*)"[^>]*>([^<]*)</a>', it) for it in (page, of_pandoc))
        self.assertEqual([text for _, text in links[:4]], ["(1)", "2", "1", "2"])
        self.assertEqual(links[4:], pandocs[4:])
        self.assertEqual([target for target, _ in links], [target for target, _ in pandocs])
        numbered = r'<span id="([^"]+)" class="latex2mathml-numbered".*?class="latex2mathml-number">([^<]*)<'
        self.assertEqual(re.findall(numbered, page), [("eq:a", "(1)"), ("eq:b", "(2)")])

    def test_the_example(self):
        done = self.pandoc("", "-s", FOLDER / "example.md")
        self.expect(done, stderr=f"[WARNING] latex2mathml: {FOLDER / 'example.md'}: {{x: {UNCLOSED}\n".encode())
        page = done.stdout.decode()
        self.assertEqual(page.count("</math>"), 8)
        self.assertRegex(page, r'<a href="#eq:squares"[^>]*>\(1\)</a>')

    def test_a_copy_of_the_filter(self):
        """As the README says: the filter is anywhere, the program is on the path, and no option is given."""
        put(self.folder, {"my filters/latex2mathml.lua": (FOLDER / "latex2mathml.lua").read_text()})
        (self.folder / "tex2mathml").symlink_to(tex_program())
        environment = {**os.environ, "PATH": f"{self.folder}:{os.environ['PATH']}"}
        command = ["pandoc", "--lua-filter", "my filters/latex2mathml.lua", "--wrap=preserve"]
        done = run(command, stdin=b"$x \\le y$", cwd=self.folder, env=environment)
        self.expect(done, stdout="<p>{}</p>\n".format(tex_answer_of("x \\le y")).encode())


class Formulas(Pandoc):
    """Formulas that are given without any syntax of pandoc."""

    def test_any_text(self):
        formulas = ["", " ", "\n", "a\\$b", "\\\\", "é", "\\text{a $b$ c}", "% c\nx", "%1", "x" * 5000, "mathml\n", "error\n"]
        for display, word in (("InlineMath", "inline"), ("DisplayMath", "block")):
            with self.subTest(display):
                self.assertEqual(self.places(formulas, display=display), [tex_answer_of(latex, word) for latex in formulas])

    def test_a_nul(self):
        """It ends no formula."""
        self.assertEqual(self.places(["a\0b", "x"]), [tex_answer_of("a\ufffdb"), tex_answer_of("x")])

    def test_refused_formulas(self):
        formulas = [f"{{{i}" if i in (0, 1, 17, 63, 98) else f"x_{{{i}}}" for i in range(99)]
        wanted = [refused(latex, UNCLOSED) if latex.startswith("{") else tex_answer_of(latex) for latex in formulas]
        self.assertEqual(self.places(formulas, stderr=None), wanted)

    def test_the_place_is_that_in_the_formula(self):
        self.assertEqual(self.places(["é\\foo"], macros={"R": "x"}, stderr=None), [refused("é\\foo", "unknown command \\foo at 2")])

    @each_row(rows_of_lines("pandoc_macros.txt"))
    def have_macros(self, *cases):
        """What is refused ends a run even without a formula."""
        for macros, formula, due in cases:
            with self.subTest(macros.place):
                if due.text.startswith("macros: "):
                    self.ends(json_of([], macros=json.loads(macros.text)), due.text, "-f", "json", "-t", "html")
                else:
                    self.assertEqual(self.places([formula.text], macros=json.loads(macros.text)), [tex_answer_of(due.text)])


class Programs(Pandoc):
    """The program that the filter runs."""

    def test_processes(self):
        """One for a document, however many formulas it has, whether or not some are refused. A refused definition makes it two."""
        counter = self.script(COUNTER.format(program=tex_program()))
        lines = "\n\n".join(f"$x_{{{i}}}$" if i % 10 else f"${{{i}$" for i in range(1000))
        block, macro, wrong = "\n\n$$x$$", "\\newcommand{\\R}{x}\n\n", "\\newcommand{\\R}{#1}\n\n"
        for source, count in ((lines, 1), (lines + block, 1), (macro + lines + block, 1), (wrong + lines + block, 2), ("x", 0)):
            with self.subTest(processes=count):
                done = self.pandoc(source, converter=counter)
                self.expect(done, stderr=None)
                self.assertEqual(done.stdout.decode().count("</math>"), (900 if "x_" in source else 0) + source.count("$$x$$"))
                runs = self.folder / "script.count"
                self.assertEqual(len(runs.read_text().splitlines()) if runs.exists() else 0, count)
                runs.unlink(missing_ok=True)

    def test_a_program_that_fails(self):
        for text in ("#!/bin/sh\nkill -9 $$\n", "#!/bin/sh\ncat >/dev/null; exit 1\n"):
            with self.subTest(text):
                script = self.script(text)
                self.ends("$x$ $y$", f"{script} could not convert the formulas", converter=script)
        self.ends("$x$", "/nowhere/tex2mathml could not convert the formulas", converter="/nowhere/tex2mathml")

    def test_raw_tex_that_is_slow_to_read(self):
        """It takes linear time, whatever is not closed."""
        for piece in ("{", "\\begin{align}", "\\newcommand{", "\\newcommand\\a[", "\\newcommand\\a", "\\def\\a", "\\def\\a#1", "\\ref{", "\\ref", "%", "\\",
                      "\\begin{align}\\end{gather}", "\\DeclareMathOperator{\\a}"):
            with self.subTest(piece):
                source = json_of([{"t": "RawBlock", "c": ["tex", piece * 100_000]}])
                self.expect(self.pandoc(source, "-f", "json", "-t", "html", preexec_fn=limit(CPU=20), timeout=300))
