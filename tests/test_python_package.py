"""The Python package: its wheel in a fresh virtual environment, its calls, and the option `macros` of its extensions."""
import concurrent.futures
import functools
import json
import pickle
import re
import shutil
import tomllib
import unittest.mock
import zipfile

from tests import texts
from tests.cases import rows_of_lines, with_tags
from tests.environments import ask, environment, proved, requires_python, run_python, wheel
from tests.runs import Runs
from tests.support import ROOT, Case, c_library, each_row, put, requires, run
from tests.texts import UNCLOSED

PACKAGE = ROOT / "integrations/python"
LESS = texts.LESS.decode()
FAULT = "latex2mathml_proved.rendering.Fault"  # the type of a fault of a formula

# Converts a text whose markup has no room in the memory that is left, and then one whose markup has.
LITTLE_MEMORY = """
import resource
import latex2mathml_proved._library as it

it.ROOM_PER_BYTE = 0  # so that Python itself asks for little

def answer(large, small):
    pages = int(open("/proc/self/statm").read().split()[0])
    limit = pages * resource.getpagesize() + 16_000_000
    resource.setrlimit(resource.RLIMIT_AS, (limit, limit))
    try:
        it.formula(large)
    except MemoryError as error:
        return [str(error), it.formula(small)]
"""

# Imports the package where the system is another: its machine, or its C library.
ELSEWHERE = """
import ctypes, platform

def refuse(path):
    raise OSError("no GLIBC_2.99")

def answer(other):
    if other == "machine":
        platform.machine = lambda: "aarch64"
    else:
        ctypes.CDLL = refuse
    try:
        import latex2mathml_proved
        return "imported"
    except ImportError as error:
        return str(error)
"""


def render(*words):
    """The markup of a formula, with its fault."""
    return "\n".join(map(str, filter(None, proved(".rendering").Renderer().render(*words))))


def call(name, *words, **named):
    """What a function of the package returns, or its error. A refusal of `tex` is shown as it is after copying it."""
    try:
        return render(*words) if name == "render" else getattr(proved(), name)(*words, **named)
    except proved().TexRefused as error:
        copy = pickle.loads(pickle.dumps(error))
        assert isinstance(copy, proved().Refused) and str(copy) == f"{copy.reason} at {copy.place}"
        return f"TexRefused: {copy}: in the {'definitions' if copy.is_definition else 'formula'}, line {copy.line}, column {copy.column}"
    except ValueError as error:
        return f"{type(error).__qualname__}: {error}"


@requires_python()
class Wheel(Runs, file="python.txt"):
    def test_platform(self):
        """It requires the newest version of the C library that the shared library needs, and no newer one."""
        symbols = run(["objdump", "-T", c_library() / "liblatex2mathml.so"]).stdout.decode()
        major, minor = max((int(a), int(b)) for a, b in re.findall(r"GLIBC_(\d+)\.(\d+)", symbols))
        self.assertEqual(wheel().name.partition("-py3-")[2], f"none-manylinux_{major}_{minor}_x86_64.whl")

    def test_files(self):
        with zipfile.ZipFile(wheel()) as packed:
            names = {name.partition("/")[2] for name in packed.namelist() if name.startswith("latex2mathml_proved/")}
            [metadata], [licence] = ([packed.read(it) for it in packed.namelist() if it.endswith(end)] for end in ("/METADATA", "/LICENSE"))
        self.assertLessEqual({"py.typed", "liblatex2mathml.so", "page/latex2mathml.css", "page/latex2mathml.js"}, names)
        self.assertNotIn(b"Requires-Dist", metadata)
        # its terms require that it comes with the package
        self.assertEqual(licence, (ROOT / "LICENSE").read_bytes())

    @requires("mypy")
    def test_types(self):
        """A type checker takes them from the installed package."""
        program = ("import latex2mathml_proved\nfrom latex2mathml_proved.rendering import Renderer\n"
                   "reveal_type(latex2mathml_proved.formula('x', block=True))\nreveal_type(Renderer(definitions='').render('x').fault)\n"
                   "latex2mathml_proved.document(b'x')\n")
        done = run(["mypy", "--strict", "--no-error-summary", "--python-executable", environment(), "--cache-dir", self.folder, "-c", program],
                   timeout=300)
        # older checkers write the second type like this
        said = [line.partition(": ")[2].replace(f"Union[{FAULT}, None]", f"{FAULT} | None") for line in done.stdout.decode().splitlines()]
        self.assertEqual(said, [
            'note: Revealed type is "builtins.str"', f'note: Revealed type is "{FAULT} | None"',
            'error: Argument 1 to "document" has incompatible type "bytes"; expected "str"  [arg-type]'])

    @requires("mypy")
    def test_oldest_python(self):
        """The files of the package ask for no newer Python than its metadata and its README say."""
        project = tomllib.loads((PACKAGE / "pyproject.toml").read_text(encoding="utf-8"))["project"]
        oldest = project["requires-python"].removeprefix(">=")
        self.assertIn(f"Python {oldest} or later", (PACKAGE / "README.md").read_text(encoding="utf-8"))
        done = run(["mypy", "--python-version", oldest, "--no-site-packages", "--ignore-missing-imports", "--check-untyped-defs",
                    "--no-error-summary", "--cache-dir", self.folder, PACKAGE / "src/latex2mathml_proved", PACKAGE / "setup.py"], timeout=300)
        self.expect(done, 0, b"", b"")

    def test_what_is_opened_is_closed(self):
        """Python would warn about a file that the collector has to close, and about one that is read in the locale's encoding."""
        script = ("import sys\nimport latex2mathml_proved.rendering as it\n"
                  "print(it.Renderer().render('x').markup)\nit.Renderer().render('{')\nit.copy_page(sys.argv[1])")
        options = ["-X", "warn_default_encoding", "-W", "always::ResourceWarning"]
        self.expect(run_python(environment(), *options, "-c", script, self.folder / "site"), 0, texts.X + b"\n", b"")

    def test_page_files_that_may_only_be_read(self):
        """Their copies may be written, so that the next build can copy them again."""
        rendering, site = proved(".rendering"), self.folder / "a/site"
        page = shutil.copytree(rendering.PAGE, self.folder / "page")
        for path in (*page.iterdir(), page):
            path.chmod(0o555)
        with unittest.mock.patch.object(rendering, "PAGE", page):
            rendering.copy_page(site)
        self.assertEqual([bool(path.stat().st_mode & 0o200) for path in (site, *site.iterdir())], [True] * 3)

    def test_other_systems(self):
        """If the library does not run, the error of the import says what it needs."""
        [machine], [library] = (ask(environment(), ELSEWHERE, it) for it in ("machine", "C library"))
        self.assertEqual(machine, "latex2mathml_proved runs on Linux x86_64, and this is Linux aarch64")
        self.assertRegex(library, "^latex2mathml_proved needs the GNU C library, .*: no GLIBC_2.99$")


@requires_python()
class Calls(Case):
    @each_row(rows_of_lines("python.txt"))
    def give(self, *cases):
        for name, words, *answer in cases:
            with self.subTest(name.place):
                words = json.loads(words.expand())
                named = words.pop() if isinstance(words[-1], dict) else {}
                self.assertEqual(call(name.text, *words, **named), with_tags(b"\n".join(it.expand() for it in answer)).decode())

    def test_what_the_texts_show(self):
        """The examples of the README and of the package give the results that they show."""
        self.expect(run_python(environment(), "-m", "doctest", PACKAGE / "README.md"), 0, b"", b"")
        own = "import doctest, latex2mathml_proved; print(doctest.testmod(latex2mathml_proved))"
        self.expect(run_python(environment(), "-c", own), 0, b"TestResults(failed=0, attempted=3)\n", b"")

    def test_an_answer_larger_than_the_first_room(self):
        with unittest.mock.patch.multiple(proved("._library"), ROOM=1, ROOM_PER_BYTE=0):
            self.assertEqual((call("formula", "x<y"), call("document", "$x<y$")), (LESS, LESS))
            self.assertEqual(call("formula", "{x"), f"Refused: {UNCLOSED}")

    def test_little_memory(self):
        [answers] = ask(environment(), LITTLE_MEMORY, ["x" * 4_000_000, "x<y"])
        self.assertEqual(answers, ["latex2mathml: out of memory", LESS])

    def test_threads(self):
        formulas = [f"{{x_{number}" + "}" * (number % 2) for number in range(400)]
        alone = [call("formula", it) for it in formulas]
        with concurrent.futures.ThreadPoolExecutor(8) as pool:
            self.assertEqual(list(pool.map(functools.partial(call, "formula"), formulas)), alone)

    def test_brackets_behind_commands(self):
        """An optional argument is not part of what is drawn."""
        bracketed, plain = (re.sub("<[^>]*>", "", call("tex", latex)) for latex in ("\\smash[b]{x}", "\\smash{x}"))
        self.assertEqual(bracketed, plain)

    def test_each_formula_is_converted_once(self):
        rendering = proved(".rendering")
        for formula in ("x", "{x", "\\foo"):
            with unittest.mock.patch.object(rendering, "tex", wraps=rendering.tex) as calls:
                render(formula)
            self.assertEqual(calls.call_count, 1)


def render_with(macros, formula):
    """The markup of a formula and its fault, or why this value of the option is refused."""
    option = proved(".macros")
    try:
        return tuple(proved(".rendering").Renderer(definitions=option.definitions_of(macros)).render(formula))
    except option.MacroError as error:
        return str(error)


@requires_python()
class Macros(Case):
    def check(self, macros, formula, wanted):
        """The wanted contents of the element, or why the option is refused."""
        self.assertEqual(render_with(macros, formula), (texts.math(wanted).decode(), None) if wanted.startswith("<") else wanted)

    @each_row(rows_of_lines("macros.txt"))
    def are_read(self, *cases):
        for macros, formula, wanted in cases:
            with self.subTest(macros.place):
                self.check(json.loads(macros.text), formula.text, wanted.text)

    def test_a_file(self):
        file = self.folder / "macros.tex"
        for text, formula, wanted in (("% é\n\\newcommand{\\xx}{x}\n\\DeclareMathOperator{\\rank}{rank}\n", "\\xx", "<mi>x</mi>"),
                                      ("% é\n\\def\\a{é} \\usepackage{bm}", "x", f"{file}:2:11: not a definition"),
                                      (b"\xff", "x", f"{file}: not UTF-8")):
            put(self.folder, {"macros.tex": text})
            self.check(str(file), formula, wanted)

    def test_no_file(self):
        with self.assertRaisesRegex(FileNotFoundError, "none.tex"):
            render_with("none.tex", "x")

    def test_what_is_no_mapping(self):
        self.check([], "x", "macros: neither a mapping nor the path of a file: []")
