"""Runs of the programs, and of the tools that use them: `cases/README.md` says how the files of `cases/runs` are written."""
import dataclasses
import functools
import itertools
import os
import re
import shlex
import shutil

from tests.cases import Line, WrongCase, blocks, grouped
from tests.environments import environment, run_python
from tests.integration import site, tex_answer_of
from tests.support import ROOT, Case, each_row, put, run, scratch, show, tex_program
from tests.texts import math

FORMULA = re.compile(r"<(inline|block)>(.*?)</\1>", re.DOTALL)

# What a line does, or of what it says something: a stream, the status, all files, those that the run kept, or one of them.
LINE = re.compile(r"(?P<action>file|copy|folder|link|in|run)(?: (?P<name>.+?))?(?::(?: |$)|$)|(?P<of>.+?)(?P<verb> has| counts| asks as|):(?: |$)")


def pandoc(words, converter=None, **more):
    """With the filter, and without wrapping lines, so that texts are found in the output."""
    filtered = ["--lua-filter", ROOT / "integrations/pandoc/latex2mathml.lua", "-M", f"latex2mathml-program={converter or tex_program()}"]
    return run(["pandoc", *filtered, "--wrap=preserve", *words], **more)


def mkdocs(words, **more):
    """What it says is that without colors and news."""
    done = run_python(environment("markdown", "mkdocs"), "-m", "mkdocs", *words, **more)
    said = re.sub(rb"\x1b\[\d+m", b"", done.stdout + done.stderr).splitlines(keepends=True)
    done.stdout, done.stderr = b"", b"".join(line for line in said if line.strip() and not line.startswith(b"INFO "))
    return done


def latex2mathml_site(words, **more):
    """What it says is that without the time that it took."""
    done = site(*words, **more)
    done.stdout = re.sub(rb", [0-9]+\.[0-9] s\n$", b"\n", done.stdout)
    return done


# how the first word of a command is run with the others
TOOLS = {
    "latex2mathml": lambda words, **more: run([ROOT / "latex2mathml", *words], **more),
    "tex2mathml": lambda words, **more: run([tex_program(), *words], **more),
    "pandoc": pandoc, "mkdocs": mkdocs, "latex2mathml-site": latex2mathml_site,
    "markdown": lambda words, **more: run_python(environment("markdown"), "-m", "markdown", "-x", "latex2mathml", *words, **more),
    "sphinx": lambda words, **more: run_python(environment("sphinx"), "-m", "sphinx", "-q", *words, **more),
    "python3": lambda words, **more: run_python(environment(), *words, **more),
}

# the folder of the case in the target of a link
HERE = "[here]"

# what a page requests
ASKING = re.compile(r"<(?:script|link|style)[^>]*>")


@functools.cache
def markup(display, given):
    """The `math` element with these contents, or that of a formula, which `tex2mathml` must not refuse."""
    if given.startswith("<m") or not given:
        return math(given, display).decode()
    converted = tex_answer_of(given, display)
    assert converted.startswith("<math "), f"{given} has no markup"
    return converted


def with_markup(text):
    """A text with the element in place of each formula between `<inline>` or `<block>`."""
    return FORMULA.sub(lambda it: markup(*it.groups()), text)


@dataclasses.dataclass
class Step:
    """A line of a case, with the texts of those that continue it."""
    line: Line
    texts: list

    @functools.cached_property
    def form(self):
        found = LINE.match(self.texts[0])
        if not found:
            raise WrongCase(f"{self.line.place}: this line says neither what is done nor what is due")
        return found

    @property
    def text(self):
        return self.line.expand("\n".join([self.texts[0][self.form.end():], *self.texts[1:]]))


def steps_of(lines):
    """The steps of a case. A line that begins with `|` continues the text before it."""
    steps = []
    for line in lines:
        if line.text.startswith("|"):
            steps[-1].texts.append(line.text[2:])
        else:
            steps.append(Step(line, [line.text]))
    return steps


def runs_of(name):
    """The cases of a file as rows for `each_row`: for each heading its cases."""
    cases = [(heading, steps_of(lines)) for heading, lines in blocks(f"runs/{name}")]
    for _, steps in cases:
        if all(step.form["action"] != "run" for step in steps):
            raise WrongCase(f"{steps[0].line.place}: a case runs something")
    return grouped(cases)


def files_of(folder):
    """The files below a folder, by their names: what they hold, and what the system knows about them."""
    paths = sorted(it for it in folder.rglob("*") if it.is_file())
    return {str(it.relative_to(folder)): (it.read_bytes(), it.stat().st_mode, it.stat().st_mtime_ns) for it in paths}


class Runs(Case):
    """The cases of a file of `cases/runs`, each in a folder of its own."""

    def __init_subclass__(cls, file=None):
        if file:
            cls.do_each = each_row(runs_of(file))(lambda self, *cases: self.do_all(cases))
        super().__init_subclass__()

    def run_as(self, tool, words, **more):
        return TOOLS[tool](words, **more)

    def do_all(self, cases):
        for steps in cases:
            with self.subTest(steps[0].line.place), scratch() as folder:
                self.do(folder, steps)

    def do(self, folder, steps):
        given, done = b"", None
        for at, step in enumerate(steps):
            action, name = step.form["action"], step.form["name"]
            if action == "file":
                put(folder, {name: step.text})
            elif action == "copy":
                shutil.copytree(ROOT / step.text.decode(), folder / name)
            elif action == "folder":
                (folder / name).mkdir(parents=True)
            elif action == "link":
                (folder / name).symlink_to(step.text.decode().replace(HERE, str(folder)))
            elif action == "in":
                given = step.text
            elif action == "run":
                due = itertools.takewhile(lambda it: it.form["of"], steps[at + 1:])
                done = self.run_tool(folder, os.fsdecode(step.text), given, {it.form["of"]: it.text for it in due})
            else:
                self.check(step, folder, done)

    def run_tool(self, folder, words, given, due):
        """Runs a tool. A stream of which nothing is said has to be empty, and the status 0."""
        tool, *words = shlex.split(words)
        self.before = files_of(folder)
        done = self.run_as(tool, words, stdin=given, cwd=folder, timeout=300)
        done.stderr = done.stderr.replace(bytes(folder) + b"/", b"")
        self.expect(done, int(due.get("status", 0)), *(None if stream in due else b"" for stream in ("out", "err")))
        return done

    def found(self, name, folder, done):
        """What there is under a name of the form."""
        if name == "links":
            targets = {str(it.relative_to(folder)): os.readlink(it).replace(str(folder), HERE) for it in folder.rglob("*") if it.is_symlink()}
            return ", ".join(f"{it} to {target}" for it, target in sorted(targets.items()))
        if name in ("files", "kept"):
            return " ".join(path for path, it in files_of(folder).items() if name == "files" or it == self.before.get(path))
        streams = {"out": done.stdout, "err": done.stderr, "status": str(done.returncode).encode()}
        return (streams[name] if name in streams else (folder / name).read_bytes()).decode(errors="backslashreplace")

    def check(self, step, folder, done):
        wanted = with_markup(step.text.decode(errors="backslashreplace"))
        found, verb, place = self.found(step.form["of"], folder, done), step.form["verb"], step.line.place
        if verb == " has":
            self.assertIn(wanted, found, place)
        elif verb == " counts":
            number, _, part = wanted.partition(" ")
            self.assertEqual(found.count(part), int(number), place)
        elif step.form["of"] == "kept":
            self.assertLessEqual(set(wanted.split()), set(found.split()), place)
        elif verb == " asks as":
            self.assertEqual(ASKING.findall(found), ASKING.findall((folder / wanted).read_text(encoding="utf-8")), place)
        elif found != wanted:
            # a difference of megabytes would take hours to show
            self.assertEqual(show(found), show(wanted), place)
            self.fail(f"{place}: they differ in what is left out")
