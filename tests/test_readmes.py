"""The READMEs of the folder for people without Rattle, followed to the letter: in a copy of the folder or in a project next to it,
where no toolchain can be called."""
import os
import pathlib
import re
import shutil

from tests.environments import interpreter, requires_python
from tests.integration import answer_of, tex_answer_of
from tests.pages import code_blocks
from tests.support import ROOT, Case, dist, put, requires, run, scratch

PACKAGES = pathlib.Path("/usr/share/nodejs")  # Debian's

# Replaces the toolchain, at the front of the path.
TOOLCHAIN = '#!/bin/sh\necho "$0 is called" >&2\nexit 127\n'

MEMBER = "x_i^2 \\in \\mathbb{R}"  # the formula of their examples, without macros

MANIFEST = '[package]\nname = "site"\nversion = "0.1.0"\nedition = "2021"\n\n'

# The lines of the README for Python that make calls, with what they need.
PYTHON = """
import markdown
from latex2mathml_proved.macros import definitions_of

text = r"$x \\in \\R$"
definitions = definitions_of({mapping})
print(definitions)
print({page})

{renderer}
print(markup, fault)
"""


def commands(readme):
    """The commands of a README: the lines of its blocks of code that are not files, with those that a backslash continues."""
    blocks = re.findall(r"(?:^    .*\n)+", readme, re.MULTILINE)
    return [" ".join(line.split()) for block in blocks for line in block.replace("\\\n", " ").splitlines()]


class Readme(Case):
    @classmethod
    def setUpClass(cls):
        folder = cls.enterClassContext(scratch())
        toolchain = folder / "toolchain"
        put(toolchain, {"rt": TOOLCHAIN, "rattle": TOOLCHAIN})
        kept = {name: value for name, value in os.environ.items() if not name.startswith(("LATEX2MATHML", "PYTHON", "NODE_", "npm_"))}
        # what npm and cargo keep is there too, and neither has a network
        cls.environment = {**kept, "PATH": f"{toolchain}:{os.environ['PATH']}", "npm_config_offline": "true",
                           "npm_config_cache": str(folder / "npm"), "CARGO_NET_OFFLINE": "true", "CARGO_HOME": str(folder / "cargo")}

    def setUp(self):
        self.house = self.folder / "a house"  # a path may have spaces
        self.dist, self.project = self.house / "dist", self.house / "project"
        shutil.copytree(dist(), self.dist)
        self.project.mkdir()

    def readme(self, part):
        return (self.dist / part / "README.md").read_text(encoding="utf-8")

    def follow(self, command, cwd, path=None, **more):
        """Runs a command as a user's shell does, with a folder in front of the path."""
        environment = {**self.environment, **({"PATH": f"{path}:{self.environment['PATH']}"} if path else {})}
        return run(["sh", "-c", command], cwd=cwd, env=environment, timeout=300, **more)

    def do(self, command, cwd, path=None, stdout=None, stderr=None):
        self.expect(self.follow(command, cwd, path), stdout=stdout, stderr=stderr)


@requires("cc", "python3")
class OfTheFolder(Readme):
    @requires_python()
    def test_its_commands(self):
        """All of them, in order. Those for Python are for a virtual environment."""
        said = [it for it in commands(self.readme(".")) if re.match(r"printf |\./|c/|python3 ", it)]
        squares = [tex_answer_of("x_i^2", display) for display in ("inline", "block")]
        line, block, real = answer_of("x<y"), answer_of("x<y", "block"), tex_answer_of(MEMBER)
        wanted = [*squares, line, block, "", "", line, real, line, None, line]
        put(self.dist, {"a.txt": "Let $x<y$ be.", "site/b.html": "Let $$x<y$$ be."})
        self.expect(run([interpreter("ensurepip"), "-m", "venv", self.folder / "environment"], timeout=300))
        for command, answer in zip(said, wanted, strict=True):
            with self.subTest(command):
                due = (None, None) if answer is None else (f"{answer}\n".encode() if answer else b"", b"")
                self.do(command, self.dist, self.folder / "environment/bin", *due)
        self.assertEqual((self.dist / "a.html").read_text(), f"Let {line} be.")
        self.assertEqual((self.dist / "site/b.html").read_text(), f"Let {block} be.")


@requires_python("sphinx", "markdown", "mkdocs")
class OfThePackageForPython(Readme):
    def test_its_commands(self):
        """From the folder of the wheel on, they install it and build the examples, with the tools that the system has."""
        readme = self.readme("integrations/python")
        folder, _, behind = readme.partition("    cd ")[2].partition("\n")
        folder = self.house / folder
        first, *said = re.findall(r"^    ((?:python3|venv/bin/\w+) .*)$", behind, re.MULTILINE)
        self.assertEqual(first, "python3 -m venv venv")
        # as it says about tools that Debian has as packages
        python = interpreter("ensurepip", "sphinx", "markdown", "mkdocs")
        for command in (f"{python} -m venv --system-site-packages venv", *said):
            if not re.fullmatch(r"venv/bin/pip install \w+", command):
                self.do(command, folder)
        for page, count in ("out-sphinx/index.html", 6), ("out-markdown/page.html", 7), ("out-mkdocs/index.html", 5):
            with self.subTest(page):
                self.assertEqual((folder / page).read_text(encoding="utf-8").count("<math "), count)
        self.assertEqual(sorted(it.name for it in (folder / "page").iterdir()), ["latex2mathml.css", "latex2mathml.js"])
        self.check_code(readme, folder)

    def check_code(self, readme, folder):
        """The blocks of Python that no tool reads from a file of its own."""
        mapping, _, page, renderer = code_blocks(readme, "python")
        script = PYTHON.format(mapping=mapping, page=page, renderer=renderer)
        done = self.follow("venv/bin/python -", folder, stdin=script.encode())
        self.expect(done)
        *definitions, page, rendered = done.stdout.decode().strip().splitlines()
        for definition in ("\\newcommand{\\R}{\\mathbb{R}}", "\\newcommand{\\norm}[1]{\\lVert #1 \\rVert}",
                           "\\newcommand{\\pair}[2]{\\langle #1, #2 \\rangle}"):
            self.assertIn(definition, "".join(definitions))
        answer = tex_answer_of("x \\in \\mathbb{R}")
        self.assertEqual((page, rendered), (f'<p><span class="math">{answer}</span></p>', f"{answer} None"))


@requires("pandoc")
class OfTheFilterForPandoc(Readme):
    def test_its_commands(self):
        """In the folder, and in a project with the program on the path."""
        first, second, third = [it for it in commands(self.readme("integrations/pandoc")) if it.startswith("pandoc ")]
        self.do(first, self.dist)
        self.assertEqual((self.dist / "example.html").read_text().count("</math>"), 8)
        shutil.copy(self.dist / "integrations/pandoc/latex2mathml.lua", self.project)
        put(self.project, {"a.md": "---\ntitle: A\n---\n\n$\\R$ and $x_i^2$", "macros.tex": "\\newcommand{\\R}{x_i^2}"})
        square = tex_answer_of("x_i^2")
        for command, count in ((second, 1), (third, 2)):
            with self.subTest(command):
                self.do(command, self.project, self.dist)
                self.assertEqual((self.project / "a.html").read_text().count(square), count)

    def page_of(self, document):
        """What pandoc makes of a document, without a warning."""
        done = self.follow("pandoc --wrap=preserve --lua-filter dist/integrations/pandoc/latex2mathml.lua", self.house, self.dist,
                           stdin=document.encode())
        self.expect(done)
        return done.stdout.decode()

    def test_its_metadata(self):
        """Each block of it defines what the formulas after it use."""
        blocks = re.findall(r"^    ---\n((?:    .*\n)+?)    ---\n", self.readme("integrations/pandoc"), re.MULTILINE)
        first, second = ["---\n" + re.sub("^    ", "", block, flags=re.MULTILINE) + "---\n\n" for block in blocks]
        for head, uses in ((first, {"\\RR": "\\mathbb{R}", "\\norm{x}": "\\lVert x \\rVert", "\\half{x}": "\\frac{x}{2}"}),
                           (second, {"\\RR": "\\mathbb{R}", "\\rank": "\\operatorname{rank}"})):
            for use, meaning in uses.items():
                with self.subTest(use):
                    self.assertEqual(self.page_of(f"{head}${use}$"), f"<p>{tex_answer_of(meaning)}</p>\n")

    def test_its_reference(self):
        """A formula with a number, and a link to it."""
        [block] = re.findall(r"^    The sum .*\n\n    \$\$.*\n", self.readme("integrations/pandoc"), re.MULTILINE)
        page = self.page_of(re.sub("^    ", "", block, flags=re.MULTILINE))
        self.assertRegex(page, r'The sum <a href="#eq:sum"[^>]*>\(1\)</a> is known')
        self.assertIn('class="latex2mathml-number"', page)


@requires("npm", "node")
class OfThePackageForNode(Readme):
    def install(self, said):
        for command in said:
            self.do(command, self.project)

    def installs(self):
        """The two ways to install it, each a list of commands."""
        readme = self.readme("integrations/node")
        folder, file = [it for it in commands(readme) if it.startswith("npm install ")]
        return [folder], [re.search(r"`(npm pack [^`]*)`", readme)[1], file]

    def run_script(self, script, name):
        (self.project / name).write_text(script)
        return self.follow(f"NODE_PATH={PACKAGES} node {name}", self.project)

    def test_its_commands(self):
        """They install the package, as a folder and as a file that needs no folder."""
        for words in self.installs():
            with self.subTest(words):
                self.install(words)
                if len(words) > 1:
                    shutil.rmtree(self.dist)
                done = self.run_script("console.log(require('latex2mathml-proved').tex('x_i^2'))", "a.cjs")
                self.expect(done, stdout=f"{tex_answer_of('x_i^2')}\n".encode())
                shutil.rmtree(self.project)
                self.project.mkdir()

    def test_its_code(self):
        self.install(self.installs()[0])
        calls, plugin = code_blocks(self.readme("integrations/node"), "js")
        [imports] = re.findall(r"(?:^    import .*\n)+", self.readme("integrations/node"), re.MULTILINE)
        document = f"Let {answer_of('x<y')} be."
        with self.subTest("calls"):
            calls = re.sub(r"^document\((.*?)\);", r"console.log(document(\1));", calls, flags=re.MULTILINE)
            self.expect(self.run_script(calls, "a.cjs"), stdout=f"{document}\n".encode())
        with self.subTest("imports"):
            shows = "console.log(typeof remarkLatex2mathml, typeof rehypeLatex2mathml);\n"
            self.expect(self.run_script(f"{imports}\n{shows}", "a.mjs"), stdout=b"function function\n")
        with self.subTest("markdown-it"):
            if not (PACKAGES / "markdown-it").exists():
                self.skipTest("markdown-it not found")
            plugin = re.sub(r"^md\.render\((.*)\);", r"console.log(md.render(\1));", plugin, flags=re.MULTILINE)
            self.expect(self.run_script(plugin, "a.cjs"), stdout=f"<p>Let {tex_answer_of(MEMBER)} be.</p>\n\n".encode())

    def test_its_example(self):
        if not (PACKAGES / "markdown-it").exists():
            self.skipTest("markdown-it not found")
        self.install(self.installs()[0])
        [command] = [it for it in commands(self.readme("integrations/node")) if it.startswith("NODE_PATH=")]
        package = self.dist / "integrations/node"
        self.do(command, package)
        self.assertEqual((package / "example.html").read_text(encoding="utf-8").count("</math>"), 9)


@requires("cargo", "cc")
class OfTheCrateForRust(Readme):
    def test_its_command(self):
        """It makes a page from a document."""
        [command] = [it for it in commands(self.readme("integrations/rust")) if "cargo run" in it]
        crate = self.dist / "integrations/rust"
        self.do(command, crate)
        self.assertIn(f"Let {answer_of('x<y')} be.", (crate / "a.html").read_text(encoding="utf-8"))

    def test_its_code(self):
        """In a project with its lines for Cargo.toml, the last of which replaces the other crate with this one."""
        readme = self.readme("integrations/rust")
        dependency, replacement = re.findall(r"^    (latex2mathml = .*)$", readme, re.MULTILINE)
        [patch] = re.findall(r"^    (\[patch\..*)$", readme, re.MULTILINE)
        [lines] = code_blocks(readme, "rust")
        printed = f"Let {answer_of('x<y')} be.\n{tex_answer_of(MEMBER)}\n" 'marked as an error: Undefined("Command(\\"le\\")")\n'
        put(self.project, {"src/main.rs": (ROOT / "tests/rust/readme.rs").read_text().replace("LINES", lines)})
        for manifest in (f"[dependencies]\n{dependency}\n", f'[dependencies]\nlatex2mathml = "0.2"\n\n{patch}\n{replacement}\n'):
            with self.subTest(manifest):
                (self.project / "Cargo.toml").write_text(MANIFEST + manifest)
                (self.project / "Cargo.lock").unlink(missing_ok=True)
                self.do("cargo run --quiet", self.project, stdout=printed.encode(), stderr=b"")
