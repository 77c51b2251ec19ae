"""The recipes for site builders, followed to the letter: the files and commands are those of recipes.md."""
import os
import re
import shutil

from tests.environments import environment, requires_python
from tests.integration import tex
from tests.pages import code_blocks, read, section
from tests.support import ROOT, Case, put, requires, run, run_folder

RECIPES = read("integrations/recipes.md")

LINE = "x<y_a * b_c"
BLOCK = "\\begin{aligned} a & \\leq b \\\\ c & = d \\end{aligned}"


def blocks(name, language):
    """The code of a section in one language."""
    return code_blocks(section(RECIPES, name), language)


@requires_python()
class Builders(Case):
    """The sites of `tests/recipes`, of one page, which has a formula of each kind, a price, and dollar signs in code."""

    def setUp(self):
        self.site = self.folder / "site"
        path = f"{environment().parent}:{os.environ['PATH']}"
        self.environment = {**os.environ, "PATH": path, "XDG_CACHE_HOME": str(run_folder() / "caches")}

    def build(self, name, added=(), edit=lambda command: command, **more):
        """Runs the commands of a section in its site, with added files, and returns the last line of `latex2mathml-site`."""
        shutil.copytree(ROOT / "tests/recipes" / name.lower(), self.site)
        put(self.site, dict(added))
        [command] = blocks(name, "sh")
        done = run(["sh", "-c", edit(command)], cwd=self.site, env={**self.environment, **more}, timeout=300)
        self.expect(done, stdout=None, stderr=None)
        return done.stdout.decode().strip().split("\n")[-1]

    def check(self, page, said):
        line, block = tex(LINE, [BLOCK, True])
        self.assertIn(f"Let {line} cost $5 and $6.", page)
        self.assertIn(block, page)
        self.assertNotIn("language-math", page)
        self.assertRegex(page, r"<code[^>]*>\$x\$</code>")
        self.assertIn("$HOME", page)
        self.assertRegex(said, r"^latex2mathml-site: [1-9]\d* pages?, 1 changed, 2 formulas converted, 0 refused, ")

    @requires("hugo")
    def test_hugo(self):
        [shortcode] = blocks("Hugo", "html")
        said = self.build("Hugo", {"layouts/shortcodes/m.html": shortcode})
        self.check((self.site / "public/posts/one/index.html").read_text(), said)
        feed = (self.site / "public/posts/index.xml").read_text()
        self.assertIn("\\(", feed)
        self.assertIn("cost $5 and $6.", feed)

    @requires("jekyll")
    def test_jekyll(self):
        said = self.build("Jekyll")
        self.check((self.site / "_site/index.html").read_text(), said)

    @requires("cargo")
    def test_rustdoc(self):
        [comment] = blocks("rustdoc", "rust")
        source = comment + (ROOT / "tests/recipes/rustdoc/src/macro.rs").read_text()
        # cargo must not use the network
        self.build("rustdoc", {"src/lib.rs": source}, lambda it: it.replace("cargo doc", "cargo doc --quiet --offline"),
                   CARGO_TARGET_DIR=str(self.site / "target"), CARGO_HOME=str(self.folder / "cargo"))
        page = (self.site / "target/doc/mean/index.html").read_text()
        self.assertIn("The mean is {}.".format(*tex("\\frac{x + y}{2} \\leq x_{\\max}")), page)
        self.assertIn("<code>$x$</code> for $5", page)
        self.assertIn("$a", (self.site / "target/doc/mean/macro.m.html").read_text())

    def test_each_command_is_the_one_that_there_is(self):
        """Its options are those that it has, in all sections."""
        usage = run([environment().parent / "latex2mathml-site", "--help"]).stdout.decode()
        options = " ".join(re.findall(r"latex2mathml-site((?: --?[a-z]+)*)", RECIPES))
        for option in re.findall(r"--[a-z]+", options):
            self.assertIn(option, usage)


@requires_python()
class Checks(Case):
    def test_before_a_commit(self):
        """The hook's command fails if a formula is refused, and changes nothing."""
        [entry] = re.findall(r"^ *entry: (.*)$", section(RECIPES, "Before each commit"), re.MULTILINE)
        path = {**os.environ, "PATH": f"{environment().parent}:{os.environ['PATH']}"}
        for text, status in (("$x$", 0), ("$\\foo$", 1)):
            put(self.folder, {"public/a.html": text})
            self.expect(run(["sh", "-c", entry], cwd=self.folder, env=path), status, None, None)
            self.assertEqual((self.folder / "public/a.html").read_text(), text)
