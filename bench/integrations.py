#!/usr/bin/env python3
"""Measures a page of 1,000 formulas built by the integrations, beside what one would take instead: seconds, the bytes of the page,
and those of the scripts that a reader's browser runs. What is not installed is left out, and named at the end."""
import argparse
import dataclasses
import os
import pathlib
import re
import shutil
import subprocess
import sys
import tempfile
import time
from collections.abc import Callable

import workloads

HOUSE = pathlib.Path(__file__).resolve().parent.parent
FORMULAS = [formula for formula in workloads.formulas("In the benchmarks") if "$" not in formula]
PAGE_SCRIPT = HOUSE / "page/latex2mathml.js"

SYSTEM_PYTHON, SYSTEM_PACKAGES = "/usr/bin/python3", pathlib.Path("/usr/lib/python3/dist-packages")
NODE_PACKAGES = pathlib.Path("/usr/share/nodejs")
MATHJAX = pathlib.Path("/usr/share/javascript/mathjax")
# What MathJax loads for a page of TeX, apart from fonts.
MATHJAX_PARTS = ["MathJax.js", "config/TeX-MML-AM_CHTML.js", "jax/output/CommonHTML/fonts/TeX/fontdata.js"]

KATEX_SCRIPT = """
const katex = require('katex');
const { FORMULA, findFormulas } = require(process.argv[1] + '/delimiters.js');
const md = require('markdown-it')();
findFormulas(md);
md.renderer.rules[FORMULA] = (tokens, i) => katex.renderToString(tokens[i].content, {
    displayMode: tokens[i].meta.isBlock, throwOnError: false, strict: 'ignore',
});
"""
PLUGIN_SCRIPT = """
const md = require('markdown-it')().use(require(process.argv[1] + '/markdown-it.js'), { warn() {} });
"""
RENDER = """
const { readFileSync, writeFileSync } = require('fs');
writeFileSync(process.argv[3], md.render(readFileSync(process.argv[2], 'utf8')));
"""


@dataclasses.dataclass
class Entry:
    """A way to build the page: the command for a source and a page, what it needs, and the scripts of the page."""

    name: str
    command: Callable[["Tools", pathlib.Path, pathlib.Path], list]
    needs: list
    scripts: list


class Tools:
    """What the integrations need, built at first use."""

    def __init__(self, folder):
        self.folder = folder
        self.program = self.built_program("latex2mathml_tex_app")
        self.node = folder / "integrations/node"

    @staticmethod
    def built_program(crate):
        done = subprocess.run([HOUSE / "tools/built", crate], check=True, stdout=subprocess.PIPE, text=True)
        return pathlib.Path(done.stdout.strip())

    def python(self):
        """Returns the Python of an environment in which the wheel is installed, in addition to what the system has."""
        environment = self.folder / "python"
        if not environment.exists():
            library, wheels = self.folder / "c", self.folder / "wheels"
            subprocess.run([HOUSE / "tools/make-c-library", library], check=True)
            subprocess.run([HOUSE / "tools/make-wheel", library, wheels], check=True, stdout=subprocess.DEVNULL)
            subprocess.run([SYSTEM_PYTHON, "-m", "venv", "--system-site-packages", environment], check=True)
            subprocess.run([environment / "bin/pip", "--quiet", "install", "--no-index", *wheels.glob("*.whl")], check=True)
        return environment / "bin/python"

    def node_package(self):
        if not self.node.exists():
            shutil.copytree(HOUSE / "integrations/node", self.node, ignore=shutil.ignore_patterns("build", "lib"))
            subprocess.run([HOUSE / "tools/make-c-library", self.node / "lib"], check=True)
            subprocess.run([self.node / "make-addon"], check=True)
        return self.node


def pandoc(*words):
    return lambda tools, source, page: ["pandoc", "--quiet", "-s", *words, "-o", page, source]


def pandoc_with_filter(tools, source, page):
    words = ["--lua-filter", HOUSE / "integrations/pandoc/latex2mathml.lua", "-M", f"latex2mathml-program={tools.program}"]
    return pandoc(*words)(tools, source, page)


def python_markdown(extension, **options):
    script = f"""
import sys, markdown
markdown.markdownFromFile(
    input=sys.argv[1], output=sys.argv[2], extensions=[{extension!r}], extension_configs={{{extension!r}: {options!r}}})
"""
    return lambda tools, source, page: [tools.python(), "-c", script, source, page]


def sphinx(renderer, extension):
    """Builds a project whose only page is the source."""
    def command(tools, source, page):
        project = tools.folder / renderer
        project.mkdir()
        (project / "conf.py").write_text(f"extensions = [{extension!r}]\nhtml_math_renderer = {renderer!r}\n", encoding="utf-8")
        (project / "index.rst").write_text(in_rst(source.read_text(encoding="utf-8")), encoding="utf-8")
        build = '"$0" -m sphinx -q -E -a "$1" "$1/out" && cp "$1/out/index.html" "$2"'
        return ["sh", "-c", build, tools.python(), project, page]
    return command


def in_rst(source):
    return "Formulas\n========\n\n" + re.sub(r"\$(.*?)\$", r":math:`\1`", source)


def node(script):
    return lambda tools, source, page: ["node", "-e", script + RENDER, "--", tools.node_package(), source, page]


SPHINX, PYTHON_MARKDOWN = [SYSTEM_PACKAGES / "sphinx"], [SYSTEM_PACKAGES / "markdown"]
MARKDOWN_IT = ["node", NODE_PACKAGES / "markdown-it"]
ENTRIES = [
    Entry("Sphinx and the extension", sphinx("latex2mathml", "latex2mathml_proved.sphinx"), SPHINX, []),
    Entry("Sphinx, mathjax", sphinx("mathjax", "sphinx.ext.mathjax"), [*SPHINX, MATHJAX], [MATHJAX / part for part in MATHJAX_PARTS]),
    Entry("Sphinx, imgmath", sphinx("imgmath", "sphinx.ext.imgmath"), [*SPHINX, "latex", "dvipng"], []),
    Entry("Python-Markdown, the extension", python_markdown("latex2mathml"), PYTHON_MARKDOWN, []),
    Entry("Python-Markdown, for MathJax", python_markdown("mdx_math", enable_dollar_delimiter=True),
          [*PYTHON_MARKDOWN, SYSTEM_PACKAGES / "mdx_math.py", MATHJAX], [MATHJAX / part for part in MATHJAX_PARTS]),
    Entry("pandoc and the filter", pandoc_with_filter, ["pandoc"], []),
    Entry("pandoc --mathml", pandoc("--mathml"), ["pandoc"], []),
    Entry("pandoc --mathjax", pandoc("--mathjax"), ["pandoc", MATHJAX], [MATHJAX / part for part in MATHJAX_PARTS]),
    Entry("markdown-it and the plugin", node(PLUGIN_SCRIPT), MARKDOWN_IT, []),
    Entry("markdown-it and KaTeX", node(KATEX_SCRIPT), [*MARKDOWN_IT, NODE_PACKAGES / "katex"], []),
]


def source_of(count):
    """Returns a document with this many formulas, no two of them the same."""
    return "".join(f"Formula {i} is ${FORMULAS[i % len(FORMULAS)]} + x_{{{i}}}$ here.\n\n" for i in range(count))


def is_there(need):
    return need.exists() if isinstance(need, pathlib.Path) else shutil.which(need) is not None


def measure(command, times):
    """Returns the least wall-clock seconds and the least processor seconds that the command takes."""
    environment = {**os.environ, "NODE_PATH": str(NODE_PACKAGES)}
    runs = []
    for _ in range(times):
        start, before = time.monotonic(), os.times()
        subprocess.run(command, check=True, env=environment, stdout=subprocess.DEVNULL, stderr=subprocess.DEVNULL, timeout=600)
        after = os.times()
        used = sum(getattr(after, it) - getattr(before, it) for it in ("children_user", "children_system"))
        runs.append((time.monotonic() - start, used))
    return tuple(map(min, zip(*runs)))


def main():
    parser = argparse.ArgumentParser(description=__doc__)
    parser.add_argument("--formulas", type=int, default=1000, metavar="N", help="formulas of the page")
    parser.add_argument("--times", type=int, default=3, metavar="N", help="runs of each, of which the least counts")
    options = parser.parse_args()
    absent = []
    print(f"{'':30} {'seconds':>8} {'processor':>10} {'page':>10} {'formulas':>9} {'scripts':>9}")
    with tempfile.TemporaryDirectory() as name:
        folder = pathlib.Path(name)
        tools = Tools(folder)
        source = folder / "page.md"
        source.write_text(source_of(options.formulas), encoding="utf-8")
        for entry in ENTRIES:
            if not all(map(is_there, entry.needs)):
                absent.append(entry.name)
                continue
            page = folder / "page.html"
            wall, used = measure(entry.command(tools, source, page), options.times)
            markup = page.read_text(encoding="utf-8")
            drawn = len(re.findall(r'<math |<span\s+class="math[^>]*>(?!<)|<script type="math|<img class="math"', markup))
            scripts = sum(script.stat().st_size for script in entry.scripts)
            print(f"{entry.name:30} {wall:8.2f} {used:10.2f} {len(markup.encode()):10,} {drawn:9,} {scripts:9,}")
    if absent:
        print(f"not installed, and left out: {', '.join(absent)}")


if __name__ == "__main__":
    sys.exit(main())
