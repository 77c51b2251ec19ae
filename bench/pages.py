#!/usr/bin/env python3
"""Measures a page of Sphinx and one of MkDocs that have the formulas of a documentation: built with the extensions here, and in the
tools' usual ways. README.md says what is measured."""
import argparse
import dataclasses
import functools
import http.server
import pathlib
import sys
import tempfile
import threading
import urllib.parse
from collections.abc import Callable

import browsers
import integrations

sys.path.insert(0, str(integrations.HOUSE / "diff"))

import found_formulas  # noqa: E402

KATEX = pathlib.Path("/usr/share/javascript/katex")
ASKED = {".js", ".css", ".woff", ".woff2", ".ttf", ".otf"}

MATHJAX_LINES = 'mathjax_path = "engine/MathJax.js?config=TeX-AMS_CHTML"\n'
EXTENSION_LINES = 'extensions = ["latex2mathml_proved.sphinx"]\nhtml_math_renderer = "latex2mathml"\n'

THEME_LINES = "site_name: Formulas\ntheme: {name: mkdocs, highlightjs: false}\n"
PLUGIN_LINES = "plugins: [latex2mathml]\n"
KATEX_LINES = """
markdown_extensions: [{pymdownx.arithmatex: {generic: true}}]
extra_css: [engine/katex.min.css]
extra_javascript: [engine/katex.min.js, engine/contrib/auto-render.js, render.js]
"""
RENDER = "document.addEventListener('DOMContentLoaded', () => renderMathInElement(document.body, { throwOnError: false }));\n"


@dataclasses.dataclass
class Way:
    """A way to build the page: how it is written to a folder and built there, and the folder of the scripts that it links."""

    name: str
    write: Callable[[pathlib.Path, list], None]
    words: list
    engine: pathlib.Path | None = None


def sphinx(lines):
    def write(folder, formulas):
        (folder / "conf.py").write_text(lines, encoding="utf-8")
        (folder / "index.rst").write_text("Formulas\n========\n\n" + "".join(map(in_rst, formulas)), encoding="utf-8")
    return write


def in_rst(found):
    formula, is_block = found
    indented = formula.replace("\n", "\n   ")
    return f".. math::\n\n   {indented}\n\n" if is_block else f"A formula in a line is :math:`{formula}`.\n\n"


def mkdocs(lines):
    def write(folder, formulas):
        (folder / "docs").mkdir()
        (folder / "mkdocs.yml").write_text(THEME_LINES + lines, encoding="utf-8")
        (folder / "docs/index.md").write_text("# Formulas\n\n" + "".join(map(in_markdown, formulas)), encoding="utf-8")
        (folder / "docs/render.js").write_text(RENDER, encoding="utf-8")
    return write


def in_markdown(found):
    formula, is_block = found
    return f"$$\n{formula}\n$$\n\n" if is_block else f"A formula in a line is ${formula}$.\n\n"


SPHINX = ["-m", "sphinx", "-q", "-E", "-a", ".", "site"]
MKDOCS = ["-m", "mkdocs", "build", "-q"]
WAYS = [
    Way("Sphinx with the extension", sphinx(EXTENSION_LINES), SPHINX),
    Way("Sphinx with MathJax", sphinx(MATHJAX_LINES), SPHINX, integrations.MATHJAX),
    Way("MkDocs with the plugin", mkdocs(PLUGIN_LINES), MKDOCS),
    Way("MkDocs with arithmatex and KaTeX", mkdocs(KATEX_LINES), MKDOCS, KATEX),
]


class ListingHandler(http.server.SimpleHTTPRequestHandler):
    """Serves a folder, and lists the scripts, style sheets and fonts that are requested, in any thread."""

    asked = set()

    def send_head(self):
        path = pathlib.Path(self.translate_path(urllib.parse.urlsplit(self.path).path))
        if path.suffix in ASKED and path.is_file():
            ListingHandler.asked.add(path)
        return super().send_head()

    def log_message(self, *words):
        """Prints nothing: the script's output is its own lines."""


def draw(site, picture, browser="chromium"):
    """Takes a picture of the page of a site, and returns the bytes of what the browser requested."""
    ListingHandler.asked.clear()
    with http.server.ThreadingHTTPServer(("127.0.0.1", 0), functools.partial(ListingHandler, directory=site)) as server:
        threading.Thread(target=server.serve_forever, daemon=True).start()
        browsers.take_picture(f"http://127.0.0.1:{server.server_port}/index.html", picture, browser)
        server.shutdown()
    return sum(path.stat().st_size for path in ListingHandler.asked)


def build(way, python, folder, formulas):
    """Builds a page in a new folder, and returns the folder and the least seconds of three builds."""
    folder.mkdir()
    way.write(folder, formulas)
    seconds, _ = integrations.measure(["env", "-C", folder, python, *way.words], 3)
    if way.engine:
        inner = folder / "site/_static" if (folder / "conf.py").exists() else folder / "site"
        (inner / "engine").symlink_to(way.engine)
    return folder, seconds


def main():
    parser = argparse.ArgumentParser(description=__doc__)
    parser.add_argument("folder", metavar="FOLDER", help="the folder of the Python files whose documentation has the formulas")
    parser.add_argument("--formulas", type=int, default=60, metavar="N", help="formulas of a page")
    parser.add_argument("--pictures", type=pathlib.Path, metavar="FOLDER", help="a folder for pictures of the pages")
    options = parser.parse_args()
    formulas = found_formulas.formulas(options.folder)[:options.formulas]
    with tempfile.TemporaryDirectory() as name:
        tools = integrations.Tools(pathlib.Path(name))
        pictures = options.pictures or tools.folder
        pictures.mkdir(exist_ok=True)
        print(f"{len(formulas)} formulas{'':22} {'seconds':>8} {'page':>10} {'asked for':>10}")
        for number, way in enumerate(WAYS):
            plain, _ = build(dataclasses.replace(way, engine=None), tools.python(), tools.folder / f"plain-{number}", [])
            made, seconds = build(way, tools.python(), tools.folder / f"way-{number}", formulas)
            picture = pictures.resolve() / f"{way.name.lower().replace(' ', '-')}.png"
            asked = draw(made / "site", picture) - draw(plain / "site", pictures.resolve() / "plain.png")
            print(f"{way.name:34} {seconds:8.2f} {(made / 'site/index.html').stat().st_size:10,} {asked:10,}")
            if options.pictures and "firefox" in browsers.installed():
                draw(made / "site", picture.with_suffix(".firefox.png"), "firefox")
        (pictures / "plain.png").unlink()


if __name__ == "__main__":
    sys.exit(main())
