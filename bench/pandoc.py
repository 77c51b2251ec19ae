#!/usr/bin/env python3
"""Measures a page of formulas that people wrote, built by pandoc with the filter, with --mathml and with --katex. README.md says how."""
import argparse
import dataclasses
import json
import re
import subprocess
import sys
import tempfile
import time
import xml.etree.ElementTree as xml
from pathlib import Path

import browsers

HOUSE = Path(__file__).resolve().parent.parent
sys.path.insert(0, str(HOUSE / "diff"))
import found_formulas  # noqa: E402
import structure  # noqa: E402

FILTER = HOUSE / "integrations/pandoc/latex2mathml.lua"
KATEX = Path("/usr/share/nodejs/katex")


@dataclasses.dataclass
class Entry:
    """A way to build the page: its name, the arguments for pandoc, and the scripts and style sheets of the page."""

    name: str
    words: list
    scripts: list = dataclasses.field(default_factory=list)
    sheets: list = dataclasses.field(default_factory=list)
    is_drawn_by_script: bool = False


def entries(program):
    katex = KATEX / "dist"
    return [
        Entry("pandoc and the filter", ["--lua-filter", FILTER, "-M", f"latex2mathml-program={program}"]),
        Entry("pandoc --mathml", ["--mathml"]),
        Entry("pandoc --katex", [f"--katex={katex}/"], [katex / "katex.min.js"], [katex / "katex.min.css"], is_drawn_by_script=True),
    ]


def chosen(formulas, count):
    """Returns this many of the formulas, evenly spaced."""
    return [formulas[i * len(formulas) // count] for i in range(count)]


def source_of(formulas):
    """Returns a document with a paragraph for each formula."""
    fences = {True: "$$", False: "$"}
    return "".join(f"Formula {i}: {fences[is_block]}{latex}{fences[is_block]}\n\n" for i, (latex, is_block) in enumerate(formulas, 1))


def seconds(command, times):
    """Returns the least seconds that the command takes."""
    runs = []
    for _ in range(times):
        start = time.monotonic()
        subprocess.run(command, check=True, stdout=subprocess.DEVNULL, stderr=subprocess.DEVNULL, timeout=600)
        runs.append(time.monotonic() - start)
    return min(runs)


def katex_answers(formulas):
    """Returns what KaTeX makes of each formula, or None if it cannot read it."""
    done = subprocess.run(["node", HOUSE / "diff/katex.js", KATEX], input=json.dumps(formulas), stdout=subprocess.PIPE, text=True, check=True)
    return json.loads(done.stdout)


def page_answers(page):
    """Returns the markup of each formula of a page, or None if it has none."""
    paragraphs = page.split("<p>Formula ")[1:]
    return [(re.findall(r"<math.*?</math>", it, re.S) or [None])[0] for it in paragraphs]


def structure_of(markup):
    try:
        return markup and structure.structure(markup)
    except xml.ParseError:
        return None


def take_pictures(page, name, folder):
    """Takes a picture of a page in each browser that is installed."""
    folder.mkdir(exist_ok=True)
    for browser in browsers.installed():
        browsers.take_picture(page.resolve().as_uri(), folder.resolve() / f"{name}.{browser}.png", browser)


def size(files):
    return sum(file.stat().st_size for file in files)


def main():
    words = argparse.ArgumentParser(description=__doc__)
    words.add_argument("folder", type=Path, help="a folder with the Python files whose documentation has formulas")
    words.add_argument("--formulas", type=int, default=60, metavar="N", help="formulas of the page")
    words.add_argument("--times", type=int, default=5, metavar="N", help="runs of each, of which the least counts")
    words.add_argument("--pictures", type=Path, metavar="FOLDER", help="a folder for pictures of the pages in Chromium and Firefox")
    words.add_argument("--show", action="store_true", help="print each formula that is not drawn or drawn otherwise than by KaTeX")
    words = words.parse_args()
    formulas = chosen(found_formulas.formulas(words.folder), words.formulas)
    wanted = katex_answers(formulas)
    program = subprocess.run([HOUSE / "tools/built", "latex2mathml_tex_app"], check=True, stdout=subprocess.PIPE, text=True).stdout.strip()
    print(f"{'':22} {'seconds':>8} {'page':>9} {'scripts':>9} {'style sheets':>13} {'not drawn':>10} {'not as KaTeX':>13}")
    with tempfile.TemporaryDirectory() as name:
        source, page = Path(name, "page.md"), Path(name, "page.html")
        source.write_text(source_of(formulas), encoding="utf-8")
        for entry in entries(program):
            command = ["pandoc", "-s", "-M", "title=Formulas", *entry.words, "-o", page, source]
            spent = seconds(command, words.times)
            found = wanted if entry.is_drawn_by_script else page_answers(page.read_text(encoding="utf-8"))
            absent = [latex for (latex, _), markup in zip(formulas, found, strict=True) if markup is None]
            others = [latex for (latex, _), markup, katex in zip(formulas, found, wanted, strict=True)
                      if markup and katex and structure_of(markup) != structure_of(katex)]
            print(f"{entry.name:22} {spent:8.2f} {page.stat().st_size:9,} {size(entry.scripts):9,} {size(entry.sheets):13,} {len(absent):10} {len(others):13}")
            if words.pictures:
                take_pictures(page, entry.name.replace(" ", "-"), words.pictures)
            for latex in (*absent, *others) if words.show else ():
                print(f"    {latex}")


if __name__ == "__main__":
    sys.exit(main())
