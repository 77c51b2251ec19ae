#!/usr/bin/env python3
"""Compares how a program, KaTeX and pandoc read formulas that people wrote. README.md says how."""
import argparse
import concurrent.futures
import json
import os
import shlex
import subprocess
import sys
import xml.etree.ElementTree as xml
from pathlib import Path

import found_formulas
import structure

HERE = Path(__file__).resolve().parent
MARKED = "[PARSE ERROR:"
KATEX = "/usr/share/nodejs/katex"


def answers_of_program(command, formulas):
    """Returns the markup of each formula, or None if the program refuses it or marks a part as wrong."""
    def ask(formula, is_block):
        words = shlex.split(command.replace("{display}", "block" if is_block else "inline"))
        run = subprocess.run(words, input=formula.encode(), stdout=subprocess.PIPE, stderr=subprocess.DEVNULL)
        markup = run.stdout.decode()
        return None if run.returncode or MARKED in markup else markup

    with concurrent.futures.ThreadPoolExecutor(os.cpu_count()) as pool:
        return list(pool.map(lambda it: ask(*it), formulas))


def answers_of_katex(folder, formulas):
    if not Path(folder, "package.json").is_file():
        sys.exit(f"compare_with_katex.py: there is no KaTeX in {folder}: Debian's package `katex` has it, or --katex names its folder")
    run = subprocess.run(["node", HERE / "katex.js", folder], input=json.dumps(formulas), stdout=subprocess.PIPE, text=True, check=True)
    return json.loads(run.stdout)


def answers_of_pandoc(formulas):
    """Gives pandoc one document with a paragraph for each formula. A formula that it does not read stays TeX, in a `span`."""
    document = json.loads(subprocess.run(["pandoc", "-t", "json"], input="", stdout=subprocess.PIPE, text=True, check=True).stdout)
    document["blocks"] = [{"t": "Para", "c": [{"t": "Math", "c": [{"t": "DisplayMath" if is_block else "InlineMath"}, formula]}]}
                          for formula, is_block in formulas]
    words = ["pandoc", "-f", "json", "-t", "html", "--mathml", "--wrap=none"]
    run = subprocess.run(words, input=json.dumps(document), stdout=subprocess.PIPE, stderr=subprocess.DEVNULL, text=True, check=True)
    paragraphs = run.stdout.split("<p>")[1:]
    assert len(paragraphs) == len(formulas)
    return [it[it.index("<math"):it.rindex("</math>") + len("</math>")] if "</math>" in it else None for it in paragraphs]


def structure_of(markup):
    try:
        return markup and structure.structure(markup)
    except xml.ParseError:
        return None


def share(part, whole):
    return f"{part} of {whole}, {part / whole:.1%}" if whole else "none"


def compare(formulas, ours, theirs, name, show):
    """Prints how many of the formulas that the other program reads our program draws, and how many as the other one reads them."""
    rows = [(formula, *map(structure_of, pair)) for (formula, _), *pair in zip(formulas, ours, theirs)]
    read = [it for it in rows if it[2] is not None]
    drawn = [it for it in read if it[1] is not None]
    alike = [it for it in drawn if it[1] == it[2]]
    print(f"{name} reads {share(len(read), len(rows))}")
    print(f"    the program draws, of these, {share(len(drawn), len(read))}")
    print(f"    and as {name} reads them {share(len(alike), len(read))}")
    for formula, left, right in [it for it in read if it[1] != it[2]][:show]:
        print(f"\n{formula}\n    program: {left}\n    {name}: {right}")


def main():
    words = argparse.ArgumentParser(description=__doc__)
    words.add_argument("folder", help="a folder with the Python files whose documentation has formulas")
    words.add_argument("--command", default=f"{HERE.parent / 'latex2mathml'} {{display}}", help="the program, with {display} for inline or block")
    words.add_argument("--katex", default=KATEX, help="the folder of KaTeX for Node")
    words.add_argument("--show", type=int, default=0, help="how many differences to print, for each of the two")
    words = words.parse_args()
    formulas = found_formulas.formulas(words.folder)
    ours = answers_of_program(words.command, formulas)
    print(f"the program draws {share(sum(it is not None for it in ours), len(formulas))}")
    for formula in [it for (it, _), markup in zip(formulas, ours) if markup is None][:words.show]:
        print(f"\n{formula}")
    compare(formulas, ours, answers_of_katex(words.katex, formulas), "KaTeX", words.show)
    compare(formulas, ours, answers_of_pandoc(formulas), "pandoc", words.show)


if __name__ == "__main__":
    sys.exit(main())
