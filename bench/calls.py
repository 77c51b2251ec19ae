#!/usr/bin/env python3
"""Measures how many formulas per processor second are converted by calls to the library for C from C, Python and Node, by a
process of the program for each and, if the folder of the Rust crate is given, by calls to the crate from Rust. The second
table has the instructions of one call, which do not depend on how busy the machine is. `--renew` counts only these, from C,
and writes them to calls.txt. It builds what it needs with cc, and the crate with cargo."""
import argparse
import importlib.util
import os
import pathlib
import shutil
import subprocess
import sys
import tempfile

HOUSE = pathlib.Path(__file__).resolve().parent.parent
sys.path += [str(HOUSE), str(HOUSE / "diff")]
import rust_crate  # noqa: E402
from tests.instructions import instructions  # noqa: E402

# The instructions of one call from C for each formula, as last counted by `--renew`. `tests/test_instructions.py` compares the
# library with them.
FIGURES = HOUSE / "bench/calls.txt"

FORMULAS = [
    "x<y",
    r"x_{a}^{b}+\alpha \leq 3.14",
    r"\int_0^\infty e^{-x^2}dx=\frac{\sqrt{\pi}}{2},\quad x\in[0,\infty)",
    r"\left(\sum_{k=1}^{n}a_kb_k\right)^2\leq\left(\sum_{k=1}^na_k^2\right)\sum_{k=1}^nb_k^2",
    r"\begin{pmatrix}\cos\theta&-\sin\theta\\\sin\theta&\cos\theta\end{pmatrix}\binom{x}{y}=\lambda\vec{v}+\mathbf{w}_1",
]
NODE = """const { formula } = require(process.argv[1]);
for (const latex of process.argv.slice(2)) {
    let calls = 0, taken, start = process.cpuUsage();
    do {
        for (let i = 0; i < 1000; i++) formula(latex, false);
        calls += 1000;
        taken = process.cpuUsage(start);
    } while (taken.user + taken.system < 2e6);
    console.log(Math.round(calls * 1e6 / (taken.user + taken.system)));
}"""


def processor():
    """Returns the processor seconds that this process and its children took."""
    return sum(os.times()[:4])


def a_second(convert, at_once):
    start, calls = processor(), 0
    while processor() - start < 2:
        for _ in range(at_once):
            convert()
        calls += at_once
    return calls / (processor() - start)


def module_of(path):
    spec = importlib.util.spec_from_file_location("latex2mathml", path)
    module = importlib.util.module_from_spec(spec)
    spec.loader.exec_module(module)
    return module


def words_of(command):
    return [line.split() for line in subprocess.run(command, check=True, capture_output=True, text=True).stdout.splitlines()]


def make_library(folder):
    """Makes a folder with the library for C."""
    subprocess.run([HOUSE / "tools/make-c-library", folder], check=True)
    return folder


def build(library, to):
    """Builds `calls.c`, the caller in C, with the library for C in a folder."""
    subprocess.run(["cc", "-O2", "-I", library, HOUSE / "bench/calls.c", library / "liblatex2mathml.a", "-o", to], check=True)
    return to


def a_call(program, latex):
    """Returns the instructions of one call, from a program that repeats it."""
    few, many = (instructions([program, "repeat", str(calls), latex]) for calls in (100, 1100))
    return (many - few) / 1000


def figures():
    """Returns the instructions of one call from C for each formula, as the file has them."""
    lines = [line.split(maxsplit=1) for line in FIGURES.read_text(encoding="utf-8").splitlines()]
    return {latex: int(count.replace(",", "")) for count, latex in lines}


def renew():
    """Counts the instructions of one call from C for each formula, and writes the file."""
    with tempfile.TemporaryDirectory() as scratch:
        program = build(make_library(pathlib.Path(scratch, "c")), pathlib.Path(scratch, "calls"))
        counts = [(a_call(program, latex), latex) for latex in FORMULAS]
    FIGURES.write_text("".join(f"{count:,.0f}  {latex}\n" for count, latex in counts), encoding="utf-8")
    print(FIGURES.read_text(encoding="utf-8"), end="")


def show_instructions(programs):
    print("bytes, instructions of a call from C, and of one of the crate from Rust, times fewer from C")
    for latex in FORMULAS:
        counts = [a_call(program, latex) for program in programs]
        compared = [f"{counts[1] / counts[0]:.2f}"] if len(counts) == 2 else []
        print(len(latex), *(f"{count:.0f}" for count in counts), *compared, flush=True)


def main():
    parser = argparse.ArgumentParser(description="Measures calls of the library for C.")
    parser.add_argument("--crate", metavar="FOLDER", help="the folder of the Rust crate latex2mathml 0.2.3, to compare")
    parser.add_argument("--renew", action="store_true", help="only count the instructions of calls from C, and write calls.txt")
    chosen = parser.parse_args()
    if chosen.renew:
        renew()
        return
    crate = chosen.crate
    program = HOUSE / "crates/latex2mathml_app/out/latex2mathml_app"
    subprocess.run([HOUSE / "latex2mathml", "inline"], input=b"", check=True, stdout=subprocess.DEVNULL)
    with tempfile.TemporaryDirectory() as scratch:
        library = make_library(pathlib.Path(scratch, "c"))
        subprocess.run([library / "examples/build"], check=True)
        caller = build(library, library / "calls")
        python = module_of(library / "examples/latex2mathml.py")
        from_c = words_of([caller, *FORMULAS])
        addon = library / "examples/latex2mathml.node"
        has_node = addon.exists() and shutil.which("node")
        from_node = words_of(["node", "-e", NODE, addon, *FORMULAS]) if has_node else [["-"]] * len(FORMULAS)
        programs = [caller]
        if crate:
            programs.append(rust_crate.build(crate, pathlib.Path(scratch, "driver")))
        from_rust = [float(count) for (count,) in words_of([programs[1], "calls", *FORMULAS])] if crate else [None] * len(FORMULAS)
        print("bytes, C in one call, C asking first, Python, Node, a process each, the crate from Rust, times faster from C")
        for latex, (size, once, twice), (node,), rust in zip(FORMULAS, from_c, from_node, from_rust):
            called = a_second(lambda: python.formula(latex), 1000)
            run = a_second(lambda: subprocess.run([program, "inline"], input=latex.encode(), stdout=subprocess.PIPE, check=True), 20)
            compared = [f"{rust:.0f}", f"{float(once) / rust:.2f}"] if rust else ["-", "-"]
            print(size, once, twice, f"{called:.0f}", node, f"{run:.0f}", *compared, flush=True)
        if shutil.which("valgrind"):
            show_instructions(programs)


if __name__ == "__main__":
    sys.exit(main())
