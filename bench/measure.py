#!/usr/bin/env python3
"""Measures the program, and also the Rust crate if its folder is given. README.md says what is printed."""

import argparse
import subprocess
import sys
import tempfile
from dataclasses import dataclass
from pathlib import Path

import workloads

ROOT = Path(__file__).resolve().parent.parent
sys.path += [str(ROOT), str(ROOT / "diff")]
import program  # noqa: E402
import rust_crate  # noqa: E402
from tests.instructions import instructions  # noqa: E402

MEGABYTE = 1_000_000

# The instructions of each workload, as last counted by `--renew`. `tests/test_instructions.py` compares the program with them.
FIGURES = ROOT / "bench/instructions.txt"
COUNTED = 300_000


@dataclass(frozen=True)
class Measure:
    """One run: processor seconds, and the peak memory in megabytes."""
    seconds: float
    memory: float


def run(command, path):
    """Runs a command over a file, without keeping its output. GNU time starts it because it is small: a child of this
    script would be counted with the script's memory."""
    with open(path, "rb") as text:
        ended = subprocess.run(["time", "-q", "-f", "%U %S %M", *command], stdin=text, stdout=subprocess.DEVNULL,
                               stderr=subprocess.PIPE, check=True)
    user, system, kilobytes = ended.stderr.split()[-3:]
    return Measure(float(user) + float(system), float(kilobytes) * 1024 / MEGABYTE)


def least(command, path, times):
    """Returns the least of several runs, because other work on the machine only adds time."""
    measures = [run(command, path) for _ in range(times)]
    return Measure(min(one.seconds for one in measures), min(one.memory for one in measures))


def count_instructions(command, word, text):
    """Returns the instructions of a run of the program, or of the crate's driver, over a workload."""
    return instructions([*command, word], text(COUNTED).encode())


def count_tex(command, words, text):
    """Returns the instructions of a run of `tex2mathml` over a workload."""
    return instructions([command, *words], text(COUNTED).encode())


def figures():
    """Returns the instructions of each workload, by its name, as the file has them."""
    lines = [line.split(maxsplit=1) for line in FIGURES.read_text(encoding="utf-8").splitlines()]
    return {name: int(count.replace(",", "")) for count, name in lines}


def renew():
    """Counts the instructions of each workload of both programs, and writes the file."""
    counts = [(count_instructions([program.path()], word, text), name.strip()) for word, name, text in workloads.workloads()]
    counts += [(count_tex(program.tex_path(), words, text), name.strip()) for words, name, text in workloads.tex_workloads()]
    FIGURES.write_text("".join(f"{count:,}  {name}\n" for count, name in counts), encoding="utf-8")
    print(FIGURES.read_text(encoding="utf-8"), end="")


def ratio(ours, theirs):
    return f"{ours / theirs:6.2f}" if theirs else "     -"


def show_times(name, commands, path, times):
    """Prints one line: seconds, megabytes per second and memory of the program, and of the crate with the ratios."""
    size = path.stat().st_size / MEGABYTE
    measures = [least(command, path, times) for command in commands]
    columns = [f"{one.seconds:8.2f} s {size / max(one.seconds, 0.01):8.1f} MB/s {one.memory:8.0f} MB"
               for one in measures]
    if len(measures) == 2:
        ours, theirs = measures
        columns.append(f"ratios {ratio(ours.seconds, theirs.seconds)} {ratio(ours.memory, theirs.memory)}")
    print(f"{name:20} {size:5.1f} MB  " + "   ".join(columns), flush=True)


def show_instructions(word, name, text, programs):
    """Prints one line: instructions of the program, in total and per byte of the text, and those of the crate with the ratio."""
    size = len(text(COUNTED).encode())
    counts = [count_instructions([one], word, text) for one in programs]
    columns = [f"{count:14,} {count / size:8.0f} a byte" for count in counts]
    if len(counts) == 2:
        columns.append(f"ratio {ratio(*counts)}")
    print(f"{name:20} {size / MEGABYTE:5.1f} MB  " + "   ".join(columns), flush=True)


def arguments():
    parser = argparse.ArgumentParser(description="Measures the program's time, memory and instructions.")
    parser.add_argument("--crate", metavar="FOLDER", help="the folder of the Rust crate latex2mathml 0.2.3, to compare")
    parser.add_argument("--megabytes", type=int, nargs="*", default=[1, 4, 16], metavar="N")
    parser.add_argument("--times", type=int, default=3, metavar="N", help="how often each is run; the least counts")
    parser.add_argument("--no-instructions", action="store_true", help="do without valgrind")
    parser.add_argument("--renew", action="store_true", help="only count the program's instructions, and write instructions.txt")
    return parser.parse_args()


def main():
    chosen = arguments()
    if chosen.renew:
        renew()
        return
    with tempfile.TemporaryDirectory() as folder:
        programs = [program.path()]
        if chosen.crate:
            programs.append(rust_crate.build(chosen.crate, f"{folder}/driver"))
        print("the program" + " and the crate" * (len(programs) - 1))
        path = Path(folder) / "text"
        measured = [load for load in workloads.workloads() if program.knows(programs[0], load[0])]
        for word, name, text in measured:
            for megabytes in chosen.megabytes:
                path.write_text(text(megabytes * MEGABYTE), encoding="utf-8", newline="")
                show_times(name, [[one, word] for one in programs], path, chosen.times)
        if not chosen.no_instructions:
            for word, name, text in measured:
                show_instructions(word, name, text, programs)
        for word in {load[0] for load in workloads.workloads()} - {load[0] for load in measured}:
            print(f"the program at hand does not know the word {word} yet")


if __name__ == "__main__":
    main()
