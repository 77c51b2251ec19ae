#!/usr/bin/env python3
"""Measures what `tex2mathml` takes at the limits of macros, for many definitions and for large tables. README.md says what is printed."""

import subprocess
import sys
import tempfile
from pathlib import Path

ROOT = Path(__file__).resolve().parent.parent
sys.path.insert(0, str(ROOT))
from tests.instructions import instructions  # noqa: E402
from tests.support import tex_program  # noqa: E402
from tests.tex_limits import AT_LIMITS, column, definitions, nested, row  # noqa: E402

TIMES = 3
MEGABYTE = 1_000_000
TABLES = {
    "a row of 1,000,000 cells": row(1_000_000),
    "1,000,000 rows": column(1_000_000),
    "tables nested 100,000 deep": nested(100_000),
}


def measured(command, given):
    """Returns the status of a command, its processor seconds and its peak memory in megabytes: the least of a few runs, since
    other work only adds time. GNU time starts it, because it is small: a child of this script would be counted with its memory."""
    found = []
    for _ in range(TIMES):
        done = subprocess.run(["time", "-q", "-f", "%U %S %M", *command], input=given, stdout=subprocess.DEVNULL, stderr=subprocess.PIPE)
        user, system, kilobytes = done.stderr.split()[-3:]
        found.append((float(user) + float(system), float(kilobytes) * 1024 / MEGABYTE))
    return done.returncode, min(it[0] for it in found), min(it[1] for it in found)


def show(name, size, command, given):
    """Prints one line of the table in README.md."""
    status, seconds, memory = measured(command, given)
    count = instructions(command, stdin=given, timeout=600, status=status)
    print(f"| {name} | {size:,} | {count / MEGABYTE:,.0f} million | {seconds:.2f} | {memory:,.0f} MB |", flush=True)


def main():
    program = str(tex_program())
    print("| Formula | Bytes | Instructions | Seconds | Peak memory |\n|---|---|---|---|---|")
    for name, (formula, answer) in AT_LIMITS.items():
        show(name + ", refused" * (not answer.startswith("<")), len(formula.encode()), [program], formula.encode())
    with tempfile.TemporaryDirectory() as folder:
        file = Path(folder) / "macros.tex"
        for count in (10_000, 40_000):
            defined, formula = definitions(count)
            file.write_text(defined, encoding="utf-8")
            show(f"{count:,} definitions in a file", len(defined), [program, "--definitions", str(file)], formula.encode())
            show(f"{count:,} definitions in the formula", len(defined + formula), [program], (defined + formula).encode())
    for name, formula in TABLES.items():
        show(name, len(formula), [program], formula.encode())


if __name__ == "__main__":
    main()
