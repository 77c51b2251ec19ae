"""This repository's program: where it is, what it prints, and which of the language's commands it reads."""

import re
import subprocess
import sys
from dataclasses import dataclass
from pathlib import Path

sys.path.insert(0, str(Path(__file__).resolve().parent.parent))
from tests import cases

ROOT = Path(__file__).resolve().parent.parent
LAUNCHER = ROOT / "latex2mathml"
BINARY = ROOT / "crates" / "latex2mathml_app" / "out" / "latex2mathml_app"
TEX_LAUNCHER = ROOT / "tex2mathml"
TEX_BINARY = ROOT / "crates" / "latex2mathml_tex_app" / "out" / "latex2mathml_tex_app"
WRONG_WORDS = 2
# Kinds of tokens that represent themselves.
PLAIN = ("Letter", "Operator", "Paren", "Function", "Space", "NewLine")


@dataclass(frozen=True)
class Answer:
    """The result of one run of the program."""
    status: int
    output: str
    errors: str


def ask(program, word, text):
    """Runs the program once on one text."""
    run = subprocess.run([program, word], input=text.encode(), stdout=subprocess.PIPE, stderr=subprocess.PIPE)
    return Answer(run.returncode, run.stdout.decode(), run.stderr.decode())


def path():
    """Returns the built program. The launcher builds it first if it is missing or older than its sources."""
    subprocess.run([LAUNCHER, "inline"], input=b"", stdout=subprocess.DEVNULL, check=True)
    return BINARY


def tex_path():
    """Returns the built `tex2mathml`, in the same way."""
    subprocess.run([TEX_LAUNCHER], input=b"", stdout=subprocess.DEVNULL, check=True)
    return TEX_BINARY


def knows(program, word):
    """Whether the program has this argument."""
    return ask(program, word, "").status != WRONG_WORDS


def commands():
    """Returns the names of the command table: first those that act on what follows, then the others."""
    acting = [entry.name for entry in cases.commands() if entry.token.partition("(")[0] not in PLAIN]
    return acting, [entry.name for entry in cases.commands() if entry.name not in acting]


def is_unread(program, command):
    """Whether the program knows the command but marks it, since it does not yet read what follows. `\\right` and `\\end`
    are always marked if they are alone."""
    marked = re.search(r'\[PARSE ERROR: Undefined\("(\w+)', ask(program, "inline", "\\" + command).output)
    return marked is not None and marked[1] not in ("EOF", "Right", "End", "Command")
