"""The texts that are measured. The same size always gives the same text."""

import random
import sys
from pathlib import Path

sys.path.insert(0, str(Path(__file__).resolve().parent.parent))
from tests import cases

SEED = 1
WORDS = ["the", "of", "a", "where", "function", "is", "for", "which", "energy", "and", "so", "that", "hence", "é", "—",
         "proof", "given", "by", "<em>limit</em>", "we", "have", "costs", "&dollar;3", "sum"]
REPEATED = ["x+1", "\\alpha ", "{a_b^c}"]


def formulas(heading=None):
    """Returns the formulas that people write: those under a heading, or all of them."""
    every = cases.read("formulas/everyday.txt")
    return [case.input.decode() for case in every if heading in (None, case.heading)]


def join(size, next_piece):
    """Joins pieces of a text, which are made from their numbers, up to about this many bytes."""
    pieces, length = [], 0
    while length < size:
        piece = next_piece(len(pieces) + 1)
        pieces.append(piece)
        length += len(piece.encode())
    return "".join(pieces)


def prose(size):
    """Returns only prose."""
    choice = random.Random(SEED)
    return join(size, lambda place: words(choice) + ". ")


def words(choice):
    return " ".join(choice.choices(WORDS, k=choice.randint(3, 30)))


def document(size):
    """Returns prose and formulas in turn. Every fifth formula is in a block."""
    choice = random.Random(SEED)
    every = formulas("In the benchmarks")

    def piece(place):
        sign = "$$" if place % 5 == 0 else "$"
        return f"{words(choice)} {sign}{choice.choice(every)}{sign} "
    return join(size, piece)


def real_formulas(size):
    """Returns the formulas that people write, one after another, with a word before each."""
    every = formulas()
    return join(size, lambda place: f"{WORDS[place % len(WORDS)]} ${every[place % len(every)]}$ ")


def repeat(formula, size):
    """Returns one formula that repeats another one, up to about this many bytes."""
    return formula * (size // len(formula.encode()))


def workloads():
    """Returns what is measured: the program's argument, a name, and a function from a size to the text."""
    documents = [("prose", prose), ("prose and formulas", document), ("real formulas", real_formulas)]
    return [("document", name, text) for name, text in documents] + [("inline", *load) for load in repeated()]


def repeated():
    """Returns formulas that repeat another one: its text as a name, and a function from a size to the formula."""
    return [(formula, lambda size, formula=formula: repeat(formula, size)) for formula in REPEATED]


def many_formulas(size):
    """Returns the formulas of the document `real_formulas`, as `tex2mathml --null` reads them: with a NUL after each."""
    return "".join(f"{formula}\0" for formula in real_formulas(size).split("$")[1::2])


def tex_workloads():
    """Returns what is counted for `tex2mathml`: the program's words, a name, and a function from a size to the text."""
    return [(["--null"], "tex2mathml real formulas", many_formulas),
            *(([], f"tex2mathml {formula}", text) for formula, text in repeated())]
