"""Formulas at the limits of macros that `tex2mathml` reads, many definitions, and large tables: for the tests and for `bench/`."""
import itertools
import string

from tests.cases import key_of, read

# a formula at a limit, and the contents of its element, or why it is refused
AT_LIMITS = {key_of(case.heading): (case.input.decode(), case.answer.decode()) for case in read("tex_limits.txt")}


def names(count):
    """This many names of four letters, none of which is a word that defines."""
    return ["".join(it) for it in itertools.islice(itertools.product(string.ascii_letters, repeat=4), count)]


def definitions(count):
    """A text of this many definitions, and a formula that uses the first and the last of them."""
    every = names(count)
    return "".join(f"\\def\\{name}{{x}}" for name in every), f"\\{every[0]} \\{every[-1]}"


def row(cells):
    """A table of one row."""
    return "\\begin{matrix}x" + "&x" * (cells - 1) + "\\end{matrix}"


def column(rows):
    """A table of rows of one cell."""
    return "\\begin{matrix}x" + "\\\\x" * (rows - 1) + "\\end{matrix}"


def nested(levels):
    return "\\begin{matrix}" * levels + "x" + "\\end{matrix}" * levels
