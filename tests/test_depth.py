"""Formulas that are a million nodes deep, or as wide, on a stack of 8 MiB: printed. Formulas a quarter as deep, on a quarter of that
stack: in a style, cut off, and dropped after a refusal or a refused request for memory. Both leave 8 bytes of stack per node.

Each kind of node and each place in it is tried, nested in itself; `cases/nested.txt` has them.
"""
import re

import pytest

from tests import faulty, support
from tests.nesting import kinds_of
from tests.texts import NO_MEMORY, OPEN, error, math

pytestmark = [pytest.mark.long, pytest.mark.timeout(1800)]

# The most bytes that such a formula takes per token, besides the memory for the text and the answer, and what every run takes.
# An accent or a root without braces takes most: a frame of 32 bytes, a part of 40, and what is to be written, of 16. Their lists
# have room for 2^20 members or 2^18, which is 5 % more than there are. All others were counted with at most 81 bytes.
MOST_EACH = 93
OWN_BYTES = 64 << 10

# what `\middle` refuses, whatever follows
NO_STRETCH = 'There must be a parenthesis after "Middle", but not found. Insted, "Middle" is found.'

# the end of a text, if it is read as an error
MISSING = '<mtext>[PARSE ERROR: Undefined("EOF")]</mtext>'

# A token. The name of an environment counts as one: its letters are kept as a text.
TOKEN = re.compile(r"\\(?:[A-Za-z]+|.)|(?<=\\begin)\{\w+\}|(?<=\\end)\{\w+\}|\d+|\S")

KINDS = {name: (kind,) for name, kind in kinds_of("nested.txt").items()}


def count_tokens(make, levels):
    """The number of tokens of a formula with these levels. Each level except the first has equally many."""
    one, two = (len(TOKEN.findall(make(times))) for times in (1, 2))
    return one + (levels - 1) * (two - one)


def room_of(text):
    """The capacity of a text that is doubled when it is full."""
    return 1 << (len(text) - 1).bit_length()


class Depth(support.Case):
    nodes = 1_000_000
    limited = {"preexec_fn": support.limit(STACK=8 << 20)}

    def answers(self, formula, contents, tokens):
        """Checks the whole markup, byte for byte, and the peak memory."""
        done, counts = faulty.counts_of([support.program(), "inline"], stdin=formula.encode(), **self.limited)
        self.assertEqual((done.returncode, done.stderr), (0, b""))
        self.assertTrue(done.stdout == math(contents) + b"\n", f"answered {support.show(done.stdout)}")
        rooms = room_of(formula.encode()) + room_of(done.stdout)
        most = rooms + MOST_EACH * tokens + OWN_BYTES
        self.assertLessEqual(counts["peak"], most, f"{rooms:,} bytes of room, and {tokens:,} tokens")

    def is_refused(self, formula, reason):
        done = support.run([support.program(), "inline"], stdin=formula.encode(), **self.limited)
        self.expect(done, 1, b"", error(reason))

    def wants_memory(self, formula, request):
        """Checks the result if this allocation fails, and no other."""
        fault = faulty.Fault("memory", request, request, 12)
        done, failed = faulty.run_with([support.program(), "inline"], stdin=formula.encode(), fault=fault, **self.limited)
        self.assertEqual(failed, ["memory"])
        self.expect(done, 1, b"", error(NO_MEMORY))


class Shallow(Depth):
    """A quarter of the depth on a quarter of the stack shows the same in a quarter of the time."""
    nodes = Depth.nodes // 4
    limited = {"preexec_fn": support.limit(STACK=2 << 20)}


@support.requires("cc")
class Printed(Depth):
    """The whole markup."""

    @support.each_row(KINDS)
    def judge(self, kind):
        levels = kind.levels(self.nodes)
        self.answers(kind.nest(levels), kind.contents(levels), count_tokens(kind.nest, levels))


@support.requires("cc")
class Styled(Shallow):
    """The whole markup of the node in bold."""

    @support.each_row(KINDS)
    def judge(self, kind):
        levels = kind.levels(self.nodes)
        self.answers("\\mathbf{" + kind.nest(levels) + "}", kind.styled_contents(levels), count_tokens(kind.nest, levels))


class Dropped(Shallow):
    """The whole node is the member of a group that is never closed."""

    @support.each_row(KINDS)
    def judge(self, kind):
        self.is_refused("{" + kind.nest(kind.levels(self.nodes)), OPEN.format("RBrace"))


@support.requires("cc")
class Cut(Shallow):
    """The text ends in the innermost place."""

    @support.each_row(KINDS)
    def judge(self, kind):
        levels = kind.levels(self.nodes)
        if kind.refused:
            self.is_refused(kind.cut(levels), kind.refused)
        else:
            self.answers(kind.cut(levels), kind.contents(levels, MISSING), count_tokens(kind.cut, levels))

    def test_stretched(self):
        """`\\middle` takes only an operator, so it contains no node, but all of them wait, each for the next."""
        self.is_refused("\\middle" * self.nodes + "|", NO_STRETCH)


@support.requires("cc")
class WithoutMemory(Shallow):
    """An allocation fails while the tree is deep or wide: the one after three quarters of them."""

    @support.each_row(KINDS)
    def judge(self, kind):
        formula = kind.nest(kind.levels(self.nodes))
        _, counts = faulty.counts_of([support.program(), "inline"], stdin=formula.encode())
        self.wants_memory(formula, counts["requests"] * 3 // 4)
