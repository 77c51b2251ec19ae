"""How instructions, memory and requests for memory grow with the input.

Instructions are counted by cachegrind, of texts of two sizes; requests and bytes held by `counts.c`. None of these counts depends
on what else the machine does.
"""
import pytest

from tests import cases, faulty, support
from tests.cases import of_size
from tests.instructions import instructions
from tests.texts import math

pytestmark = pytest.mark.long

MOST_TIMES = 4.1  # four times the text takes at most this many times as much
OWN_BYTES = 64 << 10  # what every run takes, whatever its input
# What a formula or a document of a few bytes takes: the greatest of them was counted with 2,600 bytes.
FEW_BYTES = 4 << 10
# This many requests more than were counted are allowed, because a list may begin with less room. One for each 4,096 bytes is not:
# that would be 24 more.
MORE_REQUESTS = 10

MEGABYTE = 1_000_000


def different_texts(size):
    """A group of texts, no two of which are equal."""
    return b"{" + b"".join(b"\\text{%s}" % bytes(97 + number // 26**place % 26 for place in range(5)) for number in range(size // 12)) + b"}"


def rows(name):
    """The rows of a file of texts that grow: the status that the program ends with, its word, the text of a size, and a number."""
    return {key: (int(key in REFUSED), word, of_size(text), int(number)) for _, key, word, text, number in cases.rows(name)}


# the formulas of a document, and the result of each
FORMULAS = {"$x$": "<mi>x</mi>", "$x^2$": "<msup><mi>x</mi><mn>2</mn></msup>", "$\\frac12$": "<mfrac><mn>1</mn><mn>2</mn></mfrac>"}

# Those of all these texts that are refused: groups that are still open, and an unknown environment.
REFUSED = {"open braces", "white space behind open braces", "groups that are still open", "a long name of an environment"}

TEXTS = rows("growth.txt") | {"different texts of a group": (0, "inline", different_texts, 20_000)}


class Growth(support.Case):
    def count(self, word, text, status=0):
        """The counts of a run, with the length of its answer."""
        done, counts = faulty.counts_of([support.program(), word], stdin=text)
        self.is_whole(done, status)
        return counts | {"answer": len(done.stdout)}

    def is_whole(self, done, status):
        """A run that answers nothing would count as cheap."""
        self.assertEqual((done.returncode, bool(done.stdout)), (status, status == 0), done.stderr[:200])


@support.requires("valgrind")
class Instructions(Growth):
    """Four times the text takes four times the instructions."""

    @support.each_row(TEXTS)
    def judge(self, status, word, text, size):
        self.is_whole(support.run([support.program(), word], stdin=text(4 * size)), status)
        small, large = (instructions([support.program(), word], text(n), status=status) for n in (size, 4 * size))
        self.assertLessEqual(large, MOST_TIMES * small, f"{small:,} for {size} bytes, {large:,} for four times as many")


@support.requires("cc")
class Memory(Growth):
    """A million bytes of a text are converted, with four times the memory of a quarter of them."""

    @support.each_row(TEXTS)
    def judge(self, status, word, text, _):
        small, large = (self.count(word, text(n), status)["peak"] for n in (MEGABYTE // 4, MEGABYTE))
        self.assertLessEqual(large, MOST_TIMES * small + OWN_BYTES, f"{small:,} bytes are held, and of four times the text {large:,}")

    def judge_room(self, text, answer, peak):
        """Memory is held only for the text and the answer, with at most twice the room that they need."""
        self.assertLessEqual(peak, 2 * (text + answer) + OWN_BYTES, f"the text has {text:,} bytes, and the answer {answer:,}")

    @support.each_row({key: row for _, key, *row in cases.rows("one_at_a_time.txt")})
    def judge_one_at_a_time(self, word, text):
        given = of_size(text)(MEGABYTE)
        counts = self.count(word, given)
        self.judge_room(len(given), counts["answer"], counts["peak"])

    def test_200000_formulas(self):
        """A document of many formulas needs memory for its text and its answer, and room for both to grow."""
        for formula, contents in FORMULAS.items():
            with self.subTest(formula):
                document, answer = formula.encode() * 200_000, math(contents) * 200_000
                done, counts = faulty.counts_of([support.program(), "document"], stdin=document)
                self.assertEqual((done.returncode, done.stdout == answer), (0, True))
                self.judge_room(len(document), len(answer), counts["peak"])

    def test_few_bytes(self):
        """A short text takes little memory, so that many calls at once take little too."""
        for formula in FORMULAS:
            for word, text in (("inline", formula.strip("$")), ("block", formula.strip("$")), ("document", formula)):
                with self.subTest(word=word, text=text):
                    self.assertLessEqual(self.count(word, text.encode())["peak"], FEW_BYTES)


@support.requires("cc")
class Requests(Growth):
    """Allocations happen only if a text or a list is full, or for a name or a text that is spelled out."""

    @support.each_row(rows("requests.txt"))
    def judge(self, status, word, text, counted):
        self.assertLessEqual(self.count(word, text(100_000), status)["requests"], counted + MORE_REQUESTS)

    @support.each_row({key: (word, text, int(each)) for _, key, word, text, each in cases.rows("requests_for_each.txt")})
    def judge_each(self, word, text, each):
        """5,000 more pieces take this many for each of them, besides the doubling of what grows."""
        few, many = (self.count(word, cases.expand(text, pieces))["requests"] for pieces in (5_000, 10_000))
        self.assertLessEqual(many - few, 5_000 * each + MORE_REQUESTS)
