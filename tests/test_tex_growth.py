"""How instructions, memory and requests for memory of `tex2mathml` grow with the text, and what a second formula takes.

Each count is that of a run whose answer is whole: a program that answers nothing would count as cheap.
"""
import pytest

from tests import cases, faulty, support
from tests.instructions import instructions
from tests.nesting import kinds_of

pytestmark = [pytest.mark.long, pytest.mark.timeout(1800)]

MOST_TIMES = 4.1  # four times the text takes at most this many times as much
OWN_BYTES = 64 << 10  # what every run takes, whatever its input
# The text, its units, the answer, the elements and what is in them, the frames, and what is still to be written: each of these lists
# asks again when it doubles, which it does at most 17 times. So 100 kB of one text were counted with at most 131 requests.
MOST_REQUESTS = 150
MOST_DOUBLINGS = 17  # of one list
# For a second formula that is the same as the first, only the input and the answers need more room, each once.
MOST_FOR_ANOTHER = 3

# names that are as long as that of a usual macro, and begin with the same two letters
ALIKE = ("\\displaystyle", "\\small", "\\color")

# texts under each heading: the place of each, and a function that makes it with this many pieces
TEXTS = cases.grouped((heading, (line.place, lambda count, text=line.text: cases.expand(text, count).decode()))
                      for heading, line in cases.lines_of(cases.CASES / "tex_growth.txt") if line.text)
TEXTS["in itself"] = [(name, lambda count, kind=kind: kind.nest(count, "x")) for name, kind in kinds_of("tex_nested.txt").items()]


def asked_for(text):
    """What each table, length, color and definition may request: the names of a table, the text of a length, the name of a
    color, which grows once if it has a model, the macro and the parts of a definition, and the units and the parts of a
    default. Delimiters are parts of two bodies. Parameters of `\\def` are a list."""
    values = text.count("\\\\[") + text.count("{1em}") + text.count("\\kern") + text.count("{red}") + 2 * text.count("[rgb]")
    definitions = 4 * (text.count("\\def") + text.count("\\newcommand")) + 12 * text.count("\\DeclarePairedDelimiter")
    definitions += 2 * text.count("\\let") + text.count("\\def\\a#")
    return 2 * text.count("\\begin") + values + definitions + 2 * text.count("][")


def asked_anew(text):
    """What a second formula may also request: the lists of a body, an argument, an argument that bars divide and a replacement, and the
    texts of columns before and after repetitions are written out, are made for each formula. So is the list of the groups that are
    open, if there is a name that may be that of a usual macro."""
    lists = 3 * any(name in text for name in ("\\def", "\\newcommand", "\\Set")) + 5 * ("\\Declare" in text) + 2 * ("{array}" in text)
    lists += any(name in text for name in ALIKE)
    return asked_for(text) + MOST_DOUBLINGS * lists


def pieces_in(text_of, size):
    """How many pieces there are in a text of about this many bytes."""
    few, many = (len(text_of(count).encode()) for count in (1, 1001))
    return max(size * 1000 // (many - few), 1)


@support.each_row(TEXTS)
def each_text(case, *texts):
    """A method of the classes that judge texts."""
    for place, text_of in texts:
        with case.subTest(place):
            case.judge(text_of)


class Growth(support.Case):
    def is_answered(self, done, formulas=1):
        self.assertEqual((done.returncode, done.stderr), (0, b""))
        self.assertEqual([done.stdout.count(it) for it in (b"<math ", b"</math>")], [formulas] * 2, support.show(done.stdout))

    def count(self, texts, *words):
        """What a run on these formulas asks for."""
        done, counts = faulty.counts_of([support.tex_program(), *words], stdin="\0".join(texts).encode())
        self.is_answered(done, len(texts))
        return counts

    def count_many(self, texts):
        return self.count(texts, "--null")["requests"]


@support.requires("valgrind")
class Instructions(Growth):
    """Four times the text takes at most about four times the instructions."""

    are_judged = each_text

    def judge(self, text_of):
        self.is_answered(support.run([support.tex_program()], stdin=text_of(8_000).encode()))
        few, many = (instructions([support.tex_program()], stdin=text_of(count).encode(), timeout=600) for count in (2_000, 8_000))
        self.assertLessEqual(many, MOST_TIMES * few, f"{few:,} for 2,000 pieces, {many:,} for 8,000")

    def test_rows_of_a_whole_text(self):
        """What is outside of tables is read as atoms up to its first `&` or `\\\\`, and then as rows: all of it at most twice."""
        for name, text in (("aligned", "x+" * 8_000 + "&"), ("aligned", "x&" + "x&x\\\\" * 4_000), ("gathered", "\\frac12" * 4_000 + "\\\\x")):
            given = [text.encode(), f"\\begin{{{name}}}{text}\\end{{{name}}}".encode()]
            answers = [support.run([support.tex_program()], stdin=it) for it in given]
            self.is_answered(answers[0])
            self.expect(answers[1], stdout=answers[0].stdout)
            alone, in_table = (instructions([support.tex_program()], stdin=it) for it in given)
            self.assertLessEqual(alone, 2 * in_table)

    def test_many_formulas(self):
        """So do four times the formulas."""
        counted = []
        for formulas in (500, 2_000):
            given = b"x_1^2\0{\0" * formulas
            self.is_answered(support.run([support.tex_program(), "--null"], stdin=given), formulas)
            counted.append(instructions([support.tex_program(), "--null"], stdin=given))
        self.assertLessEqual(counted[1], MOST_TIMES * counted[0])


@support.requires("cc")
class Memory(Growth):
    """Four times the text takes at most about four times the memory."""

    are_judged = each_text

    def judge(self, text_of):
        pieces = pieces_in(text_of, 25_000)
        few, many = (self.count([text_of(count)])["peak"] for count in (pieces, 4 * pieces))
        self.assertLessEqual(many, MOST_TIMES * few + OWN_BYTES)


@support.requires("cc")
class Requests(Growth):
    """Memory is requested only when a text or a list is full, and for each table, length, color and definition."""

    are_judged = each_text

    def judge(self, text_of):
        text = text_of(pieces_in(text_of, 100_000))
        self.assertLessEqual(self.count([text])["requests"], MOST_REQUESTS + asked_for(text))


@support.requires("cc")
class Another(Growth):
    """A second formula is converted in the memory of the first, and a third one in that of both."""

    are_judged = each_text

    def judge(self, text_of):
        text = text_of(pieces_in(text_of, 20_000))
        one, two, three = (self.count_many([text] * formulas) for formulas in (1, 2, 3))
        self.assertLessEqual(two - one, MOST_FOR_ANOTHER + asked_anew(text))
        self.assertLessEqual(three - two, MOST_FOR_ANOTHER + asked_anew(text))

    def test_many_formulas(self):
        """A thousand formulas need room for the input and the answers."""
        for text in ("x", "x_1^2", "\\frac12", "\\text{ab}", "\\left(x\\right)"):
            with self.subTest(text):
                few, many = (self.count_many([text] * formulas) for formulas in (1_000, 2_000))
                self.assertLessEqual(many - few, MOST_FOR_ANOTHER)

    def test_behind_a_refused_one(self):
        """A formula that is refused leaves its memory too."""
        asked = []
        for formulas in (1, 20):
            done, counts = faulty.counts_of([support.tex_program(), "--null"], stdin=(b"{" * 10_000 + b"\0") * formulas + b"x")
            self.is_answered(done)
            self.assertEqual(done.stdout.count(b"error\n{ is not closed at "), formulas)
            asked.append(counts["requests"])
        self.assertLessEqual(asked[1] - asked[0], 3 * MOST_FOR_ANOTHER)
