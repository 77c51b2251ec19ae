"""Inputs and outputs of the program that fail, and the calls that it makes for them."""
import itertools
import os
import pathlib
import re
import subprocess
import unittest

from tests import faulty, support
from tests.faulty import Fault, open_input
from tests.texts import LESS, LESS_BLOCK, NO_TEXT, STOPPED, UNCLOSED, UNPAIRED, UNREAD, USAGE, X, error, math

FORMULA = rb"a<\frac12"
HALF = "<mfrac><mn>1</mn><mn>2</mn></mfrac>"
OF_FORMULA = math(f"<mi>a</mi><mo>&lt;</mo>{HALF}") + b"\n"
SPACED_HALF = f'<mrow style="padding: 0 calc(0.12em - 1px)">{HALF}<mo lspace="0" rspace="0"></mo></mrow>'
OF_TEX_FORMULA = math(f"<mi>a</mi><mo>&lt;</mo>{SPACED_HALF}") + b"\n"
DOCUMENT = "é $x$ é".encode()
OF_DOCUMENT = "é ".encode() + X + " é".encode()
ENERGY = math("<mi>E</mi><mo>=</mo><mi>m</mi><msup><mi>c</mi><mn>2</mn></msup>") + b" is"

# the programs, and the line with which each reports a fault
LATEX, TEX = (faulty.program, error), (support.tex_program, lambda text: f"tex2mathml: {text}\n".encode())

# a program and its words, with inputs and their answers
RUNS = {
    "inline": (LATEX, ["inline"], [(FORMULA, OF_FORMULA), (b"x<y", LESS + b"\n")]),
    "block": (LATEX, ["block"], [(b"x<y", LESS_BLOCK + b"\n")]),
    "document": (LATEX, ["document"], [(DOCUMENT, OF_DOCUMENT), (b"$E = m c^2$ is", ENERGY)]),
    "tex": (TEX, [], [(FORMULA, OF_TEX_FORMULA)]),
    "tex block": (TEX, ["--display", "block"], [("é".encode(), math('<mi mathvariant="normal">é</mi>', "block") + b"\n")]),
    "tex many": (TEX, ["--null"], [
        (b"x\0{\0y", b"mathml\n%s\0error\n{ is not closed at 0\0mathml\n%s\0" % (X, math("<mi>y</mi>")))]),
}

# error numbers: of the device, of an interruption, and of a call that would have to wait; 0 takes nothing
READ_ERRORS = {"an error": 5, "an interruption": 4, "a wait": 11}
WRITE_ERRORS = {"a full device": 28, "an interruption": 4, "a closed pipe": 32, "an error": 5, "nothing": 0}

ROOM = 4096  # the bytes that the program requests at a time

WORDS = ("inline", "block", "document")
NO_INPUT = error(UNREAD)


def stop_message(count):
    return error(STOPPED.format(count))


@support.requires("cc")
class Streams(faulty.OneByteAtATime):
    def run_with(self, word, stdin, **told):
        return faulty.run_with([faulty.program(), word], stdin=stdin, **told)[0]


class Inputs(Streams):
    @support.each_row({f"{word} {name} at each read": (word, number) for word in RUNS for name, number in READ_ERRORS.items()})
    def fails_at_each_read(self, word, number):
        """One byte per call, and each call in turn fails, including the one that would report the end. Nothing after it is read."""
        (program, told), words, pairs = RUNS[word]
        for given, answer in pairs:
            self.fails_at_each("read", number, len(given) + 1, [program(), *words], given, answer,
                               lambda call: (1, b"", told(UNREAD)), left=lambda call, size=len(given): size - call + 1)


# bytes that are not UTF-8: alone, after text and before text
NO_TEXTS = {"a beginning": b"$\xc3", "a surrogate": b"\xed\xa0\x80", "no byte of text": b"\xff", "behind a formula": b"$x$\x80",
            "before a formula": b"\xc3$x$"}


class NoText(Streams):
    """Each reports that the bytes are not UTF-8, however they arrive."""

    @support.each_row({f"{word} {name} {step or ROOM} a call": (given, word, step)
               for (name, given), word, step in itertools.product(NO_TEXTS.items(), WORDS, (None, 1))})
    def is_told(self, given, word, step):
        self.expect(self.run_with(word, given, step=step), 1, b"", error(NO_TEXT))


AROUND = range(ROOM - 4, ROOM + 1)


class AroundTheRoom(support.Case):
    """A character of four bytes that begins before the end of what the first call gives, at that end, or after it; then the text
    ends, or has ended within the character."""

    @support.each_row({f"document behind {before}": (before,) for before in AROUND})
    def document(self, before):
        given = b"z" * before + "𝑥".encode()
        self.expect(support.run([faulty.program(), "document"], stdin=given), stdout=given)

    @support.each_row({f"formula behind {before}": (before,) for before in AROUND})
    def formula(self, before):
        answer = math("<mi>z</mi>" * before + '<mi mathvariant="normal">𝑥</mi>') + b"\n"
        self.expect(support.run([faulty.program(), "inline"], stdin=b"z" * before + "𝑥".encode()), stdout=answer)

    @support.each_row({f"{word} {cut} bytes behind {before}": (before, cut, word)
               for before, cut, word in itertools.product(AROUND, (1, 2, 3), ("inline", "document"))})
    def within(self, before, cut, word):
        given = b"z" * before + "𝑥".encode()[:cut]
        self.expect(support.run([faulty.program(), word], stdin=given), 1, b"", error(NO_TEXT))


class Outputs(Streams):
    @support.each_row({f"{word} {name} at each write": (word, number) for word in RUNS for name, number in WRITE_ERRORS.items()})
    def stops_at_each_write(self, word, number):
        """One byte per call, and each call in turn fails, or takes nothing if the error is 0. Nothing after it is written."""
        (program, told), words, pairs = RUNS[word]
        for given, answer in pairs:
            self.fails_at_each("write", number, len(answer), [program(), *words], given, answer,
                               lambda call, answer=answer: (1, answer[:call - 1], told(STOPPED.format(call - 1))))


def ends(due):
    """Some numbers of bytes after which standard error stops, up to more than are expected."""
    return 0, 1, 9, len(due) // 2, len(due) - 1, len(due), len(due) + 41


class Errors(Streams):
    """Standard error takes one byte per call and stops after some bytes. It then has the first bytes of what is expected, and
    nothing else changes."""

    def test_wrong_words(self):
        """They leave the input to the next reader."""
        for taken in ends(USAGE):
            with self.subTest(taken=taken), open_input(b"x") as source:
                self.expect(self.run_with("inlines", source, errors=taken), 2, b"", USAGE[:taken])
                self.assertEqual(source.read(), b"x")

    def test_lines(self):
        """Each line is written in one piece, so that the lines of several processes do not mix."""
        support.put(self.folder, dict.fromkeys(("a.html", "b.html", "c.html"), b"$$$"))
        for words, given, lines in ((["inline"], b"{x", 1), (["inlines"], b"", 1), (["html", self.folder], b"", 3)):
            with self.subTest(words[0]):
                done, counts = faulty.counts_of([support.program(), *words], stdin=given)
                self.assertEqual((done.stderr.count(b"\n"), counts["errors"]), (lines, lines))

    def test_inputs(self):
        for word, taken in itertools.product(WORDS, ends(NO_INPUT)):
            for given, _ in RUNS[word][-1]:
                with self.subTest(given=given, taken=taken):
                    done = self.run_with(word, given, fault=Fault("read", 2, 2, 5), step=1, errors=taken)
                    self.expect(done, 1, b"", NO_INPUT[:taken])

    def test_outputs(self):
        for number, taken in itertools.product(WRITE_ERRORS.values(), ends(stop_message(2))):
            with self.subTest(error=number, taken=taken):
                done = self.run_with("inline", b"x<y", fault=Fault("write", 3, 3, number), step=1, errors=taken)
                self.expect(done, 1, LESS[:2], stop_message(2)[:taken])

    def test_files(self):
        """The stream of the input is not read, and all files are converted."""
        lines = error(f"{self.folder}/b.html: {UNPAIRED}") + error(f"{self.folder}/c.html: {UNCLOSED}")
        for taken in ends(lines):
            support.put(self.folder, {"a.html": b"$x$", "b.html": b"$$$", "c.html": b"{$x$ ${$"})
            with self.subTest(taken=taken), open_input(b"x<y") as source:
                done, _ = faulty.run_with([faulty.program(), "html", self.folder], stdin=source, errors=taken)
                self.expect(done, 1, b"", lines[:taken])
                self.assertEqual(source.read(), b"x<y")
                self.assertEqual((self.folder / "a.html").read_bytes(), X)


class Pipes(support.Case):
    @support.each_row({**{word: (word, False) for word in WORDS}, "signal": ("inline", True)})
    def nobody_reads(self, word, is_default):
        """The reader closes its end before anything is written. The program gets an error, and no signal ends it, even
        if the signal of a closed pipe has its default effect."""
        read, write = os.pipe()
        os.close(read)
        with open(write, "wb") as output:
            done = support.run([faulty.program(), word], stdin=b"x", stdout=output, restore_signals=is_default)
        self.expect(done, 1, None, stop_message(0))

    def test_reader_goes(self):
        """The reader closes its end while there is more to write than a pipe holds."""
        given, pipes = b"z" * 1_000_000, {"stdout": subprocess.PIPE, "stderr": subprocess.PIPE}
        with open_input(given) as source, subprocess.Popen([faulty.program(), "document"], stdin=source, **pipes) as running:
            first = running.stdout.read(1)
            running.stdout.close()
            errors = running.stderr.read()
            status = running.wait(timeout=60)
        self.assertEqual((first, status), (b"z", 1))
        found = re.fullmatch(rb"LaTeX2MathML Error: The output stopped after (\d+) bytes\.\n", errors)
        self.assertIsNotNone(found, errors)
        self.assertIn(int(found[1]), range(1, len(given)))


FULL = pathlib.Path("/dev/full")


@unittest.skipUnless(FULL.is_char_device(), f"{FULL} not found")
class FullDevice(support.Case):
    @support.each_row({"inline": ("inline",), "document": ("document",)})
    def is_full(self, word):
        with open(FULL, "wb") as output:
            done = support.run([faulty.program(), word], stdin=b"x", stdout=output)
        self.expect(done, 1, None, stop_message(0))

    def test_errors(self):
        with open(FULL, "wb") as errors:
            done = support.run([faulty.program(), "inline"], stdin=b"{x", stderr=errors)
        self.expect(done, 1, b"", None)


class Readings(Streams):
    """How often a program reads: two calls for a short input, one of which reports the end, and one more for each full buffer. A
    result is written by one call, if the system takes it completely."""

    @support.each_row({
        **{word: (faulty.program, [word], b"x", 16_000_000 if word == "document" else 1_000_000) for word in WORDS},
        "tex": (support.tex_program, [], b"x", 1_000_000), "tex many": (support.tex_program, ["--null"], b"x_1^2\0", 1_000_000),
    })
    def are_counted(self, program, words, piece, most):
        drawn = b"x" if words == ["document"] else b"<mi>x</mi>"
        for size in (0, 1, ROOM - 1, ROOM, ROOM + 1, 1_000_000, most):
            given = piece * (size // len(piece))
            with self.subTest(size), open_input(given) as source:
                done, counts = faulty.counts_of([program(), *words], stdin=source)
                self.expect(done, stdout=None)
                self.assertLessEqual(counts["read"], len(given) // ROOM + 2)
                self.assertEqual(counts["write"], int(bool(done.stdout)))
                self.assertEqual(done.stdout.count(drawn), given.count(b"x"))
