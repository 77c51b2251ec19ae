"""Allocations that fail, in calls of the library and in the whole programs: each one in turn, and then each one with all that follow
it, until a run makes fewer allocations. At the end of each run all memory is freed.
"""
import itertools

from tests import cases, faulty, support
from tests.texts import ERROR, NO_MEMORY, USAGE, X, error, math
from tests.walks import Folder

# each rule of the grammar once, as one formula
RULES = " ".join(formula for formula, _ in cases.every_rule())
OF_RULES = "".join(contents for _, contents in cases.every_rule())

# the refusal of each call if memory runs out
NO_ROOM = "out of memory"
NOT_COPIED = "memory allocation failed"
WANTING = {"tex_to_mathml": NO_ROOM, "clone": NOT_COPIED}

# the calls, their arguments, and their results
CALLS = {cases.key_of(heading): (name.text, text.expand().decode(), cases.with_tags(answer.expand()))
         for heading, (name, text, answer) in cases.blocks("calls.txt")}
CALLS["each rule"] = ("latex_to_mathml", RULES, b"answer: " + math(OF_RULES))
_, TEX, OF_TEX = CALLS["a formula of tex_to_mathml"]

# How many allocations a copy needs: those of what is copied. In the node these are 27 nodes, each a box and a text, six other
# texts, and seven lists, four of which have more than four members and grow once.
COPIES = {"node": 71, "token": 1, "refusal": 2}

# Two formulas that a converter is given, the second one twice, and its answers with enough memory.
CONVERTED = {
    "a converter that has done little": ("x", TEX, b"answer: " + X, OF_TEX),
    "a converter that has done the same": (TEX, TEX, OF_TEX, OF_TEX),
    "a converter that has refused": (r"x_i \foo", TEX, b"refusal: unknown command \\foo at 4", OF_TEX),
    "a converter that is to refuse": ("x", r"\frac{x_i}{y \foo}", b"answer: " + X, b"refusal: unknown command \\foo at 13"),
}

# How often a converter that has done the same before asks for memory: only for its answer, whose room begins with the first tag, and
# doubles.
ANSWER = OF_TEX.removeprefix(b"answer: ")
FOR_THE_ANSWER = 1 + ((len(ANSWER) - 1) // (ANSWER.index(b">") + 1)).bit_length()

# an argument of the program, its input, and its status and streams
RUNS = {**cases.runs(), "each rule": ("block", RULES.encode(), 0, math(OF_RULES, "block") + b"\n", b""),
        "a wrong word": ("inlines", b"x", 2, b"", USAGE)}

# the definitions of its own run
MACROS = support.ROOT / "crates/latex2mathml_tex_app/data/macros.tex"

# words of `tex2mathml` and its input
TEX_RUNS = {
    "tex, a formula": ([], TEX),
    "tex, a block": (["--display", "block"], "x"),
    "tex, an unknown command": ([], r"x \foo"),
    "tex, a text that is none": ([], b"x\xff"),
    "tex, no formula": (["--null"], ""),
    "tex, many formulas": (["--null"], f"x\0{{\0{TEX}"),
    "tex, definitions": (["--definitions", MACROS], r"\rank\half{\R} \pair xy"),
    "tex, definitions that are refused": (["--definitions", "README.md"], "x"),
    "tex, definitions that are not there": (["--definitions", "none.tex"], "x"),
    "tex, a wrong word": (["x"], "x"),
    "tex, its version": (["--version"], ""),
}

# its lines if memory runs out: before its words are read, as they are read, for the input, for a formula, and for a file of definitions
TEX_LINES = {b"tex2mathml: out of memory\n", b"error: out of memory\n", b"tex2mathml: Memory could not be found.\n"}
TEX_LINES |= {f"tex2mathml: {name}: Memory could not be found.\n".encode() for name in (MACROS, "README.md")}


def one(number):
    return faulty.Fault("memory", number, number, 12)


def this_and_all_that_follow(number):
    return faulty.Fault("memory", number, faulty.ALL, 12)


WAYS = (one, this_and_all_that_follow)


def in_each_way(table):
    """The rows of a table, each with a way to refuse memory."""
    return {f"{way.__name__} of {name}": (*row, way) for way in WAYS for name, row in table.items()}


@support.requires("cc")
class Refused(support.Case):
    """Each case runs a command with failing allocations, and checks each outcome."""

    def in_turn(self, words, way, judge, *, marked=False, stdin=b"", before=lambda: None):
        """Runs the command with each request refused, in this way, until a run makes fewer.

        The judge is given the outcome of a run, and whether a request was refused in it. `before` is called before each. No run
        leaves a block of memory unfreed. Returns in how many runs a request was refused.
        """
        counts = self.folder / "counts"
        for number in itertools.count(1):
            before()
            done, failed = faulty.run_with(words, fault=way(number), marked=marked, stdin=stdin, counts=counts)
            with self.subTest(refused=str(way(number)) if failed else "none"):
                judge(done, bool(failed))
                self.assertEqual(faulty.counts_in(counts)["held"], 0, "blocks of memory that were not freed")
            if not failed:
                self.assertGreater(number, 1, "no request was refused")
                return number - 1


class Library(Refused):
    """Calls of the library: they return out of memory, or the same result as with enough memory."""

    def comes_to(self, words, way, answer, wanting):
        """The call has this answer, or the other one if it runs out of memory. Returns in how many runs it did."""
        def judge(done, is_refused):
            self.expect(done, 0, None)
            self.assertIn(done.stdout, [answer] + [wanting] * is_refused)
        return self.in_turn([support.build("latex2mathml_single_calls"), *words], way, judge, marked=True)

    @support.each_row(CALLS)
    def call(self, name, text, answer):
        for way in WAYS:
            with self.subTest(way.__name__):
                refused = self.comes_to([name, text], way, answer + b"\n", f"refusal: {WANTING.get(name, NO_MEMORY)}\n".encode())
                if name == "clone":
                    self.assertLessEqual(refused, COPIES[text], "a copy asks for memory more often than it has parts")

    @support.each_row(in_each_way(CONVERTED))
    def convert_again(self, first, second, of_first, of_second, way):
        """The answers to a formula, to a second one in which allocations fail, and to the second one again, with enough memory."""
        answers = [b"\n".join([of_first, it, of_second, b""]) for it in (of_second, f"refusal: {NO_ROOM}".encode())]
        refused = self.comes_to(["tex_formulas", first, second], way, *answers)
        if first == second:
            self.assertLessEqual(refused, FOR_THE_ANSWER, "a converter does not keep its room")

    @support.each_row(in_each_way({"convert_html": ()}))
    def walk(self, way):
        """The result of `convert_html`: a line for each member of its list."""
        folder = Folder(self.folder / "site")

        def judge(done, is_refused):
            self.expect(done, 0, None)
            is_wanting = done.stdout == f"refusal: {NOT_COPIED}\n".encode()
            folder.judge(self, b"" if is_wanting else done.stdout, is_refused, way is one, is_wanting)
        self.in_turn([support.build("latex2mathml_single_calls"), "convert_html", folder.path], way, judge, marked=True, before=folder.fill)


class Served(Refused):
    """A whole program: what it does with ample memory, or one line that says that memory could not be found. Each of many
    formulas has its reply, or one that says that memory ran out.

    If there is no memory for that line, or for the expected one, there is no line.
    """

    def serve(self, command, given, way, due, lines):
        def judge(done, is_refused):
            if (done.returncode, done.stdout, done.stderr) == due:
                return
            if not is_refused:
                self.expect(done, *due)
            if done.returncode == 0:
                self.assertEqual(done.stderr, b"")
                self.answers_each(due[1].split(b"\0"), done.stdout.split(b"\0"))
                return
            self.assertEqual(done.stdout, b"")
            if done.stderr:
                self.assertEqual((done.returncode, done.stderr in lines), (1, True), done)
            elif not (due[2] and done.returncode == due[0]):
                self.assertEqual((done.returncode, way), (1, this_and_all_that_follow), "no line where memory was left for it")
        self.in_turn(command, way, judge, stdin=given)

    def answers_each(self, due, replies):
        self.assertEqual(len(replies), len(due))
        self.assertGreater(len(replies), 1, "a formula alone has no reply")
        for reply, whole in zip(replies, due):
            self.assertIn(reply, (whole, b"error\nout of memory"))


class Program(Served):
    @support.each_row(in_each_way(RUNS))
    def run_in_turn(self, word, given, status, out, errors, way):
        self.serve([support.program(), word], given, way, (status, out, errors), {error(NO_MEMORY)})

    @support.each_row(in_each_way({"html": ()}))
    def walk(self, way):
        """A line for each member of the list, unless memory for the line runs out."""
        folder = Folder(self.folder / "site")

        def judge(done, is_refused):
            lines = b"".join(line.removeprefix(ERROR) for line in done.stderr.splitlines(keepends=True))
            self.assertEqual(done.stdout, b"")
            if done.returncode or lines or not is_refused:
                self.assertEqual(done.returncode, 1)
            is_wanting = done.stderr == error(NO_MEMORY) or (not lines and way is this_and_all_that_follow)
            folder.judge(self, b"" if is_wanting else lines, is_refused, way is one, is_wanting)
        self.in_turn([support.program(), "html", folder.path], way, judge, before=folder.fill)


class TexProgram(Served):
    @support.each_row(in_each_way(TEX_RUNS))
    def run_in_turn(self, words, text, way):
        command, given = [support.tex_program(), *words], text if isinstance(text, bytes) else text.encode()
        due = support.run(command, stdin=given)
        self.serve(command, given, way, (due.returncode, due.stdout, due.stderr), TEX_LINES)
