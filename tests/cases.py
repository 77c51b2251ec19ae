"""Reads the files of the folder `cases/`. Its README.md says how they are written."""
import collections
import itertools
import os.path
import pathlib
import re
import unicodedata
from dataclasses import dataclass

from tests.support import ROOT, case_name
from tests.texts import ERROR, math

CASES = ROOT / "cases"

ESCAPE = re.compile(rb'\[(?:U\+(?P<code>[0-9A-F]{4,6})|byte (?P<byte>[0-9A-F]{2})|(?P<feed>LF)|(?P<empty>empty)'
                    rb'|(?P<count>\d+|N) times "(?P<text>.*?)")\]')
PLACE = "[place]"
COLUMNS = re.compile(r" {2,}")

# The files that are tables, and how many columns each has.
TABLES = {"commands.txt": 3, "growth.txt": 4, "one_at_a_time.txt": 3, "requests.txt": 4, "requests_for_each.txt": 4, "site_slow.txt": 2}

# What a file says that another module reads: the class of tests, which has a test for each heading, or for each line of a table.
READER = re.compile(r"^#.* Tried by `(test_\w+\.\w+)`\.$", re.M)

TAGS = {f"<{display}>".encode(): math("", display).removesuffix(b"</math>") for display in ("inline", "block")}


class WrongCase(ValueError):
    """A file with a mistake in its form. The text begins with the file and the line."""


@dataclass(frozen=True)
class Line:
    """A line of a file, without the line feed."""
    path: pathlib.Path
    number: int
    text: str

    @property
    def place(self):
        return f"{os.path.relpath(self.path, ROOT)}:{self.number}"

    def expand(self, text=None):
        """The meaning of the line, or of a part of it: bytes, with each escape replaced."""
        try:
            return expand(self.text if text is None else text)
        except ValueError as wrong:
            raise WrongCase(f"{self.place}: {wrong}") from None


@dataclass(frozen=True)
class Case:
    """The lines of an input and of the expected result, and the heading above them. A result without a line is the input."""
    heading: str
    lines: tuple

    @property
    def first(self):
        return self.lines[0]

    @property
    def place(self):
        return self.first.place

    @property
    def input(self):
        return self.first.expand()

    @property
    def answer(self):
        return self.lines[-1].expand()

    @property
    def document_answer(self):
        """The result, with whole tags in place of the short ones."""
        return with_tags(self.answer)

    def with_space(self, number, space):
        """The formula of white_space.txt with this space at the place with this number, and at no other."""
        parts = self.first.text.split(PLACE)
        return self.first.expand("".join(parts[:number])) + space + self.first.expand("".join(parts[number:]))

    @property
    def places(self):
        """The numbers of the places that are marked in the formula."""
        return range(1, self.first.text.count(PLACE) + 1)


@dataclass(frozen=True)
class Command:
    """An entry of the command table: the name, its token's text, and the contents or the refusal of the command alone."""
    line: Line
    name: str
    token: str
    alone: str

    @property
    def formula(self):
        return f"\\{self.name}".encode()


def expand(text, n=None):
    """The bytes that a text of a case means, where `N` is this number.

    >>> expand('a[LF]b[byte FF][3 times "<"][N times "[LF]"]', 2)
    b'a\\nb\\xff<<<\\n\\n'
    >>> expand('[empty]')
    b''
    """
    return ESCAPE.sub(lambda escape: bytes_of(escape, n), text.encode())


def bytes_of(escape, n):
    if escape["code"] or escape["byte"]:
        number = int(escape["code"] or escape["byte"], 16)
        return chr(number).encode() if escape["code"] else bytes([number])
    if escape["feed"] or escape["empty"]:
        return b"\n" if escape["feed"] else b""
    return (n if escape["count"] == b"N" else int(escape["count"])) * expand(escape["text"].decode())


def with_tags(text):
    return re.sub(rb"</?(?:inline|block)>", lambda tag: TAGS.get(tag[0], b"</math>"), text)


def of_size(text):
    """A function of a size: it repeats what `N` repeats in the text until the text has about this many bytes."""
    each = len(expand(text, 2)) - len(expand(text, 1))
    return lambda size: expand(text, size // each)


def fault_of(text):
    """Why a line may not contain the text, or None."""
    if text != text.strip(" "):
        return "a space at an end of a line is [U+0020]"
    for character in text:
        kind = unicodedata.category(character)
        if kind[0] in "CM" or (kind[0] == "Z" and character != " "):
            return f"a character that cannot be seen is [U+{ord(character):04X}]"
    return None


def lines_of(path):
    """The lines of a file without comments: pairs of the heading above a line, and the line."""
    heading = ""
    for number, text in enumerate(path.read_text(encoding="utf-8").split("\n"), 1):
        line = Line(path, number, text)
        if fault := fault_of(text):
            raise WrongCase(f"{line.place}: {fault}")
        if text.startswith("## "):
            heading = text[3:]
        elif not text.startswith("#"):
            yield heading, line


def blocks(name):
    """The blocks of lines that blank lines separate: pairs of the heading above a block, and its lines."""
    for has_text, pairs in itertools.groupby(lines_of(CASES / name), key=lambda pair: bool(pair[1].text)):
        if has_text:
            headings, lines = zip(*pairs)
            yield headings[0], lines


def read(name, counts=(2,)):
    """The cases of a file of two lines each, such as `formulas/numbers.txt`, or of one of these counts of lines.

    Raises `WrongCase` if the file is not written in this form, or contains an input twice.
    """
    inputs = {}
    for heading, lines in blocks(name):
        if len(lines) not in counts:
            due = " or ".join(map(str, counts))
            raise WrongCase(f"{lines[0].place}: a case has {due} lines, and a blank line after it; this has {len(lines)}")
        before = inputs.setdefault(lines[0].text, Case(heading, lines))
        if before.lines is not lines:
            raise WrongCase(f"{lines[0].place}: the input stands in line {before.first.number} as well")
    return list(inputs.values())


def key_of(heading):
    return heading[:1].lower() + heading[1:]


def grouped(pairs):
    """Headings, each with a case, as rows for `each_row`: for each heading its cases."""
    rows = collections.defaultdict(list)
    for heading, case in pairs:
        rows[key_of(heading)].append(case)
    return rows


def by_heading(name):
    """The cases of a file as such rows."""
    return grouped((case.heading, case) for case in read(name, (1, 2) if name.startswith("site/") else (2,)))


def rows_of_lines(name):
    """The same of a file whose cases have other numbers of lines: the lines of each."""
    return grouped(blocks(name))


def listed(path):
    """The texts that a file lists under headings, one per line."""
    return {line.expand().decode() for _, line in lines_of(path) if line.text}


def files(pattern):
    """The names of the files of cases that match, such as `formulas/*.txt`, in order."""
    return sorted(str(path.relative_to(CASES)) for path in CASES.glob(pattern))


def commands():
    """The entries of the command table, in their order."""
    return [Command(line, *(line.expand(it).decode() for it in columns)) for line, *columns in rows("commands.txt")]


def rows(name):
    """The lines of a table: each line, and its columns, in which short forms are left as they are."""
    for _, line in lines_of(CASES / name):
        columns = COLUMNS.split(line.text)
        if len(columns) == TABLES[name]:
            yield line, *columns
        elif line.text:
            raise WrongCase(f"{line.place}: an entry has {TABLES[name]} columns, and two spaces or more between them")


def runs():
    """What the program does with an input: its first argument, the input, its status, and what it writes to both streams."""
    rows = {}
    for word in ("inline", "block", "document"):
        for case in read(f"program/{word}.txt"):
            answer = case.document_answer
            line = answer if word == "document" else answer + b"\n"
            due = (1, b"", answer + b"\n") if answer.startswith(ERROR) else (0, line, b"")
            rows[f"{word} {case.first.number}"] = (word, case.input, *due)
    return rows


def every_rule():
    """Each rule of the grammar once: pairs of a formula and the contents of its `math` element, as text."""
    return [(case.input.decode(), case.answer.decode()) for case in read("formulas/every_rule.txt")]


def reader_of(name):
    """The class of tests that a file names, or None if it is one of those of `test_cases`."""
    named = READER.search((CASES / name).read_text(encoding="utf-8"))
    return named and named[1]


def test_name(word):
    """The name that Python has for a file of cases, or for the case that a line of one belongs to: its input or its answer.

    Raises `WrongCase` if there is no such file, or no case has the line.

    >>> test_name("cases/formulas/letters.txt")
    'tests.test_cases.formulas_letters'
    >>> test_name("cases/refusals.txt:14")
    'tests.test_cases.refusals.test_13'
    >>> test_name("cases/commands.txt:12")
    'tests.test_commands.Entries.test_12'
    >>> test_name("cases/site/elements.txt:4")
    'tests.test_site.Elements.test_pandoc'
    """
    name, _, line = word.removeprefix("cases/").partition(":")
    if name not in files("**/*.txt"):
        raise WrongCase(f"{word}: cases/ has no such file")
    tests = reader_of(name) or f"test_cases.{class_name(name)}"
    if not line:
        return f"tests.{tests}"
    for number, key in tests_of_lines(name):
        if line == str(number):
            return f"tests.{tests}.{case_name(key)}"
    raise WrongCase(f"{word}: no case has this line")


def tests_of_lines(name):
    """The number of each line of a file, and the key of the test that has it: where its case begins, its heading, or the name of a row."""
    if name in TABLES:
        yield from ((line.number, str(line.number) if name == "commands.txt" else key) for line, key, *_ in rows(name))
    elif reader_of(name) and not name.startswith("program/"):
        yield from ((line.number, key_of(heading)) for heading, lines in blocks(name) for line in lines)
    else:
        before = f"{pathlib.Path(name).stem} " if reader_of(name) else ""
        yield from ((line.number, f"{before}{case.first.number}") for case in read(name) for line in case.lines)


def class_name(name):
    return re.sub(r"\W", "_", name.removesuffix(".txt"))
