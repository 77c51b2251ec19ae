"""Converts the crate's answers to this repository's form, by what docs/DIFFERENCES.md lists and by nothing else.

Only the crate's side is changed, its input and its answer, so the program's answer is compared byte by byte. Each difference
is one function, whose comment says which one it is. Two differences of the list need no function, since no formula shows
them: `thick` and the quotes of `columnalign="right"` are printed for nodes that only a caller makes."""

import re
from dataclasses import dataclass
from decimal import Decimal

import operands

# What the crate prints between its tags is one character, or contains no `<` that is followed by a name or a `/`. So all of
# these are tags.
TAG = re.compile(
    r"</?(?:math|mrow|mi|mn|mo|mro|mtext|mspace|msub|msup|msubsup|mover|munder|munderover|msqrt|mroot|mfrac|mstyle"
    r"|mtable|mtr|mtd)(?: [a-z]+=[^<>]*)?>")
MATH = re.compile(r'<math xmlns="http://www\.w3\.org/1998/Math/MathML" display="(?:inline|block)">.*?</math>', re.S)

QUOTED = r'"(?:\\.|[^"\\])*"'
CHARACTER = r"'(?:\\u\{[0-9a-f]+\}|\\.|[^'\\])'"
DERIVED_ESCAPE = re.compile(r"\\(?:u\{([0-9a-f]+)\}|(.))", re.S)


@dataclass
class Element:
    """One element: its tags as they are printed, and its contents, which are elements and texts."""
    start: str
    end: str
    inside: list

    def is_a(self, name):
        return re.match(rf"<{name}\b", self.start) is not None


def tree(markup):
    """Returns the one element that the markup consists of."""
    whole = Element("", "", [])
    open_elements = [whole]
    place = 0
    for tag in TAG.finditer(markup):
        if tag.start() > place:
            open_elements[-1].inside.append(markup[place:tag.start()])
        place = tag.end()
        if tag[0].startswith("</"):
            open_elements.pop().end = tag[0]
        else:
            element = Element(tag[0], "", [])
            open_elements[-1].inside.append(element)
            if not tag[0].endswith("/>"):
                open_elements.append(element)
    (root,) = whole.inside
    assert open_elements == [whole] and place == len(markup), "every tag of the crate closes"
    return root


def print_of(part):
    """Returns the print of an element or a text."""
    if isinstance(part, str):
        return part
    return part.start + "".join(map(print_of, part.inside)) + part.end


# Texts

def with_named_brackets(text):
    """`\\langle` and `\\rangle` contain named references in the crate, and the characters here."""
    return text.replace("&lang;", "\u27e8").replace("&rang;", "\u27e9")


def with_references(text):
    """The crate prints texts and characters as they are. Here `&`, `<`, `>` and `$` print as references. The stroke through
    what is slashed is a reference that the print itself adds, on both sides."""
    stroke = "&#x0338;"
    content, slashed = (text[:-len(stroke)], stroke) if text.endswith(stroke) else (text, "")
    references = {"&": "&amp;", "<": "&lt;", ">": "&gt;", "$": "&#x24;"}
    return "".join(references.get(character, character) for character in content) + slashed


def plain(derived):
    """Returns the contents of a derived debug text in quotation marks or apostrophes."""
    short = {"n": "\n", "r": "\r", "t": "\t", "0": "\0"}
    return DERIVED_ESCAPE.sub(lambda found: chr(int(found[1], 16)) if found[1] else short.get(found[2], found[2]),
                              derived[1:-1])


def quotation(text, mark):
    """Returns a text in quotation marks, or a character in apostrophes, as in the language's token texts."""
    return mark + re.sub(rf"[{mark}\\]", r"\\\g<0>", text) + mark


def token_text(derived):
    """Marked errors and refusals have derived debug texts in the crate, which also escape control, unprintable and some
    combining characters. Here only the mark itself and backslashes are escaped."""
    if derived.startswith("Space("):
        return space_token(derived)
    retold = re.sub(f"{QUOTED}|{CHARACTER}", lambda found: quotation(plain(found[0]), found[0][0]), derived, flags=re.S)
    return lone_backslash(with_named_brackets(retold))


def space_token(derived):
    """A space contains a float of ems in the crate, and a whole number of eighteenths of an em here."""
    return f"Space({round(Decimal(derived[len('Space('):-1]) * 18)})"


def lone_backslash(text):
    """A backslash that ends the text is the command named NUL in the crate, and the command whose name is empty here. No
    formula that is compared contains a NUL."""
    return text.replace('Command("\0")', 'Command("")')


def marked_error(text):
    """Returns the token text of a marked error, in its quotation marks."""
    found = re.fullmatch(rf"\[PARSE ERROR: Undefined\(({QUOTED})\)\]", text, re.S)
    if not found:
        return text
    return "[PARSE ERROR: Undefined(" + quotation(token_text(plain(found[1])), '"') + ")]"


# Elements

def with_quoted_alignment(element):
    """`columnalign=left` has no quotes in the crate."""
    if element.is_a("mtable"):
        element.start = re.sub(r"columnalign=(left|right)", r'columnalign="\1"', element.start)
    return element


def with_matching_end(element):
    """A parenthesis with a size ends in `</mro>` in the crate, and in `</mo>` here."""
    if element.end == "</mro>":
        element.end = "</mo>"
    return element


def with_rounded_width(element):
    """The width of a space prints as its float in the crate, and rounded to the nearest thousandth here."""
    if element.is_a("mspace"):
        element.start = re.sub(r'(?<=width=")[-.0-9]+(?=em")', round_width, element.start)
    return element


def round_width(width):
    thousandths = f"{Decimal(width[0]):.3f}"
    return thousandths.rstrip("0").rstrip(".")


def with_operator_as_base(element):
    """A big operator with only an upper limit is the accent over its limit in the crate. Here it is the base, and the limit
    is above it. The crate makes no other accent `false`."""
    if element.is_a("mover") and element.inside[1].start == '<mo accent="false">':
        limit, operator = element.inside
        operator.start = "<mo>"
        element.inside = [operator, limit]
    return element


def normal(part):
    """Returns the form that an element or a text has here."""
    if isinstance(part, str):
        return with_references(with_named_brackets(marked_error(part)))
    part.inside = [normal(inner) for inner in part.inside]
    for form in (with_quoted_alignment, with_matching_end, with_rounded_width, with_operator_as_base):
        part = form(part)
    return part


def markup(answer):
    """Returns a text in which the crate has set formulas in the form here: prose stays, and each formula is brought to the form."""
    return MATH.sub(lambda found: print_of(normal(tree(found[0]))), answer)


def refusal(text):
    """Returns the form that a refusal's text has here: its token texts are converted."""
    for shape in (r'(The token ")(.*?)(" is expected, but the token ")(.*)(" is found\.")',
                  r'(There must be a parenthesis after ")(.*?)(", but not found\. Insted, ")(.*)(" is found\.)'):
        found = re.fullmatch(shape, text, re.S)
        if found:
            return found[1] + token_text(found[2]) + found[3] + token_text(found[4]) + found[5]
    return text


# Formulas

COMMAND = re.compile(r"\\([A-Za-z]+|.|$)", re.S)
STAND_IN, ITS_CHARACTER = "\\lightning", "\u21af"
TOKEN = re.compile(r"[ \t\n\r]*(?::=|\\(?:[A-Za-z]+|.|$)|[0-9]+\.?[0-9]*|.|$)", re.S)


def with_stand_in(formula):
    """`\\ni` has the character of `\\notin` in the crate, by mistake, and its own here. So the crate reads another operator
    instead, and `from_crate` replaces that operator's character with that of `\\ni`."""
    return COMMAND.sub(lambda command: STAND_IN if command[1] == "ni" else command[0], formula)


def for_crate(formula):
    """Scripts and primes after an operand belong to it in the crate, and stay outside here. Braces express this in the crate."""
    return operands.add_braces(with_stand_in(formula))


def has_stand_in(text, handed):
    return handed.count(STAND_IN) > text.count(STAND_IN)


def from_crate(text, handed, answer):
    return answer.replace(ITS_CHARACTER, "\u220b") if has_stand_in(text, handed) else answer


def incomparable(text, handed):
    """Returns why a text cannot be compared because of a listed difference, or None."""
    if "\0" in text:
        return "a NUL, which the crate reads as the end"
    if has_stand_in(text, handed) and (ITS_CHARACTER in text or STAND_IN in text):
        return "\\ni beside the operator that stands for it"
    return None


def sized_behind_middle(formula):
    """The crate panics if what follows `\\middle` is not a lone operator. Here it is refused, and the token found is the one
    directly after it. So the crate gets that token of each `\\middle` after a size, which makes it name the token."""
    return ["\\bigl" + TOKEN.match(formula, command.end())[0]
            for command in COMMAND.finditer(formula) if command[1] == "middle"]


def refusal_of_middle(kind, said):
    """Returns the refusal's text for a token, from the crate's answer to that token after a size. If the token got the size,
    it is a parenthesis. Otherwise the refusal names it."""
    if kind == "o":
        token = re.search(r'minsize="1\.2em">(.*)</mro>', said, re.S)
        derived = 'Paren("' + token[1] + '")'
    else:
        derived = re.fullmatch(r'The token "Paren\(""\)" is expected, but the token "(.*)" is found\."', said, re.S)[1]
    return f'There must be a parenthesis after "Middle", but not found. Insted, "{token_text(derived)}" is found.'


# Documents

def formulas_of(document):
    """Returns the formulas that a document's dollar signs enclose, as pairs of a word and a text, in order, and the word of the
    one that is left open at its end, or "". Returns None if formulas touch, if one contains a dollar sign, or if there are three
    in a row: the crate pairs every `$$` first, even overlapping ones, and then the single ones in the result. Here the document
    is cut once, from left to right."""
    found, opened, start = [], "", 0
    for run in re.finditer(r"\$+", document):
        word = {1: "inline", 2: "block"}.get(len(run[0]))
        if word is None or opened not in ("", word):
            return None
        if opened:
            found.append((opened, document[start:run.start()]))
            opened = ""
        else:
            opened, start = word, run.end()
    return found, opened


UNIT = re.compile(r"\\.|\$+|.", re.S)
ESCAPED_SIGN = "\\$"


def parts(document):
    """Returns texts, as lists of units, and runs of dollar signs in turn. Here a backslash belongs with the next character."""
    found = [[]]
    for unit in UNIT.findall(document):
        if unit.startswith("$"):
            found += [[unit], []]
        else:
            found[-1].append(unit)
    return found


def document_for_crate(document):
    """Returns a document in which the crate reads each formula as it reads one alone. In the crate a backslash does not belong
    with the next character, so the crate gets the reference that `\\$` in prose becomes here."""
    handed = ""
    for place, units in enumerate(parts(document)):
        if place % 4 == 0:
            units = ["&#x24;" if unit == ESCAPED_SIGN else unit for unit in units]
        text = "".join(units)
        handed += for_crate(text) if place % 4 == 2 else text
    return handed


def is_body(formula):
    """Whether dollar signs can enclose the formula here: none of its units is one, and its last unit is not a lone backslash."""
    texts = parts(formula)
    return len(texts) == 1 and texts[0] != [] and texts[0][-1] != "\\"


def has_escaped_sign(document):
    """Whether a formula contains `\\$`. In the crate its dollar sign ends the formula."""
    return any(ESCAPED_SIGN in units for units in parts(document)[2::4])


def has_one_first_fault(formulas, refused, opened):
    """Whether the same fault of a document comes first in the crate and here. Here the dollar signs are counted before any
    formula is looked at, and formulas are taken in order. In the crate the double ones are counted, then each display is
    looked at, then the single ones are counted, and then the inline formulas are looked at."""
    here = [("count", opened)] if opened else []
    here += [(word, place) for place, (word, _) in enumerate(formulas) if refused[place]]
    turns = [("count", "block"), "block", ("count", "inline"), "inline"]
    there = sorted(here, key=lambda fault: turns.index(fault if fault in turns else fault[0]))
    return here[:1] == there[:1]
