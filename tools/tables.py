"""The tables of the code of `tex_to_mathml`. The checker compares them with those of the definitions."""
import pathlib
import re

CRATES = pathlib.Path(__file__).resolve().parent.parent / "crates"

CHARACTER = r"'(?:\\u\{[0-9A-F]+\}|\\.|[^'\\])'"
TEXT = r'"(?:\\u\{[0-9A-F]+\}|\\.|[^"\\])*"'
LITERAL = rf"{CHARACTER}|{TEXT}|-?\b\d+"


class WrongForm(LookupError):
    """A table that cannot be read, or an entry that is listed nowhere."""


def source(pattern):
    return "".join(path.read_text(encoding="utf-8") for path in sorted(CRATES.glob(pattern)))


def value(literal):
    """What a literal of a character or a text is; a number is its digits."""
    text = literal[1:-1] if literal[0] in "'\"" else literal
    return re.sub(r"\\(?:u\{([0-9A-F]+)\}|(.))", lambda it: chr(int(it[1], 16)) if it[1] else it[2], text)


def entries(pattern, table, *fields):
    """The entries of the tables of this name in these files: the texts of the fields, which are all that an entry has."""
    form, found = ", ".join(f"{it}: (.*)" for it in fields), []
    for kind, count, body in re.findall(rf"^static {table}: \[(\w+); (\d+)\] = \[\n(.*?)^\];$", source(pattern), re.M | re.S):
        read = re.findall(rf"^    {kind} \{{ {form} \}},$", body, re.M)
        if len(read) != int(count):
            raise WrongForm(f"{pattern}: {len(read)} of {count} entries can be read")
        found += read
    if not found:
        raise WrongForm(f"{pattern} has no table {table}")
    return found


def function(pattern, name):
    return re.search(rf"^(?:pub(?:\(crate\))? )?fn {name}(?:<[^>]*>)?\(.*?^}}$", source(pattern), re.M | re.S)[0]


def arms(pattern, name):
    """The characters for which a function has an arm, with the literal that it returns."""
    body = " ".join(function(pattern, name).split())
    found = re.findall(rf"((?:{CHARACTER}(?: \| )?)+) => Some\((c|{CHARACTER})\),", body)
    if len(found) != body.count("=> Some("):
        raise WrongForm(f"{pattern}: {len(found)} of {body.count('=> Some(')} arms of {name} can be read")
    return [(value(it), it if answer == "c" else answer) for patterns, answer in found for it in re.findall(CHARACTER, patterns)]


def answers(pattern, name, answer):
    """The texts with which a function compares, each with the answer behind it."""
    texts = []
    for text, word in re.findall(rf"({TEXT})|{answer}", function(pattern, name)):
        if text:
            texts.append(value(text))
        else:
            yield from ((it, word) for it in texts)
            texts = []
