"""What `tex_to_mathml` reads, as docs/COMMANDS.md lists it."""
import collections
import functools
import itertools
import pathlib
import re
import tomllib
import unicodedata

from tools.listing import code, item, order, shown, table
from tools.tables import LITERAL, TEXT, WrongForm, answers, arms, entries, function, value

COMMANDS, UNITS = "latex2mathml_tex_commands/src", "latex2mathml_tex_units/src"
SECTIONS = tomllib.loads((pathlib.Path(__file__).parent / "tex_commands.toml").read_text(encoding="utf-8"))

# where entries of a form are listed: the section, what they are, and an example in which @ is the command
Place = collections.namedtuple("Place", "section what example", defaults=[""])


class Entry(collections.namedtuple("Entry", "name place draws")):
    """What is listed, where, and the character, text or number of its entry."""

    @property
    def example(self):
        """The example, with this command."""
        return self.place.example.replace("@", self.name)


PLACES = {form: Place(section, *said) for section, forms in SECTIONS.items() for form, said in forms.items() if form != "text"}


def commands():
    """The commands of the table, and what each means; the checker compares the keys with the names."""
    return [(name, meaning) for name, _, meaning in entries(f"{COMMANDS}/commands/*.rt", r"\w+", "name", "key", "meaning")]


def characters():
    return entries(f"{COMMANDS}/signs/table.rt", "ENTRIES", "character", "symbol")


def environments():
    return entries(f"{UNITS}/environments.rt", "ENVIRONMENTS", "name", "delimiters", "layout", "style", "bracket", "argument")


def macros():
    return entries(f"{UNITS}/macros/usual.rt", "ENTRIES", "name", "arity", "body")


def other_macros():
    """The usual macros that take more than arguments, or that bars divide: the name, the form, what else it has, and the body."""
    written = " ".join(function(f"{UNITS}/macros/usual.rt", "other_named").split())
    named = rf"(?:name == ({TEXT})|is_break\(name\))"
    found = re.findall(rf"{named} {{ Some\(Other::(\w+) {{ (?:\w+: ({TEXT}|\d), )?body: ({TEXT}),? }}\)", written)
    enclosed = re.findall(rf"name == ({TEXT}) {{ Some\(Other::(Enclosed) {{ bars: Bars::(\w+), left: ({TEXT}), right: ({TEXT}),? }}\)", written)
    found += [(name, form, "", literal(value(left) + "#1" + dividers()[bars] + "#2" + value(right))) for name, form, bars, left, right in enclosed]
    if len(found) != written.count("Some(Other::"):
        raise WrongForm(f"{len(found)} of {written.count('Some(Other::')} usual macros of a form of their own can be read")
    breaks = re.findall(TEXT, function(f"{UNITS}/macros/usual.rt", "is_break"))
    return [(one, *said) for name, *said in found for one in ([name] if name else breaks)]


def dividers():
    """What takes the place of a bar, for each name of bars that divide an argument."""
    written = " ".join(function(f"{UNITS}/macros/bars.rt", "push_divider").split())
    relations = re.findall(rf"Bars::(\w+) => {{ let relation = \[Piece::Close, Piece::Command\(({TEXT})\), Piece::Open\];", written)
    stretched = re.findall(rf"Bars::(\w+) => push_stretched\(done, ({TEXT}), bar, place\)", written)
    return {**{bars: f"}}\\{value(relation)}{{" for bars, relation in relations},
            **{bars: f"}}\\{value(space)}\\middle|\\{value(space)}{{" for bars, space in stretched}}


def literal(text):
    """The text as the code writes it."""
    return '"' + text.replace("\\", "\\\\") + '"'


def uses_of(name, form, other, body):
    """How such a macro is used, and what it expands to."""
    if form == "Divided":
        return [(f"\\{value(name)} #1\\{value(other)}{{#2}}", body)]
    if form == "Optional":
        return [(f"\\{value(name)}[#1]" + "{#2}" * (int(other) - 1), body)]
    if form == "Enclosed":
        return [(f"\\{value(name)}{{#1|#2}}", body)]
    return [(f"\\{value(name)}{{#1}}", body), (f"\\{value(name)}*{{#1}}", other)]


def forms():
    """Everything that is listed, and how the code writes what it is."""
    yield from ((f"\\{value(name)}", meaning) for name, meaning in commands())
    yield from ((value(character), f"Character({symbol})") for character, symbol in characters())
    for kind, path, name in (("TextCommand", f"{COMMANDS}/text_commands.rt", "TEXT_COMMANDS"),
                             ("TextAccent", f"{COMMANDS}/text_commands.rt", "TEXT_ACCENTS"),
                             ("Delimiter", f"{UNITS}/delimiters.rt", "DELIMITERS"), ("Negated", f"{UNITS}/delimiters.rt", "NEGATED")):
        yield from ((f"\\{value(name)}", f"{kind}({character})") for name, character in entries(path, name, "name", "character"))
    for kind, name in (("Delimiter", "delimiter_character"), ("Negated", "negated_character")):
        yield from ((character, f"{kind}({answer})") for character, answer in arms(f"{UNITS}/delimiters.rt", name))
    for name, delimiters, *others in environments():
        yield value(name), f'Environment("{"".join(map(value, re.findall(LITERAL, delimiters)))}", {", ".join(others)})'
    for name, arity, body in macros():
        yield f"\\{value(name)}" + "".join(f"{{#{number + 1}}}" for number in range(int(arity))), f"Usual({body})"
    yield from ((use, f"Usual({body})") for it in other_macros() for use, body in uses_of(*it))
    yield from ((f"\\{name}", word) for name, word in answers(f"{UNITS}/macros/definitions.rt", "word_named", r"Word::(\w+)"))
    yield from ((f"\\{name}", "Line") for name, _ in answers(f"{UNITS}/row_lines.rt", "is_line", r"(\))"))


@functools.cache
def listed():
    """Everything that is listed, in the order of the names."""
    return sorted((entry_of(name, written) for name, written in forms()), key=lambda it: order(it.name))


def entry_of(name, written):
    draws = "".join(map(value, re.findall(LITERAL, written)))
    form = re.sub(r"\w+::", "", re.sub(LITERAL, "_", written))
    # what Unicode calls an arrow may have a place of its own
    name_of_sign = unicodedata.name(draws, "") if len(draws) == 1 else ""
    if re.search("ARROW|HARPOON", name_of_sign) and form.replace("_", "arrow") in PLACES:
        form = form.replace("_", "arrow")
    if form not in PLACES:
        raise WrongForm(f"{name} is of a form that tools/tex_commands.toml does not list: {form}")
    return Entry(name, PLACES[form], draws)


def lines():
    yield (f"It reads {len(commands())} commands, {len(environments())} environments, {len(characters())} characters "
           f"and {len(macros()) + len(other_macros())} usual macros.")
    for section, forms in SECTIONS.items():
        yield from ("", f"### {section}", "", *([forms["text"], ""] if "text" in forms else []))
        yield from section_lines([it for it in listed() if it.place.section == section])


def section_lines(here):
    """The lists of what is in a section, and then the table, in the order of tex_commands.toml."""
    found = {place: [it for it in here if it.place == place] for place in PLACES.values() if place.section == here[0].place.section}
    lists = [item(place.what, [shown(it.name, it.draws) for it in them]) for place, them in found.items() if not place.example]
    rows = [(", ".join(code(it.name) for it in them), code(them[0].example), place.what) for place, them in found.items() if place.example]
    yield from itertools.chain(*lists)
    if lists and rows:
        yield ""
    if rows:
        yield from table(("Commands", "As in", "Meaning"), rows)
