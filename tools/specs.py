"""The definitions that the public contracts rest on: those that their clauses name, and all that these import."""
import collections
import functools
import pathlib
import re
from dataclasses import dataclass, field

ROOT = pathlib.Path(__file__).resolve().parent.parent
CRATES = ROOT / "crates"

# each after those that it depends on
CRATES_IN_ORDER = ("latex2mathml_tokens", "latex2mathml_trees", "latex2mathml_nodes", "latex2mathml_grammar", "latex2mathml",
                   "latex2mathml_program", "latex2mathml_elements", "latex2mathml_tex_grammar", "latex2mathml_tex_units",
                   "latex2mathml_tex", "latex2mathml_tex_program", "latex2mathml_c")

# an import, of a module or of names in it
USE = re.compile(r"^(?:unfoldable )?(?:pub )?use (?P<path>[^\s{}]+?)(?:\.\{(?P<names>[^}]*)\})?(?: as [\w-]+)?$", re.M)
GHOST_USE = re.compile(r"^ *ghost use (?P<path>[^\s{};]+?)(?:\.\{(?P<names>[^}]*)\})?;", re.M)

# what may be part of a name in a clause
WORD = re.compile(r"[^\s(){}.,;:\[\]]+")


def code_of(text, mark):
    """The text without its comments, which begin with the mark."""
    return "\n".join(line for line in text.split("\n") if not line.lstrip().startswith(mark))


def imports(found):
    """What an import brings into scope: the word used here, and the path that it leads to."""
    if found["names"] is None:
        yield found["path"].rpartition(".")[2], found["path"]
        return
    for name in filter(None, (it.strip() for it in found["names"].split(","))):
        name, _, other = name.partition(" as ")
        yield other or name.rpartition(".")[2], f"{found['path']}.{name}"


@dataclass(frozen=True)
class Spec:
    """A file of definitions: the paths that it imports, and the number of its lines without comments, imports and empty lines."""
    crate: str
    name: str
    path: pathlib.Path
    imported: list = field(compare=False)
    lines: int = field(compare=False)


@functools.cache
def spec(crate, name):
    """The file of definitions with this name in a crate, or None."""
    path = CRATES / crate / "specs" / f"{name}.antt"
    if not path.exists():
        return None
    code = code_of(path.read_text(encoding="utf-8"), "--")
    imported = [it for found in USE.finditer(code) for _, it in imports(found)]
    body = re.sub(r"^pub mod .*$", "", USE.sub("", code), flags=re.M)
    return Spec(crate, name, path, imported, sum(bool(line.strip()) for line in body.split("\n")))


def resolve(path):
    """The file to which the path of a word leads, or None for a word of the standard library, or a type of the code."""
    found = re.match(r"Rattle\.(latex2mathml\w*)\.specs\.(\w+)", path)
    return spec(*found.groups()) if found else None


def files_below(here):
    """The files that a file of definitions imports, where one that only hands on what it imports stands for what that is."""
    for below in map(resolve, here.imported):
        if below not in (None, here):
            yield from [below] if below.lines else files_below(below)


def in_order(paths):
    """The files that define these words, and all that they use, crate by crate, each after those that it uses."""
    found = []

    def walk(here):
        if here not in found:
            for below in files_below(here):
                walk(below)
            found.append(here)

    for top in filter(None, map(resolve, paths)):
        walk(top)
    return sorted((it for it in found if it.lines), key=lambda it: CRATES_IN_ORDER.index(it.crate))


def library_words(specs, paths):
    """The words of the standard library, and of what that builds on, that these files import or that are among these paths, by
    module."""
    found = collections.defaultdict(list)
    for path in sorted({*paths, *(it for here in specs for it in here.imported)}):
        if not path.startswith("Rattle.latex2mathml"):
            module, _, word = path.removeprefix("Rattle.std.").rpartition(".")
            found[module].append(word)
    return found


def clauses(text):
    """The contracts of the functions that a source makes public, by themselves or in a trait, and what is known about its values:
    what `Display` prints, and the state of a stream or a site."""
    lines, in_trait = code_of(text, "//").split("\n"), False
    for at, line in enumerate(lines):
        in_trait = line.startswith("pub trait ") or in_trait and not line.startswith("}")
        if re.match(r"\s*pub (?:const |extern \"C\" )*fn\b", line) or in_trait and re.match(r"\s*fn\b", line):
            yield up_to(r"(?:\{|\{\}|;)$", lines[at:])
        elif re.match(r"\s*ghost (?:output|state|answers)\b", line):
            yield up_to(r"\};$", lines[at:])


def up_to(end, lines):
    """The lines up to and including the first in which this is found."""
    last = next(at for at, line in enumerate(lines) if re.search(end, line))
    return "\n".join(lines[:last + 1])


def named(sources):
    """The paths of all words that the public contracts of these sources name."""
    found = set()
    for source in sources:
        text = source.read_text(encoding="utf-8")
        words = {word for clause in clauses(text) for word in WORD.findall(clause)}
        for scope in map(imports, GHOST_USE.finditer(code_of(text, "//"))):
            found.update(path for word, path in scope if word in words)
    return sorted(found)
