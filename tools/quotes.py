"""What documents quote from the sources: lines of definitions, and signatures with their clauses.

A definition is linked by its line, as [`IsAnswer`](../crates/latex2mathml/specs/Documents.antt#L93). A signature is a block
of Rust after a comment that names its file: `<!-- quoted from crates/latex2mathml/src/lib.rt -->`.
"""
import re
from pathlib import Path

ROOT = Path(__file__).resolve().parent.parent

DEFINITION = re.compile(r"\[`(?P<word>[^`]+)`\]\((?P<path>[^)#\s]+\.antt)#L(?P<line>\d+)\)")
QUOTE = re.compile(r"<!-- quoted from (?P<path>\S+) -->\n```rust\n(?P<text>.*?)```", re.S)

# the library's crates with public calls
LIBRARY = ("latex2mathml_tokens", "latex2mathml_trees", "latex2mathml_nodes", "latex2mathml_grammar", "latex2mathml_parser",
           "latex2mathml", "latex2mathml_elements", "latex2mathml_tex_grammar", "latex2mathml_tex")

# a crate whose public calls are for the library's own crates, except for those of these files
CALLED_OF = {"latex2mathml_tex_units": ("error.rt", "macros/table.rt", "position.rt")}

# those of their functions that are for the library's own crates too
OWN_FUNCTIONS = {"of_fault", "out_of_memory"}

# the files whose public calls are only for the library's own crates
OWN_CALLS = ("latex2mathml_tokens/lexeme.rt", "latex2mathml_tokens/names.rt", "latex2mathml_trees/append.rt", "latex2mathml_trees/text.rt",
             "latex2mathml_trees/width.rt", "latex2mathml_parser/formula.rt")


def sources_of(document):
    """The files to which the links to definitions lead in a document."""
    return [(document.parent / found["path"]).resolve() for found in DEFINITION.finditer(document.read_text(encoding="utf-8"))]


def line_of(source, word):
    """The line in which a definition begins."""
    begins = re.compile(rf"\s*(?:(?:abbrev|unfoldable|opaque) )?(?:pub )?(?:(?:data|record) )?{re.escape(word)}(?=[\s:({{]|$)(?=.*[:({{])")
    for number, line in enumerate(source.read_text().split("\n"), 1):
        if begins.match(line):
            return number
    raise LookupError(f"{source.name} has no definition {word}")


def renewed(document):
    """The text of a document, with the line in each link to a definition, and the signatures in each block that quotes one, as
    they are now. If one is gone, this is a `LookupError`."""
    def renewed_line(found):
        return f"[`{found['word']}`]({found['path']}#L{line_of(document.parent / found['path'], found['word'])})"

    def renewed_quote(found):
        names = re.findall(r"\bfn (\w+)", found["text"])
        signatures = [signature(ROOT / found["path"], name) for name in names]
        return f"<!-- quoted from {found['path']} -->\n```rust\n{chr(10).join(signatures)}```"

    return QUOTE.sub(renewed_quote, DEFINITION.sub(renewed_line, document.read_text(encoding="utf-8")))


def signature(source, name):
    """The signature of a function in its source, with its clauses and without its body."""
    lines = source.read_text().split("\n")
    begin = next((at for at, line in enumerate(lines) if re.match(rf"\s*(?:pub )?fn {name}\b", line)), None)
    if begin is None:
        raise LookupError(f"{source.name} has no function {name}")
    indent = len(lines[begin]) - len(lines[begin].lstrip())
    end = next(at for at in range(begin, len(lines)) if lines[at] in (" " * indent + "{", " " * indent + "{}") or lines[at].endswith(";"))
    kept = lines[begin:end + lines[end].endswith(";")]
    return "".join(f"{line[indent:]}\n" for line in kept if not line.strip().startswith("//"))


def public_calls():
    """The names of the functions that callers of the library can use."""
    found = {name for source in sources() for name in re.findall(r"^ *pub (?:const )?fn (\w+)", source.read_text(), re.M)}
    return sorted(found - OWN_FUNCTIONS)


def sources():
    for crate in LIBRARY:
        yield from (it for it in sorted((ROOT / "crates" / crate / "src").rglob("*.rt")) if f"{crate}/{it.name}" not in OWN_CALLS)
    for crate, files in CALLED_OF.items():
        yield from (ROOT / "crates" / crate / "src" / file for file in files)


def public_sources():
    """The sources whose public functions are called from outside: those of the library, of the program, and of the library for C."""
    yield from sources()
    for path in ("latex2mathml_program/src/job.rt", "latex2mathml_program/src/serving.rt", "latex2mathml_c/src/lib.rt",
                 *(f"latex2mathml_tex_program/src/{name}.rt" for name in ("request", "definitions", "reply", "serving"))):
        yield ROOT / "crates" / path
