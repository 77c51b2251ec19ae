"""Calls to the shared library."""
import ctypes
import html
import pathlib
import platform
import re
from typing import Any, Callable, List, Tuple

from latex2mathml_proved.places import place_of

DONE, REFUSED, NOT_UTF8, TOO_SMALL, OUT_OF_MEMORY, DEFINITION_REFUSED = range(6)

# The flag that asks for the formula as an annotation.
ANNOTATION = 1

# Room for nearly every formula, as in LATEX2MATHML_ROOM of the header.
ROOM, ROOM_PER_BYTE = 256, 64


class Refused(ValueError):
    """Raised when a formula or a document is refused. The message is the reason. It may quote the formula, so escape it in HTML."""

    # the module that users import
    __module__ = "latex2mathml_proved"


class TexRefused(Refused):
    """Raised when a formula in LaTeX as authors write it is refused, or the definitions for it are.

    `reason` says why. `place` is the index of the character where the refused part begins, in the definitions if
    `is_definition` is true, and otherwise in the formula. The message gives both, as in `unknown command \\foo at 4`. `line`
    and `column` are the same place, counted from 1.
    """

    __module__ = "latex2mathml_proved"

    def __init__(self, reason: str, place: int, is_definition: bool, line: int, column: int):
        super().__init__(reason, place, is_definition, line, column)
        self.reason, self.place, self.is_definition = reason, place, is_definition
        self.line, self.column = line, column

    def __str__(self) -> str:
        return f"{self.reason} at {self.place}"


PATH = pathlib.Path(__file__).with_name("liblatex2mathml.so")


def _load() -> ctypes.CDLL:
    machine = f"{platform.system()} {platform.machine()}"
    if machine != "Linux x86_64":
        raise ImportError(f"latex2mathml_proved runs on Linux x86_64, and this is {machine}")
    try:
        library = ctypes.CDLL(str(PATH))
    except OSError as error:
        raise ImportError(f"latex2mathml_proved needs the GNU C library, of the version that its wheel names: {error}") from error
    room: List[Any] = [ctypes.c_char_p, ctypes.c_size_t, ctypes.POINTER(ctypes.c_size_t)]
    library.latex2mathml_formula.argtypes = [ctypes.c_char_p, ctypes.c_size_t, ctypes.c_bool, *room]
    library.latex2mathml_formula.restype = ctypes.c_uint32
    library.latex2mathml_document.argtypes = [ctypes.c_char_p, ctypes.c_size_t, *room]
    library.latex2mathml_document.restype = ctypes.c_uint32
    library.latex2mathml_tex.argtypes = [ctypes.c_char_p, ctypes.c_size_t, ctypes.c_char_p, ctypes.c_size_t, ctypes.c_bool,
                                         ctypes.c_uint32, *room, ctypes.POINTER(ctypes.c_size_t)]
    library.latex2mathml_tex.restype = ctypes.c_uint32
    return library


_library = _load()


def _call(function: Callable[..., int], length: int) -> Tuple[int, str]:
    """Returns the code and the text of a call. `function` takes the room for the text, whose size is guessed from the input's."""
    needed = ctypes.c_size_t(ROOM + ROOM_PER_BYTE * length)
    code = TOO_SMALL
    while code == TOO_SMALL:  # at most twice
        room = ctypes.create_string_buffer(needed.value)
        code = function(room, len(room), ctypes.byref(needed))
    if code == OUT_OF_MEMORY:
        raise MemoryError("latex2mathml: out of memory")
    return code, ctypes.string_at(room, needed.value).decode()


def _answer(function: Callable[..., int], text: str, *more: bool) -> str:
    source = text.encode()
    code, answer = _call(lambda *room: function(source, len(source), *more, *room), len(source))
    if code != DONE:
        raise Refused(answer)
    return answer


# What the Rust crate writes in place of what it does not know.
_MARK = re.compile(r"<mtext>\[PARSE ERROR: (.*?)\]</mtext>", re.DOTALL)


def _checked(markup: str, strict: bool) -> str:
    """Returns the markup. Raises `Refused` if parts of it are marked as errors and `strict` is true."""
    marks = _MARK.findall(markup) if strict else []
    if marks:
        raise Refused(f"marked as an error: {html.unescape(', '.join(marks))}")
    return markup


def formula(latex: str, block: bool = False, strict: bool = False) -> str:
    """Returns the `math` element of a formula, which is given without dollar signs around it.

    If `block` is true, the element is for a block of its own, and otherwise for a line of text. Any number of threads may call
    this function at once.

    Raises `Refused` if the formula cannot be read, for example because a brace is not closed, `UnicodeEncodeError` if the text
    contains half of a surrogate pair, and `MemoryError` if memory runs out. Anything unknown, such as a command, is marked in the
    markup as an error. If `strict` is true, `Refused` is raised for it instead.
    """
    return _checked(_answer(_library.latex2mathml_formula, latex, block), strict)


def document(text: str, strict: bool = False) -> str:
    r"""Returns the document with each formula replaced by its `math` element.

    A formula is between single dollar signs, for a line of text, or between double ones, for a block of its own. `\$` is a
    dollar sign in the prose, and becomes `&#x24;`. All other prose is unchanged.

    Raises `Refused` if the dollar signs do not pair or a formula is refused, and the other errors of `formula`. If `strict` is
    true, a formula with a marked error is refused too.
    """
    return _checked(_answer(_library.latex2mathml_document, text), strict)


def tex(formula: str, block: bool = False, definitions: str = "", annotation: bool = False) -> str:
    r"""Returns the `math` element of a formula in LaTeX as authors write it, which is given without dollar signs around it.

    The formula may use the macros of `definitions`, such as `\newcommand{\R}{\mathbb{R}}`, in addition to LaTeX's usual ones.

    If `annotation` is true, the element also contains the formula itself as an annotation, so that a copy of it has the LaTeX too.

    Raises `TexRefused` if the formula or a definition cannot be read, and the other errors of `formula`.
    """
    source, macros = formula.encode(), definitions.encode()
    place = ctypes.c_size_t()
    given = (macros, len(macros), source, len(source), block, ANNOTATION if annotation else 0)
    code, answer = _call(lambda *room: _library.latex2mathml_tex(*given, *room, ctypes.byref(place)), len(source))
    if code == DONE:
        return answer
    is_definition = code == DEFINITION_REFUSED
    text, read = (definitions, macros) if is_definition else (formula, source)
    index = len(read[:place.value].decode())
    raise TexRefused(answer.removesuffix(f" at {place.value}"), index, is_definition, *place_of(text, index))
