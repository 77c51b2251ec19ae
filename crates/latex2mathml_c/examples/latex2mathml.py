r"""LaTeX to MathML, by liblatex2mathml.so: the one that LATEX2MATHML names, or the one in the folder above this file.

    import latex2mathml
    latex2mathml.formula("x<y")
    latex2mathml.document("Let $x<y$ be.")
    latex2mathml.tex(r"x_i^2 \in \R", definitions=r"\newcommand{\R}{\mathbb{R}}")
    latex2mathml.tex("x<y", annotation=True)
"""
import ctypes
import os
import pathlib
import sys

DONE, REFUSED, NOT_UTF8, TOO_SMALL, OUT_OF_MEMORY, DEFINITION_REFUSED, UNKNOWN_FLAGS = range(7)
ANNOTATION = 1

_above = pathlib.Path(__file__).resolve().parent.parent
_library = ctypes.CDLL(os.environ.get("LATEX2MATHML", str(_above / "liblatex2mathml.so")))
_room = [ctypes.c_char_p, ctypes.c_size_t, ctypes.POINTER(ctypes.c_size_t)]
_library.latex2mathml_formula.argtypes = [ctypes.c_char_p, ctypes.c_size_t, ctypes.c_bool, *_room]
_library.latex2mathml_formula.restype = ctypes.c_uint32
_library.latex2mathml_document.argtypes = [ctypes.c_char_p, ctypes.c_size_t, *_room]
_library.latex2mathml_document.restype = ctypes.c_uint32
_library.latex2mathml_tex.argtypes = [ctypes.c_char_p, ctypes.c_size_t, ctypes.c_char_p, ctypes.c_size_t, ctypes.c_bool,
                                      ctypes.c_uint32, *_room, ctypes.POINTER(ctypes.c_size_t)]
_library.latex2mathml_tex.restype = ctypes.c_uint32


class Refused(ValueError):
    """There is no markup. The text says why."""


class TexRefused(Refused):
    """There is no markup. What is refused begins at the byte `place` of the definitions, or else of the formula."""

    def __init__(self, message, place, is_definition):
        super().__init__(message)
        self.place, self.is_definition = place, is_definition


def _bytes(text):
    return text.encode() if isinstance(text, str) else bytes(text)


def _call(call, length, *more):
    needed = ctypes.c_size_t(256 + 64 * length)
    code = TOO_SMALL
    while code == TOO_SMALL:  # twice at most
        room = ctypes.create_string_buffer(needed.value)
        code = call(room, len(room), ctypes.byref(needed), *more)
    if code == OUT_OF_MEMORY:
        raise MemoryError
    return code, ctypes.string_at(room, needed.value).decode()


def _answer(call, text, *more):
    text = _bytes(text)
    code, answer = _call(lambda *room: call(text, len(text), *more, *room), len(text))
    if code != DONE:
        raise Refused(answer)
    return answer


def formula(latex, block=False):
    """The `math` element of a formula, a `str` or UTF-8 bytes, as a block of its own or for a line of text."""
    return _answer(_library.latex2mathml_formula, latex, block)


def document(text):
    """The document with the `math` element of each formula in the formula's place."""
    return _answer(_library.latex2mathml_document, text)


def tex(formula, block=False, definitions="", annotation=False):
    """The `math` element of a formula in LaTeX as authors write it, which may use macros of these definitions.

    With `annotation` it has the formula itself too, so that a copy of it takes its LaTeX along."""
    formula, definitions = _bytes(formula), _bytes(definitions)
    given = definitions, len(definitions), formula, len(formula), block, ANNOTATION if annotation else 0
    place = ctypes.c_size_t()
    code, answer = _call(lambda *room: _library.latex2mathml_tex(*given, *room), len(formula), ctypes.byref(place))
    if code != DONE:
        raise TexRefused(answer, place.value, code == DEFINITION_REFUSED)
    return answer


if __name__ == "__main__":
    for word in sys.argv[1:] or ["x<y"]:
        try:
            print(formula(os.fsencode(word)))
        except Refused as reason:
            sys.exit(str(reason))
