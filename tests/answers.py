"""The results of the built program and of the library for C for an input, and failures that show a difference."""
import ctypes
import difflib
import enum
import functools
import os.path
import re

from tests.support import SHOWN, Case, c_library, program, run, show
from tests.texts import ERROR, NO_TEXT


class Code(enum.IntEnum):
    """The codes of the library for C."""
    DONE = 0
    REFUSED = 1
    NOT_UTF8 = 2
    TOO_SMALL = 3
    OUT_OF_MEMORY = 4
    DEFINITION_REFUSED = 5
    UNKNOWN_FLAGS = 6


def by_program(word, given):
    """The result of the program for the input; its status and streams, if it is not reported as it should be."""
    done = run([program(), word], stdin=given)
    if done.returncode == 0 and not done.stderr:
        markup = done.stdout if word == "document" else done.stdout.removesuffix(b"\n")
        return Code.DONE, markup
    reason = done.stderr.removeprefix(ERROR).removesuffix(b"\n")
    if done.returncode == 1 and not done.stdout and done.stderr == ERROR + reason + b"\n":
        return Code.NOT_UTF8 if reason == NO_TEXT.encode() else Code.REFUSED, reason
    return f"status {done.returncode}", b"standard output: " + done.stdout + b"\nstandard error: " + done.stderr


@functools.cache
def library():
    loaded = ctypes.CDLL(str(c_library() / "liblatex2mathml.so"))
    text, size = [ctypes.c_char_p, ctypes.c_size_t], ctypes.POINTER(ctypes.c_size_t)
    for call, given, places in ((loaded.latex2mathml_formula, [*text, ctypes.c_bool], []), (loaded.latex2mathml_document, text, []),
                                (loaded.latex2mathml_tex, [*text, *text, ctypes.c_bool, ctypes.c_uint32], [size])):
        call.argtypes = [*given, *text, size, *places]
        call.restype = ctypes.c_uint32
    return loaded


def by_library(word, given):
    """The result of the library for C for the input. The first call has a buffer of one byte, the second one of the size needed."""
    if word == "document":
        return answer_of(library().latex2mathml_document, [given, len(given)])
    return answer_of(library().latex2mathml_formula, [given, len(given), word == "block"])


def tex_by_library(word, given):
    """The same for LaTeX as authors write it, and the place of what is refused."""
    place = ctypes.c_size_t(1)
    words = [b"", 0, given, len(given), word == "block", 0]
    code, text = answer_of(library().latex2mathml_tex, words, ctypes.byref(place))
    return code, text, place.value


def answer_of(call, given, *places):
    needed = ctypes.c_size_t(1)
    code = Code.TOO_SMALL
    while code == Code.TOO_SMALL:
        room = ctypes.create_string_buffer(max(needed.value, 1))
        code = call(*given, room, needed.value, ctypes.byref(needed), *places)
    return Code(code), ctypes.string_at(room, needed.value)


WAYS = [("the program", by_program), ("the library for C", by_library)]


def pieces(answer):
    """Markup split at its tags, so that a difference is readable."""
    return re.findall("<[^<]*|[^<]+", answer.decode(errors="backslashreplace"))


def difference(wanted, came):
    if len(wanted) + len(came) > 10 * SHOWN:
        start = max(len(os.path.commonprefix([wanted, came])) - 40, 0)
        return f"from byte {start} on\n- {wanted[start:start + SHOWN]}\n+ {came[start:start + SHOWN]}"
    return "\n".join(difflib.unified_diff(pieces(wanted), pieces(came), "wanted", "came", n=2, lineterm=""))


class AnswerCase(Case):
    def comes_to(self, place, word, given, code, wanted):
        """Checks that the result for the input is this, with the program's word, in each way."""
        for name, way in WAYS:
            found, came = way(word, given)
            if (found, came) != (code, wanted):
                differs = f": {found!r} where {code!r} is due" if found != code else ""
                text = show(given.decode(errors="backslashreplace"))
                self.fail(f"\n{place}: {word} of {text}\nby {name}{differs}\n{difference(wanted, came)}")
