r"""Macros in the settings of MathJax and KaTeX, as far as they are plain data: texts, numbers, lists and mappings.

    window.MathJax = { tex: { macros: { RR: "\\mathbb{R}", norm: ["\\lVert #1 \\rVert", 1] } } };
    renderMathInElement(document.body, { macros: { "\\RR": "\\mathbb{R}" } });
"""
import json
import pathlib
import re
from typing import Any, Iterator, List, Mapping, NamedTuple, Tuple, Union

from latex2mathml_proved.macros import MacroError, definitions_of

_STRING = r'"(?:\\.|[^"\\\n])*"|\'(?:\\.|[^\'\\\n])*\''
_COMMENT = r"//[^\n]*|/\*.*?\*/"

# Where a script has macros. Comments and other strings are skipped.
_MACROS = re.compile(rf"(?P<macros>(?:\b[mM]acros|'[mM]acros'|\"[mM]acros\")\s*:)|{_COMMENT}|{_STRING}", re.DOTALL)

_TOKEN = re.compile(
    rf"(?:\s|{_COMMENT})*(?:(?P<string>{_STRING})|(?P<number>-?[0-9]+(?:\.[0-9]+)?)|(?P<word>[A-Za-z_$][\w$]*)|(?P<sign>[\[\]{{}},:]))",
    re.DOTALL)

_ESCAPE = re.compile(r"\\(?:u([0-9a-fA-F]{4})|x([0-9a-fA-F]{2})|(\r\n|.))", re.DOTALL)
_ESCAPED = {"n": "\n", "t": "\t", "r": "\r", "b": "\b", "f": "\f", "v": "\v", "0": "\0", "\n": "", "\r\n": ""}
_WORDS = {"true": True, "false": False, "null": None}

# The greatest depth of nested brackets.
_DEPTH = 20


class NotPlain(ValueError):
    """Raised when settings are not plain data. `place` is the index of the first sign that is not."""

    def __init__(self, place: int):
        super().__init__("no plain data")
        self.place = place


class Refusal(NamedTuple):
    """Why macros are refused, and where they are in the script."""

    reason: str
    place: int


class Settings(NamedTuple):
    """The macros of a script as a text of definitions, and those that are refused."""

    definitions: str
    refused: List[Refusal]


def macros_of(script: str) -> Settings:
    """Returns the macros of all settings in a script."""
    definitions, refused = "", []
    for found in _MACROS.finditer(script):
        token = _TOKEN.match(script, found.end()) if found["macros"] else None
        if token and token["sign"] == "{":
            place = token.start("sign")
            try:
                macros = _Data(script, place).value()
            except NotPlain as error:
                refused.append(Refusal("macros that are no plain data are not read", error.place))
                continue
            for name, macro in macros.items():
                try:
                    definitions += definitions_of({name: macro})
                except MacroError as error:
                    refused.append(Refusal(str(error), place))
    return Settings(definitions, refused)


def definitions_in(file: Union[str, pathlib.Path]) -> str:
    """Returns the macros of a file as a text of definitions: `.json` has a mapping, `.js` settings, any other file definitions.

    Raises `MacroError` if something is not a definition, and `OSError` if the file cannot be read.
    """
    path = pathlib.Path(file)
    if path.suffix not in (".js", ".json"):
        return definitions_of(path)
    try:
        text = path.read_text(encoding="utf-8")
        if path.suffix == ".json":
            return definitions_of(_mapping(json.loads(text)))
    except (UnicodeDecodeError, json.JSONDecodeError, MacroError) as error:
        raise MacroError(f"{path}: {error}") from error
    settings = macros_of(text)
    if settings.refused:
        raise MacroError(f"{path}: {settings.refused[0].reason}")
    return settings.definitions


def _mapping(value: Any) -> Mapping[str, Any]:
    if not isinstance(value, dict):
        raise MacroError("macros: not a mapping")
    return value


class _Data:
    """Reads a JavaScript value that is plain data, from an index on."""

    def __init__(self, script: str, start: int):
        self._tokens = self._read(script, start)
        self._kind, self._text, self._place = "", "", start
        self._step()

    @staticmethod
    def _read(script: str, at: int) -> Iterator[Tuple[str, str, int]]:
        while True:
            token = _TOKEN.match(script, at)
            if not token or not token.lastgroup:
                raise NotPlain(at)
            yield token.lastgroup, token[token.lastgroup], token.start(token.lastgroup)
            at = token.end()

    def _step(self) -> str:
        """Takes a token and returns its text."""
        taken = self._text
        self._kind, self._text, self._place = next(self._tokens)
        return taken

    def _takes(self, sign: str) -> bool:
        is_there = self._kind == "sign" and self._text == sign
        if is_there:
            self._step()
        return is_there

    def _is(self, sign: str) -> bool:
        return self._kind == "sign" and self._text == sign

    def value(self, depth: int = 0) -> Any:
        """Takes all of a value but its last token, which anything may follow."""
        if depth == _DEPTH:
            raise NotPlain(self._place)
        if self._takes("{"):
            return self._mapping(depth)
        if self._takes("["):
            return self._list(depth)
        if self._kind == "string":
            return _unquoted(self._text)
        if self._kind == "number":
            return float(self._text) if "." in self._text else int(self._text)
        if self._kind == "word" and self._text in _WORDS:
            return _WORDS[self._text]
        raise NotPlain(self._place)

    def _mapping(self, depth: int) -> Any:
        made = {}
        while not self._is("}"):
            if self._kind not in ("string", "word"):
                raise NotPlain(self._place)
            name = _unquoted(self._text) if self._kind == "string" else self._text
            self._step()
            if not self._takes(":"):
                raise NotPlain(self._place)
            made[name] = self.value(depth + 1)
            self._end_member("}")
        return made

    def _list(self, depth: int) -> Any:
        made = []
        while not self._is("]"):
            made.append(self.value(depth + 1))
            self._end_member("]")
        return made

    def _end_member(self, closing: str) -> None:
        """Takes the last token of a member, and the comma after it."""
        self._step()
        if not self._takes(",") and not self._is(closing):
            raise NotPlain(self._place)


def _unquoted(string: str) -> str:
    text = _ESCAPE.sub(lambda it: chr(int(it[1] or it[2], 16)) if it[1] or it[2] else _ESCAPED.get(it[3], it[3]), string[1:-1])
    # JavaScript may write a character as two halves
    return text.encode("utf-16", "surrogatepass").decode("utf-16", "replace")
