r"""The option `macros` of the extensions: macros as MathJax and KaTeX take them, or a file of LaTeX definitions.

    {"RR": r"\mathbb{R}", "norm": [r"\lVert #1 \rVert", 1]}
"""
import json
import os
import pathlib
import re
from typing import Any, Mapping, Sequence, Tuple, Union

from latex2mathml_proved._library import TexRefused, tex

# What the option may be: names with their bodies, or the path of a file.
Macros = Union[Mapping[str, Any], str, "os.PathLike[str]"]

_COMMAND = re.compile(r"\\(?:[A-Za-z]+|[^A-Za-z])", re.DOTALL)
# An argument in a body. Two number signs are one literal number sign.
_ARGUMENT = re.compile(r"##|#([1-9])")
_MOST_ARGUMENTS = 9


class MacroError(ValueError):
    """Raised when something in the option `macros` is not a definition. The message names the macro, or the file and the place."""


def definitions_of(macros: Macros, folder: Union[str, "os.PathLike[str]"] = "") -> str:
    """Returns macros as a text of definitions, as `tex` takes it. The path of a file is relative to `folder`.

    Raises `MacroError` if something is not a definition, and `OSError` if the file cannot be read.
    """
    if isinstance(macros, Mapping):
        return "".join(_definition(name, macro) for name, macro in macros.items())
    if isinstance(macros, (str, os.PathLike)):
        return _read(pathlib.Path(folder, macros))
    raise MacroError(f"macros: neither a mapping nor the path of a file: {macros!r}")


def _read(file: pathlib.Path) -> str:
    try:
        definitions = file.read_text(encoding="utf-8")
    except UnicodeDecodeError as error:
        raise MacroError(f"{file}: not UTF-8") from error
    try:
        tex("", definitions=definitions)
    except TexRefused as refused:
        raise MacroError(f"{file}:{refused.line}:{refused.column}: {refused.reason}") from refused
    return definitions


def _definition(name: str, macro: Any) -> str:
    """Returns one macro as a line of definitions."""
    command = name if isinstance(name, str) and name.startswith("\\") else f"\\{name}"
    if not _COMMAND.fullmatch(command):
        raise MacroError(f"macros: {_shown(name)} is not the name of a command: letters, or one other character")
    body, arguments = _body_and_arguments(command, macro)
    count = f"[{arguments}]" if arguments else ""
    # a comment at the end of the body must not reach the brace
    last = "\n" if "%" in body else ""
    definition = rf"\newcommand{{{command}}}{count}{{{body}{last}}}" + "\n"
    try:
        tex("", definitions=definition)
    except TexRefused as refused:
        raise MacroError(f"macros: {command}: {refused.reason}: {body}") from refused
    return definition


def _body_and_arguments(command: str, macro: Any) -> Tuple[str, int]:
    """Returns the body of a macro and the number of its arguments. If no number is given, a macro takes as many as its body has, as
    in KaTeX."""
    is_list = isinstance(macro, Sequence) and not isinstance(macro, str)
    body, *more = macro if is_list and macro else [macro]
    if not isinstance(body, str):
        raise MacroError(f"macros: {command} is neither a text nor a list of a text and a number of arguments: {_shown(macro)}")
    if len(more) > 1:
        raise MacroError(f"macros: {command} has an argument with a default, which is not read: {_shown(macro)}")
    if not more:
        return body, max((int(found) for found in _ARGUMENT.findall(body) if found), default=0)
    [arguments] = more
    if type(arguments) is not int or not 0 <= arguments <= _MOST_ARGUMENTS:
        raise MacroError(f"macros: {command} has a number of arguments that is not from 0 to {_MOST_ARGUMENTS}: {_shown(arguments)}")
    return body, arguments


def _shown(value: Any) -> str:
    """Returns a value as JSON shows it, as far as it has a form there."""
    return json.dumps(value, ensure_ascii=False, separators=(",", ":"), default=repr)
