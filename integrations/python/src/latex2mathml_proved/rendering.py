"""Renders a formula for a page, converted or refused. The extensions for Sphinx, Python-Markdown and MkDocs are built on this."""
import dataclasses
import html
import pathlib
import shutil
from typing import Any, NamedTuple, Optional, Union

from latex2mathml_proved._library import TexRefused, tex
from latex2mathml_proved.places import Place, place_of

# The folder with the style sheet and the script for pages of `formula` and `document`.
PAGE = pathlib.Path(__file__).with_name("page")
STYLE_SHEET, SCRIPT = "latex2mathml.css", "latex2mathml.js"

# How many characters of a formula a warning shows.
SHOWN = 60


@dataclasses.dataclass(frozen=True)
class Fault:
    """Why a formula is refused, and where in it."""

    reason: str
    place: Place
    source: str
    index: int  # of the character at `place`

    @property
    def explanation(self) -> str:
        """The reason and the place, such as `unknown command \\foo at column 5`."""
        line = f"line {self.place.line}, " if "\n" in self.source.strip() else ""
        return f"{self.reason} at {line}column {self.place.column}"

    def __str__(self) -> str:
        """One line for a warning: the formula, cut if it is long, and the explanation."""
        return f"{shortened(self.source)}: {self.explanation}"


class Rendering(NamedTuple):
    """What replaces a formula, and what is wrong with the formula, if it is refused."""

    markup: str
    fault: Optional[Fault]


class FaultyFormula(ValueError):
    """Raised when a formula was refused and the option `strict` is set."""


class Renderer:
    """Converts formulas with options that apply to all of them: those of `tex`, such as `definitions`."""

    def __init__(self, **options: Any):
        self._options = options

    def render(self, latex: str, block: bool = False, source: Optional[str] = None) -> Rendering:
        """Returns the `math` element of a formula, or the formula itself as code if it is refused.

        `source` is what the author wrote, if that is a different text of the same length. Code and faults contain it.
        """
        source = latex if source is None else source
        try:
            return Rendering(tex(latex, block, **self._options), None)
        except TexRefused as refused:
            fault = Fault(refused.reason, place_of(source, refused.place), source, refused.place)
        code = f'<code class="latex2mathml-refused" title="{escape(fault.explanation)}">{escape(source)}</code>'
        return Rendering(code, fault)


def shortened(formula: str) -> str:
    """Returns a formula as a warning shows it: on one line, and cut if it is long."""
    line = " ".join(formula.split())
    return f"{line[:SHOWN]}..." if len(line) > SHOWN else line


def escape(text: str) -> str:
    """Returns the text escaped for HTML, in contents and in quoted values. It contains no dollar sign, as no markup does."""
    return html.escape(text, quote=False).replace('"', "&quot;").replace("$", "&#x24;")


def copy_page(folder: Union[str, pathlib.Path]) -> None:
    """Copies the style sheet and the script into a folder, which is created if it is missing."""
    to = pathlib.Path(folder)
    to.mkdir(parents=True, exist_ok=True)
    for name in (STYLE_SHEET, SCRIPT):
        # without the permissions, since those of the package may be read-only, and the next build writes the files again
        shutil.copyfile(PAGE / name, to / name)
