"""An extension for Sphinx, whose math renderer `latex2mathml` writes MathML into the pages.

    extensions = ["latex2mathml_proved.sphinx"]
    html_math_renderer = "latex2mathml"
"""
import linecache
import os
import re
from typing import Any, Dict, Optional

from docutils import nodes
from sphinx.application import Sphinx
from sphinx.config import Config
from sphinx.errors import ConfigError
from sphinx.locale import _
from sphinx.util import logging
from sphinx.util.math import get_node_equation_number

from latex2mathml_proved.macros import MacroError, definitions_of
from latex2mathml_proved.rendering import Fault, Renderer

NAME = "latex2mathml"

# The source that Sphinx gives to a part of a page that it renders elsewhere.
PARTIAL = "<partial node>"

# The options with the macros of a project that uses MathJax, the newer one first.
MATHJAX_OPTIONS = ("mathjax4_config", "mathjax3_config")

# Options of earlier versions, and what replaces them.
FORMER_OPTIONS = {
    "latex2mathml_names": "use latex2mathml_macros",
    "latex2mathml_strict": "use Sphinx's option -W",
    "latex2mathml_page": "pages link no files",
}

logger = logging.getLogger(__name__)

# A backslash with the character after it, or a comment.
_UNIT = re.compile(r"\\.|%[^\n]*", re.DOTALL)

BLANK_LINE = "\n\n"
ROW_END = r"\\"


class Visitors:
    """What the renderer does at a formula, with the options of the project."""

    def __init__(self) -> None:
        self._renderer = Renderer()

    def take_options(self, app: Sphinx, config: Config) -> None:
        try:
            definitions = definitions_of(config.latex2mathml_macros, app.confdir)
        except (MacroError, OSError) as error:
            raise ConfigError(f"latex2mathml_macros: {error}") from error
        # so that the next build writes all pages if a file of definitions has changed
        config.latex2mathml_macros = definitions
        self._renderer = Renderer(definitions=definitions, annotation=config.latex2mathml_annotation)

    def visit_inline(self, translator: Any, node: nodes.math) -> None:
        translator.body.append(translator.starttag(node, "span", "", CLASS="math notranslate nohighlight"))
        translator.body.append(self._markup(node) + "</span>")
        raise nodes.SkipNode

    def visit_displayed(self, translator: Any, node: nodes.math_block) -> None:
        translator.body.append(translator.starttag(node, "div", CLASS="math notranslate nohighlight"))
        # a paragraph, as in Sphinx's renderer of images, has the space above and below that the theme gives to paragraphs
        translator.body.append("<p>")
        if node["number"]:
            number = get_node_equation_number(translator, node)
            translator.body.append(f'<span class="eqno">({number})')
            translator.add_permalink_ref(node, _("Permalink to this equation"))
            translator.body.append("</span>")
        translator.body.append(self._markup(node) + "</p></div>\n")
        raise nodes.SkipNode

    def _markup(self, node: nodes.Element) -> str:
        source = node.astext()
        block = isinstance(node, nodes.math_block)
        is_whole = node.get("no-wrap", node.get("nowrap", False))
        latex = rows_of(source) if block and not is_whole else source
        rendering = self._renderer.render(latex, block, source)
        # a title is rendered once more for each table of contents, and its own page has the warning
        if rendering.fault and node.document["source"] != PARTIAL:
            logger.warning("%s", rendering.fault, location=location_of(node, rendering.fault), type=NAME)
        return rendering.markup


def rows_of(source: str) -> str:
    """Returns the text of a directive as one formula of the same length, in which equations separated by a blank line are rows."""
    parts = _UNIT.sub(without_last_comment, source).split(BLANK_LINE)
    last = max((number for number, part in enumerate(parts) if part.strip()), default=0)
    rows = [with_row_end(part) if part.strip() else part + BLANK_LINE for part in parts[:last]]
    return "".join(rows) + BLANK_LINE.join(parts[last:])


def without_last_comment(unit: "re.Match[str]") -> str:
    """Returns spaces in place of a comment that ends an equation, since the end of its row comes after it."""
    is_last = unit[0].startswith("%") and unit.string.startswith(BLANK_LINE, unit.end())
    return " " * len(unit[0]) if is_last else unit[0]


def with_row_end(equation: str) -> str:
    """Returns an equation with the end of its row in place of the blank line after it, unless it already has one."""
    if equation.rstrip().endswith(ROW_END):
        return equation + BLANK_LINE
    if equation.endswith("\\"):
        # with the end of the line it was the command for a space, which shows nothing here
        equation = equation[:-1] + " "
    return equation + ROW_END


def location_of(node: nodes.Element, fault: Fault) -> str:
    """Returns the file of a formula and the line of what is refused in it, or that of the formula, as nearly as it can be found."""
    above = node
    while above.line is None and above.parent is not None:
        above = above.parent
    file = os.path.abspath(above.source or node.document["source"])
    if above.line is None:
        return file
    if above is not node:
        return f"{file}:{above.line + lines_before(above, node) + fault.place.line - 1}"
    line = line_in_file(fault, file, above.line, is_whole=isinstance(node, nodes.math_block))
    return f"{file}:{above.line if line is None else line}"


def lines_before(above: nodes.Element, node: nodes.Element) -> int:
    """Returns how many lines of a paragraph precede a formula in it: none if it is not written there, such as a substituted one."""
    source, written = above.rawsource, node.rawsource
    places = source.count(written) if written else 0
    if places == 0:
        return 0
    number = 0
    if places > 1:
        alike = [it for it in above.findall(type(node)) if it.rawsource == written]
        number = min(alike.index(node), places - 1)
    return written.join(source.split(written)[:number + 1]).count("\n")


def line_in_file(fault: Fault, file: str, line: int, is_whole: bool) -> Optional[int]:
    """Returns the line of what is refused in a formula that is at this line of a file or after it, on lines of its own or within
    other text. Options and blank lines may come between its lines. Returns None if they are not found, as for a docstring."""
    written = enumerate(linecache.getlines(file)[line - 1:], line)
    found = None
    for part in filter(None, map(str.strip, fault.source.split("\n")[:fault.place.line])):
        found = next((number for number, text in written if (formula_of_line(text) == part if is_whole else part in text)), None)
    return found


def formula_of_line(text: str) -> str:
    """Returns a line of a file without what begins or ends a directive in it."""
    return text.strip().removeprefix(".. math::").removeprefix("$$").removesuffix("$$").strip()


def mathjax_macros(config: Config) -> Dict[str, Any]:
    """Returns the macros that a project has for MathJax."""
    for option in MATHJAX_OPTIONS:
        if option in config and config[option]:
            return config[option].get("tex", {}).get("macros", {})
    return {}


def warn_of_former_options(app: Sphinx, config: Config) -> None:
    for option, instead in FORMER_OPTIONS.items():
        if config[option] is not None:
            logger.warning("%s has no effect any more: %s", option, instead, type=NAME)


def setup(app: Sphinx) -> Dict[str, Any]:
    visitors = Visitors()
    app.add_html_math_renderer(NAME, (visitors.visit_inline, None), (visitors.visit_displayed, None))
    app.add_config_value("latex2mathml_macros", mathjax_macros, "html", [dict, str])
    app.add_config_value("latex2mathml_annotation", False, "html", [bool])
    for option in FORMER_OPTIONS:
        app.add_config_value(option, None, "")
    app.connect("config-inited", warn_of_former_options)
    app.connect("config-inited", visitors.take_options)
    return {"parallel_read_safe": True, "parallel_write_safe": True}
