"""Which HTML elements contain no formulas, which are formulas, and where elements end that have no end tag."""
from typing import Dict, FrozenSet, List, NamedTuple, Optional, Tuple

Attributes = List[Tuple[str, Optional[str]]]

# These contain text and no elements.
RAW = frozenset({"script", "style", "textarea", "title", "iframe", "noembed", "noframes", "noscript", "xmp", "plaintext"})

# No text in these is a formula.
WITHOUT_FORMULAS = RAW | {"pre", "code", "math", "svg", "option", "select", "template"}

# Classes by which authors show MathJax where there are no formulas, and where there are some after all.
IGNORED = frozenset({"tex2jax_ignore", "mathjax_ignore"})
PROCESSED = frozenset({"tex2jax_process", "mathjax_process", "math"})

# These have no end tag.
VOID = frozenset({"area", "base", "br", "col", "embed", "hr", "img", "input", "link", "meta", "param", "source", "track", "wbr"})

# In these a slash at the end of a start tag ends the element. Elsewhere in HTML it means nothing.
FOREIGN = frozenset({"math", "svg"})

_BLOCKS = frozenset({
    "address", "article", "aside", "blockquote", "details", "div", "dl", "fieldset", "figcaption", "figure", "footer", "form", "h1", "h2",
    "h3", "h4", "h5", "h6", "header", "hgroup", "hr", "main", "menu", "nav", "ol", "p", "pre", "section", "table", "ul",
})
_CELLS = frozenset({"td", "th"})
_GROUPS = frozenset({"thead", "tbody", "tfoot"})

# Elements whose end tag may be left out, with the start tags that end them.
ENDED_BY: Dict[str, FrozenSet[str]] = {
    "p": _BLOCKS,
    "li": frozenset({"li"}),
    "dt": frozenset({"dt", "dd"}),
    "dd": frozenset({"dt", "dd"}),
    "td": _CELLS | {"tr"} | _GROUPS,
    "th": _CELLS | {"tr"} | _GROUPS,
    "tr": frozenset({"tr"}) | _GROUPS,
    "thead": _GROUPS,
    "tbody": _GROUPS,
    "option": frozenset({"option", "optgroup"}),
}


class Kind(NamedTuple):
    """What is known about an element that is a formula: whether it is in a block of its own, and whether the `math` element
    replaces the element itself. Otherwise it replaces the contents of the element."""

    block: bool
    is_replaced: bool


def classes_of(attributes: Attributes) -> FrozenSet[str]:
    """Returns the classes of an element."""
    return frozenset(attribute(attributes, "class").split())


def attribute(attributes: Attributes, name: str) -> str:
    """Returns the value of an attribute, which is empty if the element does not have it."""
    for found, value in attributes:
        if found == name:
            return value or ""
    return ""


def kind_of(tag: str, attributes: Attributes) -> Optional[Kind]:
    """Returns the kind of an element whose whole text is a formula, as site builders write it, or None for any other element.

    pandoc has `math inline` and `math display`, kramdown `kdmath`, remark `math-inline` and `math-display`. `language-math` is code in
    the language `math`, which is in a block of its own if it is in a `pre`: the caller knows that.
    """
    if tag == "script":
        form, _, mode = attribute(attributes, "type").partition(";")
        return Kind("display" in mode, True) if form.strip().lower() == "math/tex" else None
    classes = classes_of(attributes)
    if tag == "code":
        is_math = "language-math" in classes or "math-inline" in classes or "math-display" in classes
        return Kind("math-display" in classes, True) if is_math else None
    if "math" in classes and "display" in classes or "math-display" in classes:
        return Kind(True, False)
    if "math" in classes and "inline" in classes or "math-inline" in classes:
        return Kind(False, False)
    return Kind(tag == "div", False) if "kdmath" in classes else None
