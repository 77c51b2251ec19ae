"""The structure of a formula: what its MathML says about how the formula is read, and not about how it is drawn.

Two programs that read a formula in the same way may still write different elements for it. These are brought to one form:

- space, invisible operators, styles and grouping are ignored;
- adjacent signs and letters are one text, whatever elements they are in, and each letter is the plain one of its alphabet;
- limits count as scripts, and a script on a script counts as both at once;
- in a number, or in what ends with a closing bracket, only the last sign has the scripts, as in TeX;
- where a sign has several characters, as accents do, it is always the same one of them.
"""
import re
import unicodedata
import xml.etree.ElementTree as xml

TRANSPARENT = {"math", "semantics", "mrow", "mstyle", "mpadded"}
NOTHING = {"mspace", "annotation", "mphantom", "maligngroup", "malignmark"}
TEXTS = {"mi", "mo", "mn", "mtext", "ms"}
# where the subscript and the superscript are among the children
SCRIPTS = {"msub": (1, None), "munder": (1, None), "msup": (None, 1), "mover": (None, 1), "msubsup": (1, 2), "munderover": (1, 2)}
CLOSING = set(")]}\u27e9")
NUMBER = re.compile(r"\d*\.?\d+")
INVISIBLE = dict.fromkeys(map(ord, "\u2061\u2062\u2063\u2064\u200b\u200c\u200d\ufe0e\ufe0f"))
ALIKE = str.maketrans({
    "\u2212": "-", "\u2010": "-", "\u2217": "*", "\u22c6": "*", "\u2236": ":", "\u2044": "/", "\u2215": "/",
    "\u2223": "|", "\u2225": "\u2016", "\u2329": "\u27e8", "\u232a": "\u27e9", "\u3008": "\u27e8", "\u3009": "\u27e9",
    "\u22c5": "\u00b7", "\u02d9": "\u0307", "\u00a8": "\u0308", "\u02c6": "^", "\u0302": "^", "\u02dc": "~", "\u0303": "~", "\u223c": "~",
    "\u00af": "\u203e", "\u02c9": "\u203e", "\u0304": "\u203e", "\u0305": "\u203e", "_": "\u203e", "\u0332": "\u203e",
    "\u20d7": "\u2192", "\u02c7": "\u030c", "\u02d8": "\u0306", "\u00b4": "\u0301", "`": "\u0300", "\u02ca": "\u0301", "\u02cb": "\u0300",
    "\u03f5": "\u03b5", "\u03d5": "\u03c6", "\u03d1": "\u03b8", "\u03d6": "\u03c0", "\u03f1": "\u03c1", "\u03c2": "\u03c3", "\u03f0": "\u03ba",
    "\u2032": "'", "\u2a7d": "\u2264", "\u2a7e": "\u2265"})


def structure(markup):
    """Returns the structure of a `math` element: a tuple of texts and of (name, child, ..), where each child is such a tuple."""
    return row([xml.fromstring(markup)])


def row(elements):
    """Returns the structure of a sequence of elements."""
    made = []
    for element in elements:
        for part in parts(element):
            if isinstance(part, str) and made and isinstance(made[-1], str):
                made[-1] += part
            elif part:
                made.append(part)
    return tuple(unicodedata.normalize("NFC", it) if isinstance(it, str) else it for it in made)


def parts(element):
    name = element.tag.rpartition("}")[2]
    if name in NOTHING:
        return []
    if name in TEXTS and not len(element):
        return [text(element)]
    # KaTeX puts a sign with something above it into a token
    if name in TRANSPARENT or name in TEXTS:
        return row(element)
    if name in SCRIPTS:
        return scripted(element, *SCRIPTS[name])
    if name == "mtable":
        return [table(element)]
    if name == "mfrac" and element.get("linethickness", "1").strip("pxemt%.") == "0":
        name = "stack"
    children = [row(element)] if name in ("msqrt", "menclose") else [row([child]) for child in element]
    return [(name, *children)]


def text(element):
    plain = unicodedata.normalize("NFKD", "".join("".join(element.itertext()).split()).translate(ALIKE)).translate(INVISIBLE)
    return "".join(unicodedata.normalize("NFC", plain).translate(ALIKE).split())


def scripted(element, lower, upper):
    base, *_ = children = [row([child]) for child in element]
    below, above = (children[place] if place else () for place in (lower, upper))
    # the label below an arrow of a diagram is over a space, which makes the arrow long
    if element[0].tag.rpartition("}")[2] == "mspace" and element[0].get("width") == "3.5em":
        return list(above)
    if len(base) == 1 and isinstance(base[0], tuple) and base[0][0] == "scripts":
        _, inner, inner_below, inner_above = base[0]
        if not (below and inner_below) and not (above and inner_above):
            base, below, above = inner, below or inner_below, above or inner_above
    if not below and not above:
        return list(base)
    before, last = parted(base)
    return [*before, ("scripts", last, below, above)]


def parted(base):
    """Returns the base without its last sign, and that sign, if the base is a number or ends with a closing bracket."""
    if not base or not isinstance(base[-1], str) or not (base[-1][-1:] in CLOSING or len(base) == 1 and NUMBER.fullmatch(base[0])):
        return (), base
    return (*base[:-1], *filter(None, [base[-1][:-1]])), (base[-1][-1],)


def table(element):
    rows = [without_end([row(cell) for cell in line]) for line in element]
    return ("table", *without_end(rows))


def without_end(items):
    """Returns the items without the empty ones at the end: a row's cells, or a table's rows."""
    while items and not any(items[-1]):
        items.pop()
    return tuple(items)
