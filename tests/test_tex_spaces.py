"""The space that Chromium leaves between the atoms of a formula of `tex_to_mathml`, against TeX's table of spaces, and the space that
both browsers leave at the sides of fractions and of columns, between rows, and next to an atom that begins a cell. Also upright
letters, negative spaces, the room for delimiters, how large signs are drawn, how high fractions are, how long lines and arrows, and
how wide the characters of a typewriter. The comparison of markup with KaTeX (`test_tex_katex`) sees none of it."""
import itertools
import math
import unittest

from tests import support
from tests.browsers import chromium, firefox
from tests.support import Case, requires, tex_program
from tests.test_page import judge, settle, spaces_between

# relations that keep their space at the beginning of a cell, after an opening sign, and after a comma that has a space of its own
KEEPING = [r"\bigm|", r"\overset{c}{=}"]
# commas, with space of their own and without
COMMAS, LETTER_COMMA = [",", ";", r"\mathpunct:"], r"\mathpunct{c}"
# binary atoms that keep their space where they have no second operand
BINARY_KEEPING = [r"\mathbin{c}", "+_c"]
# atoms of each class of TeX
ATOMS = {"ordinary": ["c", "2", r"\frac cd", r"\sqrt c", "{=}", "{,}", "|"],
         "operator": [r"\sin", r"\lim_c", r"\sum", r"\int_c", r"\mathop{c}", r"\mathop{|}", r"\underbrace{c}_d"],
         "binary": ["+", "-", r"\times", r"\mathbin/", *BINARY_KEEPING],
         "relation": ["=", r"\to", ":", r"\sim", "<_c", r"\mathrel|", r"\mathrel{c}", r"\stackrel{c}{c}", *KEEPING],
         "opening": ["(", r"\bigl("], "closing": [")", r"\rangle"], "punctuation": [*COMMAS, LETTER_COMMA],
         "inner": [r"\ldots", r"\left(c\right)", r"\left]c\right[", r"\begin{pmatrix}c\end{pmatrix}"]}
# the ems of the spaces that the table names
EMS = {"0": 0, "1": 3 / 18, "2": 4 / 18, "3": 5 / 18}
# Rounding to thousandths of an em, to a pixel at each side of a fraction, and to 64ths of a pixel: less than a third of a thin space.
NEARLY = 0.05

# Signs of which a browser should see that they are binary, or relations, or ordinary, and the ems that TeX leaves next to them
SIGNS = {r"c\underset{c}{-}c": [4 / 18, 4 / 18], r"c\overset{c}{+}c": [4 / 18, 4 / 18], r"c\mathbin{-}c": [4 / 18, 4 / 18],
         r"c\mathrel{+}=c": [5 / 18, 5 / 18], r"c\mathrel{\mathop:}=c": [5 / 18, 5 / 18], r"c^{\otimes c}": [0], r"c^{*c}": [0]}

# Binary signs and relations: those around which a browser would leave another space than TeX, and some around which it would not
BINARY = r"""\times \cdot * \circ \bullet \star \diamond \otimes \odot \circledast \boxtimes \boxdot \ltimes \leftthreetimes \divideontimes \wr
    \amalg \dagger \ddagger \intercal \lhd \unrhd \lessdot \triangleleft \bigtriangleup \bigtriangledown \bigcirc \And
    \cup \wedge \oplus \div \setminus \sqcap \boxplus \veebar""".split()
RELATIONS = r"\sim : \therefore \because \smile \frown \relbar \boxbox \boxslash \blacktriangleright \vartriangle < \in \approx \gets \mid".split()
SIGNS |= {rf"c{sign} c": [4 / 18, 4 / 18] for sign in BINARY} | {rf"c{sign} c": [5 / 18, 5 / 18] for sign in RELATIONS}

# Rows of words and one sign, and the ems that TeX leaves between them
WORDS_AND_SIGNS = {r"{\text{c}+\text{c}}": [4 / 18, 4 / 18], r"\sqrt{\text{c}=\text{c}}": [5 / 18, 5 / 18],
                   r"\begin{matrix}\text{c}\times\text{c}&c\end{matrix}": [4 / 18, 4 / 18]}

# Pairs of signs by `\big` and its like, and how many ems higher the first, which has scripts, is than the second
BASES = {r"\Bigr)^2\Bigr)": [0], r"\bigg|_c\bigg|": [0], r"\Biggr]_c^c\Biggr]": [0], r"\big\|'\big\|": [0]}

# Binary signs of one size: in the style of a block no wider than in that of a line of text
SIZES = {rf"\displaystyle c{sign} c\textstyle c{sign} c": [0] for sign in (r"\uplus", r"\oplus", r"\ominus", r"\otimes", r"\odot", "+")}

# Signs next to something high, or below something wide, and how many ems higher and wider than an arrow they are
RIGID = {**{rf"{sign}\frac{{\frac cc}}{{\frac cc}}": [0, 0] for sign in (r"\restriction", r"\upuparrows", r"\Lsh", r"\uparrow", "|")},
         **{rf"\overset{{ccccccccc}}{{{sign}}}": [0, 0] for sign in (r"\rightrightarrows", r"\twoheadrightarrow", r"\to")}}

# Letters with a negative space between them, and how many ems of it TeX leaves
NEGATIVE = {r"c\!c": [-3 / 18], r"c\negmedspace c": [-4 / 18], r"c\negthickspace c": [-5 / 18], r"c\!\!c": [-6 / 18], r"c\,\!c": [0],
            r"c\kern-1em c": [-1], r"c\hspace{-0.5em}c": [-0.5], r"c\mkern-9mu c": [-0.5]}

# Formulas with fractions, and the ems that TeX leaves between the lines of fractions and what is next to them
FRACTIONS = {r"\frac cd\frac cd": [0.24], r"c\frac cd c": [0.12, 0.12], r"c\tfrac cd": [0.12], r"{c\atop d}c": [0.12],
             r"2\frac cd(": [0.12, 0.12], r"\genfrac{}{}{}{}cd c": [0.12]}

# Formulas whose parts are where they are because of the height of a fraction. What is around it for space changes no height.
HEIGHTS = dict.fromkeys([r"\frac{\frac cc}c", r"\frac c{\frac cc}", r"c_{\frac cc}", r"c^{\frac cc}", r"\frac cc^c_c", r"\frac{\sqrt{\frac cc}}c",
                         r"\sqrt{\frac cc}^c", r"\frac c{\hat{\frac cc}}", r"\hat{\frac cc}^c", r"\left(\frac cc\right)^c_c",
                         r"\overset{\frac cc}c", r"\underset{\frac cc}c"], [0])
# With an `mpadded` in the place of the `mrow`, Firefox moves a letter of each by 0.08em or more.
EQUALLY = 0.02

# Upright letters next to others, and the ems that TeX leaves between all of them. Where two are next to each other in the markup, one of
# them italic, Firefox leaves 3/18, inside of the box of the first.
LETTERS = dict.fromkeys([r"\Delta c", r"c\Delta", r"c\Delta c", r"2\Delta\Gamma c", r"\mathrm{d}c", r"c\mathrm{d}", r"\mathrm{d}\mathbf{c}",
                         r"{\rm d}c", r"\rm dc\mit c", r"\Delta_c c", r"c^c\Delta^c", r"\mathrm{d}^c c\,\mathrm{d}c_c"], [0])

# Pairs of words that have equally many characters, and how many ems wider the first are than the second
WORDS = {r"\texttt{i.,:| ()}\texttt{mmmmmmmm}": [0], r"\texttt{f(x)[0]}\text{\texttt{wwwwwww}}": [0]}

# Lines and arrows, and how many ems they begin before the letters that they cover, or that are their label, and end behind these.
# amsmath's arrows are 14mu longer in all, in the size of scripts.
BEYOND = 0.7 * 7 / 18
LINES = {**dict.fromkeys([r"\overline{cc}", r"\overline{ccccccc}", r"\overline{z_1+z_2}", r"c^{\overline{ccc}}", r"\varlimsup c", r"\underline{cc}",
                          r"\underline{ccccccc}", r"\underline{z_1+z_2}", r"\varliminf c"], [0, 0]),
         **dict.fromkeys([r"\xrightarrow{ccccc}", r"\xleftarrow[ccccc]{c}", r"\xmapsto[c]{ccccc}", r"\xlongequal{ccccc}", r"\xRightarrow{ccccc}",
                          r"\xleftrightarrow{ccccc}", r"\xhookrightarrow{c+c+c}"], [BEYOND, BEYOND])}
# less than half of that: a line also covers the space behind a script
ABOUT = 0.1

# Tables of letters, and the ems that TeX leaves in the first row: before the first letter, between the letters, and after the last.
TABLES = {r"\begin{matrix}c&c&c\\c\end{matrix}": [0, 1, 1, 0], r"\begin{cases}c&c\\c\end{cases}": [0, 1, 0],
          r"\begin{pmatrix*}[r]c&c\end{pmatrix*}": [0, 1, 0], r"\begin{gathered}c\\c\end{gathered}": [0, 0],
          r"\begin{aligned}c&c&c&c&c\\c\end{aligned}": [0, 0, 1, 0, 1, 0], r"\begin{array}{c|r}c&c\\c\end{array}": [1 / 2, 1, 1 / 2],
          r"\begin{array}{|l|}c&c\end{array}": [1 / 2, 1, 1 / 2], r"\begin{eqnarray}c&c&c\end{eqnarray}": [1 / 2, 1, 1, 1 / 2],
          r"\begin{smallmatrix}c&c&c\end{smallmatrix}": [0, 5 / 18, 5 / 18, 0], r"x_{\substack{c\\c}}": [0, 0],
          r"x_{\begin{subarray}{l}c\\c\end{subarray}}": [0, 0]}

# Diagrams of letters, and the ems in their first row. As in TeX, an arrow to a side is at least 3em long, and has 0.5em at both ends.
# 0.5em is also at the sides of a diagram, where TeX leaves none.
DIAGRAMS = {r"\begin{CD}c@>>>c\end{CD}": [1 / 2, 4, 1 / 2], r"\begin{CD}c@=c@<<<c\\@|\end{CD}": [1 / 2, 4, 4, 1 / 2],
            r"\begin{CD}\rm ccc@>>>\rm ccc\\@VVV@AAA\end{CD}": [1 / 2, 4, 1 / 2]}

# Tables of rows with the letter c, and how many ems its line is below that of the row before it in TeX: rows are 12 points apart, in
# `cases` a fifth more, and in `aligned` and the like 3 points more, where letters are of 10 points.
ROWS = {r"\begin{matrix}c\\c\\c\end{matrix}": [1.2, 1.2], r"\begin{pmatrix}c&b\\c&y\\c&(\end{pmatrix}": [1.2, 1.2],
        r"\begin{array}{|c|}\hline c\\\hline c\\\hline\end{array}": [1.2], r"\begin{cases}c&b\\c&y\\c\end{cases}": [1.44, 1.44],
        r"\begin{aligned}c&=b\\c&=y\\c\end{aligned}": [1.5, 1.5], r"\begin{gathered}c\\bc\end{gathered}": [1.5],
        r"\begin{eqnarray}c&=&b\\c\end{eqnarray}": [1.5], r"c\\bc": [1.5],
        r"\begin{matrix}c\\[1ex]c\\[-2pt]c\\*[1em]c\end{matrix}": [1.2 + 0.431, 1.2 - 0.2, 1.2 + 1],
        r"\begin{aligned}c&=b\\[0.5em]c\end{aligned}": [1.5 + 0.5], r"\begin{matrix}c\\\vdots\\c\end{matrix}": [1.2 + 1.5 + 0.36]}
# as well, but a line of text in a cell is higher in Firefox
SMALL_ROWS = {r"\begin{smallmatrix}c\\c\end{smallmatrix}": [0.6], r"x_{\substack{c\\c}}": [0.6],
              r"x_{\begin{subarray}{l}c\\c\end{subarray}}": [0.6]}

# A formula that is broken into lines, and how much of the room of its shorter lines is at the left of each
BROKEN = {r"\begin{multline}c\\c\\ccccc\\c\end{multline}": [0, 1 / 2, 1], r"\begin{multline*}ccc\\c\end{multline*}": [1],
          r"c\\ccccc": [1 / 2], r"\begin{gathered}c\\ccccc\end{gathered}": [1 / 2]}

# Delimiters, and how many ems wide they are at least and at most. Those with a size are as wide as TeX's, and so are those that
# stretch around what is about as high as one of these. Others are at least as wide as the lowest form of TeX's, and at most as wide
# as the highest one.
DELIMITERS = {r"\big(": (0.458, 0.458), r"\Big)": (0.597, 0.597), r"\bigg[": (0.528, 0.528), r"\Bigg]": (0.583, 0.583),
              r"\bigl\{": (0.583, 0.583), r"\Bigr\rangle": (0.611, 0.611), r"\big/": (0.578, 0.578), r"\bigm\backslash": (0.578, 0.578),
              r"\Bigl\lfloor": (0.528, 0.528), r"\left(c^2\right)": (0.458, 0.458), r"\left[\frac cd\right]": (0.417, 0.417),
              r"\left.\frac cd\middle/c\right.": (0.578, 1.044), r"\binom cd": (0.458, 0.458), r"\dbinom cd": (0.736, 0.736),
              r"\left]\frac cd\right[": (0.417, 0.417), r"\left(\sum_cc\right)": (0.458, 0.458), r"\left(\dfrac cd\right)": (0.736, 0.736),
              r"\left(\begin{array}{c}c\\c\end{array}\right)": (0.736, 0.736), r"\begin{pmatrix}c&c\end{pmatrix}": (0.458, 0.736),
              r"\begin{pmatrix}c\\c\end{pmatrix}": (0.458, 0.736), r"\begin{bmatrix}c\\c\end{bmatrix}": (0.417, 0.528),
              r"\begin{cases}c\\c\end{cases}": (0.583, 0.75)}

PAGE = """<!DOCTYPE html><meta charset="utf-8"><style>math { font-size: 100px }</style>%s<script>
const gapsBetween = (boxes, em) => boxes.slice(1).map((box, place) => (box.left - boxes[place].right) / em);
const boxesOf = elements => elements.map(element => element.getBoundingClientRect());
const gaps = %s;
addEventListener("load", async () => {
    const found = await Promise.all([...document.querySelectorAll("p > math")].map(gaps));
    fetch("/spaces.html", {method: "POST", body: JSON.stringify(found)});
});
</script>"""
OF_ATOMS = """formula => {
    const row = formula.querySelector("msup > mrow") ?? formula;
    const boxes = boxesOf([...row.children].filter(child => child.localName !== "mspace"));
    return gapsBetween(boxes, parseFloat(getComputedStyle(row).fontSize));
}"""
OF_ROW = """formula => {
    return gapsBetween(boxesOf([...formula.querySelector("mrow").children].filter(child => child.textContent)), 100);
}"""
OF_FRACTIONS = """formula => {
    return gapsBetween(boxesOf([...formula.children].map(child => child.querySelector("mfrac") ?? child)), 100);
}"""
OF_CELLS = """formula => {
    const {left, right} = formula.querySelector("mtable").getBoundingClientRect();
    return gapsBetween([{right: left}, ...boxesOf([...formula.querySelectorAll("mtr:first-child mi")]), {left: right}], 100);
}"""
# how many ems wide the first delimiter is
OF_DELIMITERS = """formula => {
    const [sign] = boxesOf([...formula.querySelectorAll("mo")].filter(sign => sign.textContent));
    return [sign.width / 100];
}"""
# how many ems wider the first sign is than the second
OF_SIZES = """formula => {
    const [first, second] = boxesOf([...formula.querySelectorAll("mo")]);
    return [(first.width - second.width) / 100];
}"""
# how many ems higher the first sign is than the second, scripts aside
OF_BASES = """formula => {
    const [first, second] = boxesOf([...formula.querySelectorAll("mo[minsize]")]);
    return [(first.height - second.height) / 100];
}"""
# how many ems wider a formula is than its parts
OF_LETTERS = """formula => {
    const parts = [...formula.children].map(part => {
        const alone = formula.parentElement.appendChild(formula.cloneNode());
        alone.append(part.cloneNode(true));
        return alone;
    });
    const [whole, ...widths] = boxesOf([formula, ...parts]).map(box => box.width / 100);
    return [whole - widths.reduce((sum, width) => sum + width)];
}"""
# how many ems wider the first words are than the second
OF_WORDS = OF_SIZES.replace('"mo"', '"mtext"')
# how many ems more than an arrow's the height and the width of the sign are
OF_RIGID = """formula => {
    const sign = formula.querySelector("mo").getBoundingClientRect();
    return [Math.max(0, sign.height / 100 - 1.1), Math.max(0, sign.width / 100 - 1.7)];
}"""
# how many ems any letter is elsewhere, seen from the first one, than where nothing is around the fractions for space
OF_HEIGHTS = """formula => {
    const bare = formula.parentElement.appendChild(formula.cloneNode(true));
    const fractions = [...bare.querySelectorAll(":is(mrow, mpadded)[style] > mfrac")];
    fractions.forEach(fraction => fraction.parentElement.replaceWith(fraction));
    const [lines, bareLines] = [formula, bare].map(each => boxesOf([...each.querySelectorAll("mi")]).map(box => box.bottom / 100));
    const apart = lines.map((line, place) => Math.abs(line - lines[0] - bareLines[place] + bareLines[0]));
    return fractions.length && apart.length > 1 ? [Math.max(...apart)] : [];
}"""
# How many ems the first sign that stretches begins before the letters around it, and ends behind them. The box of a sign is not as
# long as what is drawn of it, so the formula is drawn: the sign is blue, and the letters are on a red ground. It is drawn in the middle
# of a line: Chromium takes the box of a combining character for empty, and leaves the sign out at some places, such as this.
OF_LINES = """async formula => {
    const drawn = formula.cloneNode(true), width = 900, height = 400;
    drawn.setAttribute("style", "font-size: 100px; color: transparent");
    const sign = drawn.querySelector("mo[stretchy=true]");
    sign.style.color = "#00f";
    sign.parentElement.querySelectorAll("mi, mn").forEach(letter => letter.style.background = "#f00");
    const picture = new Image(), canvas = Object.assign(document.createElement("canvas"), {width, height});
    const page = `<body xmlns="http://www.w3.org/1999/xhtml"><p style="margin: 100px; text-align: center">${new XMLSerializer().serializeToString(drawn)}</p></body>`;
    picture.src = "data:image/svg+xml," + encodeURIComponent(`<svg xmlns="http://www.w3.org/2000/svg" width="${width}" height="${height}">
        <foreignObject width="${width}" height="${height}">${page}</foreignObject></svg>`);
    await picture.decode();
    const context = canvas.getContext("2d");
    context.drawImage(picture, 0, 0);
    const [red, blue] = [0, 2].map(color => {
        const dots = context.getImageData(0, 0, width, height).data.filter((_, place) => place % 4 == color);
        const columns = [...dots.keys()].filter(place => dots[place] > 127).map(place => place % width);
        return {left: Math.min(width, ...columns), right: Math.max(0, ...columns)};
    });
    return [(red.left - blue.left) / 100, (blue.right - red.right) / 100];
}"""
# the ems between the lines of the letter c in two rows
OF_ROWS = """formula => {
    const letters = [...formula.querySelectorAll("mtd mi")].filter(letter => letter.textContent == "c");
    return boxesOf(letters).map(box => box.bottom / 100).map((line, place, lines) => line - lines[place - 1]).slice(1);
}"""
# how much of the room of each line that has some is at its left
OF_BROKEN = """formula => {
    const table = formula.querySelector("mtable").getBoundingClientRect();
    const lines = [...formula.querySelectorAll("mtr")].map(row => boxesOf([...row.querySelectorAll("mi")]));
    const rooms = lines.map(letters => [letters[0].left - table.left, table.right - letters.at(-1).right]);
    return rooms.filter(([left, right]) => left + right > 1).map(([left, right]) => left / (left + right));
}"""
# the ems between the left side of the first cell and its last letter, without the width of the atom that is all of the second cell
OF_FIRST = """formula => {
    const [first, second] = formula.querySelectorAll(":scope > mtable > mtr > mtd");
    const [inFirst, inSecond] = [first, second].map(cell => cell.firstElementChild.firstElementChild);  // a strut is behind it
    const [cell, letter, atom] = boxesOf([first, inFirst.lastElementChild, inSecond]);
    return [(letter.left - cell.left - atom.width) / 100];
}"""


def pairs():
    """Each atom before each other one: their classes, and both."""
    atoms = [(kind, atom) for kind, atoms in ATOMS.items() for atom in atoms]
    return [(left, right, one, other) for (left, one), (right, other) in itertools.product(atoms, atoms)]


def due(left, right, in_script):
    """The ems that TeX leaves in a formula of atoms of these classes between two letters."""
    classes = settle(["ordinary", left, right, "ordinary"])
    cells = [spaces_between()[neighbours] for neighbours in itertools.pairwise(classes)]
    return [0 if in_script and cell.startswith("(") else EMS[cell.strip("()")] for cell in cells]


def keeps_space(left, right, one, other, in_script):
    """Whether a sign has space there where TeX leaves none, or less: docs/DECISIONS.md says why."""
    if in_script:
        return False
    if one in BINARY_KEEPING:
        return right in {"relation", "closing", "punctuation"}
    return other in KEEPING and left in {"opening", "punctuation"} and one != LETTER_COMMA


class Spaces(Case):
    def spaces(self, formulas, browser, gaps):
        """What this script finds in the markup of these formulas."""
        done = support.run([tex_program(), "--null"], stdin="".join(f"{formula}\0" for formula in formulas).encode())
        self.assertEqual(done.returncode, 0, done.stderr.decode())
        markups = [reply.split("\n", 1)[1] for reply in done.stdout.decode().split("\0")[:-1]]
        (self.folder / "spaces.html").write_text(PAGE % ("".join(f"<p>{markup}</p>" for markup in markups), gaps))
        return judge(browser, self.folder, ["spaces.html"])["spaces.html"]


@requires("chromium")
class AsTexSpaces(Spaces):
    def compare(self, around, in_script):
        formulas = [around.format(f"a {one} {other} b") for _, _, one, other in pairs()]
        found = self.spaces(formulas, chromium, OF_ATOMS)
        for (left, right, one, other), formula, gaps in zip(pairs(), formulas, found, strict=True):
            with self.subTest(formula):
                ems = due(left, right, in_script)
                # relations next to each other are one sign
                wanted = [ems[0], ems[-1]] if len(gaps) == 2 else ems
                alike = all(math.isclose(gap, em, abs_tol=NEARLY) for gap, em in zip(gaps, wanted, strict=True))
                self.assertEqual(alike, not keeps_space(left, right, one, other, in_script), f"found {gaps}, TeX {wanted}")

    def test_in_text(self):
        self.compare("{}", in_script=False)

    def test_in_scripts(self):
        self.compare("x^{{{}}}", in_script=True)


class Gaps(Spaces):
    def compare(self, browser, formulas, gaps_of, within=NEARLY):
        for (formula, ems), gaps in zip(formulas.items(), self.spaces(formulas, browser, gaps_of), strict=True):
            with self.subTest(formula):
                alike = all(math.isclose(gap, em, abs_tol=within) for gap, em in zip(gaps, ems, strict=True))
                self.assertTrue(alike, msg=f"found {gaps}, TeX {ems}")


class Signs(Gaps):
    @requires("chromium")
    def test_in_chromium(self):
        self.compare(chromium, SIGNS, OF_ATOMS)


class WordsAndSigns(Gaps):
    @requires("chromium")
    def test_in_chromium(self):
        self.compare(chromium, WORDS_AND_SIGNS, OF_ROW)


class Bases(Gaps):
    @requires("chromium")
    def test_in_chromium(self):
        self.compare(chromium, BASES, OF_BASES)

    @requires("firefox-esr")
    def test_in_firefox(self):
        self.compare(firefox, BASES, OF_BASES)


class Sizes(Gaps):
    @requires("chromium")
    def test_in_chromium(self):
        self.compare(chromium, SIZES, OF_SIZES)

    @requires("firefox-esr")
    def test_in_firefox(self):
        self.compare(firefox, SIZES, OF_SIZES)


class Rigid(Gaps):
    @requires("chromium")
    def test_in_chromium(self):
        self.compare(chromium, RIGID, OF_RIGID)

    @requires("firefox-esr")
    def test_in_firefox(self):
        self.compare(firefox, RIGID, OF_RIGID)


class Letters(Gaps):
    @requires("chromium")
    def test_in_chromium(self):
        self.compare(chromium, LETTERS, OF_LETTERS)

    @requires("firefox-esr")
    def test_in_firefox(self):
        self.compare(firefox, LETTERS, OF_LETTERS)


class Typewriter(Gaps):
    @requires("chromium")
    def test_in_chromium(self):
        self.compare(chromium, WORDS, OF_WORDS)

    @requires("firefox-esr")
    def test_in_firefox(self):
        self.compare(firefox, WORDS, OF_WORDS)


class NegativeSpaces(Gaps):
    @requires("chromium")
    def test_in_chromium(self):
        self.compare(chromium, NEGATIVE, OF_ATOMS)

    @requires("firefox-esr")
    def test_in_firefox(self):
        self.compare(firefox, NEGATIVE, OF_ATOMS)


class Fractions(Gaps):
    @requires("chromium")
    def test_in_chromium(self):
        self.compare(chromium, FRACTIONS, OF_FRACTIONS)

    @requires("firefox-esr")
    def test_in_firefox(self):
        self.compare(firefox, FRACTIONS, OF_FRACTIONS)


class Heights(Gaps):
    @requires("chromium")
    def test_in_chromium(self):
        self.compare(chromium, HEIGHTS, OF_HEIGHTS, EQUALLY)

    @requires("firefox-esr")
    def test_in_firefox(self):
        self.compare(firefox, HEIGHTS, OF_HEIGHTS, EQUALLY)


class Lines(Gaps):
    @requires("chromium")
    def test_in_chromium(self):
        self.compare(chromium, LINES, OF_LINES, ABOUT)

    @requires("firefox-esr")
    def test_in_firefox(self):
        self.compare(firefox, LINES, OF_LINES, ABOUT)


@requires("chromium")
class Delimiters(Spaces):
    """Chromium leaves as much room as for the widest form of a delimiter, unless the markup says otherwise."""

    def test_in_chromium(self):
        for (formula, (least, most)), [found] in zip(DELIMITERS.items(), self.spaces(DELIMITERS, chromium, OF_DELIMITERS), strict=True):
            with self.subTest(formula):
                self.assertTrue(least - NEARLY < found < most + NEARLY, f"found {found}, TeX from {least} to {most}")


class Columns(Gaps):
    @requires("chromium")
    def test_in_chromium(self):
        self.compare(chromium, TABLES | DIAGRAMS, OF_CELLS)

    @requires("firefox-esr")
    def test_in_firefox(self):
        self.compare(firefox, TABLES | DIAGRAMS, OF_CELLS)


class Rows(Gaps):
    @requires("chromium")
    def test_in_chromium(self):
        self.compare(chromium, ROWS | SMALL_ROWS, OF_ROWS)

    @requires("firefox-esr")
    def test_in_firefox(self):
        self.compare(firefox, ROWS, OF_ROWS)


class BrokenLines(Gaps):
    @requires("chromium")
    def test_in_chromium(self):
        self.compare(chromium, BROKEN, OF_BROKEN)

    @requires("firefox-esr")
    def test_in_firefox(self):
        self.compare(firefox, BROKEN, OF_BROKEN)


class BeginningCells(Spaces):
    """TeX reads a cell as a formula of its own: there is no space before its first atom, nor next to one that is all of it."""

    def compare(self, browser):
        atoms = [(kind, atom) for kind, atoms in ATOMS.items() for atom in atoms if atom not in KEEPING]
        formulas = [rf"\begin{{matrix*}}[l]{atom} b\\{atom}\end{{matrix*}}" for _, atom in atoms]
        for (kind, atom), [gap] in zip(atoms, self.spaces(formulas, browser, OF_FIRST), strict=True):
            with self.subTest(atom):
                [neighbours] = itertools.pairwise(settle([kind, "ordinary"]))
                self.assertAlmostEqual(gap, EMS[spaces_between()[neighbours].strip("()")], delta=NEARLY)

    @requires("chromium")
    def test_in_chromium(self):
        self.compare(chromium)

    @requires("firefox-esr")
    def test_in_firefox(self):
        self.compare(firefox)


if __name__ == "__main__":
    unittest.main()
