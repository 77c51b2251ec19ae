"""Random formulas and documents, the same for the same seed."""

import re

LETTERS = "abcdefghijklmnopqrstuvwxyzABCDEFGHIJKLMNOPQRSTUVWXYZ"
OPERATORS = ["=", ";", ",", ".", "'", "+", "-", "*", "/", "!", "<", ">", ":"]
PARENS = ["(", ")", "[", "]", "|", ":="]
NUMBERS = ["0", "1", "7", "12", "123", "3.14", "1.", "1.2.3", "0.5", "10"]
SPACES = [" ", " ", "  ", "\t", "\n", "\r\n"]
# Characters of one to four bytes in UTF-8. Among them are some that debug texts escape, and some that only look like white
# space, digits or ASCII letters.
ODD = ['"', "~", "$", "@", "#", "%", "?", "`", "\x01", "\x0b", "\x0c", "\x1b", "\x7f",
       "\u00a0", "\u00ad", "\u00e9", "\u00df", "\u0301", "\u03b1", "\u0661",
       "\u200b", "\u2028", "\u2032", "\u2208", "\u221e", "\u3042", "\u3000", "\ufeff", "\uff11", "\uff41", "\ufffd",
       "\U0001d465", "\U0001f600", "\U000e0001", "\U0010ffff"]
UNKNOWN = ["foo", "alph", "alphaa", "Sin", "fraction", "bigotimes", "hline", "mathcal", "é", "😀", "\u0301", "1", "<",
           '"', "'", "~", "(", "\n", "\t", "\x01", "\u200b"]
SIGNS = ["_", "^", "'", "_", "^", "{", "}", "{", "}", "&", "\\\\"]
ENVIRONMENTS = ["matrix", "pmatrix", "bmatrix", "vmatrix", "align", "matrix", "pmatrix", "align*", "cases", ""]
# Commands that act on what follows, with few or no others of their kind. They are chosen as often as all others.
OF_FEW = ["sqrt", "frac", "binom", "dbinom", "overset", "underset", "overbrace", "underbrace", "underline", "text",
          "operatorname", "slashed", "int", "sum", "lim", "middle", "bigl", "bm"]
FENCES = ["(", ")", "[", "]", "|", ".", ":=", "\\{", "\\}", "\\langle", "\\rangle", "\\lfloor", "\\|", "<", "x", ""]
RAW = "\\\\\\\\{}{}[]()_^_^''&$.:=<>\"01 2 abinpté∞𝑥"
PROSE = ["a", "word", "of", "prose", "<p>", "</p>", "&amp;", "&dollar;3", "é", "あ", "😀", "\\", "\\alpha", "x_1", "\n",
         "<math>", "\u0301", "\"", "\x01", "\\$5", "\\é\\$"]
# What comes between prose and a formula after it.
ENDS_OF_PROSE = [" ", " ", " ", "", "\\\\", "\\$", "\\\\\\$", "\\é"]


class Formulas:
    """Random formulas over the given commands."""

    def __init__(self, random, acting, plain, is_read):
        self.random = random
        self.acting = [name for name in acting if is_read(name)]
        self.of_few = [name for name in OF_FEW if is_read(name)]
        self.plain = plain
        self.is_read = is_read

    def formula(self, kinds=(5, 3, 2)):
        """Returns a formula of one to thirty pieces, whose commands are all read: one whose groups close, random pieces, or
        random characters, as often as `kinds` says."""
        while True:
            make = self.random.choices([self.nodes, self.pieces, self.characters], kinds)[0]
            formula = make(self.random.randint(1, 30))
            if self.random.random() < 0.01:
                formula += "\\"
            if self.random.random() < 0.005:
                formula = self.with_character(formula, "\0")
            if all(self.is_read(name) for name in re.findall(r"\\([A-Za-z]+)", formula)):
                return formula

    def with_character(self, text, character):
        place = self.random.randint(0, len(text))
        return text[:place] + character + text[place:]

    def characters(self, count):
        return "".join(self.random.choices(RAW, k=count))

    def pieces(self, count):
        """Returns pieces one after another, in random order."""
        return self.join([self.piece() for _ in range(count)])

    def join(self, parts):
        """Joins the parts, mostly with white space where a name would run on into a letter, and sometimes elsewhere."""
        text = ""
        for part in parts:
            runs_on = re.search(r"\\[A-Za-z]+$", text) and part[:1].isascii() and part[:1].isalpha()
            if self.random.random() < (0.95 if runs_on else 0.1):
                text += self.random.choice(SPACES)
            text += part
        return text

    def piece(self):
        make = self.random.choices(
            [self.atom, self.sign, self.acting_command, self.fence_or_end], [8, 6, 5, 2])[0]
        return make()

    def sign(self):
        return self.random.choice(SIGNS)

    def atom(self):
        """Returns a core without parts."""
        choose = self.random.choice
        kind = self.random.choices(range(7), [6, 4, 3, 2, 5, 1, 1])[0]
        if kind == 0:
            return choose(LETTERS)
        if kind == 1:
            return choose(NUMBERS)
        if kind == 2:
            return choose(OPERATORS)
        if kind == 3:
            return choose(PARENS)
        if kind == 4:
            return "\\" + choose(self.plain)
        if kind == 5:
            return choose(ODD)
        return "\\" + choose(UNKNOWN)

    def acting_command(self):
        names = self.random.choice([self.acting, self.of_few])
        return "\\" + self.random.choice(names) if names else self.atom()

    def fence_or_end(self):
        choose = self.random.choice
        return choose([
            lambda: "\\left" + choose(FENCES), lambda: "\\right" + choose(FENCES), lambda: "\\middle" + choose(FENCES),
            lambda: "\\begin{" + choose(ENVIRONMENTS) + "}", lambda: "\\end{" + choose(ENVIRONMENTS) + "}"])()

    def nodes(self, count):
        """Returns nodes one after another, whose groups close."""
        parts = []
        while count > 0:
            share = self.random.randint(1, count)
            parts.append(self.node(share))
            count -= share
        return self.join(parts)

    def node(self, count):
        """Returns a core of some of the pieces, and scripts or primes of the others."""
        if count < 3:
            return self.atom()
        share = self.random.randint(0, count - 2)
        if share == 0 or self.random.random() < 0.3:
            return self.core(count)
        text = self.core(count - share - 1)
        if self.random.random() < 0.2:
            return text + self.random.choice(["'", "''"])
        text += self.random.choice("_^") + self.operand(share)
        if self.random.random() < 0.4:
            text += self.random.choice("_^") + self.operand(1)
        return text

    def core(self, count):
        if count < 2:
            return self.atom()
        make = self.random.choices([self.group, self.command, self.fence, self.environment], [2, 6, 2, 2])[0]
        return make(count - 1)

    def group(self, count):
        return "{" + self.nodes(count) + "}"

    def operand(self, count):
        """Returns a group, or, mostly for one piece, an atom."""
        if count > 1 or self.random.random() < 0.3:
            return self.group(count)
        return self.atom()

    def command(self, count):
        """Returns a command that acts on what follows, followed by operands of most kinds, suitable or not."""
        name = self.acting_command()
        share = self.random.randint(0, count)
        if self.random.random() < 0.2:
            return self.join([name + self.random.choice(NUMBERS), self.operand(count)])
        if name in ("\\text", "\\operatorname"):
            return name + "{" + "".join(self.random.choices(LETTERS + " \u00e9", k=count)) + "}"
        if name == "\\sqrt" and self.random.random() < 0.4:
            return name + "[" + self.nodes(share) + "]" + self.operand(count - share)
        if name[1:].lower() in ("bigl", "bigr", "biggl", "biggr"):
            return name + self.random.choice(FENCES)
        signs = self.random.choice([("", ""), ("_", "^"), ("^", "_"), ("_", ""), ("^", ""), ("", "_"), ("", "^")])
        return self.join([name + signs[0], self.operand(share) + signs[1], self.operand(count - share)])

    def fence(self, count):
        if not (self.is_read("left") and self.is_read("right")):
            return self.group(count)
        inside = [self.nodes(count)]
        if self.random.random() < 0.3 and self.is_read("middle"):
            inside += ["\\middle" + self.random.choice(FENCES), self.nodes(1)]
        ends = [fence for fence in FENCES if self.random.random() < 0.1 or fence not in ("<", "x", "")]
        return self.join(
            ["\\left" + self.random.choice(ends), *inside, "\\right" + self.random.choice(ends)])

    def environment(self, count):
        if not (self.is_read("begin") and self.is_read("end")):
            return self.group(count)
        name = self.random.choice(ENVIRONMENTS if self.random.random() < 0.2 else ENVIRONMENTS[:5])
        cells = []
        while count > 0:
            share = self.random.randint(1, count)
            cells += [self.nodes(share), self.random.choice(["&", "\\\\", " & ", " \\\\ ", ""])]
            count -= share
        return "\\begin{" + name + "}" + self.join(cells) + "\\end{" + name + "}"


class Documents:
    """Random documents with random formulas in them."""

    def __init__(self, random, formulas):
        self.random = random
        self.formulas = formulas

    def document(self):
        """Returns up to eight pieces of prose and formulas. Mostly, every dollar sign encloses a formula."""
        text = "".join(self.piece() for _ in range(self.random.randint(0, 8)))
        while self.random.random() < 0.1:
            text = self.formulas.with_character(text, "$")
        return text

    def piece(self):
        kind = self.random.random()
        if kind < 0.5:
            words = self.random.choices(PROSE, k=self.random.randint(1, 6))
            return " ".join(words) + self.random.choice(ENDS_OF_PROSE)
        formula = self.formula()
        sign = "$" if kind < 0.8 else "$$"
        return sign + formula + sign + self.random.choice([" ", ".", "\n", "é", " ", ".", ""])

    def formula(self):
        """Returns a formula, mostly one whose groups close and without a dollar sign, even in `\\$`."""
        formula = self.formulas.formula((18, 1, 1))
        return formula if self.random.random() < 0.02 else re.sub(r"\\?\$", "", formula)
