"""Kinds of nodes that are nested in themselves, or wide: those of `cases/nested.txt` and of `cases/tex_nested.txt`."""
from dataclasses import dataclass

from tests.cases import PLACE, blocks, expand, key_of


@dataclass(frozen=True)
class Kind:
    """A kind of node and a place in it, as the files give them."""
    formula: str
    markup: str
    refused: str = ""
    styled: str = ""
    innermost: str = "<mi>x</mi>"
    nodes: str = "1"

    def levels(self, nodes):
        """The number of these that are nested in a formula with this depth in nodes."""
        return nodes // int(self.nodes)

    def nest(self, levels, innermost=" x"):
        return repeat(self.formula, levels, innermost)

    def cut(self, levels):
        """The formula that ends in its innermost place, or after the last member."""
        if PLACE in self.formula:
            return self.formula.partition(PLACE)[0] * levels
        return repeat(self.formula[:self.formula.rindex('"]') + 2], levels)

    def contents(self, levels, innermost=None):
        return repeat(self.markup, levels, innermost or self.innermost)

    def styled_contents(self, levels):
        """The markup of the formula in bold."""
        return repeat(self.styled, levels, '<mi mathvariant="bold">x</mi>') if self.styled else self.contents(levels)


def repeat(text, times, innermost=""):
    """The text before a place and after it, repeated around the innermost part; or that many members."""
    if PLACE in text:
        before, behind = text.split(PLACE)
        return before * times + innermost + behind * times
    return expand(text, times).decode()


def kinds_of(name):
    """The kinds of nodes of a file, by their names."""
    return {key_of(heading): Kind(first.text, second.text, **dict(line.text.split(": ", 1) for line in others))
            for heading, (first, second, *others) in blocks(name)}
