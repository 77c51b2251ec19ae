r"""The delimiters of formulas in text: one rule for Markdown and for HTML.

`\(..\)` and `$..$` are formulas in a line, `\[..\]` and `$$..$$` in a block of their own. A backslash belongs with the character
after it, so `\$` opens and closes nothing. Single dollar signs are not delimiters if there is white space directly inside them or
a digit directly after them, as between two prices.

The functions return patterns for `re`. A `barrier` is a character that no formula contains.
"""


def between_dollars(barrier: str) -> str:
    """Returns the pattern of one character of a formula between dollar signs."""
    return rf"(?:\\[^{barrier}]|[^\\${barrier}])"


def between_brackets(bracket: str, barrier: str) -> str:
    r"""Returns the pattern of one character of a formula between `\(` and `\)`, or between `\[` and `\]`.

    It does not match another opening delimiter, so that each of these is looked at only once if nothing closes them.
    """
    return rf"(?:\\[^\{bracket}{barrier}]|[^\\{barrier}])"


def formulas(barrier: str, dollars: bool = True) -> str:
    """Returns the pattern of formulas in the groups `dollars`, `brackets`, `dollar` and `parentheses`, and of escapes in none."""
    brackets = rf"\\\[(?P<brackets>{between_brackets('[', barrier)}+?)\\\]"
    parentheses = rf"\\\((?P<parentheses>{between_brackets('(', barrier)}+?)\\\)"
    if not dollars:
        return rf"\\\\|{brackets}|{parentheses}"
    character = between_dollars(barrier)
    return (
        r"\\[\\$]"
        rf"|\$\$(?P<dollars>{character}+?)\$\$"
        rf"|{brackets}"
        rf"|\$(?P<dollar>(?!\s){character}+?(?<!\s))\$(?![0-9])"
        rf"|{parentheses}"
    )
