"""How docs/COMMANDS.md is written: items that fill lines, and tables."""
import unicodedata

# the columns of a line
WIDTH = 125


def order(name):
    """The order of names: signs first, and letters whatever their case."""
    return name.lstrip("\\")[:1].isalpha(), name.lower(), name


def code(text):
    """A text as code. A space is the only thing in it, so it is kept."""
    if text == "`":
        return "a backquote"
    return f"`` {text} ``" if "`" in text else f"`{text}`"


def drawn(text):
    """A character with its code point, ASCII as code, a mark on a dotted circle; or another text as code."""
    if len(text) > 1 or text.isdigit():
        return code(text)
    mark = "◌" if unicodedata.category(text)[0] == "M" else ""
    return f"{code(text) if text.isascii() else mark + text} (U+{ord(text):04X})"


def shown(name, text):
    """What is listed, with what it draws, unless that is its own name."""
    if name == text:
        return f"{code(name)} (U+{ord(name):04X})"
    return code(name) if not text or len(text) > 1 and name == f"\\{text}" else f"{code(name)} {drawn(text)}"


def item(head, items):
    """The lines of an item of a list: its head, and what it lists."""
    *others, last = items
    lines = [f"- {head}:"]
    for word in (*(f"{it}," for it in others), f"{last}."):
        if len(lines[-1]) + 1 + len(word) > WIDTH:
            lines.append(" ")
        lines[-1] += f" {word}"
    return lines


def table(head, rows):
    """The lines of a table of these rows of cells."""
    yield f"| {' | '.join(head)} |"
    yield "|" + "---|" * len(head)
    for row in rows:
        yield "| " + " | ".join(cell.replace("|", "\\|") for cell in row) + " |"
