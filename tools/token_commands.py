"""What `latex_to_mathml` reads, as docs/COMMANDS.md lists it. The tests compare cases/commands.txt with the definitions."""
import collections
import re

from tests import cases
from tools.listing import code, item, order, shown
from tools.tables import CRATES, LITERAL, value


def environments():
    """The names with which the definition of their trees compares."""
    definitions = (CRATES / "latex2mathml_trees/specs/Productions.antt").read_text(encoding="utf-8")
    return re.findall(r'bytes_eq name \(codes "(\w+)"\)', definitions.partition("\nenvironment_tree name")[2])


def lines():
    """The commands by their tokens, in which `_` replaces a character, a text or a number."""
    yield f"It reads {len(cases.commands())} commands, and the environments {', '.join(map(code, sorted(environments())))}."
    yield ""
    items = collections.defaultdict(list)
    for it in sorted(cases.commands(), key=lambda it: order(it.name)):
        items[re.sub(LITERAL, "_", it.token)].append(shown(f"\\{it.name}", "".join(map(value, re.findall(LITERAL, it.token)))))
    for token, them in sorted(items.items()):
        yield from item(code(token), them)
