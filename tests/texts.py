"""What the programs write: markup, and the texts of faults."""

ERROR = b"LaTeX2MathML Error: "

USAGE = b"usage: latex2mathml inline | block | document | html PATH\n"

NO_MEMORY = "Memory could not be found."
NO_TEXT = "The input is not UTF-8 text."
UNREAD = "The input could not be read."
UNLISTED = "The directory could not be listed."
NOT_CREATED = "The file could not be created anew."
BAD_ENTRY = "An entry of the directory could not be read."
STOPPED = "The output stopped after {} bytes."
UNPAIRED = "The number of dollar sings found is invalid."
# what is expected at the end of the text
OPEN = 'The token "{}" is expected, but the token "EOF" is found."'
UNCLOSED = OPEN.format("RBrace")


def math(contents, display="inline"):
    """The `math` element with these contents, which are a text or bytes, as bytes."""
    contents = contents if isinstance(contents, bytes) else contents.encode()
    return b'<math xmlns="http://www.w3.org/1998/Math/MathML" display="%s">%s</math>' % (display.encode(), contents)


def error(text):
    """The line with which `latex2mathml` reports a fault."""
    return ERROR + f"{text}\n".encode()


X = math("<mi>x</mi>")

# `x<y`
OF_LESS = "<mi>x</mi><mo>&lt;</mo><mi>y</mi>"
LESS, LESS_BLOCK = math(OF_LESS), math(OF_LESS, "block")
