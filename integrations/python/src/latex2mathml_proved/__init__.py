r"""LaTeX formulas to MathML.

    >>> import latex2mathml_proved as latex2mathml
    >>> latex2mathml.tex("x_i^2")
    '<math xmlns="http://www.w3.org/1998/Math/MathML" display="inline"><msubsup><mi>x</mi><mi>i</mi><mn>2</mn></msubsup></math>'
    >>> latex2mathml.tex(r"x + \foo")
    Traceback (most recent call last):
    latex2mathml_proved.TexRefused: unknown command \foo at 4

`tex` reads LaTeX as authors write it. `formula` and `document` read what the Rust crate latex2mathml reads.

`latex2mathml_proved.sphinx` is an extension for Sphinx, `latex2mathml_proved.markdown` one for Python-Markdown, and
`latex2mathml_proved.mkdocs` a plugin for MkDocs. All use `latex2mathml_proved.rendering` and `latex2mathml_proved.macros`, which
extensions for other tools may use too.
"""
from latex2mathml_proved._library import Refused, TexRefused, document, formula, tex

__all__ = ["Refused", "TexRefused", "document", "formula", "tex"]
