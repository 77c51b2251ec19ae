"""Random pages through the command `latex2mathml-site`: each formula is converted, every other byte stays as it was, and nothing is taken
for a formula but text, as another parser of HTML sees it."""
import functools
import html
import os
import re
import unittest

import hypothesis
from hypothesis import strategies as st

from tests.cases import listed
from tests.environments import requires_python
from tests.integration import tex
from tests.support import ROOT, requires
from tests.test_site import convert

COUNT = int(os.environ.get("LATEX2MATHML_RANDOM", "1200"))

RUN = hypothesis.settings(max_examples=COUNT, deadline=None, database=None, suppress_health_check=list(hypothesis.HealthCheck))

# formulas, what comes between them and contains none, and pieces of both
FORMULAS, OTHERS, PIECES = (sorted(listed(ROOT / f"tests/site/{name}.txt")) for name in ("formulas", "others", "pieces"))

PROSE = st.text("ab é\n>\"'=-/;5.\t", max_size=8)

# A part of a page, with the formula that it is, if it is one: its LaTeX, and whether it is in a block.
PARTS = st.one_of(
    st.tuples(st.one_of(PROSE, st.sampled_from(OTHERS)), st.none()),
    *(st.builds(lambda latex, form=form, block=block: (form.format(latex), (latex, block)), st.sampled_from(FORMULAS))
      for form, block in ((r"\({}\)", False), (r"\[{}\]", True), ("${}$", False), ("$${}$$", True))))

SOUP = st.lists(st.sampled_from(PIECES), max_size=40).map("".join)

MARKUP = re.compile(r"<math xmlns=.*?</math>|<code class=\"latex2mathml-refused\".*?</code>", re.DOTALL)
FORMULA = r"(\\\(.+?\\\)|\\\[.+?\\\]|\$.+?\$\$?)"

# No formula is looked for in the text of these.
WITHOUT = {"script", "style", "pre", "code", "textarea", "math", "svg", "title", "option", "select", "iframe", "noscript", "xmp", "template"}


@functools.cache
def markup(latex, block):
    return tex([html.unescape(latex), block])[0]


@requires_python()
class Random(unittest.TestCase):
    @RUN
    @hypothesis.given(st.lists(PARTS, max_size=30))
    def test_formulas_alone_are_changed(self, parts):
        # a full stop separates them, since a digit or a dollar sign after a dollar sign affects its meaning
        page = ".".join(written for written, _ in parts) + "."
        wanted = ".".join(markup(*formula) if formula else written for written, formula in parts) + "."
        made, faults = convert(page)
        self.assertEqual((made, faults), (wanted, []), page)

    @requires("python:html5lib")
    @RUN
    @hypothesis.given(SOUP)
    def test_only_text_is_changed(self, page):
        between = [re.escape(it) for it in MARKUP.split(convert(page)[0])]
        found = re.fullmatch(FORMULA.join(between), page, re.DOTALL)
        self.assertIsNotNone(found, page)
        texts = texts_of(page)
        for formula in found.groups():
            self.assertTrue(any(html.unescape(formula) in text for text in texts), (page, formula, texts))


def texts_of(page):
    """The texts of a page where formulas may be, as html5lib reads it."""
    import html5lib
    found = []

    def walk(element, may_have):
        # comments have no name
        name = element.tag.rpartition("}")[2] if isinstance(element.tag, str) else "script"
        inside = may_have and name not in WITHOUT
        if inside and element.text:
            found.append(element.text)
        for child in element:
            walk(child, inside)
            if inside and child.tail:
                found.append(child.tail)

    walk(html5lib.parse(page), True)
    return found
