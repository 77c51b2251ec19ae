"""The plugin of MkDocs: sites that are built with it."""
import re

import pytest

from tests.environments import requires_python
from tests.integration import math_in
from tests.pages import code_blocks, read
from tests.runs import Runs
from tests.support import put

pytestmark = pytest.mark.long


@requires_python("markdown", "mkdocs", "pymdownx")
class Sites(Runs, file="mkdocs.txt"):
    def test_readme(self):
        """The README's lines of mkdocs.yml are enough."""
        [options] = code_blocks(read("integrations/python/README.md"), "yaml")
        put(self.folder, {"mkdocs.yml": "site_name: Equations\n" + options, "docs/index.md": "$\\norm{x} \\in \\R$\n"})
        self.expect(self.run_as("mkdocs", ["build", "--strict"], cwd=self.folder))
        [formula] = math_in((self.folder / "site/index.html").read_text(encoding="utf-8"))
        self.assertEqual(re.sub("<[^>]*>", "", formula), "∥x∥∈ℝ")
