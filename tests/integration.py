"""Results of the programs, and the command `latex2mathml-site`, run as people run it, for the tests of the integrations."""
import os
import re

from tests.environments import environment, proved, run_python
from tests.support import program, run, run_folder, tex_program


def answer_of(latex, word="inline"):
    """The answer of `latex2mathml` to a formula, in a line or as a `block`."""
    return run([program(), word], stdin=latex.encode()).stdout.decode().removesuffix("\n")


def tex_answer_of(latex, display="inline", *words):
    """The answer of `tex2mathml` to a formula, in a line or as a `block`."""
    return run([tex_program(), "--display", display, *words], stdin=latex.encode()).stdout.decode().removesuffix("\n")


def math_in(page):
    """The `math` elements of a page."""
    return re.findall("<math .*?</math>", page, re.DOTALL)


def tex(*formulas):
    """The markup of each formula, which is a text, or a list of the arguments of `latex2mathml_proved.tex`."""
    answers = [proved().tex(*([it] if isinstance(it, str) else it)) for it in formulas]
    assert all(it.startswith("<math ") for it in answers), f"a formula has no markup: {answers}"
    return answers


def keep_caches_here():
    """The command keeps what it remembers in the folder of the run, not in the user's."""
    os.environ["XDG_CACHE_HOME"] = str(run_folder() / "caches")


def command(*words):
    """The words of a shell that run the command."""
    keep_caches_here()
    return [environment(), "-m", "latex2mathml_proved", "site", *words]


def site(*words, cwd, **more):
    return run_python(*command(*words), cwd=cwd, **{"timeout": 300, **more})
