"""The command `latex2mathml-site`: which parts of a page are formulas, what replaces them, and what is reported about them."""
import os
import pathlib
import subprocess

from tests.cases import by_heading
from tests.environments import environment, proved, requires_python, run_python
from tests.integration import keep_caches_here, site, tex
from tests.runs import Runs, with_markup
from tests.support import Case, each_row, put, scratch


def convert(text):
    """A page after its conversion, and its faults."""
    pages = proved(".site.pages")
    page = pages.convert(text.encode(), pages.Options())
    return page.content.decode(), list(page.faults)


class Pages(Case):
    def check(self, *cases):
        for case in cases:
            with self.subTest(case.place):
                self.assertEqual(convert(case.input.decode())[0], with_markup(case.answer.decode()))


@requires_python()
class Formulas(Pages):
    @each_row(by_heading("site/formulas.txt"))
    def are_converted(self, *cases):
        self.check(*cases)


@requires_python()
class Elements(Pages):
    @each_row(by_heading("site/elements.txt"))
    def are_converted(self, *cases):
        self.check(*cases)


@requires_python()
class Sites(Runs, file="site.txt"):
    @each_row(by_heading("site_scripts.txt"))
    def scripts_are_read(self, *cases):
        """The macros in the settings of MathJax and KaTeX."""
        for case in cases:
            with self.subTest(case.place):
                script = case.input.decode()
                macros = proved(".site.settings").macros_of(script)
                self.assertEqual(macros.definitions + "".join(it.reason for it in macros.refused), case.answer.decode())
                self.assertTrue(all(it.place <= len(script) for it in macros.refused))


@requires_python()
class Leftovers(Case):
    def test_whose_process_has_ended(self):
        """The next run removes a file that was being written, unless its process is still writing. A process with the same number
        that began later does not count, nor does one that is listed after its end."""
        with subprocess.Popen(["sleep", "600"]) as alive:
            ended = subprocess.Popen(["true"])
            os.waitid(os.P_PID, ended.pid, os.WEXITED | os.WNOWAIT)
            try:
                processes = ((alive.pid, began_at(alive.pid)), (alive.pid, "1"), (ended.pid, began_at(ended.pid)))
                files = [f".latex2mathml-{process}-{began}-0.new" for process, began in processes]
                put(self.folder, {"a.html": "$x$", **dict.fromkeys(files, "half")})
                self.expect(site(".", cwd=self.folder), stdout=None)
                self.assertEqual(sorted(it.name for it in self.folder.iterdir()), [files[0], "a.html"])
                self.assertEqual((self.folder / "a.html").read_text(), tex("x")[0])
            finally:
                alive.kill()
                ended.wait()


def began_at(process):
    """When a process began, in ticks of Linux."""
    return pathlib.Path(f"/proc/{process}/stat").read_text().rpartition(")")[2].split()[19]


# Runs the command in a setting where each page is written anew after it was read.
WRITTEN_ANEW = """
import sys
from latex2mathml_proved.site import building, command

convert = building.convert

def converted(content, options):
    with open("a.html", "a") as page:
        page.write("more")
    return convert(content, options)

building.convert = converted
sys.exit(command.main(sys.argv[1:]))
"""


@requires_python()
class WrittenAnew(Case):
    def test_a_page_that_its_builder_writes_meanwhile(self):
        for words, more in (((), b""), (("--strict",), b"latex2mathml-site: nothing was changed\n")):
            with self.subTest(words), scratch() as folder:
                put(folder, {"a.html": "$x$"})
                keep_caches_here()
                done = run_python(environment(), "-c", WRITTEN_ANEW, ".", *words, cwd=folder)
                self.expect(done, 1, None, b"a.html: changed while it was converted: left as it is\n" + more)
                self.assertEqual((folder / "a.html").read_text(), "$x$more")
                self.assertEqual([it.name for it in folder.iterdir()], ["a.html"])
                # the next run converts it
                self.expect(site(".", *words, cwd=folder), stdout=None)
                self.assertEqual((folder / "a.html").read_text(), f"{tex('x')[0]}more")
