"""Formulas on paper: Firefox prints those of a dark page as those of a light one."""
import json
import shutil
import time

from tests import support
from tests.browsers import firefox, open_browser

# Signs, letters, lines, and brackets that are drawn from several pieces.
FORMULAS = [r"\left( \frac{\frac{a}{b}}{\frac{c}{d}} \right) + \left[ x^2 \right]", r"\sqrt{\frac12} \leq \sum_{k=1}^n a_k", r"\overline{ab}",
            r"\begin{pmatrix}1 & 2 \\ 3 & 4\end{pmatrix}"]
STYLES = {"light": "", "dark": "background: #121212; color: #eee"}
PAGE = (support.ROOT / "tests/paper/page.html").read_text()

# Firefox prints to a file, without asking and without its lines around the page.
SETTINGS = {
    "print.always_print_silent": True,
    "print_printer": "Mozilla Save to PDF",
    "print.printer_Mozilla_Save_to_PDF.print_to_file": True,
    **{f"print.print_{line}{place}": "" for line in ("header", "footer") for place in ("left", "center", "right")},
}
PATH = "print.printer_Mozilla_Save_to_PDF.print_to_filename"

# The seconds that Firefox may take. They are many, since only a Firefox that hangs reaches them.
LONGEST = 120
# The dots per inch, and the least number of dots of the formulas that are not white, or nearly so.
DOTS, LIGHTEST, FEWEST = 100, 200, 1000


def build_site(site):
    """The same page in each style, whose formulas the program has converted, with the files of page/."""
    shutil.copytree(support.ROOT / "page", site / "page")
    formulas = "\n".join(f"<p>$${formula}$$</p>" for formula in FORMULAS)
    for name, style in STYLES.items():
        (site / f"{name}.html").write_text(PAGE.replace("STYLE", style).replace("FORMULAS", formulas))
    done = support.run([support.program(), "html", site])
    assert done.returncode == 0, done.stderr.decode()


def is_whole(paper):
    return paper.exists() and paper.read_bytes().rstrip().endswith(b"%%EOF")


def dots_of(paper):
    """The first page of a PDF, a byte for each dot: 0 if it is black, 255 if it is white."""
    done = support.run(["pdftoppm", "-gray", "-r", str(DOTS), "-singlefile", paper])
    assert done.returncode == 0, done.stderr.decode()
    return done.stdout.split(b"\n255\n", 1)[1]


def print_page(page):
    """The dots of a page that Firefox prints."""
    with support.scratch() as home:
        paper = home / "paper.pdf"
        told = SETTINGS | {PATH: str(paper)}
        settings = "".join(f"user_pref({json.dumps(name)}, {json.dumps(value)});\n" for name, value in told.items())
        with open_browser(firefox(home, page.as_uri(), settings), home):
            end = time.monotonic() + LONGEST
            while not is_whole(paper):
                if time.monotonic() > end:
                    said = (home / "said").read_text(errors="replace")[-1000:]
                    raise AssertionError(f"in {LONGEST} s nothing was printed; the browser said: {said}")
                time.sleep(0.1)
        return dots_of(paper)


@support.requires("firefox-esr", "pdftoppm")
class Firefox(support.Case):
    def test_dark_page(self):
        build_site(self.folder)
        light, dark = (print_page(self.folder / f"{name}.html") for name in STYLES)
        inked = [sum(dot < LIGHTEST for dot in dots) for dots in (light, dark)]
        self.assertGreater(inked[0], FEWEST)
        self.assertTrue(dark == light, "dots of the light page and of the dark one: {:,}, {:,}".format(*inked))
