"""What a page contains, and what a browser draws, after the files of page/ have corrected it."""
import functools
import html
import http.server
import itertools
import json
import queue
import re
import shutil
import threading

from tests import support
from tests.browsers import chromium, firefox, open_browser
from tests.cases import commands as entries, read

PAGES = support.ROOT / "tests/page"

# The width of the window of a page, if it is not 1,000 pixels.
WIDTHS = {"narrow.html": 320}
# The seconds that a browser may take to start and to check a page. They are many, since only a browser that hangs reaches them.
LONGEST = 300
TALL = r"\frac{\frac{a}{b}}{\frac{c}{d}}"


class Server(http.server.ThreadingHTTPServer):
    """Serves the pages of a folder to a browser, and keeps what they send back."""

    def __init__(self, folder):
        self.sent = queue.Queue()
        super().__init__(("127.0.0.1", 0), lambda *given: Answer(*given, directory=folder))

    def address_of(self, page):
        return f"http://127.0.0.1:{self.server_address[1]}/{page}"


class Answer(http.server.SimpleHTTPRequestHandler):
    def do_POST(self):
        body = self.rfile.read(int(self.headers["Content-Length"]))
        self.send_response(204)
        self.end_headers()
        self.server.sent.put((self.path.strip("/"), json.loads(body)))

    def log_message(self, *_):
        pass


def judge(words_of, site, pages):
    """The results of the pages of a folder in a browser, which `words_of` starts: a list for each page."""
    frames = "".join(f'<iframe src="{page}" width="{WIDTHS.get(page, 1000)}" height="2000"></iframe>' for page in pages)
    (site / "index.html").write_text(f"<!DOCTYPE html>{frames}")
    with support.scratch() as home, Server(site) as server:
        threading.Thread(target=server.serve_forever, daemon=True).start()
        with open_browser(words_of(home, server.address_of("index.html")), home):
            verdicts = {}
            while len(verdicts) < len(pages):
                try:
                    verdicts.update([server.sent.get(timeout=LONGEST)])
                except queue.Empty:
                    said = (home / "said").read_text(errors="replace")[-1000:]
                    missing = ", ".join(sorted(set(pages) - set(verdicts)))
                    raise AssertionError(f"in {LONGEST} s nothing was judged of {missing}; the browser said: {said}") from None
        server.shutdown()
    return verdicts


# the classes of TeX, with a member of each
CLASSES = {"ordinary": "c", "operator": r"\sum", "binary": "+", "relation": "=", "opening": "(", "closing": ")", "punctuation": ",",
           "inner": r"\ldots"}
COMMANDS = {"0": "", "1": r"\,", "2": r"\:", "3": r"\;"}


def spaces():
    """The cases of spaces.txt: a name, a formula, and the formula with its spaces."""
    return [(case.place, case.input.decode(), case.answer.decode()) for case in read(PAGES / "spaces.txt")]


def classes():
    """The cases of classes.txt, each sign between two letters: as for `spaces`."""
    lines = "\n".join(lines_of("classes.txt")).replace("\n ", " ").splitlines()
    for kind, sign in ((kind, sign) for kind, *signs in map(str.split, lines) for sign in signs):
        first = "a {}" if kind == "punctuation" else "a"
        yield f"{kind} {sign}", f"$a {sign} - b$", f"${write_out(('ordinary', kind, 'binary', 'ordinary'), (first, sign, '-', 'b'))}$"


def cells():
    """A case for each cell of table.txt in a line and in a script: two neighbours between two letters. As for `spaces`."""
    for left, right in spaces_between():
        row = ["ordinary", left, right, "ordinary"]
        signs, name = [CLASSES[kind] for kind in row], f"table.txt: {left} before {right}"
        yield name, f"${' '.join(signs)}$", f"${write_out(row, signs)}$"
        yield f"{name}, in a script", f"$x^{{{' '.join(signs)}}}$", f"$x^{{{write_out(row, signs, in_script=True)}}}$"


@functools.cache
def spaces_between():
    """The cells of table.txt, by the classes of both neighbours."""
    columns, *rows = map(str.split, lines_of("table.txt"))
    return {(left, right): cell for left, *row in rows for right, cell in zip(columns, row, strict=True)}


def write_out(row, signs, in_script=False):
    """A formula of signs of these classes, with TeX's spaces."""
    classes, (written, *others) = settle(row), signs
    for sign, neighbours in zip(others, itertools.pairwise(classes), strict=True):
        cell = spaces_between()[neighbours]
        written += f" {COMMANDS['0' if in_script and cell.startswith('(') else cell.strip('()')]} {sign}"
    return written


def settle(row):
    """The classes as TeX changes them: a binary sign is ordinary at an end, and next to what is not its operand."""
    classes = list(row)
    for place, kind in enumerate(classes):
        before, behind = (["end", *classes][place], [*classes, "end"][place + 1])
        if kind == "binary" and (before in {"end", "binary", "operator", "relation", "opening", "punctuation"}
                                 or behind in {"end", "relation", "closing", "punctuation"}):
            classes[place] = "ordinary"
    return classes


def lines_of(name):
    """The lines of a file, without comments."""
    return [line for line in (PAGES / name).read_text().splitlines() if line and not line.startswith("# ")]


def commands(*kinds):
    """The commands whose tokens are of these kinds."""
    return sorted(f"\\{it.name}" for it in entries() if it.token.partition("(")[0] in kinds or not kinds)


def signs():
    """All signs: the operators and parentheses among the commands, sums and integrals, and single characters."""
    return [*"=;,.+-*/!<>()[]|:", ":=", *commands("Operator", "Paren", "BigOp", "Integral")]


def build_site(site):
    """A folder like the output of a site builder: pages whose formulas the program has converted, and the files of page/."""
    shutil.copytree(PAGES, site, dirs_exist_ok=True)
    shutil.copytree(support.ROOT / "page", site / "page")
    insert(site / "spaces.html", [f'<div title="{html.escape(name)}">\n<p>{formula}</p>\n<p>{spaced}</p>\n</div>'
                                  for name, formula, spaced in [*spaces(), *classes(), *cells()]])
    insert(site / "signs.html", [f'<p title="{html.escape(sign)}">${sign} x$ ${sign} {TALL}$</p>' for sign in signs()])
    done = support.run([support.program(), "html", site])
    assert done.returncode == 0, done.stderr.decode()
    return sorted(path.name for path in PAGES.glob("*.html"))


def insert(page, cases):
    page.write_text(page.read_text().replace("CASES", "\n".join(cases)))


class Gallery(support.Case):
    """docs/gallery.html is what the program makes from its source, and shows every command."""

    def test_gallery_is_of_today(self):
        source = (support.ROOT / "docs/gallery.source.html").read_bytes()
        done = support.run([support.program(), "document"], stdin=source)
        self.expect(done)
        self.assertTrue(done.stdout == (support.ROOT / "docs/gallery.html").read_bytes(), "tools/draw-gallery makes it anew")

    def test_language_lists_the_commands(self):
        self.assertGreater(len(commands()), 400)

    def test_gallery_shows_each_command(self):
        formulas = re.findall("<code>(.*)</code>", (support.ROOT / "docs/gallery.source.html").read_text())
        shown = {name for formula in formulas for name in re.findall(r"\\(?:[A-Za-z]+|.)", html.unescape(formula))}
        self.assertEqual([name for name in commands() if name not in shown], [])


class Links(support.Case):
    """The pages of cases link the files of page/ as its README says."""

    def test_cases_link_as_the_readme_says(self):
        readme = (support.ROOT / "page/README.md").read_text()
        told = re.findall(r"^    (<(?:link|script) .*)$", readme, re.MULTILINE)
        self.assertEqual(len(told), 2)
        for page in ("cases.html", "spaces.html", "signs.html"):
            self.assertLessEqual(set(told), set(lines_of(page)), page)


class Browser(support.Case):
    """Opens the pages of tests/page in a browser. Each result that they report is a case."""

    def judge(self, words_of):
        pages = build_site(self.folder)
        for page, judgements in judge(words_of, self.folder, pages).items():
            self.assertTrue(judgements, msg=f"{page} made no judgement")
            for each in judgements:
                with self.subTest(f"{page}: {each['name']}"):
                    self.assertTrue(each["passed"], msg=f"found:  {each['found']}\nwanted: {each['due']}")


@support.requires("chromium")
class Chromium(Browser):
    def test_pages(self):
        self.judge(chromium)


@support.requires("firefox-esr")
class Firefox(Browser):
    def test_pages(self):
        self.judge(firefox)
