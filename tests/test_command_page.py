"""docs/COMMANDS.md: it has each name, and the programs read and draw all that it lists. `test_documents` compares it with what
`tools/renew-documents` prints."""
import html
import re
import shutil

from tests import cases
from tests.support import ROOT, Case, Has, each_row, program, run, tex_program
from tools import tables, tex_commands, token_commands

PAGE = ROOT / "docs/COMMANDS.md"

# the formula that draws what each of these sections lists, and what is drawn
DRAWN = {
    **dict.fromkeys(("Letters", "Signs", "Big operators", "Functions", "Characters"), ("{0}", "{1}")),
    "Marks, braces and stacks": ("{0}{{x}}", "x{1}"), "Delimiters": (r"\left{0} x\right{0}", "{1}x{1}"), "Strokes": (r"\not{0}", "{1}"),
    "Words": (r"\text{{{0}}}", "{1}"), "Accents in words": (r"\text{{{0}{{x}}}}", "x{1}"), "Tables": (r"\begin{{matrix}}{0} a\end{{matrix}}", "a"),
}
BEHIND = re.compile(r"`(\[.\]|\{\w+\})`")  # what the page says to follow the name of an environment
BELOW = "{1}x"  # an arrow is before what is above it
# the arguments of macros that do not take every formula
FIRST_ARGUMENTS = {"\\colorbox": "red", "\\lower #1\\hbox": "1em", "\\raise #1\\hbox": "1em", "\\raisebox": "1em", "\\skew": "3"}
# the macros that begin and end a formula in words
SIGNS_IN_WORDS = ["\\(", "\\)"]
# those that are opening braces, and the closing ones
BRACES = {"\\begingroup": "\\endgroup", "\\bgroup": "\\egroup"}


class Page(Case):
    maxDiff = None

    def test_it_has_each_name(self):
        text = PAGE.read_text(encoding="utf-8")
        names = [*(f"\\{tables.value(name)}" for name, _ in tex_commands.commands()), *(f"\\{it.name}" for it in cases.commands()),
                 *(tables.value(name) for name, *_ in tex_commands.environments()), *token_commands.environments()]
        self.assertGreater(len(names), 1000)
        self.assertEqual([it for it in names if f"`{it}`" not in text], [])

    def test_an_entry_of_an_unknown_form_is_told(self):
        for part in ("docs", "tools", "tests", "cases", "crates"):
            shutil.copytree(ROOT / part, self.folder / part, ignore=shutil.ignore_patterns("out", "must-fail", "proofs", "__pycache__"))
        sources = [it for crate in ("commands", "units") for it in (self.folder / f"crates/latex2mathml_tex_{crate}/src").rglob("*.rt")]
        unlisted = "is of a form that tools/tex_commands.toml does not list: "
        for old, new, told in (
            ("Meaning::Root }", "Meaning::Uproot }", f"\\sqrt {unlisted}Uproot"),
            ("Meaning::Root }", "meaning(Root) }", f"\\sqrt {unlisted}meaning(Root)"),
            ('{ name: "sqrt", key: 0x7371727400000000,', '{ key: 0x7371727400000000, name: "sqrt",', "entries can be read"),
            ("character: '!', symbol: Symbol::Sign(Class::Closing", "character: '!', symbol: Symbol::Sign(Class::Curly",
             f"! {unlisted}Character(Sign(Curly, _))"),
            ('"split", delimiters: None, layout: Layout::InPairs', '"split", delimiters: None, layout: Layout::InRed',
             f"split {unlisted}Environment(_, InRed, InDisplay, Nothing, None)"),
            ("Some(Word::Def)", "Some(Word::Define)", f"\\def {unlisted}Define"),
            ("static NEGATED:", "static DENIED:", "delimiters.rt has no table NEGATED"),
        ):
            with self.subTest(told):
                [file] = [it for it in sources if old in it.read_text()]
                text = file.read_text()
                file.write_text(text.replace(old, new))
                done = run([self.folder / "tools/renew-documents", "--check"])
                file.write_text(text)
                self.expect(done, 1, None, None)
                self.assertRegex(done.stderr.decode(), rf"\Arenew-documents: COMMANDS.md: .*{re.escape(told)}\n\Z")


class Read(Case):
    """`tex2mathml` reads everything that is listed, and draws what is said. The formulas of a case are read by one run."""
    maxDiff = None

    def replies(self, formulas):
        """The reply to each formula."""
        done = run([tex_program(), "--null"], stdin="\0".join(formulas).encode())
        self.assertEqual(done.returncode, 0, done.stderr.decode())
        replies = done.stdout.decode().removesuffix("\0").split("\0")
        self.assertEqual(len(replies), len(formulas))
        return dict(zip(formulas, replies))

    def draw(self, due):
        """Each formula draws this."""
        self.assertTrue(due)
        found = {formula: text_in(reply) for formula, reply in self.replies(due).items()}
        self.assertEqual({formula: text for formula, text in found.items() if text != due[formula]}, {})

    def are_read(self, formulas):
        self.assertTrue(formulas)
        self.assertEqual({formula: reply for formula, reply in self.replies(formulas).items() if not reply.startswith("mathml\n")}, {})

    @each_row({section: (section, *forms) for section, forms in DRAWN.items()})
    def draws(self, section, formula, due):
        self.draw({formula.format(it.name): (BELOW if it.place.what.startswith("Arrows as long") else due).format(it.name, it.draws)
                   for it in listed_in(section) if not it.place.example})

    def test_other_delimiters(self):
        """Those with a size, and none."""
        self.draw({it.example: "(" for it in listed_in("Sizes")} | {r"\left. x\right.": "x"})

    def test_examples(self):
        self.are_read([it.example for it in tex_commands.listed() if it.place.example])

    def test_spaces(self):
        due = {f"a{it.name} b": [int(it.draws)] for it in tex_commands.listed() if it.place.what == "Widths"}
        found = {formula: re.findall(r'<mspace (?:width="|style="margin-left: )(-?[\d.]+)em"/>', reply) for formula, reply in self.replies(due).items()}
        self.assertEqual({formula: [round(float(it) * 18) for it in widths] for formula, widths in found.items()}, due)

    def test_environments(self):
        """With what is said to follow the name."""
        due = {"": "a", "{": "{a", "}": "a}"}
        self.draw({f"\\begin{{{it.name}}}{''.join(BEHIND.findall(it.place.what))} a\\end{{{it.name}}}": due.get(it.draws, "a".join(it.draws))
                   for it in listed_in("Environments")})

    def test_macros(self):
        """With an operand after each: the body of one ends with a command that takes it."""
        names = [f"{it.name}{{a}}" for it in listed_in("Usual macros") if it.name not in {*SIGNS_IN_WORDS, *BRACES, *BRACES.values()}]
        arguments = [it.replace("#1", FIRST_ARGUMENTS.get(it.partition("{")[0], "a")).replace("#2", "a") for it in names]
        # the third argument of `\sideset` is an operator, and those of others may be one
        self.are_read([it.replace("#3", r"\sum") for it in arguments])
        self.are_read([rf"\text{{{'a'.join(SIGNS_IN_WORDS)}}}", *(f"{opening} a{closing}" for opening, closing in BRACES.items())])

    def test_environments_of_the_other_call(self):
        for name in token_commands.environments():
            with self.subTest(name):
                done = run([program(), "inline"], stdin=f"\\begin{{{name}}}a\\end{{{name}}}".encode())
                self.expect(done, stdout=Has(b"<mtable"))


def listed_in(section):
    return [it for it in tex_commands.listed() if it.place.section == section]


def text_in(reply):
    """The text of a reply, without its tags; all of it, if it is not markup."""
    return html.unescape(re.sub(r"<[^>]*>", "", reply.removeprefix("mathml\n"))) if reply.startswith("mathml\n") else reply
