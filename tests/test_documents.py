"""Checks the documents: links lead somewhere, commands print what is shown, what `tools/renew-documents` writes is up to date,
and sentences are short."""
import re
import shutil

from tests.integration import answer_of
from tests.pages import CODE, column, read, rows, section, tables
from tests.support import ROOT, Case, Has, each_row, program, put, requires, run, tex_program
from tests.texts import USAGE, math
from tools import quotes, specs, token_commands

# the most words that a sentence may have
LONGEST = 35


def documents():
    """The documents that git keeps; or all, if git is missing or knows of none, as in a copy without its folder."""
    # the folder may belong to another user
    command = ["git", "-c", f"safe.directory={ROOT}", "-C", ROOT, "ls-files", "-co", "--exclude-standard", "*.md"]
    listed = run(command).stdout.decode().split("\n") if shutil.which("git") else []
    return [ROOT / name for name in listed if name and (ROOT / name).is_file()] or sorted(ROOT.rglob("*.md"))


def without_code(text):
    """The text without its blocks of code, fenced or indented."""
    text = re.sub(r"^```.*?^```$", "", text, flags=re.M | re.S)
    return re.sub(r"(?:^|\n)(?:(?:    .*)?\n)+(?=\n|\S)", lambda block: block[0] if not re.search(r"^    \S", block[0], re.M) else "\n\n", text)


def anchors(text):
    """The anchors of a document's headings, as GitHub makes them."""
    headings = re.findall(r"^#+ +(.*?)\s*$", re.sub(r"^```.*?^```$", "", text, flags=re.M | re.S), re.M)
    plain = [re.sub(r"\[([^\]]*)\]\([^)]*\)", r"\1", it).lower() for it in headings]
    return {re.sub(r"[^\w\- ]", "", it).replace(" ", "-") for it in plain}


def leads_somewhere(document, target):
    path, _, anchor = target.partition("#")
    led = document.parent / path if path else document
    return led.exists() and (not anchor or led.suffix != ".md" or anchor in anchors(led.read_text()))


class Links(Case):
    def test_each_leads_somewhere(self):
        links = [(document, target) for document in documents() for target in re.findall(r"\]\(([^)\s]+)\)", without_code(document.read_text()))]
        self.assertTrue(links)
        self.assertEqual([it for it in links if not re.match(r"[a-z]+:", it[1]) and not leads_somewhere(*it)], [])


# a trait: two of its methods have no body
SINK = """\
/// Takes bytes.
pub trait Sink {
    /// Takes these.
    fn put(&mut self, bytes: &[u8]) -> bool
        // none is left
        ensures all { result ≡ true }
        ensures last { self.new ≡ bytes.now };

    fn name(&self) -> u8;

    fn clear(&mut self)
        ensures { self.new ≡ [] }
    {
        self.last = 0;
    }
}
"""


class Quotes(Case):
    def test_nothing_is_to_be_renewed(self):
        self.expect(run([ROOT / "tools/renew-documents", "--check"]), stdout=b"")

    def test_a_line_that_moved_is_renewed(self):
        for part in ("docs", "tools", "tests", "cases", "crates"):
            shutil.copytree(ROOT / part, self.folder / part, ignore=shutil.ignore_patterns("out", "must-fail", "proofs", "__pycache__"))
        source, document = self.folder / "crates/latex2mathml/specs/Documents.antt", self.folder / "docs/PROMISES.md"
        old, renew = document.read_text(), self.folder / "tools/renew-documents"
        line = source.read_text().split("\n").index("pub data Piece : Type 0 where") + 1
        link, moved = (f"[`Piece`](../crates/latex2mathml/specs/Documents.antt#L{it})" for it in (line, line + 1))
        self.assertIn(link, old)
        source.write_text(f"-- one more line\n{source.read_text()}")
        self.expect(run([renew, "--check"]), 1, Has(moved.encode()))
        self.assertEqual(document.read_text(), old)
        self.expect(run([renew]), stdout=b"")
        self.assertIn(moved, document.read_text())
        self.expect(run([renew, "--check"]), stdout=b"")
        with self.subTest("it is gone"):
            text = document.read_text()
            source.write_text(source.read_text().replace("pub data Piece :", "pub data Part :"))
            self.expect(run([renew]), 1, b"", b"renew-documents: PROMISES.md: Documents.antt has no definition Piece\n")
            self.assertEqual(document.read_text(), text)

    def test_only_these_documents_quote(self):
        renewed = re.findall(r'"(docs/\w+\.md)"', (ROOT / "tools/renew-documents").read_text())
        quoting = [it for it in documents() if re.search(r"\.antt#L|<!-- (quoted from|made by)", it.read_text())]
        self.assertEqual(sorted(renewed), sorted(str(it.relative_to(ROOT)) for it in quoting))
        for document in quoting:
            links = document.read_text().count(".antt#L")
            self.assertEqual(len(quotes.sources_of(document)), links, f"{document.name} links a line without a definition's name")

    def test_a_signature_is_all_that_precedes_the_body(self):
        """A method that a trait declares has no body: its last line, which ends in `;`, belongs to its signature."""
        source = self.folder / "sink.rt"
        source.write_text(SINK)
        for name, lines in {
            "put": ["fn put(&mut self, bytes: &[u8]) -> bool", "    ensures all { result ≡ true }", "    ensures last { self.new ≡ bytes.now };"],
            "name": ["fn name(&self) -> u8;"],
            "clear": ["fn clear(&mut self)", "    ensures { self.new ≡ [] }"],
        }.items():
            with self.subTest(name):
                self.assertEqual(quotes.signature(source, name), "".join(f"{line}\n" for line in lines))

    def test_each_public_call_is_quoted(self):
        text = read("docs/CALLING.md") + read("docs/CALLING_TEX.md")
        self.assertEqual([name for name in quotes.public_calls() if f"fn {name}" not in text], [])


class Definitions(Case):
    """What PROMISES says about the definitions that its contracts rest on."""
    document = ROOT / "docs/PROMISES.md"
    files = specs.in_order(specs.named(quotes.public_sources()))

    def test_the_tables_link_each_file_after_those_that_it_uses(self):
        linked = list(dict.fromkeys(quotes.sources_of(self.document)))
        self.assertEqual(sorted(linked), sorted(it.path for it in self.files))
        for at, here in enumerate(self.files):
            for below in specs.files_below(here):
                with self.subTest(f"{here.name} uses {below.name}"):
                    self.assertIn(below, self.files[:at])
                    self.assertLess(linked.index(below.path), linked.index(here.path))

    def test_the_imports_of_a_file_are_all_of_its_imports(self):
        """No import of a file is missed: each line that begins with `use` is one."""
        for here in self.files:
            lines = [line for line in here.path.read_text().split("\n") if re.match(r"\s*(?:\w+ )*use\b", line)]
            self.assertEqual(len(specs.USE.findall(here.path.read_text())), len(lines), here.name)

    def test_each_contract_has_the_clauses_that_are_named(self):
        contracts = clauses_of_functions()
        # what a function belongs to: a program, or a crate; and what `Display` prints
        others = {"latex2mathml", "tex2mathml", "output", *(it.name for it in (ROOT / "crates").iterdir())}
        promises = [contract for head, rows in tables(self.document.read_text()) if head == ["Promise", "Contract"] for _, contract in rows]
        self.assertGreater(len(promises), 20)
        for contract in promises:
            functions = []
            for part in contract.split("; "):
                before, word, behind = re.match(r"(.*?)(?:,? ?\b(clauses?|fields?) (.*))?$", part).groups(default="")
                functions = [it.rpartition("::")[2] for it in re.findall(r"`([\w:]+)`", before)] or functions
                here = [it for it in functions if it in contracts]
                with self.subTest(part):
                    self.assertEqual([it for it in functions if it.islower() and it not in {*contracts, *others}], [], "there is no such function")
                    if word.startswith("clause") and here:
                        for clause in re.findall(r"`(\w+)`", behind):
                            self.assertTrue(any(clause in contracts[it] for it in here), f"no clause {clause}")

    @requires("rt")
    def test_the_toolchain_is_the_one_that_is_named(self):
        version = run(["rt", "version"]).stdout.decode().strip()
        self.assertIn(f"`{version}` as `rt version` prints it", self.document.read_text())


def clauses_of_functions():
    """The names of the clauses that a function of this name ensures, of all crates together."""
    found = {}
    for source in sorted((ROOT / "crates").glob("*/src/**/*.rt")):
        text = source.read_text()
        for begun in re.finditer(r"^ *(?:pub(?:\(crate\))? )?(?:const |extern \"C\" )*fn (\w+)", text, re.M):
            # up to its body, or to the next function if it has none
            signature = re.split(r"\n *\{\n|\{\}\n|\bfn \w", text[begun.end():], maxsplit=1)[0]
            found.setdefault(begun[1], set()).update(re.findall(r"\bensures (\w+) \{", signature))
    return found


class Sentences(Case):
    def test_none_is_long(self):
        found = [(document, sentence) for document in documents() for sentence in sentences(without_code(document.read_text()))]
        self.assertTrue(found)
        self.assertEqual([(document, sentence) for document, sentence in found if len(sentence.split()) > LONGEST], [])


def sentences(text):
    """The sentences of a document's prose, without tables and headings. A list item begins a sentence."""
    kept = [line for line in text.split("\n") if not re.match(r"\s*(\||#|!\[|\[.*\]:)", line)]
    prose = re.sub(r"^\s*(?:[-*]|\d+\.) +", "\n\n", "\n".join(kept), flags=re.M)
    prose = re.sub(r"``.*?``|`[^`]*`", "code", prose, flags=re.S)
    # an enumeration of code, with the sign of each command after it, counts as one word
    item = r"code(?:\s+(?:code|[^\s,(]{1,2}))?(?:\s+\(U\+\w+\))?"
    prose = re.sub(rf"{item}(?:,\s+(?:and\s+)?{item})+", "code", prose)
    prose = re.sub(r"\]\([^)]*\)", "]", prose)
    for paragraph in re.split(r"\n\s*\n", prose):
        yield from (part.strip() for part in re.split(r"(?<=[.?!])[)\"]?\s+", " ".join(paragraph.split())) if part.strip())


class Readme(Case):
    text = read("README.md")

    def run_shown(self, command):
        """Runs a command that is shown, in a folder with the programs."""
        for name, built in (("latex2mathml", program()), ("tex2mathml", tex_program())):
            if not (self.folder / name).exists():
                (self.folder / name).symlink_to(built)
        return run(["sh", "-c", command], cwd=self.folder)

    def test_is_short(self):
        self.assertLessEqual(self.text.count("\n"), 155)

    def test_its_commands_print_what_is_shown(self):
        """So do those of TEX.md. A line that begins with the name of a program is a refusal, on standard error."""
        for document, refused in (("README.md", [0, 0, 1, 1]), ("docs/TEX.md", [0, 1, 1, 1])):
            shown = re.findall(r"^    (?:\$ )?(printf .*)\n(?:\nprints\n\n)?    (.*)\n", read(document), re.M)
            self.assertEqual(sorted(not line.startswith("<math ") for _, line in shown), refused)
            for command, line in shown:
                with self.subTest(command):
                    printed = (0, f"{line}\n".encode(), b"") if line.startswith("<math ") else (1, b"", f"{line}\n".encode())
                    self.expect(self.run_shown(command), *printed)

    def test_the_file_of_definitions_that_is_shown_is_read(self):
        shown = re.search(r"^    % macros\.tex\n((?:    .*\n)+)", read("docs/TEX.md"), re.M)[0]
        put(self.folder, {"macros.tex": shown})
        self.expect(self.run_shown("printf '\\\\R' | ./tex2mathml --definitions macros.tex"), stdout=math("<mi>ℝ</mi>") + b"\n")

    def test_its_words_are_all_that_there_are(self):
        words = re.findall(r"^\| `latex2mathml (\w+)(?: PATH)?` \|", self.text, re.M)
        self.expect(run([program()]), status=2, stdout=b"", stderr=USAGE)
        self.assertEqual(sorted(words), sorted(re.findall(r"\b(inline|block|document|html)\b", USAGE.decode())))

    def test_its_statuses(self):
        for said in ("the status is 1", "0 on success and 2 where the arguments are wrong"):
            self.assertIn(said, self.text)
        for word, given, status, stdout in (("inline", b"x", 0, None), ("inline", b"{", 1, b""), ("wrong", b"", 2, b"")):
            self.expect(run([program(), word], stdin=given), status, stdout, None if status else b"")

    def test_its_status_of_files(self):
        self.assertIn("converts the others, and then has status 1", " ".join(self.text.split()))
        put(self.folder, {"a.html": "${$", "b.html": "$x$"})
        self.expect(run([program(), "html", self.folder]), status=1, stdout=b"", stderr=None)
        self.assertEqual((self.folder / "a.html").read_text(), "${$")
        self.assertIn("<mi>x</mi>", (self.folder / "b.html").read_text())

    def test_its_site_is_converted_over_a_copy(self):
        [command] = re.findall(r"^    (rm -rf site\.new site\.old && .*)\n", self.text, re.M)
        put(self.folder, {"site/a.html": "<p>$x$</p>"})
        self.expect(self.run_shown(command), stdout=b"")
        self.assertEqual((self.folder / "site.old/a.html").read_text(), "<p>$x$</p>")
        self.assertIn("<mi>x</mi>", (self.folder / "site/a.html").read_text())
        # and again, over what the first run left
        self.expect(self.run_shown(command), stdout=b"")
        self.assertEqual(sorted(path.name for path in self.folder.glob("site*")), ["site", "site.old"])


class Language(Case):
    """The tables of LANGUAGE.md that the program can show, and the texts of faults."""

    def test_documents(self):
        """In an answer, code is taken as it is, and M(x) is markup."""
        for shown, answer in rows(read("docs/LANGUAGE.md"), "Document"):
            with self.subTest(shown):
                done = run([program(), "document"], stdin=shown.strip("`").encode())
                parts = re.findall(r"M\(`([^`]*)`\)|`([^`]*)`", answer.partition(",")[0].partition(":")[0])
                if answer.startswith("refused"):
                    self.expect(done, 1, b"", None)
                else:
                    self.expect(done, stdout="".join(answer_of(formula) if formula else code for formula, code in parts).encode())

    def test_faults(self):
        """The definition of a fault's text is in quotation marks, with the number of bytes between two of them."""
        texts = {"List" if name == "Unlisted" else name: "N".join(re.findall(r'codes "([^"]*)"', text)) for name, text
                 in re.findall(r"^fault_text \(?(\w+).*? = (.*)", read("crates/latex2mathml/specs/Faults.antt"), re.M)}
        said = rows(read("docs/LANGUAGE.md"), "Fault", "When", "Text")
        self.assertEqual({fault.strip("`"): text.strip("`") for fault, _, text in said}, texts | {"Refused": "the text of the refusal"})


class Sources(Case):
    """What documents take from the sources."""

    @each_row({
        "entries": ("docs/COMMANDS.md", r"It reads (\d+) commands, and the environments", {
            "README.md": " {} commands", "docs/DECISIONS.md": " {} texts", "docs/ARCHITECTURE.md": " {} entries"}),
        "comparisons": ("crates/latex2mathml_grammar/specs/Counts.antt", r"n ≤ (\d+) \* backslashes", {
            "README.md": "at most {} compared names per command", "docs/PROMISES.md": "1 to {} names for each token",
            "cases/counts.txt": "A command is compared with 1 to {} names"}),
        "levels": ("crates/latex2mathml/specs/Files.antt", r"(?m)^levels_read = (\d+)$", {
            "docs/PROMISES.md": "at most {} levels are read", "docs/DIFFERENCES.md": "to {} levels", "docs/DECISIONS.md": "at most {} levels"}),
    })
    def numbers(self, source, number, said):
        found = re.search(number, read(source))[1]
        for document, text in said.items():
            self.assertIn(text.format(found), " ".join(read(document).split()), document)

    def test_environments(self):
        said = re.search(r"the environments ((?:`\w+`(?:, | and )?)+)", read("README.md"))[1]
        self.assertEqual(sorted(CODE.findall(said)), sorted(token_commands.environments()))

    def test_derived_traits(self):
        """The table of DIFFERENCES.md names the traits that each new type derives."""
        said = {name: CODE.findall(traits) for names, traits in rows(read("docs/DIFFERENCES.md"), "Type", "Derives") for name in CODE.findall(names)}
        found = {}
        for source in quotes.sources():
            types = re.findall(r"^#\[derive\((.*)\)\]\n(?:#.*\n)*pub (?:struct|enum) (\w+)", source.read_text(), re.M)
            found.update({name: traits.split(", ") for traits, name in types})
        self.assertTrue(said)
        self.assertEqual({name: found.get(name) for name in said}, said)
        of_the_crate = {"Token", "Node", "LatexError", "DisplayStyle", "Variant", "Accent", "LineThickness", "ColumnAlign"}
        handed_on = re.findall(r"\w+", " ".join(re.findall(r"^pub use [^;]*;", read("crates/latex2mathml/src/lib.rt"), re.M)))
        self.assertEqual([name for name in found if name in handed_on and name not in said and name not in of_the_crate], [])


class Integrations(Case):
    """What pages link, and what the packages do by default."""

    def test_the_two_lines_that_a_page_links(self):
        lines, again = (re.findall(r"^    (?:<link .*>|<script .*></script>)$", read(it), re.M) for it in ("page/README.md", "README.md"))
        self.assertEqual(lines, again)
        linked = re.findall(r'(?:href|src)="([^"]*)"', " ".join(lines))
        self.assertEqual(linked, ["page/latex2mathml.css", "page/latex2mathml.js"])
        self.assertEqual([name for name in linked if not (ROOT / name).is_file()], [])

    def test_defaults(self):
        """The column of defaults is what each integration takes for an option that is not given."""
        said = column(read("integrations/README.md"), "Option", "Default")
        self.assertEqual(said, {"macros": "none", "annotation": "false", "strict": "false"})
        for source, form in (
            ("integrations/python/src/latex2mathml_proved/markdown.py", r'^ +"strict": \[(.*?), "'),
            ("integrations/pandoc/latex2mathml.lua", r"^    strict = (.*?),"),
            ("integrations/node/markdown-it.js", r"^    const \{.*\bstrict = (.*?),"),
        ):
            with self.subTest(source):
                self.assertEqual(re.search(form, read(source), re.M)[1].lower(), said["strict"])

    def test_options(self):
        """The READMEs list the options that the filter and the plugin of markdown-it take, and no others."""
        lua = read("integrations/pandoc/latex2mathml.lua").partition("local READERS = {")[2].partition("\n}")[0]
        plugin = re.search(r"checkOptions\(options, \[(.*?)\]", read("integrations/node/markdown-it.js"))[1]
        for folder, taken in (("pandoc", re.findall(r"^  (\w+) = ", lua, re.M)), ("node", re.findall(r"\w+", plugin))):
            with self.subTest(folder):
                self.assertEqual(sorted(column(read(f"integrations/{folder}/README.md"), "Option", "Default")), sorted(taken))

    def test_defaults_of_python(self):
        """The tables of the README have the options of Python-Markdown and their defaults."""
        said = section(read("integrations/python/README.md"), "Python-Markdown")
        source = read("integrations/python/src/latex2mathml_proved/markdown.py")
        self.assertEqual(re.findall(r"^\| `(\w+)` \| `(.*?)` \|", said, re.M), re.findall(r'^ +"(\w+)": \[(.*?), "', source, re.M))

    def test_licences(self):
        """Each package that people take out of the repository has its licence."""
        self.assertEqual({read(f"integrations/{it}/LICENSE") for it in ("node", "rust")}, {read("LICENSE")})


class Figures(Case):
    """The figures of the READMEs match the files that the benchmarks write."""

    def setUp(self):
        self.text = read("README.md")
        self.counted = {name.strip(): int(count.replace(",", "")) for count, name in self.lines("bench/instructions.txt")}

    def lines(self, name):
        """The lines of a file of counts: a count, and what it is of."""
        return [line.split("  ", 1) for line in read(name).splitlines()]

    def ranges(self, sentence, ratios):
        """The sentence says the least and the most of these ratios."""
        self.assertEqual(re.search(sentence, self.text).groups(), (f"{min(ratios):.1f}", f"{max(ratios):.1f}"))

    def test_ratios(self):
        """How many times as many instructions the crate executes, by the table below that sentence."""
        shown = re.findall(r"\| (\d+) million, (\d+) million, ", self.text)
        self.ranges(r"executes (\d+\.\d) to (\d+\.\d) times as many instructions", [int(theirs) / int(ours) for ours, theirs in shown])

    def test_tex_ratios(self):
        """How many times as many instructions `tex_to_mathml` executes as `latex_to_mathml`, for the same formulas."""
        both = [(count, self.counted[name.removeprefix("tex2mathml ")]) for name, count in self.counted.items() if name.startswith("tex2mathml ")]
        self.ranges(r"`tex_to_mathml` executes (\d\.\d) to (\d\.\d) times as many instructions as `latex_to_mathml`",
                    [tex / latex for tex, latex in both])

    def test_instructions(self):
        shown = re.findall(r"^\| (?:a document of )?`?([^|`]+?)`?(?:, over and over)? \| (\d+) million, ", self.text, re.M)
        self.assertEqual({name.strip(): int(millions) for name, millions in shown},
                         {name: round(count / 1e6) for name, count in self.counted.items() if not name.startswith("tex2mathml ")})

    def test_instructions_of_a_call(self):
        shown = re.findall(r"^\| (\d+) \| [\d,]+ \| [\d,]+ \| ([\d,]+) \| [\d,]+ \|$", read("bench/README.md"), re.M)
        self.assertEqual(shown, [(str(len(latex)), count) for count, latex in self.lines("bench/calls.txt")])
