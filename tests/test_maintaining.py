"""The pages for maintainers name crates, files, modules and tests that exist, and each source says itself what it is."""
import re
import unittest

from tests.pages import CODE, read, section, tables
from tests.support import ROOT, newest_version

ARCHITECTURE, MAINTAINING, CONTRIBUTING = map(read, ("docs/ARCHITECTURE.md", "docs/MAINTAINING.md", "CONTRIBUTING.md"))
CRATES = ROOT / "crates"

# names of a crate's files or types, as in "`job` and `serving` of `latex2mathml_program`"
OF_A_CRATE = re.compile(r"((?:`[\w:]+`(?:, | and ))*`[\w:]+`)\s+of\s+`(latex2mathml\w*)`")

# folders that builds make
MADE = {"out", "lib", "build", "target", "prebuilt", "node_modules"}


def crates():
    """The crates that crates.txt lists."""
    return re.findall(r"^(\w+)[^:\n]*:", read("crates.txt"), re.M)


def paths(text):
    """The paths that a page names in code: from the top of the repository, or of a crate. A column whose head names a folder has paths
    in that folder."""
    for head, rows in tables(text):
        for at, cell in enumerate(head):
            folder = re.search(r"`(latex2mathml\w*/\w+)`", cell)
            yield from (f"{folder[1]}/{it}" for row in rows if folder for it in CODE.findall(row[at]))
    top = {it.name for it in ROOT.iterdir()} - {"latex2mathml", "tex2mathml"}
    for path in (word.lstrip(">") for code in CODE.findall(text) for word in code.split()):
        first, slash, _ = path.partition("/")
        if re.fullmatch(r"[\w./-]+", path) and (slash and (first in top or first.startswith("latex2mathml_")) or path in top):
            yield path


def is_there(path):
    """Whether there is such a path. Logs are made, and CRATE and NAME are any."""
    return (CRATES if path.startswith("latex2mathml_") else ROOT).joinpath(path).exists() or re.search(r"^out/|CRATE|NAME", path)


def module(crate, name):
    return CRATES / crate / "src" / f"{name.replace('::', '/')}.rt"


def has(crate, name):
    """Whether a crate has a module, a function, a type, a file of definitions or a file of lemmas of this name."""
    files = [module(crate, name), *(CRATES / crate / folder / f"{name}.antt" for folder in ("specs", "proofs"))]
    item = re.compile(rf"^\s*(?:pub(?:\(crate\))? )?(?:fn|struct|enum|trait) {name}\b", re.M)
    return any(it.exists() for it in files) or any(item.search(it.read_text(encoding="utf-8")) for it in (CRATES / crate / "src").rglob("*.rt"))


class Pages(unittest.TestCase):
    def none_is_missing(self, named, is_known, least=1):
        """At least so many names are named, and each of them is known."""
        self.assertGreaterEqual(len(named), least)
        self.assertEqual(sorted(it for it in named if not is_known(it)), [])

    def test_the_crates_are_those_of_the_tree(self):
        head, rows = next(tables(section(ARCHITECTURE, "The crates")))
        self.assertEqual(head[0], "Crate")
        self.assertEqual(sorted(name for row in rows for name in CODE.findall(row[0])), sorted(crates()))

    def test_each_folder_is_named(self):
        named = CODE.findall(section(ARCHITECTURE, "Around the crates"))
        folders = {it.name for it in ROOT.iterdir() if it.is_dir() and not it.name.startswith(".")} - {"out", "dist", "__pycache__"}
        self.none_is_missing({".ci", *folders}, lambda it: it in named, least=10)

    def test_each_path_leads_somewhere(self):
        for page in (ARCHITECTURE, MAINTAINING, CONTRIBUTING):
            self.none_is_missing(set(paths(page)), is_there)

    def test_what_is_named_of_a_crate_is_there(self):
        found = OF_A_CRATE.findall(" ".join(ARCHITECTURE.split()))
        self.none_is_missing([(crate, name) for names, crate in found for name in CODE.findall(names)], lambda it: has(*it), least=20)

    def test_each_module_is_there(self):
        named = re.findall(r"`([a-z_]+(?:::[a-z_]+)+)`", ARCHITECTURE)
        self.none_is_missing(named, lambda it: any(module(crate, it).exists() for crate in crates()))

    def test_the_closed_definitions_are_closed(self):
        [rows] = [rows for head, rows in tables(section(ARCHITECTURE, "What is proved where")) if head[0] == "Closed definition"]
        specs = [it for crate in crates() for it in (CRATES / crate / "specs").glob("*.antt")]
        closed = {name for it in specs for name in re.findall(r"^unfoldable pub (\S+) :", it.read_text(encoding="utf-8"), re.M)}
        self.none_is_missing({name for row in rows for name in CODE.findall(row[0])}, (closed | {it.stem for it in specs}).__contains__)

    def test_each_module_of_the_tests_is_there(self):
        self.none_is_missing(set(re.findall(r"\btest_[a-z_]+(?=`)", MAINTAINING + CONTRIBUTING)), lambda it: (ROOT / f"tests/{it}.py").exists())

    def test_a_release_changes_each_file_with_the_version(self):
        listed = CODE.findall(section(MAINTAINING, "A release").partition("\n1. ")[0])
        files = [path for part in ("crates", "integrations", "packaging") for path in (ROOT / part).rglob("*")
                 if path.suffix in (".h", ".rt", ".toml", ".json", ".md", ".in") and not MADE.intersection(path.parts)]
        version = re.compile(rf"(?<![\d.]){re.escape(newest_version())}(?!\d)")
        with_it = {str(path.relative_to(ROOT)) for path in files if version.search(path.read_text(encoding="utf-8"))}
        self.assertEqual(with_it, {it for it in listed if "/" in it})


class Sources(unittest.TestCase):
    def test_each_says_what_it_is(self):
        """ARCHITECTURE names only some files. So each file of code, of definitions and of lemmas says at its head what it is."""
        for pattern, begins in (("src/**/*.rt", "//! "), ("specs/*.antt", "-- "), ("proofs/*.antt", "-- ")):
            files = [it for it in CRATES.glob(f"*/{pattern}") if it.name != "Lib.antt"]
            self.assertTrue(files)
            self.assertEqual([it for it in files if not it.read_text(encoding="utf-8").startswith(begins)], [])
