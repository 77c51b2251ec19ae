"""Converts files and folders of many names, by paths of many kinds, and checks their contents."""
from tests.support import build, program, run
from tests.test_program import Site
from tests.texts import NO_TEXT, UNPAIRED, X

# Each of these is the name of a folder, and, followed by `.html`, that of a file. The longest have 250 bytes: 255 is the most.
NAMES = [
    *".a ..a ... .html .git .well-known a. a.. a.b a..b a.html a.HTML a.htm A _a 0 1.0 node_modules out index - -a -- --help ~ a~ #a#".split(),
    *"a,b a;b a:b a@b a%20b a+b a=b a&b a|b a!b a?b a*b a\\b a'b a\"b a`b $x$ $HOME {a,b} [a] (a) <a> ^a é E\u0301 あ 𝑥 עברית".split(),
    " ", " a", "a ", "a b", "a\nb", "a\tb", "\r", "\x01", "\x7f", "\u0085", "\u00a0", "\u202e", "\ufeff", "x" * 250, "あ" * 83 + "x",
]
# Paths of the folder, from the folder itself.
WAYS = [".", "./", "./.", ".//", "..", "../", "../.", "../-a b", "../-a b/.", "./../-a b", "d/..", "d/../.", "d/./../", "-s/..", ".a/.."]


class Paths(Site):
    def setUp(self):
        super().setUp()
        self.command = program()

    def test_call_of_the_library(self):
        """The same list as that of the program, by the library's own call for files."""
        files = {".html": b"$x$", "a.html": b"$x$", "b.html": b"$$$", "c.htm": b"$x$", "c.HTML": b"$x$", "d/e.html": b"no sign",
                 "d/html": b"$x$", "e.html": b"", "f.html": b"\xff", "g.html.txt": b"$x$"}
        self.put(files)
        done = run([build("latex2mathml_single_calls"), "convert_html", self.site])
        self.expect(done, stdout=f"{self.site}/b.html: {UNPAIRED}\n{self.site}/f.html: {NO_TEXT}\n".encode())
        self.expect_files({**files, "a.html": X})

    def check_names(self, names, paths, **more):
        """Converts what is under these paths. All files of these names below the folder are converted, and nothing is reported."""
        self.put(dict.fromkeys(names, b"$x$"))
        for path in paths:
            self.convert(path, **more)
        self.assertEqual([name for name in names if (self.site / name).read_bytes() != X], [])

    def test_names_of_many_kinds(self):
        """Files and folders are converted whatever their names are, from the folder above and by their own paths."""
        names = [path for name in NAMES for path in (f"n/{name}.html", f"n/{name}/a.html", f"n/{name}/{name}.html")]
        self.check_names(names, [self.site / "n"])
        self.check_names(names, [self.site / name for name in names])
        self.check_names(names, [f"{self.site}/n/{name}" for name in NAMES] + [f"{self.site}/n/{name}.html" for name in NAMES])

    def test_ways_to_a_folder(self):
        """A path is taken as it is, with dots, with a dash at its beginning, and from another folder."""
        here = self.site / "-a b"
        for name in ("d", "-s", ".a"):
            (here / name).mkdir(parents=True)
        names = [f"-a b/{name}" for name in ("a.html", ".a.html", "-.html", "d/a.html", "-s/a.html", ".a/a.html")]
        for way in WAYS:
            with self.subTest(way):
                self.check_names(names, [way], cwd=here)
        for words in (["-s", "d", ".a", "a.html", ".a.html", "-.html"], ["./-s/../d/a.html", *(name.removeprefix("-a b/") for name in names)]):
            with self.subTest(words):
                self.check_names(names, words, cwd=here)

    def test_long_paths(self):
        """The longest paths that the system takes have 4,095 bytes."""
        folder = "/".join(["x" * 200] * 19)
        longest = f"{folder}/{'y' * (4095 - len(f'{self.site}/{folder}/.html'))}.html"
        names = [longest, f"{folder}/y.html", f"{folder}/.html.html"]
        self.check_names(names, [self.site / ("x" * 200)])
        self.check_names(names, [self.site / name for name in names])
