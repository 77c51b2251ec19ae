"""The folder for people without Rattle: how it is made, and what is in it. `test_readmes` uses it as its READMEs say."""
import os
import re
import shutil

from tests.runs import Runs
from tests.support import ROOT, dist, newest_version, program, put, requires, run, run_folder, tex_program

CRATE = "crates/latex2mathml_c"

# programs that replace those of the same names
FAKES = ROOT / "tests/fakes/making"


@requires("cc", "objdump", "ldd")
class Dist(Runs, file="dist.txt"):
    @classmethod
    def setUpClass(cls):
        cls.dist = dist()

    def house(self):
        """What make-dist needs from a checkout, in a folder whose path has a space, with a copy of the tools."""
        house = self.folder / "a house"
        house.mkdir()
        for name in ("crates", "latex2mathml", "CHANGELOG.md", "LICENSE", "page", "packaging"):
            (house / name).symlink_to(ROOT / name)
        # with its time, since a program that is older is built anew
        shutil.copy2(ROOT / "crates.txt", house)
        for name in ("tools", "integrations"):
            # other tests may be writing what Python compiles there
            shutil.copytree(ROOT / name, house / name, ignore=shutil.ignore_patterns("__pycache__"))
        return house

    def test_nothing_is_left_in_the_folder_of_temporary_files(self):
        self.assertEqual(list((run_folder() / "temporary").iterdir()), [])

    def test_the_version(self):
        """The version in the README is that of the library for C next to it, and the newest of the changes."""
        [version] = re.findall(r'^#define LATEX2MATHML_VERSION "(.+)"$', (self.dist / "c/latex2mathml.h").read_text(), re.MULTILINE)
        self.assertEqual((self.dist / "README.md").read_text(encoding="utf-8").splitlines()[0], f"# latex2mathml {version}")
        self.assertEqual(newest_version(), version)

    def test_a_folder_that_exists_is_left_alone(self):
        self.expect(run([ROOT / "tools/make-dist", self.dist]), 1, b"", None)

    def test_without_an_argument(self):
        """It makes the folder `dist` of its own house, and replaces it the next time."""
        house = self.house()
        put(house / "tools", {name: (FAKES / name).read_text() for name in ("make-c-library", "make-wheel", "make-deb")})
        for turn in ("first", "second"):
            with self.subTest(turn):
                # no addon can be made of that library, and make-addon says so
                self.expect(run([house / "tools/make-dist"]), stdout=None, stderr=None)
                for file in ("README.md", "c/liblatex2mathml.so", "integrations/python/made.whl", "made.deb", "SHA256SUMS"):
                    self.assertTrue((house / "dist" / file).exists(), file)
                self.assertFalse((house / "dist/old").exists())
                (house / "dist/old").touch()

    def test_make_wheel_in_a_path_with_a_space(self):
        """It takes what the package needs from its own house and from the library, and puts the wheel into the folder."""
        house = self.house()
        put(house, {"a python": (FAKES / "python").read_text(), "a library/liblatex2mathml.so": ""})
        wheel = house / "a wheel/made.whl"
        environment = {**os.environ, "PYTHON": f"{house}/a python", "TMPDIR": str(house)}
        done = run([house / "tools/make-wheel", house / "a library", wheel.parent], env=environment)
        self.expect(done, stdout=f"{wheel}\n".encode())
        package = "src/latex2mathml_proved"
        needed = {"LICENSE", "setup.py", f"{package}/__init__.py", f"{package}/liblatex2mathml.so",
                  f"{package}/page/latex2mathml.css", f"{package}/page/latex2mathml.js"}
        self.assertEqual(needed - set(wheel.read_text().splitlines()), set())

    def test_what_was_built_before_is_left_out(self):
        """What people build in the folders of the integrations stays there."""
        house = self.house()
        built = ["node/build/a.node", "node/lib/old.a", "rust/target/debug/a", "rust/Cargo.lock", "rust/lib/old.a"]
        put(house / "integrations", dict.fromkeys(built, ""))
        self.expect(run([house / "tools/make-dist", house / "dist"], timeout=300), stdout=None, stderr=None)
        self.assertEqual([file for file in built if (house / "dist/integrations" / file).exists()], [])

    def test_files(self):
        sources = {**dict.fromkeys(("LICENSE", "integrations/node/LICENSE", "integrations/rust/LICENSE"), "LICENSE"),
                   **{it: it for it in ("page/latex2mathml.css", "page/latex2mathml.js")}, "c/latex2mathml.h": f"{CRATE}/include/latex2mathml.h",
                   **{f"c/examples/{it}": f"{CRATE}/examples/{it}" for it in ("formula.c", "latex2mathml.py", "addon.c")}}
        for file, source in sources.items():
            with self.subTest(file):
                self.assertEqual((self.dist / file).read_bytes(), (ROOT / source).read_bytes())

    def test_the_readme_says_what_is_needed(self):
        """The C library, and the newest version of it that the program needs, compared as numbers: 2.34 is newer than 2.4."""
        text = (self.dist / "README.md").read_text(encoding="utf-8")
        self.assertIn("libc.so", text)
        symbols = run(["objdump", "-T", program(), tex_program()]).stdout.decode()
        newest = max(re.findall(r"GLIBC_(\d+(?:\.\d+)*)", symbols), key=lambda it: tuple(map(int, it.split("."))))
        self.assertIn(f"the C library of GNU, version {newest} or later;", text)

    def run_as(self, tool, words, **more):
        """Runs a program of the folder, without an environment."""
        return run([self.dist / tool, *words], env={}, **more)

    def test_links(self):
        """Each link of a document leads to a file that the folder has."""
        links = [(document, target) for document in self.dist.rglob("*.md")
                 for target in re.findall(r"\]\(([^)\s#]+)", document.read_text(encoding="utf-8"))]
        self.assertTrue(links)
        self.assertEqual([it for it in links if not re.match(r"[a-z]+:", it[1]) and not (it[0].parent / it[1]).exists()], [])
