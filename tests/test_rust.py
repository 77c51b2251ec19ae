"""The crate for Rust, built by cargo."""
import os
import shutil

from tests.support import ROOT, Case, Has, c_library, limit, put, requires, run, scratch
from tests.texts import UNCLOSED, UNPAIRED, math

CRATE = ROOT / "integrations/rust"
MEGABYTE = 1 << 20


@requires("cargo", "cc")
class Crate(Case):
    @classmethod
    def setUpClass(cls):
        cls.folder = cls.enterClassContext(scratch())
        cls.crate = cls.copy("the crate")  # a path may have spaces
        shutil.copytree(c_library(), cls.crate / "lib")

    @classmethod
    def copy(cls, name):
        """A copy of the crate, without a library."""
        return shutil.copytree(CRATE, cls.folder / name, ignore=shutil.ignore_patterns("target", "lib", "Cargo.lock"))

    def cargo(self, *words, folder=None, **environment):
        # what cargo keeps for itself is there too, since a user may have no home to write to
        told = {"CARGO_TARGET_DIR": str(self.folder / "target"), "CARGO_HOME": str(self.folder / "cargo"), **environment}
        inherited = {name: value for name, value in os.environ.items() if name != "LATEX2MATHML_LIB"}
        command = ["cargo", words[0], "--quiet", "--offline", *words[1:]]
        return run(command, cwd=folder or self.crate, env={**inherited, **told}, timeout=600)

    def lacks(self, library, done):
        self.assertNotEqual(done.returncode, 0)
        self.assertIn(f"There is no {library}.", done.stderr.decode())

    def example(self):
        self.expect(self.cargo("build", "--example", "page"))
        return self.folder / "target/debug/examples/page"

    def test_its_own_tests(self):
        done = self.cargo("test", "--no-fail-fast")
        self.assertEqual(done.returncode, 0, (done.stdout + done.stderr).decode())
        self.assertEqual(done.stdout.count(b"test result: ok."), 7)  # of the modules, five files, and the comments

    def test_a_caller_of_the_crate(self):
        energy = math("<mi>E</mi><mo>=</mo><mi>m</mi><msup><mi>c</mi><mn>2</mn></msup>", "block")
        printed = b"%s\n<p>Let %s be.</p>\n" % (energy, math("<mi>r</mi>")) + f"{UNCLOSED}\n{UNPAIRED}\n".encode()
        for name in ("line", "patch"):
            with self.subTest(name):
                caller = self.folder / name
                manifest = (ROOT / f"tests/rust/{name}.toml").read_text().replace("CRATE", str(self.crate))
                put(caller, {"src/main.rs": (ROOT / "tests/rust/caller.rs").read_text(), "Cargo.toml": manifest})
                self.expect(self.cargo("run", folder=caller), stdout=printed)

    def test_where_the_library_is_found(self):
        how = {"folder": self.copy("elsewhere"), "CARGO_TARGET_DIR": str(self.folder / "target-elsewhere")}
        self.lacks(how["folder"] / "lib/liblatex2mathml.a", self.cargo("build", **how))
        self.expect(self.cargo("build", LATEX2MATHML_LIB=str(self.crate / "lib"), **how))

    @requires("ar")
    def test_a_library_that_is_replaced(self):
        """The next build takes the new one, and refuses if there is none."""
        crate = self.copy("replaced")
        library = shutil.copytree(c_library(), crate / "lib") / "liblatex2mathml.a"
        options = ["-c", '-DANSWER="!"', "-I", crate / "lib", "-o", crate / "another.o"]
        self.expect(run(["cc", *options, ROOT / "tests/stub.c"]))
        self.expect(run(["ar", "rcs", crate / "another.a", crate / "another.o"]))

        def build():
            return self.cargo("build", "--example", "page", folder=crate, CARGO_TARGET_DIR=str(self.folder / "target-replaced"))

        page = self.folder / "target-replaced/debug/examples/page"
        self.expect(build())
        self.assertIn(b"Let <math", run([page], stdin=b"Let $x$ be.").stdout)
        with self.subTest("by another"):
            shutil.copy(crate / "another.a", library)
            self.expect(build())
            self.assertIn(b"<body>\n!\n</body>", run([page], stdin=b"Let $x$ be.").stdout)
        with self.subTest("by none"):
            library.unlink()
            self.lacks(library, build())

    def test_the_example(self):
        page = self.example()
        self.expect(run([page], stdin=b"Let $x<y$ be."), stdout=Has(b"<mi>x</mi><mo>&lt;</mo><mi>y</mi></math> be."))
        self.expect(run([page], stdin=b"${x$"), 1, b"", Has(b"RBrace"))

    def test_little_memory(self):
        page = self.example()
        prose = b"No formula. " * (8 * MEGABYTE // 12)
        # the first guess of the buffer would be half a gigabyte
        self.expect(run([page], stdin=prose, preexec_fn=limit(AS=200 * MEGABYTE)), stdout=Has(prose))
        sentences = b"Let $x$ be. " * (4 * MEGABYTE // 12)
        self.expect(run([page], stdin=sentences, preexec_fn=limit(AS=30 * MEGABYTE)), 1, b"", b"Error: OutOfMemory\n")
