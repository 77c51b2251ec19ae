"""The library for C: its folder, its calls from C and C++, with failing allocations, deep nesting and threads, and its examples."""
import ctypes
import os
import re
import shlex
import shutil

from tests.cases import every_rule
from tests.nesting import kinds_of
from tests.runs import Runs
from tests.support import Case, Has, ROOT, c_library, each_row, requires, run, scratch
from tests.texts import LESS, LESS_BLOCK, UNCLOSED

CC = shlex.split(os.environ.get("CC", "cc"))
CXX = shlex.split(os.environ.get("CXX", "c++"))
# an option of `personality`: the system places memory at the same addresses in each run
ADDR_NO_RANDOMIZE = 0x0040000
WRAP = ["-Wl,--wrap=malloc,--wrap=realloc,--wrap=free", "-pthread"]

INLINE, BLOCK = LESS.decode(), LESS_BLOCK.decode()
CALLS = {"latex2mathml_formula", "latex2mathml_document", "latex2mathml_tex"}

# Lines of `readelf`, and those of a shared library that has another name, binds late, leaves bound symbols writable, or has an
# executable stack.
LINKED = [r"\(SONAME\) +Library soname: \[liblatex2mathml\.so\.0\]$", r"\(FLAGS\) +.*\bBIND_NOW\b", r"\(FLAGS_1\) +Flags:.* NOW\b",
          r"^ +GNU_RELRO +0x", r"^ +GNU_STACK +0x.* RW +0x"]
LINKED_BADLY = [r"\(TEXTREL\)", r"\((?:RPATH|RUNPATH)\)", r"^ +LOAD .* RWE "]


@requires(CC[0], "nm", "ldd")
class Folder(Case):
    def test_a_folder_that_exists_is_left_alone(self):
        self.expect(run([ROOT / "tools/make-c-library", c_library()]), 1, b"", None)

    def test_names(self):
        """A program can link only to the three calls."""
        for name, words in [("liblatex2mathml.a", ["nm", "-g"]), ("liblatex2mathml.so", ["nm", "-D"])]:
            with self.subTest(name):
                done = run([*words, "--defined-only", "--format=posix", c_library() / name], check=True)
                self.assertEqual(set(re.findall(r"^(\w+) [A-Z] ", done.stdout.decode(), re.MULTILINE)), CALLS)

    def test_what_the_shared_library_needs(self):
        done = run(["ldd", c_library() / "liblatex2mathml.so"])
        self.expect(done, 0)
        needed = [line.split()[0] for line in done.stdout.decode().splitlines()]
        self.assertEqual([name for name in needed if not re.search(r"linux-vdso|linux-gate|ld-linux|libc\.so", name)], [])

    @requires("readelf")
    def test_how_the_shared_library_is_linked(self):
        done = run(["readelf", "--dynamic", "--program-headers", "--wide", c_library() / "liblatex2mathml.so"])
        self.expect(done, stdout=None)
        for pattern in (*LINKED, *LINKED_BADLY):
            with self.subTest(pattern):
                self.assertEqual(bool(re.search(pattern, done.stdout.decode(), re.MULTILINE)), pattern in LINKED, done.stdout.decode())

    def test_the_header_is_c99(self):
        """It may be included twice."""
        self.expect(run([*CC, "-std=c99", "-pedantic", "-Wall", "-Wextra", "-Werror", "-fsyntax-only", "-I", c_library(), "-x", "c", "-"],
                        stdin=b'#include "latex2mathml.h"\n' * 2))

    @requires(CXX[0])
    def test_cpp(self):
        """A file of C++ is compiled, linked and run."""
        program = self.folder / "header"
        self.expect(run([*CXX, "-std=c++11", "-pedantic", "-Wall", "-Wextra", "-Werror", "-I", c_library(), ROOT / "tests/header.cc",
                         c_library() / "liblatex2mathml.a", "-o", program]))
        self.expect(run([program]), stdout=f"{BLOCK}\na {INLINE}\n{BLOCK}\n".encode())

    def test_a_caller_of_the_shared_library(self):
        """It is linked by the library's name, and finds the library again when it starts."""
        caller = self.folder / "caller"
        self.expect(run([*CC, "-I", c_library(), c_library() / "examples/formula.c", "-L", c_library(), "-llatex2mathml",
                         f"-Wl,-rpath,{c_library()}", "-o", caller]))
        self.expect(run([caller, "x<y"]), stdout=f"{INLINE}\n".encode())
        # the linker would also have accepted the static one
        self.assertIn(f"{c_library()}/liblatex2mathml.so", run(["ldd", caller]).stdout.decode())


class Built(Case):
    """Cases in C, `c_cases.c`, which are built once with these options of the compiler."""

    options = ["-O2"]
    preparation = None

    @classmethod
    def setUpClass(cls):
        cls.program = cls.enterClassContext(scratch()) / "cases"
        [promised] = re.findall(r"\* +- (\d+) KiB of the stack are free\.", (c_library() / "latex2mathml.h").read_text())
        words = [*CC, "-std=gnu11", "-Wall", "-Wextra", f"-DSTACK=({promised} << 10)", *cls.options, "-I", c_library(), ROOT / "tests/c_cases.c",
                 c_library() / "liblatex2mathml.a", *WRAP, "-o", cls.program]
        # what the compiler says is shown
        run(words, stderr=None, check=True)

    def judge(self, word, stdin=b""):
        done = run([self.program, word], stdin=stdin, timeout=300, preexec_fn=self.preparation)
        lines, notes, verdicts = done.stdout.decode(errors="replace").splitlines(), [], set()
        for line in lines:
            verdict, _, name = line.partition(": ")
            if verdict not in ("passed", "FAILED"):
                notes.append(line)
                continue
            verdicts.add(verdict)
            with self.subTest(name):
                self.assertEqual(verdict, "passed", "\n".join([f"ran: {self.program} {word}", *notes]))
            notes = []
        if lines[-1:] != ["all were judged"] or done.stderr or done.returncode != ("FAILED" in verdicts):
            self.fail(f"{word} did not end: status {done.returncode}\n{done.stderr.decode(errors='replace')}")
        self.assertNotEqual(verdicts, set(), f"{word} judged nothing")


@requires(CC[0])
class Calls(Built):
    @each_row({
        "answers": ("answers",),
        "memory": ("memory",),
        "every rule with memory refused": ("rules", [formula for formula, _ in every_rule()]),
        "each construct of tex with memory refused": ("tex_rules", [it.nest(1, "x") for it in kinds_of("tex_nested.txt").values()]),
        "threads": ("threads",),
    })
    def are_passed(self, word, lines=()):
        self.judge(word, "".join(f"{line}\n" for line in lines).encode())

    def test_a_word_that_names_no_cases(self):
        self.expect(run([self.program, "answer"]), 2, b"", b"no cases have the name answer\n")


@requires(CC[0])
class Deep(Built):
    def test_deep(self):
        """On the stack that the header says is enough: formulas, and documents with one formula or with many."""
        self.judge("deep")


@requires(CC[0])
class Sanitized(Built):
    """Under the address sanitizer."""

    options = ["-O1", "-g", "-fsanitize=address"]

    @staticmethod
    def preparation():
        """The sanitizer of older compilers sometimes finds its own addresses taken if vm.mmap_rnd_bits is 32."""
        ctypes.CDLL(None).personality(ADDR_NO_RANDOMIZE)

    @each_row({"answers": ("answers",), "memory": ("memory",), "random inputs": ("random",)})
    def are_passed(self, word):
        self.judge(word)


@requires(CC[0], "python3")
class Examples(Runs, file="c.txt"):
    @classmethod
    def setUpClass(cls):
        # a copy, because they are built next to their sources and find the library in the folder above; a path may have spaces
        cls.library = cls.enterClassContext(scratch()) / "the library"
        shutil.copytree(c_library(), cls.library)
        cls.built = run([cls.library / "examples/build"])

    def run_as(self, tool, words, **more):
        """A program of the examples, or Python, which finds the module there."""
        examples = self.library / "examples"
        environment = {**os.environ, "PYTHONPATH": str(examples), "PYTHONDONTWRITEBYTECODE": "1"}
        return run([tool if tool == "python3" else examples / tool, *words], env=environment, **more)

    def test_they_are_built(self):
        self.expect(self.built)

    def test_python_with_a_library_elsewhere(self):
        """LATEX2MATHML names it. There is none in the folder above the copy."""
        (self.folder / "alone").mkdir()
        alone = shutil.copy(self.library / "examples/latex2mathml.py", self.folder / "alone")
        for told, due in (({"LATEX2MATHML": str(self.library / "liblatex2mathml.so")}, (0, LESS + b"\n")), ({}, (1, b""))):
            with self.subTest(told):
                self.expect(run(["python3", alone, "x<y"], env={**os.environ, **told}), *due, None)

    @requires("node")
    def test_node(self):
        addon = self.library / "examples/latex2mathml.node"
        if not addon.exists():
            self.skipTest("the header of Node, node_api.h, is not installed")
        for expression, due in [("'x<y', false", (0, LESS + b"\n", b"")), ("'x<y', true", (0, LESS_BLOCK + b"\n", b"")),
                                ("'x<y'", (0, LESS + b"\n", b"")), ("'{x', false", (1, b"", Has(UNCLOSED.encode())))]:
            with self.subTest(expression):
                self.expect(run(["node", "-p", f"require('{addon}').formula({expression})"]), *due)
