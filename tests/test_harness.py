"""`./test` counts each case, shows what failed, ends cases that do not end, and tests nothing that is not proved.

The house here has a few cases of its own, and the programs of `tests/fakes/harness` instead of `rt` and the compiler.
"""
import os
import signal
import subprocess
import sys
import unittest
import unittest.mock

from tests import cases
from tests.__main__ import NO_TOOLCHAIN, name_of
from tests.support import ROOT, SKIP_NOTHING, Case, each_row, hear_signals, processors, put, run

FAKES = ROOT / "tests/fakes/harness"
TEST = [sys.executable, "-B", "-m", "tests"]

SAMPLES = {
    "test_sample.py": '''
import os, pathlib, subprocess, unittest, pytest

class Sample(unittest.TestCase):
    def test_fails(self):
        self.assertEqual(1, 2, "one is not two")

    def test_parts(self):
        for number in range(3):
            with self.subTest(number):
                self.assertNotEqual(number, 1)

    def test_passes(self):
        print("a word of no interest")

    def test_skipped(self):
        self.skipTest("a tool is missing")

    def test_skipped_part(self):
        with self.subTest(0):
            pass
        with self.subTest(1):
            self.skipTest("a tool is missing")

    def test_stops(self):
        with self.subTest("before"):
            pass
        raise OSError("it stops")

class Passes(unittest.TestCase):
    def test_it(self):
        pass

class Unready(Passes):
    @classmethod
    def setUpClass(cls):
        raise OSError("nothing is ready")

class Ends(Passes):
    def test_then(self):
        with self.subTest("before"):
            pass
        os._exit(0)

    def test_thereafter(self):
        pass

class Last(Passes):
    @pytest.fixture(autouse=True)
    def end(self, request):
        request.config.pluginmanager.register(self)

    def pytest_sessionfinish(self):
        os._exit(0)

class Hangs(unittest.TestCase):
    def test_it(self):
        with subprocess.Popen(["sleep", "600"], stdout=subprocess.PIPE) as process:
            pathlib.Path(os.environ["PROCESS"]).write_text(str(process.pid))
            process.stdout.read()

class HangsShortly(Hangs):
    pytestmark = pytest.mark.timeout(2)

    def test_then(self):
        pass
''',
    "test_order.py": '''
import os, unittest, pytest

class Short(unittest.TestCase):
    def test_it(self):
        with open(os.environ["ORDER"], "a") as order:
            order.write(f"{type(self).__name__} {os.environ.get('LATEX2MATHML_BUILD_NOTHING')}\\n")

@pytest.mark.long
class Long(Short):
    pass
''',
}


class Harness(Case):
    def setUp(self):
        self.house = self.folder / "house"
        names = ("pytest.ini", "tests/__init__.py", "tests/__main__.py", "tests/conftest.py", "tests/support.py",
                 "tests/cases.py", "tests/texts.py", "tools/__init__.py", "tools/memory.py", "tools/progress.py")
        put(self.house, {name: (ROOT / name).read_text() for name in names})
        put(self.house, {"crates.txt": "low:\none: low\nlatex2mathml_c staticlib: one\n", "HANDLES": "",
                         "crates/one/src/lib.rt": "\n", "crates/latex2mathml_c/src/lib.rt": "\n"})
        put(self.folder, {"bin/rt": (FAKES / "rt").read_text(), "kit/bin/rattle": (FAKES / "rattle").read_text()})
        self.process, self.order = self.folder / "process", self.folder / "order"
        kept = {name: value for name, value in os.environ.items() if not name.startswith(("PYTEST", "LATEX2MATHML"))}
        self.environment = {**kept, "PATH": f"{self.folder / 'bin'}:{os.environ['PATH']}", "ORDER": str(self.order), "PROCESS": str(self.process)}
        put(self.house / "tests", {self.sample: SAMPLES[self.sample]})

    def comes_to(self, passed, failed, *words, before=None, **more):
        """The output of `./test` with these words. Its last line has these numbers; its status is 1 if something failed."""
        done = run([*TEST, *words], cwd=self.house, env={**self.environment, **more}, timeout=120, preexec_fn=before)
        shown = (done.stdout + done.stderr).decode()
        self.assertEqual(done.stdout.decode().splitlines()[-1], f"{passed} passed, {failed} failed", shown)
        self.assertEqual(done.returncode, int(failed > 0), shown)
        return shown

    def has_ended(self):
        """Whether the process that a sample started has ended."""
        return not os.path.exists(f"/proc/{self.process.read_text()}")


class Counts(Harness):
    sample = "test_sample.py"

    def test_each_case_and_each_part_is_counted(self):
        shown = self.comes_to(6, 4, "test_sample.Sample", "test_sample.Unready")
        for told in ("AssertionError: 1 != 2 : one is not two", "test_parts [1]", "it stops", "nothing is ready", "a tool is missing"):
            self.assertIn(told, shown)
        self.assertNotIn("a word of no interest", shown)

    def test_what_is_skipped_fails_where_nothing_is_to_be(self):
        for case, passed in (("test_skipped", 0), ("test_skipped_part", 1)):
            with self.subTest(case):
                self.comes_to(passed, 0, f"test_sample.Sample.{case}")
                self.comes_to(passed, 1, f"test_sample.Sample.{case}", **{SKIP_NOTHING: "1"})

    def test_a_process_that_ends_before_its_cases(self):
        self.assertIn("FAILED tests/test_sample.py::Ends::test_then\n", self.comes_to(4, 1, "test_sample.Ends", "test_sample.Passes"))

    def test_a_process_that_ends_after_its_cases(self):
        """The rest of its output is then lost."""
        self.comes_to(1, 1, "test_sample.Last")

    def test_a_case_that_does_not_end(self):
        """It is named, and those after it are run, although it waits for a process that never ends."""
        shown = self.comes_to(1, 1, "test_sample.HangsShortly")
        self.assertIn("Timeout", shown)
        self.assertIn("FAILED tests/test_sample.py::HangsShortly::test_it\n", shown)
        self.wait_for(self.has_ended)

    def test_a_name_that_nothing_has(self):
        for word in ("test_sample.Nothing", "test_nothing", "test_sample.Sample.test_nothing"):
            with self.subTest(word):
                self.comes_to(0, 1, word)

    def test_an_interruption_ends_all(self):
        how = {"cwd": self.house, "env": self.environment, "stdout": subprocess.DEVNULL, "preexec_fn": hear_signals}
        for number in (signal.SIGINT, signal.SIGTERM):
            with self.subTest(number), subprocess.Popen([*TEST, "test_sample.Hangs.test_it"], **how) as running:
                self.wait_for(lambda: self.process.exists() and self.process.read_text())
                running.send_signal(number)
                self.assertEqual(running.wait(30), 128 + number)
                self.wait_for(self.has_ended)
                self.process.unlink()


class Whole(Harness):
    sample = "test_order.py"

    def test_all_passes(self):
        one = {min(os.sched_getaffinity(0))}
        shown = self.comes_to(7, 0, BUILDS="1", before=lambda: os.sched_setaffinity(0, one))
        self.assertIn("    one proved, 1 at once\n", shown)
        self.assertIn("    3 passed, 0 failed (1 proved)\n", shown)
        self.assertEqual(self.order.read_text(), "Long 1\nShort 1\n")
        made, source = self.house / "crates/one/out/one", self.house / "crates/one/src/lib.rt"
        self.assertLess(made.stat().st_mtime, source.stat().st_mtime)

    def test_the_proofs_alone(self):
        self.assertIn("    one proved, 7 at once\n", self.comes_to(5, 0, "proofs", RT_JOBS="7"))
        self.assertFalse(self.order.exists())

    def test_a_mark_that_is_misspelled(self):
        put(self.house, {"tests/test_order.py": SAMPLES["test_order.py"].replace("mark.long", "mark.lnog")})
        self.assertIn("'lnog' not found", self.comes_to(0, 1, "test_order"))

    def test_nothing_is_tried_over_what_is_not_proved(self):
        for more, passed in [({"STATUS": "1", "SAYS": "2 passed, 1 failed (it)"}, 3), ({"STATUS": "1"}, 4),
                             ({"SAYS": "no line"}, 1), ({"LIBRARY": "1"}, 4)]:
            with self.subTest(more):
                shown = self.comes_to(passed, 1, **more)
                self.assertEqual("line 100\n" in shown, "LIBRARY" not in more)
                self.assertNotIn("line 50\n", shown)
                self.assertFalse(self.order.exists())

    def test_a_file_that_is_not_in_its_layout(self):
        for formats, told in (("eval echo >>src/lib.rt", "crates/one/src/lib.rt"), ("false", "one")):
            with self.subTest(formats):
                shown = self.comes_to(0, 2, FMT=formats)
                self.assertIn(f"FAILED: not in the layout of `rt fmt`: {told}\n", shown)
                self.assertEqual((self.house / "crates/one/src/lib.rt").read_text(), "\n")
                self.assertNotIn("one proved", shown)

    def test_no_toolchain(self):
        """One line says what is missing and where to read on, under a heading that exists."""
        for words in ([], ["proofs"]):
            with self.subTest(words):
                done = run([*TEST, *words], cwd=self.house, env={**self.environment, "PATH": str(self.house)})
                self.expect(done, 1, b"", (NO_TOOLCHAIN + "\n").encode())
        self.assertIn("\n## Try it\n", (ROOT / "README.md").read_text(encoding="utf-8"))

    def test_a_module_without_a_case(self):
        put(self.house, {"tests/test_empty.py": ""})
        self.assertIn("FAILED: no case of tests/test_empty.py was tried\n", self.comes_to(7, 1))


class Names(Case):
    def test_names(self):
        self.assertEqual({name_of(it) for it in ("tests.test_c", "test_c", "tests/test_c.py", "test_c.py")}, {"tests/test_c.py"})
        words = ("test_c.Deep.test_deep", "tests.test_c.Deep.test_deep", "tests/test_c.py::Deep::test_deep")
        self.assertEqual({name_of(it) for it in words}, {"tests/test_c.py::Deep::test_deep"})

    def test_a_line_names_its_case(self):
        first = cases.read("refusals.txt")[0].first.number
        for line in (first, first + 1):
            self.assertEqual(name_of(f"cases/refusals.txt:{line}"), f"tests/test_cases.py::refusals::test_{first}")
        for word, told in ((f"cases/refusals.txt:{first + 2}", "no case has this line"), ("cases/none.txt:1", "cases/ has no such file")):
            with self.assertRaisesRegex(cases.WrongCase, f"^{word}: {told}$"):
                name_of(word)

    def test_processors(self):
        """The quota of a container counts if it is smaller than what is visible."""
        quota = self.folder / "cpu.max"
        for text, count in (("max 100000", 8), ("200000 100000", 2), ("50000 100000", 1), ("1600000 100000", 8), ("", 8), (None, 8)):
            with self.subTest(text), unittest.mock.patch("tests.support.QUOTA", quota), \
                    unittest.mock.patch("os.sched_getaffinity", return_value=set(range(8))):
                quota.unlink(missing_ok=True)
                put(self.folder, {"cpu.max": text} if text is not None else {})
                self.assertEqual(processors(), count)


class SilentProgram(Case):
    """`tools/try-silent-program` tries the classes that it is given, and names each that passes."""

    @each_row({
        "a class that fails over a silent program": ("test_beginnings", 0, rb"1 passed, 0 failed\n", b""),
        "a class that does not ask": ("test_wrong_bodies", 0, rb"(does not ask: tests/test_wrong_bodies.py::\w+\n)+0 passed, 0 failed\n", b""),
        "no class": ("test_nothing", 1, b"", b"try-silent-program: no class has such a name\n"),
    })
    def tries(self, word, status, said, told):
        done = run([ROOT / "tools/try-silent-program", word], timeout=300)
        self.expect(done, status, None, told)
        self.assertRegex(done.stdout, rb"\A%s\Z" % said)
