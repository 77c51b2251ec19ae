"""What is built is used only as long as it is newer than its sources, and a build reports its progress.

`rt` is replaced by another program here, `tests/fakes/building/rt`.
"""
import os
import pathlib
import pty
import signal
import subprocess
import sys
import time
import unittest

from tests.support import BUILD_NOTHING, Case, Has, ROOT, hear_signals, link_tools, put, read_terminal, run

FAKES = ROOT / "tests/fakes/building"
CRATES = ("low", "middle", "high", "tool", "other", "left", "right", "both")


class House(Case):
    """A folder with crates, and with an `rt` that makes what the toolchain would make."""

    def setUp(self):
        self.house = self.folder / "a house"  # a path may have spaces
        tools = {f"tools/{name}": (ROOT / "tools" / name).read_text() for name in ("built", "build", "memory.py", "progress.py")}
        self.memory = self.folder / "meminfo"
        self.assertIn('"/proc/meminfo"', tools["tools/memory.py"])
        tools["tools/memory.py"] = tools["tools/memory.py"].replace("/proc/meminfo", str(self.memory))
        put(self.house, {**tools, "crates.txt": (FAKES / "crates").read_text()})
        sources = ("src/lib.rt", "src/inner/part.rt", "specs/Lib.antt", *(f"proofs/{it}/Answers.antt" for it in "fg"))
        for crate in CRATES:
            put(self.house / "crates" / crate, {**dict.fromkeys(sources, ""), "args": "inline\n"})
        self.in_the_past(3600)
        self.calls, self.process = self.folder / "calls", self.folder / "process"
        put(self.folder, {"calls": "", "met": "", "bin/rt": (FAKES / "rt").read_text(),
                          "meminfo": "MemTotal: 64000000 kB\nMemAvailable: 32000000 kB\n"})

    def in_the_past(self, seconds):
        """Makes everything there older by this much."""
        then = time.time() - seconds
        for path in [self.house, *self.house.rglob("*")]:
            os.utime(path, (then, then))

    def build(self, crate="high", **more):
        return run([self.house / "tools/built", *crate.split()], env=self.environment(**more))

    def environment(self, **more):
        return {**os.environ, BUILD_NOTHING: "", "PATH": f"{self.folder / 'bin'}:{os.environ['PATH']}", "CALLS": str(self.calls),
                "MET": str(self.folder / "met"), "PROCESS": str(self.process), **more}

    def builds(self, *counts, **more):
        """Expects that the program `high`, which is asked for again and again, is built this many times each time."""
        for count in counts:
            self.calls.write_text("")
            self.expect(self.build(**more), stdout=None, stderr=None)
            calls = self.calls.read_text()
            self.assertEqual(sum(line.startswith("high ") for line in calls.splitlines()), count, calls)

    def made(self, crate):
        """The names in the crate's `out/`."""
        folder = self.house / "crates" / crate / "out"
        return sorted(path.name for path in folder.iterdir()) if folder.exists() else []


class Building(House):
    def test_it_is_built_once(self):
        for crate, made, words in [("high", "high", "run -- inline"), ("tool", "libtool.a", "lib")]:
            with self.subTest(crate):
                self.calls.write_text("")
                path = self.house / "crates" / crate / "out" / made
                for said in (None, b""):
                    self.expect(self.build(crate), stdout=f"{path}\n".encode(), stderr=said)
                self.assertEqual(self.calls.read_text(), f"low lib\nmiddle lib\n{crate} {words}\n")

    def test_several_are_built_together(self):
        paths = f"{self.house}/crates/high/out/high\n{self.house}/crates/tool/out/libtool.a\n".encode()
        for said in (None, b""):
            self.expect(self.build("high tool"), stdout=paths, stderr=said)
        self.assertEqual(sorted(line.split()[0] for line in self.calls.read_text().splitlines()), ["high", "low", "middle", "tool"])
        (self.house / "crates/tool/src/lib.rt").touch()
        self.expect(self.build("high tool"), stdout=paths, stderr=None)
        self.builds(0)

    def test_what_was_made_is_kept(self):
        """The next build of a crate begins with what the last one left, even one that failed."""
        for times, fails in enumerate(("", "both", ""), 1):
            self.build("both", FAILS=fails)
            (self.house / "crates/low/src/lib.rt").touch()
            self.assertEqual((self.house / "crates/left/out/kept").read_text(), "left\n" * times)
        self.assertEqual(self.made("left"), ["kept", "rlib"])
        self.assertEqual(self.made("both"), ["both", "kept", "rlib"])

    def test_it_is_built_again_where_a_source_changed(self):
        # the last is new
        touched = ("crates.txt", "crates/high/src/lib.rt", "crates/high/src/inner/part.rt", "crates/low/src/lib.rt",
                   "crates/middle/specs/Lib.antt", "crates/low/proofs/f/Answers.antt", "crates/high/proofs/Lib.antt")
        changes = {**dict.fromkeys(touched, pathlib.Path.touch), "crates/low/proofs/g/Answers.antt": pathlib.Path.unlink,
                   "crates/middle/src/inner/part.rt": lambda path: path.rename(path.with_name("renamed.rt")),
                   "crates/high/out/high": pathlib.Path.unlink}
        for name, change in changes.items():
            with self.subTest(name):
                self.build()
                self.in_the_past(1800)
                self.builds(0)
                change(self.house / name)
                self.builds(1, 0)

    def test_nothing_is_left_in_the_folder_of_temporary_files(self):
        folder = self.folder / "temporary"
        folder.mkdir()
        for fails in ("", "middle"):
            with self.subTest(fails=fails):
                self.build(FAILS=fails, TMPDIR=str(folder))
                self.assertEqual(list(folder.iterdir()), [])
                (self.house / "crates/low/src/lib.rt").touch()
        with self.subTest("it is interrupted"):
            self.interrupt("high", "middle", TMPDIR=str(folder))
            self.assertEqual(list(folder.iterdir()), [])

    def test_it_is_not_built_for_a_crate_that_it_does_not_stand_on(self):
        self.build()
        (self.house / "crates/other/src/lib.rt").touch()
        (self.house / "crates/tool/src/lib.rt").touch()
        self.builds(0)

    def test_an_edit_while_it_is_built(self):
        """It is newer than what was built from the text before it."""
        self.builds(1, EDITS=str(self.house / "crates/low/src/lib.rt"))
        self.builds(1, 0)

    def test_nothing_is_built_behind_the_proofs(self):
        nothing = {BUILD_NOTHING: "1"}
        with self.subTest("nothing is there"):
            self.expect(self.build(**nothing), 1, b"", None)
        self.build()
        with self.subTest("it is new"):
            self.builds(0, **nothing)
        (self.house / "crates/low/specs/Lib.antt").touch()
        with self.subTest("it is stale"):
            self.expect(self.build(**nothing), 1, b"", None)
        self.assertEqual(self.calls.read_text(), "")

    def test_another_search_for_folders(self):
        """CDPATH makes `cd` print the folder that it found, and may make it find another."""
        self.build()
        (self.folder / "elsewhere/tools").mkdir(parents=True)
        for searched in (".", self.folder / "elsewhere"):
            with self.subTest(searched):
                done = run(["tools/built", "high"], cwd=self.house, env={**os.environ, BUILD_NOTHING: "1", "CDPATH": str(searched)})
                self.expect(done, stdout=f"{self.house}/crates/high/out/high\n".encode())

    def test_no_such_crate(self):
        for crate, said in (("", "name the crates to build"), ("nothing", "crates.txt names no crate nothing")):
            self.expect(self.build(crate), 1, b"", f"built: {said}\n".encode())

    def test_no_toolchain(self):
        tools = link_tools(self.folder / "tools", "sh", "env", "dirname", "awk", "find", "mktemp", "rm", "touch")
        (tools / "python3").symlink_to(sys.executable)
        self.expect(self.build(PATH=str(tools)), 1, b"", Has(b"the command rt of the Rattle toolchain is not on the path"))

    def test_lines(self):
        """One line per crate, if a line cannot be updated in place."""
        said = self.build().stderr.decode().splitlines()
        logs = self.house / "out/build"
        self.assertIn(str(logs), said[0])
        for number, crate in enumerate(("low", "middle", "high"), 1):
            self.assertRegex(said[number], rf"\A{number} of 3  {crate}  6 functions  \d:\d\d:\d\d\Z")
        self.assertEqual(len(said), 5, said)
        self.assertIn("checked middle::f, 3 of 7\n", (logs / "middle.log").read_text())
        self.assertIn("the program ran\n", (logs / "high.log").read_text())

    def test_a_line_that_is_renewed(self):
        terminal, stream = pty.openpty()
        done = run([self.house / "tools/built", "high"], env=self.environment(), stderr=stream)
        os.close(stream)
        shown = read_terminal(terminal)
        self.assertEqual(done.returncode, 0)
        for functions in ("3", "5"):
            self.assertRegex(shown, rf"\r\x1b\[K2 of 3  middle  {functions} of 7 functions  \d:\d\d:\d\d")

    def interrupt(self, target, crate, number=signal.SIGINT, **more):
        """Sends a signal to a build while `rt` works in this crate, and returns its status and what it printed."""
        self.process.unlink(missing_ok=True)
        words, environment = [sys.executable, self.house / "tools/build", target], self.environment(LASTS=crate, **more)
        with subprocess.Popen(words, env=environment, stderr=subprocess.PIPE, preexec_fn=hear_signals) as building:
            self.wait_for(self.process.exists)
            building.send_signal(number)
            said = building.communicate(timeout=30)[1]
        running = pathlib.Path("/proc", self.process.read_text().strip())
        self.wait_for(lambda: not running.exists())
        return building.returncode, said.decode()

    def test_an_interruption_ends_all(self):
        for number in (signal.SIGINT, signal.SIGTERM, signal.SIGHUP):
            with self.subTest(number.name):
                status, said = self.interrupt("both", "left", number)
                self.assertEqual(status, 128 + number)
                self.assertNotIn("Traceback", said)
                self.assertIn("build: interrupted", said)
                self.assertIn("rlib", self.made("low"))
                self.assertEqual(self.made("both"), [])

    def test_two_at_once(self):
        """The second waits for the first, and begins with what the first made."""
        words, quiet = [self.house / "tools/built", "high"], {"stdout": subprocess.DEVNULL, "stderr": subprocess.PIPE}
        both = [subprocess.Popen(words, env=self.environment(), **quiet) for _ in range(2)]
        said = [process.communicate(timeout=60)[1].decode() for process in both]
        self.assertEqual([process.returncode for process in both], [0, 0], said)
        calls = self.calls.read_text()
        self.assertEqual((self.house / "crates/low/out/kept").read_text(), "low\n" * calls.count("low lib\n"))


@unittest.skipIf(len(os.sched_getaffinity(0)) < 2, "one processor")
class SideBySide(House):
    def test_what_does_not_need_each_other_is_built_at_once(self):
        """They share the memory. For a single crate, `rt` chooses the number of processes."""
        for target, pair, memory, jobs in (("both", "left right", 17, 4), ("high tool", "high tool", 10, 2)):
            with self.subTest(target):
                (self.folder / "met").write_text("")
                self.memory.write_text(f"MemAvailable: {memory << 20} kB\n")
                self.expect(self.build(target, MEETS=pair), stdout=None, stderr=None)
                calls = self.calls.read_text()
                for crate in pair.split():
                    jobs = min(jobs, len(os.sched_getaffinity(0)))
                    self.assertRegex(calls, rf"(?m)^{crate} (lib|run) --jobs {jobs}( -- inline)?$")
                self.assertRegex(calls, r"(?m)^low lib$")

    def test_no_more_than_there_are_processors(self):
        one = {min(os.sched_getaffinity(0))}
        words = [sys.executable, self.house / "tools/build", "both"]
        done = run(words, env=self.environment(MEETS="left right"), preexec_fn=lambda: os.sched_setaffinity(0, one))
        self.expect(done, 1, b"", Has(b"the other did not begin"))

    def test_no_more_than_there_is_memory_for(self):
        self.memory.write_text("MemAvailable: 8000000 kB\n")
        self.expect(self.build("both", MEETS="left right"), 1, b"", Has(b"the other did not begin"))

    def fails(self, target, **more):
        """What a build says that fails."""
        done = self.build(target, **more)
        self.expect(done, 1, b"", Has(b"fn f: not proved"))
        return done.stderr.decode()

    def test_a_failure_ends_the_rest(self):
        said = self.fails("both", MEETS="left right", FAILS="left", LASTS="right")
        self.assertIn("build: left could not be built", said)
        self.assertNotIn("build: right", said)
        self.assertEqual((self.made("low"), self.made("right"), self.made("both")), (["kept", "rlib"], [], []))

    def test_a_building_that_fails(self):
        self.assertIn("1 of 3  low  6 functions", self.fails("high", FAILS="middle"))
        self.assertEqual(self.made("high"), [])
