"""The program, through the launcher: its arguments, its streams, its status, and the files that it converts."""
import os
import shutil
import subprocess

from tests import cases
from tests.runs import Runs
from tests.support import BUILD_NOTHING, Case, ROOT, each_row, limit, program, put, run
from tests.texts import BAD_ENTRY, LESS, STOPPED, UNCLOSED, UNPAIRED, UNREAD, USAGE, X, error

LAUNCHER = ROOT / "latex2mathml"


def closed_streams(*streams):
    """Starts a process with these streams closed."""
    return {"preexec_fn": lambda: [os.close(it) for it in streams]}


class Launcher(Case):
    def test_a_path_with_a_space(self):
        program()  # is built first
        house = self.folder / "a house"
        (house / "tools").mkdir(parents=True)
        # with their times, since a program that is older is not used
        for name in ("latex2mathml", "tools/built", "crates.txt"):
            shutil.copy2(ROOT / name, house / name)
        (house / "crates").symlink_to(ROOT / "crates")
        done = run([house / "latex2mathml", "inline"], stdin=b"x<y", env={**os.environ, BUILD_NOTHING: "1"})
        self.expect(done, stdout=LESS + b"\n")

    def test_a_link_to_it(self):
        """A folder of the path may have a link to it."""
        program()  # is built first
        link = self.folder / "latex2mathml"
        link.symlink_to(LAUNCHER)
        for words, more in (([link], {}), (["sh", "latex2mathml"], {"cwd": link.parent})):
            with self.subTest(words):
                done = run([*words, "inline"], stdin=b"x<y", env={**os.environ, BUILD_NOTHING: "1"}, **more)
                self.expect(done, stdout=LESS + b"\n")

    def test_the_program_takes_its_place(self):
        """The program replaces the process of the launcher, which leaves no temporary files, and passes the arguments on."""
        put(self.folder, {"tools/built": '#!/bin/sh\necho "${0%/*}/program"\n',
                          "tools/program": '#!/bin/sh\necho "$$"; printf "<%s>" "$@"\n'})
        temporary = self.folder / "temporary"
        temporary.mkdir()
        words = [shutil.copy2(LAUNCHER, self.folder), "html", "", "a b\n*"]
        with subprocess.Popen(words, stdout=subprocess.PIPE, env={**os.environ, "TMPDIR": str(temporary)}) as process:
            self.assertEqual(process.communicate(timeout=60)[0].decode(), f"{process.pid}\n<html><><a b\n*>")
        self.assertEqual(list(temporary.iterdir()), [])


class Answers(Case):
    @each_row(cases.runs())
    def are_written(self, word, given, *due):
        self.expect(run([LAUNCHER, word], stdin=given), *due)

    def test_a_million_braces(self):
        """They are read with a stack of 8 MiB, and one that is not closed is refused."""
        opened, closed = b"{" * 1_000_000, b"}" * 1_000_000
        for name, given, wanted in [("closed", opened + b"x" + closed, (0, X + b"\n", b"")),
                                    ("one does not close", opened + b"x" + closed[1:], (1, b"", error(UNCLOSED)))]:
            with self.subTest(name):
                self.expect(run([LAUNCHER, "inline"], stdin=given, preexec_fn=limit(STACK=8 << 20)), *wanted)


class Words(Case):
    def test_wrong_ones_leave_the_input_alone(self):
        """One line is printed although nothing is ever written to the input."""
        reading, writing = os.pipe()
        with open(reading, "rb") as never, open(writing, "wb"):
            self.expect(run([LAUNCHER, "markup"], stdin=never), 2, b"", USAGE)


class Streams(Case):
    def test_closed_input(self):
        for word in ("inline", "document"):
            with self.subTest(word):
                self.expect(run([LAUNCHER, word], stdin=subprocess.DEVNULL, **closed_streams(0)), 1, b"", error(UNREAD))

    def test_a_directory_as_the_input(self):
        folder = os.open(self.folder, os.O_RDONLY)
        self.addCleanup(os.close, folder)
        self.expect(run([LAUNCHER, "inline"], stdin=folder), 1, b"", error(UNREAD))

    def test_closed_output(self):
        for word in ("inline", "document"):
            with self.subTest(word):
                done = run([LAUNCHER, word], stdin=b"x<y", stdout=subprocess.DEVNULL, **closed_streams(1))
                self.expect(done, 1, None, error(STOPPED.format(0)))

    def test_a_full_device(self):
        with open("/dev/full", "wb") as full:
            self.expect(run([LAUNCHER, "inline"], stdin=b"x<y", stdout=full), 1, None, error(STOPPED.format(0)))

    def test_closed_errors(self):
        quiet = {"stderr": subprocess.DEVNULL}
        with self.subTest("wrong words"):
            self.expect(run([LAUNCHER], stdin=b"x<y", **quiet, **closed_streams(2)), 2, b"", None)
        with self.subTest("and a closed input"):
            self.expect(run([LAUNCHER, "inline"], stdin=subprocess.DEVNULL, **quiet, **closed_streams(0, 2)), 1, b"", None)

    def test_what_is_read_of_the_input(self):
        """With wrong arguments the program leaves the input to the next reader, and with right ones it reads all of it."""
        put(self.folder, {"in": b"x<y"})
        for words, status, left in [(["markup"], 2, b"x<y"), (["inline"], 0, b"")]:
            with self.subTest(words), open(self.folder / "in", "rb", buffering=0) as given:
                self.assertEqual(run([LAUNCHER, *words], stdin=given).returncode, status)
                self.assertEqual(given.read(), left)


class Site(Case):
    """A folder `site`, which each case fills and converts."""

    command = LAUNCHER

    def setUp(self):
        self.site = self.folder / "site"
        self.site.mkdir()

    def put(self, texts):
        put(self.site, texts)

    def expect_files(self, texts):
        self.assertEqual({name: (self.site / os.fsdecode(name)).read_bytes() for name in texts}, texts)

    def convert(self, path, faults=(), **more):
        """Converts the documents under a path. The faults are pairs of a path and its line."""
        lines = b"".join(error(f"{at}: {text}") for at, text in faults)
        self.expect(run([self.command, "html", path], stdin=subprocess.DEVNULL, **more), 1 if faults else 0, b"", lines)


class Folders(Runs, file="latex2mathml.txt"):
    """What `html` makes of folders and files; long inputs, and wrong words."""


class Files(Site):
    def test_66_levels(self):
        names = ["d/" * level + "a.html" for level in range(66)]
        self.put(dict.fromkeys(names, b"$x$"))
        self.convert(self.site, [(f"{self.site}{'/d' * 64}", "The directory lies deeper than 64 levels.")])
        self.expect_files({name: X if name in names[:64] else b"$x$" for name in names})

    def test_names_that_are_no_text(self):
        """Each has one fault, before the other entries, and nothing below them is converted."""
        try:
            self.put({b"b/\xff/a.html": b"$x$", b"b/\xff.html": b"$x$"})
        except OSError as why:
            self.skipTest(f"the file system takes no such names: {why}")
        self.put({"b/a.html": b"$$$", "a.html": b"$$$", "c.html": b"$x$"})
        no_name = (self.site / "b", BAD_ENTRY)
        self.convert(self.site, [(self.site / "a.html", UNPAIRED), no_name, no_name, (self.site / "b/a.html", UNPAIRED)])
        self.expect_files({b"b/\xff/a.html": b"$x$", b"b/\xff.html": b"$x$", "c.html": X})

    def test_closed_streams(self):
        """They do not change the status."""
        self.put({"a.html": b"$$$", "b.html": b"$x$"})
        quiet = {"stdout": subprocess.DEVNULL, "stderr": subprocess.DEVNULL}
        done = run([LAUNCHER, "html", self.site], stdin=subprocess.DEVNULL, **quiet, **closed_streams(0, 1, 2))
        self.expect(done, 1, None, None)
        self.expect_files({"a.html": b"$$$", "b.html": X})

    def test_nothing_is_read_from_the_input(self):
        self.put({"a.html": b"$$$", "b.html": b"$x$"})
        with open(self.site / "a.html", "rb", buffering=0) as given:
            done = run([LAUNCHER, "html", self.site], stdin=given)
            self.assertEqual(given.read(), b"$$$")
        self.expect(done, 1, b"", error(f"{self.site}/a.html: {UNPAIRED}"))
        self.expect_files({"b.html": X})
