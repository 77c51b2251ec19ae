"""Folders of many files: whether all are converted, and what a walk costs for each file and each name."""
import os

from tests import faulty, support
from tests.instructions import instructions
from tests.test_files import Walks
from tests.texts import BAD_ENTRY, STOPPED, UNPAIRED, X


class Folders(Walks):
    """Folders with a given number of files and folders."""

    def make(self, files, folders=0, text=b"$x$"):
        names = [*(f"{number}.html" for number in range(files)), *(f"folder{number}/a.html" for number in range(folders))]
        self.anew(names, text)


class Many(Folders):
    """Nothing that one file needs is kept for the others."""

    def are_converted(self):
        for file in self.site.rglob("*.html"):
            self.assertEqual(file.read_bytes(), X, file)

    def test_few_descriptors(self):
        """Each file and each folder is closed before the next is opened."""
        self.make(100, 100)
        support.put(self.site, {f"deep/{'d/' * 60}a.html": b"$x$"})
        self.expect(support.run([support.program(), "html", self.site], preexec_fn=support.limit(NOFILE=16)), 0, b"")
        self.are_converted()

    def test_few_descriptors_where_nothing_is_written(self):
        """A file that takes none of its answer is closed too, and the walk goes on."""
        self.make(100)
        with open(os.devnull, "wb") as output:
            done = support.run([support.program(), "html", self.site], preexec_fn=support.limit(FSIZE=0, NOFILE=16),
                               restore_signals=False, stdout=output)
        self.assertEqual(done.stderr.count(b": " + STOPPED.format(0).encode()), 100, support.show(done.stderr))
        self.expect(done, 1, None, None)

    def test_all(self):
        """All files of a large folder are converted."""
        self.make(5_000)
        self.expect(support.run([support.program(), "html", self.site]), 0, b"")
        self.are_converted()

    def test_little_stack(self):
        """No stack is taken per name of a folder, even one that is not a text, nor per line about what was not converted."""
        self.make(20_000, text=b"$$$")
        for number in range(20_000):
            os.close(os.open(os.fsencode(self.site) + b"/%d\xff" % number, os.O_CREAT))
        # the variables of an environment would take part of the stack
        done = support.run([support.program(), "html", self.site], preexec_fn=support.limit(STACK=128 << 10), env={})
        self.expect(done, 1, b"", None)
        self.assertEqual([done.stderr.count(fault.encode()) for fault in (UNPAIRED, BAD_ENTRY)], [20_000, 20_000])


# The contents of a file, and how often a walk asks for memory for it. The formulas of a file share the room for their parts: so 20
# of them need only 5 more requests than one, because the answer is longer.
EACH_FILE = {b"$x$": 8, b"$x^2$": 11, b"$x^2$" * 20: 16, b"$\\frac12$" * 20: 16, b"no sign": 6, b"$$$": 10}
MOST_DOUBLINGS = 6  # the names of a folder, and what was not converted: a list asks once more where it doubles
BYTES_OF_A_NAME = 128  # a block of memory for its text, and places in the list of names and in the room for sorting


@support.requires("cc")
class Counts(Folders):
    """The memory that a walk has not freed at its end, how often it asks for memory, and how often it reads."""

    def counts(self, files, folders, text=b"$x$"):
        self.make(files, folders, text)
        _, counts = faulty.counts_of([faulty.program(), "html", self.site])
        return counts

    # a single letter needs no parts, but scripts, fractions, and a text that is spelled out do
    @support.each_row({"converted": (b"$x$",), "converted parts": (b"$x^2$ $\\frac12$ $\\text{ab}$",),
                       "unchanged": (b"no sign",), "refused": (b"$$$",), "no text": (b"\xff",)})
    def leaves_nothing(self, text):
        """The memory at the end is the same for a hundred files as for one, and all files are closed."""
        one, hundred = self.counts(1, 1, text), self.counts(100, 100, text)
        with self.subTest("blocks of memory"):
            self.assertEqual(hundred["held"], one["held"])
        with self.subTest("descriptors"):
            self.assertEqual(hundred["open"] - hundred["close"], one["open"] - one["close"])

    def test_readings(self):
        """A file is opened and read once, 4,096 bytes at a time, and opened once more for writing."""
        for size in (0, 1, 4095, 4096, 1_000_000):
            with self.subTest(bytes=size):
                counts = self.counts(1, 0, b"x" * size + b"$x$")
                self.assertLessEqual(counts["read"], (size + 3) // 4096 + 2)
                # the folder, and the file twice
                self.assertLessEqual(counts["open"], 3)
                # a wait for the disk takes longer than everything else
                self.assertEqual((counts["write"], counts["sync"]), (1, 0))

    def test_requests(self):
        """Memory is requested a few times for each file, and for each list of a walk only when it doubles."""
        for text, each in EACH_FILE.items():
            with self.subTest(text):
                few, many = self.counts(100, 0, text), self.counts(500, 0, text)
                self.assertLessEqual(many["requests"] - few["requests"], 400 * each + MOST_DOUBLINGS)

    def test_names(self):
        """A walk keeps the names of one folder, and neither their paths nor more room than they need."""
        few, many = self.counts(100, 0, b"no sign"), self.counts(1_100, 0, b"no sign")
        self.assertLessEqual(many["peak"] - few["peak"], 1_000 * BYTES_OF_A_NAME)

    def test_unchanged_files_are_only_read(self):
        counts = self.counts(1, 0, b"no sign")
        self.assertEqual((counts["write"], counts["open"]), (0, 2))


@support.requires("valgrind")
class Instructions(Folders):
    """Five times the files take five times the instructions, except for the sorting of their names."""

    @support.each_row({"converted": (b"$x$",), "unchanged": (b"no sign",), "refused": (b"$$$", 1)})
    def judge(self, text, status=0):
        self.make(200, text=text)
        few = instructions([support.program(), "html", self.site], status=status)
        self.make(1_000, text=text)
        many = instructions([support.program(), "html", self.site], status=status)
        self.assertLessEqual(many, 5.5 * few, f"{few:,} for 200 files, {many:,} for 1,000")
