"""Files under a path: calls that fail during a walk, files that change meanwhile, full devices, pipes and sockets."""
import itertools
import os
import shutil
import stat

from tests import faulty, support
from tests.faulty import ALL, Command, Fault
from tests.texts import BAD_ENTRY, NOT_CREATED, STOPPED, UNLISTED, UNPAIRED, UNREAD, X, error

# four documents, two of them in a folder between the others
FILES = "a.html", "m/b.html", "m/c.html", "z.html"


class Walks(support.Case):
    def setUp(self):
        # others may read it, because a case may run as another user
        self.folder.chmod(0o755)
        self.site = self.folder / "site"

    def anew(self, names=FILES, text=b"$x$"):
        shutil.rmtree(self.site, ignore_errors=True)
        support.put(self.site, dict.fromkeys(names, text))

    def html(self, **told):
        return faulty.run_with([faulty.program(), "html", self.site], **told)

    def holds(self, done, faults=(), held=()):
        """Checks the status, the lines (each has a path below the site, and a fault), and the contents of the files. Those that `held`
        does not name contain the answer for their place."""
        lines = b"".join(error(f"{self.site}{path}: {fault}") for path, fault in faults)
        self.expect(done, int(bool(faults)), b"", lines)
        due = {file: X for file in FILES if (self.site / file).is_file()} | dict(held)
        self.assertEqual({file: (self.site / file).read_bytes() for file in due}, due)


def opened(file):
    return [(f"/{file}", fault, [file]) for fault in (UNREAD, NOT_CREATED)]


# For each kind the calls that a walk makes, in order: the path and the fault that are reported if it fails, if any are, and the
# files that then keep their contents.
CALLS = {
    # a folder once, and a file twice
    "open": [("", UNLISTED, FILES), *opened("a.html"), ("/m", UNLISTED, FILES[1:3]), *opened("m/b.html"), *opened("m/c.html"), *opened("z.html")],
    # the bytes, and the end
    "read": [(f"/{file}", UNREAD, [file]) for file in FILES for _ in range(2)],
    # if the list of entries breaks off, the entries before that point are converted
    "list": [("", BAD_ENTRY, FILES), ("", BAD_ENTRY, []), ("/m", BAD_ENTRY, FILES[1:3]), ("/m", BAD_ENTRY, [])],
    # a path about which the system gives no information is left alone
    "look": [(None, None, kept) for kept in (FILES, ["a.html"], FILES[1:3], ["m/b.html"], ["m/c.html"], ["z.html"])],
}

# not permitted, no memory in the system, too many open files; an error of the device, and an interruption
ERRORS = {"open": (13, 12, 24), "read": (5, 4), "list": (5,), "look": (13,)}


@support.requires("cc")
class Faulty(Walks):
    """Walks whose calls fail or are counted."""


class EachCall(Faulty):
    """One call fails, and all others are made."""

    def test_no_more_calls(self):
        """No call is made after those that fail."""
        for kind, number in ((kind, number) for kind in CALLS for number in ERRORS[kind]):
            with self.subTest(kind=kind, error=number):
                self.anew()
                done, failed = self.html(fault=Fault(kind, len(CALLS[kind]) + 1, ALL, number))
                self.holds(done)
                self.assertEqual(failed, [])

    @support.each_row({f"{kind} {at} error {number}": (kind, number, at, *call)
               for kind in CALLS for number, (at, call) in itertools.product(ERRORS[kind], enumerate(CALLS[kind], 1))})
    def one_fails(self, kind, number, at, path, fault, kept):
        self.anew()
        done, failed = self.html(fault=Fault(kind, at, at, number))
        self.assertEqual(failed, [kind])
        self.holds(done, [(path, fault)] if fault else [], dict.fromkeys(kept, b"$x$"))


class AllCalls(Faulty):
    """Each call of a kind fails."""

    @support.each_row({
        "open": ("open", 24, b"$x$", [("", UNLISTED)]),
        "list": ("list", 5, b"$x$", [("", BAD_ENTRY)]),
        "look": ("look", 13, b"$x$", []),
        "read": ("read", 4, b"$x$", [(f"/{file}", UNREAD) for file in FILES]),
        "write": ("write", 28, b"", [(f"/{file}", STOPPED.format(0)) for file in FILES]),
    })
    def all_fail(self, kind, number, held, faults):
        self.anew()
        done, _ = self.html(fault=Fault(kind, 1, ALL, number))
        self.holds(done, faults, dict.fromkeys(FILES, held))


# the first and the last bytes, and some between
STOPS = sorted({0, 1, 2, *range(3, len(X), 7), len(X) - 3, len(X) - 2, len(X) - 1})


class Writing(Faulty):
    """The writing of a file stops: it contains the first bytes of its answer, and all others contain their answers."""

    @support.each_row({f"error {number} after {written}": (number, written)
                       for number, written in itertools.product((28, 5, 4, 0), STOPS)})
    def stops(self, number, written):
        self.anew()
        call = len(X) + written + 1
        done, _ = self.html(fault=Fault("write", call, call, number), step=1)
        self.holds(done, [("/m/b.html", STOPPED.format(written))], {"m/b.html": X[:written]})


class Meanwhile(Faulty):
    """A command is run before the walk opens a path for the first or the second time."""

    @support.each_row({
        # between the look at it and its opening
        "file goes": ("a.html", 1, "rm a.html", [("/a.html", UNREAD)], {}, "a.html"),
        "file becomes folder": ("a.html", 1, "rm a.html && mkdir a.html", [("/a.html", UNREAD)]),
        "file is refused": ("a.html", 1, "printf '$$$' >a.html", [("/a.html", UNPAIRED)], {"a.html": b"$$$"}),
        "file gets another text": ("a.html", 1, "printf 'so $x$' >a.html", [], {"a.html": b"so " + X}),
        "file loses its formula": ("a.html", 1, "printf 'no sign' >a.html", [], {"a.html": b"no sign"}),
        "folder goes": ("m", 1, "rm -r m", [("/m", UNLISTED)]),
        "folder becomes file": ("m", 1, "rm -r m && printf x >m", [("/m", UNLISTED)], {"m": b"x"}),
        # between the listing and the look
        "file and folder go unseen": ("a.html", 1, "rm -r m z.html", [], {}, "z.html"),
        "file comes behind the listing": ("a.html", 1, "cp z.html n.html", [], {"n.html": b"$x$"}),
        # between the reading and the writing: the text that was read is converted
        "file goes before it is written": ("a.html", 2, "rm a.html", [], {"a.html": X}),
        "file becomes folder before it is written": (
            "a.html", 2, "rm a.html && mkdir a.html", [("/a.html", NOT_CREATED)]),
        "folder goes before its file is written": ("m/b.html", 2, "rm -r m", [("/m/b.html", NOT_CREATED)], {}, "m"),
    })
    def after(self, path, time, text, faults, held=(), gone=None):
        self.anew()
        command = Command(str(self.site / path), time, f"cd '{self.site}' && {text}")
        done, failed = self.html(command=command)
        self.assertEqual(failed, ["command"])
        self.holds(done, faults, held)
        if gone:
            self.assertFalse((self.site / gone).exists(), "made anew")


class Rights(Walks):
    """Files that a user may not open. If the user may open everything, another user runs the case."""

    def test_rights(self):
        self.anew()
        support.put(self.site, {f"{folder}/a.html": b"$x$" for folder in ("entered", "listed", "kept")})
        support.put(self.site, {"y.html": b"no sign"})
        user = support.as_nobody(self.site)
        rights = {0o000: ("a.html", "m"), 0o311: ("entered",), 0o444: ("listed", "y.html", "z.html"), 0o555: ("kept",)}
        for mode, names in rights.items():
            for name in names:
                (self.site / name).chmod(mode)
        if not support.run(["cat", self.site / "a.html"], **user).returncode:
            self.skipTest("there is no user that may not open all files")
        done = support.run([faulty.program(), "html", self.site], **user)
        for path in {self.site, *self.site.iterdir()} - {self.site / "z.html"}:
            path.chmod(path.stat().st_mode | stat.S_IRWXU)
        kept = ("a.html", "entered/a.html", "listed/a.html", "m/b.html", "m/c.html", "z.html")
        self.holds(done, [("/a.html", UNREAD), ("/entered", UNLISTED), ("/m", UNLISTED), ("/z.html", NOT_CREATED)],
                   {"kept/a.html": X, "y.html": b"no sign", **{name: b"$x$" for name in kept}})
        with self.subTest("opened again"):
            done = support.run([faulty.program(), "html", self.site], **user)
            self.holds(done, [("/z.html", NOT_CREATED)], {"z.html": b"$x$", **dict.fromkeys(kept[:-1], X)})


class NoFiles(Faulty):
    """What is neither a file nor a directory is left alone, whatever its name is, and not opened: opening it might never end."""

    @support.each_row({"pipe": (os.mkfifo,), "socket": (lambda path: os.mknod(path, stat.S_IFSOCK | 0o600),),
               "link to a device": (lambda path: path.symlink_to(os.devnull),)})
    def is_left_alone(self, make):
        """Makes something at a path, and walks the folder with it, and then only the path."""
        self.anew()
        path = self.site / "n.html"
        make(path)
        before = path.lstat()
        # both folders are opened, and each file twice
        for name, top, opened in (("in a folder", self.site, 2 + 2 * len(FILES)), ("alone", path, 0)):
            with self.subTest(name):
                done, counts = faulty.counts_of([faulty.program(), "html", top])
                self.holds(done)
                self.assertEqual(counts["open"], opened)
                self.assertEqual((path.lstat().st_mode, path.lstat().st_ino), (before.st_mode, before.st_ino))


class Full(Walks):
    """A device is full, or the limit of a file's size is reached, while a file is written: the file contains the first bytes of its
    answer, as many as the line says, and the walk goes on."""
    COUNT = 1000

    def is_cut(self, done, file):
        held = (self.site / file).read_bytes()
        self.assertTrue((X * self.COUNT).startswith(held))
        self.assertIn(len(held), range(1, len(X) * self.COUNT))
        self.holds(done, [(f"/{file}", STOPPED.format(len(held)))], {file: held})

    @support.requires("cc")
    def test_device(self):
        """If this user may not mount devices, as in a container, a call that writes fails as for a full device."""
        self.anew()
        device = self.site / "device"
        device.mkdir()
        is_mounted = not support.run(["mount", "-t", "tmpfs", "-o", "size=16k", "tmpfs", device]).returncode

        def run_full(*words, number, **more):
            if is_mounted:
                return support.run([faulty.program(), *words], **more)
            return faulty.run_with([faulty.program(), *words], fault=Fault("write", number, number, 28), step=4096, **more)[0]

        try:
            (device / "full.html").write_bytes(b"$x$" * self.COUNT)
            # a.html is written before it
            self.is_cut(run_full("html", self.site, number=4), "device/full.html")
            (device / "full.html").unlink()
            with open(device / "out", "wb") as output:
                done = run_full("document", number=4, stdin=b"$x$" * self.COUNT, stdout=output)
            held = (device / "out").read_bytes()
            self.assertTrue((X * self.COUNT).startswith(held))
            self.expect(done, 1, None, error(STOPPED.format(len(held))))
        finally:
            if is_mounted:
                support.run(["umount", device])

    def test_limit(self):
        """The system reports the limit by a signal that ends a program. If the signal is ignored, as in Python, it
        reports an error instead."""
        self.anew()
        (self.site / "limited.html").write_bytes(b"$x$" * self.COUNT)
        limit = support.limit(FSIZE=20 << 10)
        done = support.run([faulty.program(), "html", self.site], preexec_fn=limit, restore_signals=False)
        self.is_cut(done, "limited.html")
        with self.subTest("a second run does not notice"):
            file = self.site / "limited.html"
            held = file.read_bytes()
            self.expect(support.run([faulty.program(), "html", file]), stdout=b"")
            self.assertEqual(file.read_bytes(), held)
