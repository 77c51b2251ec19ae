"""A folder of documents, some of which are refused, and the results that a walk may have if memory runs out."""
import pathlib

from tests.support import put
from tests.texts import BAD_ENTRY, NOT_CREATED, NO_MEMORY, NO_TEXT, UNLISTED, UNPAIRED, UNREAD, X

# the possible faults of a failed allocation during a walk
WANTING = (NO_MEMORY, UNLISTED, UNREAD, BAD_ENTRY, NOT_CREATED)

# each file, its contents, and its contents after a walk with enough memory
FILES = {
    ".html": (b"$x$", b"$x$"),
    "a.html": (b"$x$", X),
    "b.html": (b"$$$", b"$$$"),
    "c.htm": (b"$x$", b"$x$"),
    "d/e.html": (b"no sign", b"no sign"),
    "f.html": (b"\xff", b"\xff"),
    "g/h.html": (b"$x$", X),
    "z.html": (b"$x$", X),
}

# the names below the folder in the order of the walk, with the folder itself, and the lines of such a walk
WALKED = sorted({"", "d", "g", *FILES})
DUE = [("b.html", UNPAIRED), ("f.html", NO_TEXT)]


class Folder:
    """The folder at a path. `fill` makes it anew. `judge` checks the files and the lines after a walk."""

    def __init__(self, path):
        self.path = pathlib.Path(path)

    def fill(self):
        put(self.path, {name: held for name, (held, _) in FILES.items()})

    def stands(self, name):
        """Whether the file has the contents that it has after a walk with enough memory."""
        return (self.path / name).read_bytes() == FILES[name][1]

    def faults_in(self, lines):
        """The names and the faults of a walk's lines."""
        for line in lines.decode().splitlines():
            path, _, fault = line.partition(": ")
            assert path.startswith(str(self.path)), line
            yield path.removeprefix(str(self.path)).lstrip("/"), fault

    def judge(self, case, lines, is_refused, is_one, is_wanting):
        """Checks the lines and the files after a walk in which a request was refused, or one and all that follow it. A line is about
        a path of the folder, in the order of the walk, with a possible fault.

        `is_wanting` says that the walk itself ran out of memory; then there are no lines.
        """
        for name, contents in FILES.items():
            case.assertIn((self.path / name).read_bytes(), contents, f"{name} is broken")
        if is_wanting:
            case.assertTrue(is_refused)
            done = [self.stands(name) for name, (before, after) in FILES.items() if before != after]
            case.assertEqual(done, sorted(done, reverse=True), "a file behind one that was not converted")
            return
        told = list(self.faults_in(lines))
        case.assertEqual(told, sorted(told, key=lambda line: WALKED.index(line[0])))
        case.assertEqual([line for line in told if line not in DUE and line[1] not in WANTING], [])
        if is_one or not is_refused:
            case.assertTrue(any(self.differs_at(told, top) for top in (WALKED if is_refused else [None])), told)

    def differs_at(self, told, top):
        """Whether the lines and files are those of enough memory, except for this path and those below it."""
        def outside(name):
            return top is None or (top != "" and name != top and not name.startswith(top + "/"))
        lines_stand = [line for line in told if outside(line[0])] == [line for line in DUE if outside(line[0])]
        return lines_stand and all(self.stands(name) for name in FILES if outside(name))
