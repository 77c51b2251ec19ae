"""Writes files next to those that they replace, and renames them, so that a file is always either the old one or the new one."""
import contextlib
import errno
import functools
import itertools
import os
import re
import shutil
import stat
from typing import Iterator, Optional, Tuple

# The name of a file that is being written contains the number of the process that writes it, and when that process began, since a
# later process may get the same number.
_LEFTOVER = re.compile(r"\.latex2mathml-([0-9]+)-([0-9]+)-[0-9]+\.new")

_numbers = itertools.count()

# The size, the time and the number of a file. They are different if it has been rewritten.
Signature = Tuple[int, int, int]


def is_leftover(name: str) -> bool:
    """Whether a file of this name was being written, by a process that may have been killed."""
    return _LEFTOVER.fullmatch(name) is not None


def remove_leftovers(folder: str, own: bool = False) -> None:
    """Removes the files that killed processes were writing in a folder and, with `own`, also those of this process."""
    with contextlib.suppress(OSError), os.scandir(folder) as listed:
        for entry in listed:
            written = _LEFTOVER.fullmatch(entry.name)
            if written and (own and int(written[1]) == os.getpid() or not _is_alive(int(written[1]), written[2])):
                with contextlib.suppress(OSError):
                    os.unlink(entry.path)


def _is_alive(process: int, began: str) -> bool:
    """Whether the process of this number exists, and is the one that began then."""
    try:
        os.kill(process, 0)
    except (ProcessLookupError, OverflowError):
        return False
    except PermissionError:
        pass
    return _beginning(process) == began


def _beginning(process: int) -> str:
    """Returns when a process began, in ticks since the system did, as Linux reports it, or 0 if nothing is reported.

    The text is empty for a process that has ended but is still listed, because no other process has asked how it ended.
    """
    with contextlib.suppress(OSError), open(f"/proc/{process}/stat", "rb") as file:
        # the name of the program is in parentheses, and may have spaces
        words = file.read().rpartition(b")")[2].split()
        return "" if words[0] in (b"Z", b"X") else words[19].decode()
    return "0"


@functools.lru_cache(maxsize=1)
def _own_beginning(process: int) -> str:
    return _beginning(process)


def signature(status: os.stat_result) -> Signature:
    """Returns what distinguishes a file from a later one in its place."""
    return status.st_size, status.st_mtime_ns, status.st_ino


def write_beside(path: str, content: bytes, like: Optional[os.stat_result] = None) -> Tuple[str, Signature]:
    """Writes a file next to a path, with the permissions and the owner of another. Returns its path and its signature.

    The file is removed if an error is raised, for example because the disk is full.
    """
    with _beside(path) as beside:
        descriptor = os.open(beside, os.O_WRONLY | os.O_CREAT | os.O_EXCL | os.O_CLOEXEC, 0o666)
        with open(descriptor, "wb") as file:
            file.write(content)
            file.flush()
            if like:
                with contextlib.suppress(PermissionError):
                    os.fchown(descriptor, like.st_uid, like.st_gid)
                os.fchmod(descriptor, stat.S_IMODE(like.st_mode))
            return beside, signature(os.fstat(descriptor))


def replace(beside: str, path: str) -> None:
    """Moves a file that is next to a path to that path. The file is removed if that fails."""
    try:
        os.replace(beside, path)
    except BaseException:
        with contextlib.suppress(OSError):
            os.unlink(beside)
        raise


def replace_unchanged(beside: str, path: str, before: Signature) -> None:
    """Does what `replace` does, if the file to be replaced is still the one that was read. Otherwise that file stays as it is."""
    if signature(os.stat(path)) != before:
        os.unlink(beside)
        raise OSError(errno.EBUSY, "changed while it was converted: left as it is", path)
    replace(beside, path)


def check_writable(path: str) -> None:
    """Raises `PermissionError` if a file is read-only. It could be replaced nevertheless, which its owner does not expect."""
    if not os.access(path, os.W_OK):
        raise PermissionError(errno.EACCES, os.strerror(errno.EACCES), path)


def copy_file(source: str, target: str) -> bool:
    """Makes a file the same as another, with its permissions and times. Returns whether it had to be written."""
    from_status = os.stat(source)
    with contextlib.suppress(FileNotFoundError):
        to_status = os.lstat(target)
        is_same_time = (to_status.st_size, to_status.st_mtime_ns) == (from_status.st_size, from_status.st_mtime_ns)
        if stat.S_ISREG(to_status.st_mode) and is_same_time:
            return False
    with _beside(target) as beside:
        shutil.copyfile(source, beside)
        shutil.copystat(source, beside)
    replace(beside, target)
    return True


def make_link(path: str, text: str) -> bool:
    """Makes a link with this text. Returns whether it had to be made."""
    if os.path.islink(path) and os.readlink(path) == text:
        return False
    with _beside(path) as beside:
        os.symlink(text, beside)
    replace(beside, path)
    return True


def _name_beside(process: int) -> str:
    return f".latex2mathml-{process}-{_own_beginning(process)}-{next(_numbers)}.new"


@contextlib.contextmanager
def _beside(path: str) -> Iterator[str]:
    """Yields the path of a file to be written, which is removed if the block raises an error."""
    beside = os.path.join(os.path.dirname(path), _name_beside(os.getpid()))
    try:
        yield beside
    except BaseException:
        with contextlib.suppress(OSError):
            os.unlink(beside)
        raise
