"""Finds the files of a site. A folder is visited only once, whatever links lead to it."""
import os
import stat
from typing import List, NamedTuple, Optional, Set, Tuple

from latex2mathml_proved.site.writing import is_leftover

PAGES = (".html", ".htm", ".xhtml")


class Copy(NamedTuple):
    """A file and the one that is made from it, which is the same file if the site is converted in place."""

    source: str
    target: str


class Site(NamedTuple):
    """What a site consists of. The first part of each link is its path, and the second is where it leads."""

    pages: List[Copy]
    others: List[Copy]
    links: List[Tuple[str, str]]
    folders: List[str]
    errors: List[OSError]


def find(source: str, target: Optional[str] = None) -> Site:
    """Returns the files of a site, which is a folder or one page. Without a target it is converted in place.

    In place, a link to a file means the file itself. With a target, links within the site become links again, and what other links
    lead to is copied.
    """
    site = Site([], [], [], [], [])
    if os.path.isdir(source):
        _Walk(os.path.realpath(source), site, None if target is None else os.path.realpath(target)).run()
    else:
        real = os.path.realpath(source)
        if target is not None and os.path.isdir(target):
            target = os.path.join(target, os.path.basename(source))
        made = real if target is None else os.path.realpath(target)
        site.folders.append(os.path.dirname(made))
        site.pages.append(Copy(real if target is None else source, made))
    return site


class _Walk:
    def __init__(self, root: str, site: Site, target: Optional[str]):
        self._root = root
        self._site = site
        self._is_in_place = target is None
        self._due = [(root, target or root)]
        self._visited: Set[Tuple[int, int]] = set()
        self._pages: Set[str] = set()

    def run(self) -> None:
        while self._due:
            folder, target = self._due.pop()
            try:
                self._visit(folder, target)
            except OSError as error:
                self._site.errors.append(error)

    def _visit(self, folder: str, target: str) -> None:
        """Takes the files of a folder, and adds the folders in it to those that are due."""
        status = os.stat(folder)
        if (status.st_dev, status.st_ino) in self._visited:
            return
        self._visited.add((status.st_dev, status.st_ino))
        self._site.folders.append(target)
        with os.scandir(folder) as listed:
            entries = sorted(listed, key=lambda it: it.name)
        for entry in entries:
            if not is_leftover(entry.name):
                self._take(entry, os.path.join(target, entry.name))

    def _take(self, entry: "os.DirEntry[str]", target: str) -> None:
        path = entry.path
        if entry.is_symlink():
            path = os.path.realpath(path)
            is_within = path == self._root or path.startswith(os.path.join(self._root, ""))
            if not self._is_in_place and (is_within or not os.path.exists(path)):
                self._site.links.append((target, _text_of(entry.path, path)))
                return
            target = path if self._is_in_place else target
        try:
            kind = os.stat(path).st_mode
        except FileNotFoundError:
            return  # a link that leads nowhere, or something that has been removed in the meantime
        if stat.S_ISDIR(kind):
            self._due.append((path, target))
        elif stat.S_ISREG(kind):
            self._add(Copy(path, target))

    def _add(self, copy: Copy) -> None:
        is_page = copy.source.lower().endswith(PAGES) or copy.target.lower().endswith(PAGES)
        if not is_page:
            self._site.others.append(copy)
        elif copy.target not in self._pages:
            self._pages.add(copy.target)
            self._site.pages.append(copy)


def _text_of(link: str, real: str) -> str:
    """Returns the text for the copy of a link: the same text, unless that is an absolute path into the site."""
    text = os.readlink(link)
    return os.path.relpath(real, os.path.dirname(link)) if os.path.isabs(text) and os.path.exists(real) else text
