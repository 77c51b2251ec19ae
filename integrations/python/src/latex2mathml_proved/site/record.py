"""Remembers which pages are as an earlier run left them, so that a run reads none if nothing has changed."""
import contextlib
import hashlib
import json
import os
import pathlib
from typing import Any, Dict, List, NamedTuple, Optional, Tuple

from latex2mathml_proved import _library
from latex2mathml_proved.site.folders import Copy
from latex2mathml_proved.site.pages import Fault, Options
from latex2mathml_proved.site.writing import Signature, replace, signature, write_beside

# Changes when what is found in pages changes, or how it is written.
_FORMAT = 1


class Known(NamedTuple):
    """What is known about a page: the file that it was made from, the file that it became, and what was refused in it."""

    source: Signature
    target: Signature
    faults: Tuple[Fault, ...]


class Record:
    """The known pages of a target. They are kept among the user's caches, and the site itself contains nothing about them."""

    def __init__(self, target: str, options: Options):
        library = signature(os.stat(_library.PATH))
        about = [_FORMAT, os.path.realpath(target), options, library]
        name = hashlib.sha256(json.dumps(about).encode()).hexdigest()[:32]
        caches = os.environ.get("XDG_CACHE_HOME") or os.path.join(os.path.expanduser("~"), ".cache")
        self._file = pathlib.Path(caches, "latex2mathml-site", f"{name}.json")
        self._pages: Dict[str, Known] = {}
        self._before: Dict[str, Known] = {}

    def read(self) -> None:
        """Reads what earlier runs have kept. What cannot be read is ignored."""
        with contextlib.suppress(OSError, ValueError, TypeError):
            kept: Dict[str, List[Any]] = json.loads(self._file.read_bytes())
            self._before = {
                path: Known((a[0], a[1], a[2]), (b[0], b[1], b[2]), tuple(Fault(*it) for it in faults))
                for path, (a, b, faults) in kept.items()}

    def find(self, page: Copy) -> Optional[Known]:
        """Returns what is known about a page, if neither its source nor its target has changed."""
        known = self._before.get(page.target)
        try:
            is_same = known is not None and known.target == signature(os.stat(page.target)) and (
                page.source == page.target or known.source == signature(os.stat(page.source)))
        except OSError:
            return None
        return known if is_same else None

    def keep(self, page: Copy, known: Known) -> None:
        self._pages[page.target] = known

    def write(self) -> None:
        """Keeps the pages of this run, if they differ from those kept before. If the folder cannot be written, nothing is kept."""
        if self._pages == self._before:
            return
        self._before, self._pages = self._pages, {}
        with contextlib.suppress(OSError):
            self._file.parent.mkdir(parents=True, exist_ok=True)
            beside, _ = write_beside(str(self._file), json.dumps(self._before).encode())
            replace(beside, str(self._file))
