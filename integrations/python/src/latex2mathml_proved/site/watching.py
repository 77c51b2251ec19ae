"""Converts a site again after each change. It needs the package `watchdog`, which Debian has as `python3-watchdog`."""
import os
import threading
from typing import Any, Callable

from latex2mathml_proved.site.writing import is_leftover

# For how many seconds no file may have changed, so that a build in progress is converted only once.
REST = 0.3


def watch(folder: str, convert: Callable[[], object]) -> None:
    """Calls `convert`, and again whenever something in the folder has changed, until it is interrupted. It uses threads meanwhile.

    Raises `ImportError` if `watchdog` is missing.
    """
    from watchdog.events import FileSystemEvent, FileSystemEventHandler
    from watchdog.observers import Observer

    changed = threading.Event()

    class Handler(FileSystemEventHandler):  # type: ignore[misc, unused-ignore]
        def on_any_event(self, event: FileSystemEvent) -> None:
            if event.event_type in ("opened", "closed", "closed_no_write") or is_leftover(os.path.basename(str(event.src_path))):
                return
            changed.set()

    observer: Any = Observer()
    observer.schedule(Handler(), folder, recursive=True)
    observer.start()
    try:
        while True:
            convert()
            changed.wait()
            while changed.is_set():
                changed.clear()
                changed.wait(REST)
    finally:
        observer.stop()
        observer.join()
