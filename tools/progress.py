"""Progress of long commands: a line that is updated in place on a terminal, and a file with what a command prints."""
import datetime
import pathlib
import shutil
import subprocess
import sys
import threading
import time

SHOWN = 40  # lines of a command's output if it fails


def clock(seconds):
    """`0:01:40`."""
    return str(datetime.timedelta(seconds=int(seconds)))


class Screen:
    """Lines that stay, and below them, on a terminal, one line that is updated in place."""

    def __init__(self, stream=sys.stdout):
        self.stream = stream
        self.is_terminal = stream.isatty()
        self.renewed = ""
        self.lock = threading.RLock()

    def renew(self, text):
        """Replaces the last line by the text, on a terminal. Elsewhere it prints nothing."""
        if self.is_terminal:
            with self.lock:
                self.renewed = text[:shutil.get_terminal_size().columns - 1]
                self.stream.write(f"\r\x1b[K{self.renewed}")
                self.stream.flush()

    def say(self, text):
        """Prints lines that stay."""
        with self.lock:
            if self.is_terminal:
                self.stream.write("\r\x1b[K")
            self.stream.write(f"{text}\n{self.renewed}")
            self.stream.flush()


def follow(words, log, *, on_start=lambda process: None, on_line=lambda line: None, on_second=lambda: None, **how):
    """Runs a command to its end and returns its status. Everything that it prints goes to the file `log`. `on_start` is called with
    the process, `on_line` with each line that it prints, and `on_second` once a second meanwhile."""
    log = pathlib.Path(log)
    log.parent.mkdir(parents=True, exist_ok=True)
    ended = threading.Event()

    def tick():
        while not ended.wait(1):
            on_second()

    how = {"stdin": subprocess.DEVNULL, "stdout": subprocess.PIPE, "stderr": subprocess.STDOUT, **how}
    ticking = threading.Thread(target=tick, daemon=True)
    with open(log, "w", encoding="utf-8") as kept, subprocess.Popen(words, text=True, errors="replace", **how) as running:
        ticking.start()
        on_start(running)
        try:
            for line in running.stdout:
                kept.write(line)
                kept.flush()
                on_line(line.rstrip("\n"))
            return running.wait()
        except BaseException:
            running.terminate()
            raise
        finally:
            ended.set()
            ticking.join()


def end_of(log):
    """The last lines of a file, and where it is."""
    lines = pathlib.Path(log).read_text(encoding="utf-8", errors="replace").splitlines()
    return "\n".join([*lines[-SHOWN:], f"(all {len(lines)} lines are in {log})"])


class Stopwatch:
    def __init__(self):
        self.started = time.monotonic()

    def __str__(self):
        return clock(time.monotonic() - self.started)
