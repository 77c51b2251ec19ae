"""Chromium and Firefox, each with a profile of its own and without a window."""
import contextlib
import os
import subprocess

from tests.support import ROOT


def chromium(profile, address):
    # A container may forbid users to make a sandbox, and may have little room in /dev/shm. The pages are our own.
    flags = ["--no-sandbox", "--disable-dev-shm-usage", "--disable-gpu"]
    return ["chromium", "--headless", *flags, f"--user-data-dir={profile}", address]


def firefox(profile, address, settings=""):
    (profile / "user.js").write_text((ROOT / "tests/page/firefox.js").read_text() + settings)
    return ["firefox-esr", "--headless", "--no-remote", "--profile", os.fspath(profile), address]


@contextlib.contextmanager
def open_browser(words, home):
    """A browser for the duration of a `with`."""
    environment = {**os.environ, "HOME": os.fspath(home)}
    with open(home / "said", "wb") as said:
        browser = subprocess.Popen(words, stdin=subprocess.DEVNULL, stdout=said, stderr=said, env=environment)
    try:
        yield
    finally:
        browser.terminate()
        try:
            browser.wait(timeout=20)
        except subprocess.TimeoutExpired:
            browser.kill()
            browser.wait()
