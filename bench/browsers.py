"""Pictures of pages in browsers, without a window."""
import pathlib
import shutil
import subprocess
import tempfile

SIZE = "1000,4000"

# The arguments for each browser, with a place for the folder of a profile.
BROWSERS = {
    "chromium": ["--headless", "--no-sandbox", "--user-data-dir={}", "--virtual-time-budget=20000"],
    "firefox": ["--headless", "--no-remote", "--profile={}"],
}


def installed():
    return [name for name in BROWSERS if shutil.which(name)]


def take_picture(address, picture, browser="chromium"):
    """Takes a picture of the page at an address. The path of the picture is absolute."""
    with tempfile.TemporaryDirectory(ignore_cleanup_errors=True) as name:
        words = [word.format(pathlib.Path(name, "profile")) for word in BROWSERS[browser]]
        pathlib.Path(name, "profile").mkdir()
        subprocess.run([browser, *words, f"--screenshot={picture}", f"--window-size={SIZE}", address], check=True,
                       stdout=subprocess.DEVNULL, stderr=subprocess.DEVNULL, timeout=120)
