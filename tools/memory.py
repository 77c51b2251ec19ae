"""The memory of the machine."""
import pathlib
import re


def free_memory():
    """The memory that is available, in bytes."""
    return int(re.search(r"^MemAvailable: +(\d+) kB", pathlib.Path("/proc/meminfo").read_text(), re.M)[1]) << 10
