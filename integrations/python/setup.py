"""Makes a wheel for the machines that the shared library runs on. pyproject.toml says what the package is and where it is."""
import pathlib
import re
import subprocess

from setuptools import Distribution, setup
from wheel.bdist_wheel import bdist_wheel

LIBRARY = pathlib.Path("src/latex2mathml_proved/liblatex2mathml.so")


def wanted_glibc():
    """Returns the version of the GNU C library that the shared library requires, such as (2, 14)."""
    symbols = subprocess.run(["objdump", "-T", LIBRARY], check=True, capture_output=True, text=True).stdout
    return max(tuple(map(int, version)) for version in re.findall(r"GLIBC_(\d+)\.(\d+)", symbols))


class PlatformDistribution(Distribution):
    """A distribution that contains more than Python, though it has nothing to compile."""

    def has_ext_modules(self):
        return True


class PlatformWheel(bdist_wheel):
    """A wheel for any Python 3, and for Linux on x86-64 with a C library that is new enough."""

    def get_tag(self):
        if not LIBRARY.exists():
            raise SystemExit("the shared library is missing: tools/make-wheel of the repository makes the wheel")
        major, minor = wanted_glibc()
        return "py3", "none", f"manylinux_{major}_{minor}_x86_64"


setup(distclass=PlatformDistribution, cmdclass={"bdist_wheel": PlatformWheel})
