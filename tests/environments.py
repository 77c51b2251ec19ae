"""Virtual environments of Python with the package of integrations/python, as users have them."""
import functools
import importlib
import json
import os
import shutil
import subprocess
import sys
import unittest

from tests.support import ROOT, c_library, made_once, once, run, run_folder


@functools.cache
def interpreter(*modules):
    """A Python that has these modules: the one that runs the tests, or the system's. None if neither has them."""
    finds = f"import importlib.util, sys; sys.exit(not all(map(importlib.util.find_spec, {modules!r})))"
    for python in (sys.executable, "/usr/bin/python3"):
        if shutil.which(python) and subprocess.run([python, "-c", finds], timeout=60).returncode == 0:
            return python
    return None


def requires_python(*modules):
    """Skips a case or a class if no Python has these modules and those that make wheels and environments."""
    lacking = [it for it in ("ensurepip", *modules) if not interpreter(it)]
    lacking += ["pip, setuptools and wheel"] if not interpreter("pip", "setuptools", "wheel") else []
    lacking += ["objdump"] if not shutil.which("objdump") else []
    return unittest.skipIf(lacking, f"Python's {', '.join(lacking)} not found")


@functools.cache
def wheel():
    """The path of the wheel, which is made once per run."""
    [made] = made_once("wheel", ROOT / "tools/make-wheel", c_library()).glob("*.whl")
    return made


def proved(module=""):
    """A module of the package, as its wheel has it: imported here, where nothing of the checkout is on the path."""
    folder = str(made_once("package", sys.executable, "-m", "zipfile", "-e", wheel()))
    if folder not in sys.path:
        sys.path.append(folder)
    return importlib.import_module(f"latex2mathml_proved{module}")


@functools.cache
def environment(*modules):
    """The Python of a fresh virtual environment in which the wheel was installed: with what the system has, if modules of it are
    named, and otherwise with nothing else."""
    name = f"environment-{'-'.join(modules)}"
    folder = run_folder() / name
    package = wheel()
    with once(name):
        if not (folder / "whole").exists():
            see_system = ["--system-site-packages"] if modules else []
            for words in ([interpreter("ensurepip", *modules), "-m", "venv", *see_system, folder],
                          [folder / "bin/pip", "--quiet", "--disable-pip-version-check", "install", "--no-index", package]):
                subprocess.run(words, stdin=subprocess.DEVNULL, check=True, timeout=300)
            (folder / "whole").touch()
    return folder / "bin/python"


def run_python(python, *words, **more):
    """Runs a Python as a user's shell does, with nothing of the checkout on its path."""
    kept = {name: value for name, value in os.environ.items() if not name.startswith("PYTHON")}
    return run([python, *words], env={**kept, "PYTHONWARNINGS": "ignore::DeprecationWarning"}, **{"cwd": run_folder(), **more})


def ask(python, script, *questions, **more):
    """The answers of the function `answer` of a script to each question: a list of its arguments, or its only one."""
    questions = json.dumps([it if isinstance(it, list) else [it] for it in questions])
    whole = f"{script}\nimport json, sys\nprint(json.dumps([answer(*it) for it in json.load(sys.stdin)]))"
    done = run_python(python, "-c", whole, stdin=questions.encode(), **more)
    if done.returncode:
        raise AssertionError(f"the script ended with status {done.returncode}:\n{done.stderr.decode()}")
    return json.loads(done.stdout)
