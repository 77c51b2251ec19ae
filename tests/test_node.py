"""The package for Node and its plugins, in Node."""
import json
import os
import pathlib
import re
import shutil
import unittest

import pytest

from tests import texts
from tests.cases import rows_of_lines
from tests.integration import answer_of, tex_answer_of
from tests.support import ROOT, Case, Has, c_library, each_row, limit, program, requires, run, scratch, tex_program

pytestmark = pytest.mark.long

TESTS = ROOT / "tests/node"
PACKAGES = pathlib.Path("/usr/share/nodejs")  # Debian's
HEADERS = pathlib.Path("/usr/include/node" if pathlib.Path("/usr/include/node").exists() else "/usr/local/include/node")
# scripts of node-gyp: npm has it even if it is not a command
NODE_GYP = [it for it in (pathlib.Path("/usr/lib/node_modules/npm/node_modules/node-gyp/bin/node-gyp.js"), PACKAGES / "node-gyp/bin/node-gyp.js")
            if it.exists()]


class Package(Case):
    """A copy of the package with its addon, built once per class."""

    @classmethod
    def setUpClass(cls):
        cls.folder = cls.enterClassContext(scratch())
        cls.package = cls.copy("the integrations")  # a path may have spaces
        run([cls.package / "make-addon"], check=True)

    @classmethod
    def copy(cls, name):
        """A copy of the package as a clone has it, with the library, in a project that finds it by its name."""
        project = cls.folder / name
        shutil.copytree(ROOT / "integrations/node", project / "node", ignore=shutil.ignore_patterns("build", "lib"))
        shutil.copytree(c_library(), project / "node/lib")
        (project / "node_modules").mkdir()
        (project / "node_modules/latex2mathml-proved").symlink_to(project / "node")
        return project / "node"

    def node(self, *words, package=None, **more):
        """Runs Node, which finds the package, and those of Debian, by their names."""
        modules = (package or self.package).parent / "node_modules"
        told = {"NODE_PATH": f"{modules}:{PACKAGES}", "LATEX2MATHML": str(program()), "TEX2MATHML": str(tex_program())}
        return run(["node", *words], env={**os.environ, **told}, **more)

    def run_tests(self, file):
        """Runs a file of tests by Node's own runner. Each of its tests counts as a case."""
        done = self.node("--test", "--test-reporter=tap", TESTS / file, timeout=300)
        report = done.stdout.decode()
        for result, name, details in re.findall(r"^(ok|not ok) \d+ - (.*)\n((?:  .*\n)*)", report, re.MULTILINE):
            with self.subTest(name):
                # to Node, a file without tests is a test that passes, and so is one that is skipped
                self.assertTrue(result == "ok" and not re.search(f"{file}$| # (SKIP|TODO)", name), details)
        # what the file writes, as a warning, is among the comments before the plan
        written = re.findall(r"^# (?!Subtest: ).*", report.partition("\n1..")[0], re.MULTILINE)
        self.assertEqual((done.returncode, done.stderr, written), (0, b"", []))


@requires("node", "cc")
class Calls(Package):
    def test_calls(self):
        self.run_tests("calls.test.cjs")

    @each_row(rows_of_lines("macros.txt"))
    def has_macros(self, *cases):
        """They are read as in the package for Python, and what is not a macro is refused in the same words."""
        asked = [[json.loads(macros.text), formula.text] for macros, formula, _ in cases]
        answers = json.loads(self.node(TESTS / "macros.cjs", stdin=json.dumps(asked).encode(), check=True).stdout)
        for (macros, _, wanted), answer in zip(cases, answers, strict=True):
            with self.subTest(macros.place):
                self.assertEqual(answer, texts.math(wanted.text).decode() if wanted.text.startswith("<") else wanted.text)

    def test_an_answer_longer_than_a_string(self):
        """It is an error, and not a call that returns nothing. The library here is another one, which asks for that much room."""
        package = self.copy("long")
        library = package / "lib/liblatex2mathml.a"
        library.unlink()
        options = ["-c", "-DNEEDED=(1u << 30)", "-I", package / "lib", "-o", package / "long.o"]
        run(["cc", *options, ROOT / "tests/stub.c"], check=True)
        run(["ar", "rcs", library, package / "long.o"], check=True)
        run([package / "make-addon"], check=True)
        for call in ("tex", "formula", "document"):
            with self.subTest(call):
                done = self.node("-e", f"require('latex2mathml-proved').{call}('x')", package=package)
                self.expect(done, 1, stderr=Has(b"\nRangeError: The answer is longer than a string of Node can be.\n"))

    def test_nothing_is_kept(self):
        """What a call takes is given back, even if it is refused: many calls take no more memory than a few."""
        most = 100 * 300_000
        done = self.node("--expose-gc", TESTS / "memory.cjs", str(most), timeout=300)
        self.expect(done)
        kinds = ("a formula", "a refused formula", "a document", "a refused document", "a formula of an author", "a refused formula of one")
        for kind, grown in zip(kinds, json.loads(done.stdout), strict=True):
            with self.subTest(kind):
                self.assertLess(grown, most)

    def test_no_library(self):
        bare = self.copy("bare")
        shutil.rmtree(bare / "lib")
        self.expect(run([bare / "make-addon"]), 1, stderr=Has(f"there is no {bare}/lib/liblatex2mathml.a".encode()))
        self.expect(run([bare / "make-addon"], env={**os.environ, "LATEX2MATHML_LIB": str(self.package / "lib")}))

    def test_headers_elsewhere(self):
        """NODE_HEADERS names their folder, and they are looked for nowhere else."""
        built, headers = self.copy("beside-headers"), self.folder / "the headers"
        headers.mkdir()
        environment = {**os.environ, "NODE_HEADERS": str(headers)}
        with self.subTest("they are not there"):
            missing = f"make-addon: there is no {headers}/node_api.h; NODE_HEADERS names its folder\n"
            self.expect(run([built / "make-addon"], env=environment), 1, b"", missing.encode())
        with self.subTest("they are there"):
            (headers / "node_api.h").write_text(f'#pragma message "from elsewhere"\n#include "{HEADERS}/node_api.h"\n')
            self.expect(run([built / "make-addon"], env=environment), stderr=Has(b"from elsewhere"))

    @unittest.skipUnless(NODE_GYP, "node-gyp not found")
    def test_node_gyp(self):
        built = self.copy("gyp")
        done = run(["node", NODE_GYP[0], "rebuild", f"--nodedir={HEADERS.parents[1]}"], cwd=built, timeout=300)
        self.assertEqual(done.returncode, 0, done.stderr.decode())
        self.expect(self.node("-p", "require('latex2mathml-proved').formula('x')", package=built), stdout=answer_of("x").encode() + b"\n")

    def test_files_that_the_package_names(self):
        said = json.loads((self.package / "package.json").read_text())
        files = [said["main"], said["types"], *(file for entry in said["exports"].values() for file in entry.values())]
        self.assertEqual([file for file in files if not (self.package / file).is_file()], [])

    def npm(self, *words, cwd):
        return run(["npm", *words], cwd=cwd, env={**os.environ, "npm_config_cache": str(self.folder / "npm-cache")}, timeout=300)

    def install(self, project, package):
        """Installs a folder or a file with npm into an empty project, without a network, and uses it there."""
        project.mkdir()
        done = self.npm("install", "--offline", "--no-audit", "--no-fund", package, cwd=project)
        self.assertEqual(done.returncode, 0, done.stderr.decode())
        for call, answer in (("tex('x_i^2')", tex_answer_of("x_i^2")), ("formula('x')", answer_of("x"))):
            done = run(["node", "-p", f"require('latex2mathml-proved').{call}"], cwd=project)
            self.expect(done, stdout=answer.encode() + b"\n")
        for plugin in ("markdown-it", "remark", "rehype"):
            with self.subTest(plugin):
                done = run(["node", "-p", f"typeof require('latex2mathml-proved/{plugin}')"], cwd=project)
                self.expect(done, stdout=b"function\n")

    @requires("npm")
    def test_npm_from_a_folder(self):
        self.install(self.folder / "project", self.copy("npm"))

    @requires("npm")
    def test_npm_from_a_file(self):
        """What `npm pack` makes has everything that the package needs, and its licence."""
        package = self.copy("packed")
        packed = self.npm("pack", "--silent", cwd=package)
        self.expect(packed, stdout=None)
        self.install(self.folder / "other-project", package / packed.stdout.decode().strip())
        installed = self.folder / "other-project/node_modules/latex2mathml-proved"
        self.assertEqual((installed / "LICENSE").read_bytes(), (ROOT / "LICENSE").read_bytes())
        self.assertFalse(installed.is_symlink())

    def test_the_plugins_of_unified(self):
        self.run_tests("unified.test.cjs")


@requires("node", "cc")
@unittest.skipUnless((PACKAGES / "markdown-it").exists(), "markdown-it not found")
class MarkdownIt(Package):
    def test_the_plugin(self):
        self.run_tests("markdown-it.test.cjs")

    @each_row(rows_of_lines("markdown_it_slow.txt"))
    def are_read(self, *texts):
        for text, in texts:
            with self.subTest(text.place):
                self.expect(self.node(TESTS / "render.cjs", stdin=text.expand(), preexec_fn=limit(CPU=30), timeout=300))

    @requires("tsc")
    def test_declarations(self):
        """TypeScript refuses the calls that `calls.ts` marks, and no others."""
        project, calls = self.package.parent, (TESTS / "calls.ts").read_text()
        (project / "calls.ts").write_text(calls)
        # the types of packages that the system may have are not in such a folder
        flags = ["--noEmit", "--strict", "--lib", "es5", "--typeRoots", "none", "--module", "node16", "--moduleResolution", "node16"]
        done = run(["tsc", *flags, "calls.ts"], cwd=project, timeout=300)
        faults = set(re.findall(r"^(\S.*),\d+\): error", done.stdout.decode(), re.MULTILINE))
        refused = {f"calls.ts({i}" for i, line in enumerate(calls.splitlines(), 1) if "; // " in line}
        self.assertEqual(faults, refused, done.stdout.decode())

    def test_the_example(self):
        done = self.node(self.package / "example.js")
        self.expect(done, stdout=None, stderr=b"example.md:11: {x: { is not closed at 0\n")
        self.assertEqual(done.stdout.count(b"</math>"), 9)
