"""The package for Debian, the source distribution, and what all packages say about themselves."""
import functools
import hashlib
import json
import os
import re
import shutil
import tarfile
import tomllib

import pytest

from tests.environments import interpreter, requires_python
from tests.integration import tex
from tests.support import ROOT, Case, Has, dist, link_tools, newest_version, put, requires, run

pytestmark = pytest.mark.long

COMMANDS = ("latex2mathml", "tex2mathml", "latex2mathml-site")

PYTHON = "usr/lib/python3/dist-packages"


def about():
    """What the packages say about themselves."""
    text = (ROOT / "packaging/about").read_text(encoding="utf-8")
    return {name: value.strip("'") for name, value in re.findall(r"^([A-Z]+)=(.*)$", text, re.MULTILINE)}


@requires("cc", "objdump", "ldd", "dpkg-deb", "pandoc")
@requires_python()
class Packages(Case):
    @classmethod
    def setUpClass(cls):
        cls.dist, cls.version = dist(), newest_version()
        cls.package = cls.dist / f"latex2mathml_{cls.version}_amd64.deb"

    @functools.cached_property
    def root(self):
        """A folder with the contents of the package, as an installer unpacks it."""
        self.expect(run(["dpkg-deb", "--extract", self.package, self.folder / "root"]))
        return self.folder / "root"

    def test_it_is_made(self):
        self.assertTrue(self.package.exists())

    @requires("lintian")
    def test_lintian(self):
        done = run(["lintian", "--allow-root", "--fail-on", "error", self.package], timeout=600)
        self.expect(done, 0, None, None)
        self.assertEqual(re.findall(r"^E: .*$", done.stdout.decode(), re.MULTILINE), [])

    def test_files(self):
        for name in ("lib/x86_64-linux-gnu/liblatex2mathml.a", "lib/x86_64-linux-gnu/liblatex2mathml.so.0", "include/latex2mathml.h",
                     "lib/x86_64-linux-gnu/pkgconfig/latex2mathml.pc", "share/latex2mathml/page/latex2mathml.css",
                     "share/latex2mathml/page/latex2mathml.js", "share/doc/latex2mathml/copyright", "share/zsh/vendor-completions/_latex2mathml",
                     *(f"bin/{it}" for it in COMMANDS), *(f"share/man/man1/{it}.1.gz" for it in COMMANDS),
                     *(f"share/bash-completion/completions/{it}" for it in COMMANDS), *(f"share/fish/vendor_completions.d/{it}.fish" for it in COMMANDS)):
            with self.subTest(name):
                self.assertTrue((self.root / "usr" / name).is_file())

    def test_what_is_installed_works(self):
        """The programs, the command for sites, the package for Python, and a program in C that pkg-config finds the library for."""
        programs, site = self.root / "usr/bin", self.folder / "site"
        [line, block] = tex("x_i^2", ["x", True])
        self.expect(run([programs / "tex2mathml"], stdin=b"x_i^2"), stdout=f"{line}\n".encode())
        self.expect(run([programs / "tex2mathml", "--version"]), stdout=f"tex2mathml {self.version}\n".encode())
        self.expect(run([programs / "latex2mathml", "inline"], stdin=b"x<y"), stdout=None)
        put(site, {"a.html": "<p>$x_i^2$ \\[x\\] $5 and $6</p>"})
        python = {"PYTHONPATH": str(self.root / PYTHON), "PATH": os.environ["PATH"], "XDG_CACHE_HOME": str(site / "cache")}
        self.expect(run([programs / "latex2mathml-site", site], env=python), stdout=None)
        self.assertEqual((site / "a.html").read_text(), f"<p>{line} {block} $5 and $6</p>")

    @requires("pkg-config")
    def test_a_program_in_c(self):
        """pkg-config says how to build it, and it requests the library by its SONAME."""
        libraries, program = self.root / "usr/lib/x86_64-linux-gnu", self.root / "formula"
        environment = {**os.environ, "PKG_CONFIG_PATH": str(libraries / "pkgconfig"), "PKG_CONFIG_SYSROOT_DIR": str(self.root)}
        asked = run(["pkg-config", "--modversion", "--print-errors", "latex2mathml"], env=environment)
        self.expect(asked, stdout=f"{self.version}\n".encode())
        environment |= {"PKG_CONFIG_ALLOW_SYSTEM_CFLAGS": "1", "PKG_CONFIG_ALLOW_SYSTEM_LIBS": "1"}
        flags = run(["pkg-config", "--cflags", "--libs", "latex2mathml"], env=environment).stdout.decode().split()
        self.expect(run(["cc", ROOT / "crates/latex2mathml_c/examples/formula.c", "-o", program, *flags]))
        self.assertIn(b"[liblatex2mathml.so.0]", run(["readelf", "--dynamic", program]).stdout)
        self.expect(run([program, "x<y"], env={"LD_LIBRARY_PATH": str(libraries)}), stdout=Has(b"<mo>&lt;</mo>"))

    @requires("dpkg", "fakeroot")
    def test_it_is_installed_and_removed(self):
        """By Debian's own program, into the folder of a system with nothing else in it. Nothing of the package is left."""
        root = self.folder
        # what it requires there
        for name in ("info", "updates", "triggers"):
            (root / "var/lib/dpkg" / name).mkdir(parents=True)
        put(root / "var/lib/dpkg", {"status": "", "available": ""})
        # its scripts belong to a system with Python, and have a test of their own
        dpkg = ["fakeroot", "dpkg", f"--root={root}", "--force-not-root", "--force-depends", "--force-script-chrootless", "--log=/dev/null"]
        environment = {**os.environ, "DPKG_ROOT": str(root), "PATH": f"{os.environ['PATH']}:/usr/sbin:/sbin"}
        self.expect(run([*dpkg, "--install", self.package], env=environment, timeout=300), stdout=None, stderr=None)
        self.assertTrue((root / "usr/bin/latex2mathml-site").exists())
        state = run(["dpkg-query", f"--admindir={root}/var/lib/dpkg", "-W", "-f", "${Status} ${Version}", "latex2mathml"])
        self.expect(state, stdout=f"install ok installed {self.version}".encode())
        self.expect(run([*dpkg, "--purge", "latex2mathml"], env=environment, timeout=300), stdout=None, stderr=None)
        self.assertEqual([it for it in root.rglob("*") if it.is_file() and "var/lib/dpkg" not in str(it)], [])

    @requires("man", "mandb")
    def test_man_pages(self):
        """They are read without a warning, and have what the READMEs say."""
        for name, words in (("latex2mathml", ["inline", "cp -RL site site.new"]), ("tex2mathml", ["--definitions FILE", "macros.tex:1:1"]),
                            ("latex2mathml-site", ["--dollars off", "macros.tex:3:1: not a definition", "latex2mathml-refused"])):
            with self.subTest(name):
                page = self.root / f"usr/share/man/man1/{name}.1.gz"
                done = run(["man", "--warnings", "-E", "UTF-8", "-l", page], env={"MANWIDTH": "120", "PATH": os.environ["PATH"], "LC_ALL": "C.UTF-8"})
                self.expect(done, stdout=None)
                text = re.sub(r".\x08", "", done.stdout.decode())
                for word in words:
                    self.assertIn(word, text)

    @requires("bash")
    def test_completions(self):
        """bash offers each option that a command has, and no other."""
        share = self.root / "usr/share"
        bash = share / "bash-completion/completions"
        for name, typed, offered in (
                ("latex2mathml", ["d"], ["document"]), ("tex2mathml", ["--display", "i"], ["inline"]), ("tex2mathml", ["--nu"], ["--null"]),
                ("latex2mathml-site", ["--dollars", "o"], ["on", "off"]), ("latex2mathml-site", ["--st"], ["--strict"])):
            with self.subTest((name, typed)):
                script = (f". {bash / name}; COMP_WORDS=({name} {' '.join(typed)}); COMP_CWORD={len(typed)}; "
                          f"_{name.replace('-', '_')}; printf '%s\\n' \"${{COMPREPLY[@]}}\"")
                self.expect(run(["bash", "-c", script]), stdout="".join(f"{it}\n" for it in offered).encode())
        usage = run([interpreter("ensurepip"), "-B", "-m", "latex2mathml_proved", "site", "--help"],
                    env={"PYTHONPATH": str(self.root / PYTHON)}).stdout.decode()
        options = set(re.findall(r"--[a-z]+", usage))
        for path, pattern in ((bash / "latex2mathml-site", r"--[a-z]+(?= |')"),
                              (share / "fish/vendor_completions.d/latex2mathml-site.fish", r"-l ([a-z]+)")):
            with self.subTest(path.name):
                named = {it if it.startswith("--") else f"--{it}" for it in re.findall(pattern, path.read_text())}
                self.assertEqual(named, options)

    def test_source_distribution(self):
        """A wheel that is made from it alone is the same as the one that is there."""
        [source] = (self.dist / "integrations/python").glob("*.tar.gz")
        [wheel] = (self.dist / "integrations/python").glob("*.whl")
        with tarfile.open(source) as packed:
            packed.extractall(self.folder)
        [unpacked] = self.folder.iterdir()
        for name in ("README.md", "LICENSE", "examples/sphinx/conf.py", "src/latex2mathml_proved/site/command.py"):
            self.assertTrue((unpacked / name).is_file(), msg=name)
        done = run([interpreter("pip", "setuptools", "wheel"), "-m", "pip", "wheel", "--quiet", "--no-index", "--no-build-isolation", "--no-deps",
                    "--wheel-dir", self.folder / "made", unpacked], timeout=300)
        self.expect(done, 0, None, None)
        self.assertEqual([it.name for it in (self.folder / "made").iterdir()], [wheel.name])

    def test_checksums(self):
        named = dict(reversed(line.split("  ")) for line in (self.dist / "SHA256SUMS").read_text(encoding="utf-8").splitlines())
        files = {str(it.relative_to(self.dist)): it for it in self.dist.rglob("*") if it.is_file() and not it.is_symlink()}
        del files["SHA256SUMS"]
        self.assertEqual(named, {name: hashlib.sha256(it.read_bytes()).hexdigest() for name, it in files.items()})

    @requires("node")
    def test_the_package_for_node_without_a_compiler(self):
        """It has an addon that was built before."""
        package = self.folder / "node"
        shutil.copytree(self.dist / "integrations/node", package)
        done = run([package / "make-addon"], env={"PATH": str(link_tools(self.folder / "bin", "sh", "dirname"))})
        self.expect(done, 0, b"", b"make-addon: there is no cc, so the addon that came with the package is used\n")
        self.assertFalse((package / "build").exists())
        [formula] = tex("x_i^2")
        self.expect(run(["node", "-p", f"require('{package}').tex('x_i^2')"]), stdout=f"{formula}\n".encode())

    def test_three_commands(self):
        """What a new user types: install the wheel, convert a folder, and look at a page, with nothing of the toolchain."""
        put(self.folder, {"public/index.html": "<p>$x_i^2$</p>"})
        self.expect(run([interpreter("ensurepip"), "-m", "venv", self.folder / "venv"], timeout=300))
        [wheel] = (self.dist / "integrations/python").glob("*.whl")
        environment = {"PATH": f"{self.folder}/venv/bin:/usr/bin:/bin", "XDG_CACHE_HOME": str(self.folder / "cache")}
        for command in (f"pip install --quiet --disable-pip-version-check --no-index '{wheel}'", "latex2mathml-site public", "cat public/index.html"):
            done = run(["sh", "-c", command], cwd=self.folder, env=environment, timeout=300)
            self.expect(done, 0, None)
        self.assertEqual(done.stdout.decode(), "<p>{}</p>".format(*tex("x_i^2")))


class Metadata(Case):
    """All packages say the same about who made them, and where they are."""

    def test_python(self):
        project = tomllib.loads((ROOT / "integrations/python/pyproject.toml").read_text(encoding="utf-8"))["project"]
        self.assertEqual(project["authors"], [{"name": about()["MAINTAINER"], "email": about()["EMAIL"]}])
        self.assertEqual(project["urls"]["Homepage"], about()["URL"])
        self.assertEqual(project["scripts"], {"latex2mathml-site": "latex2mathml_proved.site.command:script"})

    def test_node(self):
        package = json.loads((ROOT / "integrations/node/package.json").read_text(encoding="utf-8"))
        self.assertEqual(package["author"], "{MAINTAINER} <{EMAIL}>".format(**about()))
        self.assertEqual((package["homepage"], package["repository"]["url"]), (about()["URL"], f"git+{about()['URL']}.git"))
        self.assertTrue(package["keywords"])

    def test_rust(self):
        package = tomllib.loads((ROOT / "integrations/rust/Cargo.toml").read_text(encoding="utf-8"))["package"]
        self.assertEqual((package["authors"], package["repository"]), (["{MAINTAINER} <{EMAIL}>".format(**about())], about()["URL"]))
        self.assertTrue(package["documentation"].startswith(about()["URL"]))
