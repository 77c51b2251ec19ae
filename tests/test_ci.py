"""What runs on a machine for checks: `.ci/run` installs what the tests use, and has `./test` skip nothing.

`./test`, `apt-get` and what queries the system are replaced by other programs here, those of `tests/fakes/ci`.
"""
import shutil

from tests.support import Case, Has, ROOT, each_row, link_tools, put, run, scratch

PACKAGES = "# a remark\nhere\nmissing # behind a package too\n\nlost\n"
INSTALL = "install --no-install-recommends"

FAKES = ROOT / "tests/fakes/ci"


class Run(Case):
    def setUp(self):
        self.house = self.folder / "a house"  # a path may have spaces
        shutil.copytree(ROOT / ".ci", self.house / ".ci")
        test = '#!/bin/sh\necho "skips nothing: $LATEX2MATHML_SKIP_NOTHING"; exit ${STATUS:-0}\n'
        put(self.house, {".ci/packages": PACKAGES, "test": test})
        put(self.folder / "bin", {name: (FAKES / name).read_text() for name in ("id", "dpkg-query", "apt-get")})
        link_tools(self.folder / "bin", "sh", "dirname", "sed", "grep", "timeout", "date")

    def run_ci(self, stdout, stderr=None, status=0, **environment):
        """What `.ci/run` calls apt-get for, where its status and its streams are these."""
        put(self.folder, {"calls": ""})
        told = {"PATH": str(self.folder / "bin"), "CALLS": str(self.folder / "calls"), **environment}
        self.expect(run([self.house / ".ci/run"], env=told), status, stdout, stderr)
        return (self.folder / "calls").read_text().splitlines()

    @each_row({
        "what is missing": (PACKAGES, {}, b"1", None, ["update", f"{INSTALL} missing lost"]),
        "nothing is missing": ("here\n", {}, b"1", b"", []),
        # another package brought the file of the first
        "a file that is there": ("missing {0}/test\nlost {0}/nothing\n", {}, b"1", None, ["update", f"{INSTALL} lost"]),
        # `./test` runs, in which whatever needs it fails
        "one cannot be installed": (PACKAGES, {"NOT_THERE": "lost"}, b"1", Has(b"lost could not be installed"),
                                    ["update", f"{INSTALL} missing lost", f"{INSTALL} missing", f"{INSTALL} lost"]),
        # cases whose tool is missing are skipped and listed by name
        "by no root": (PACKAGES, {"USER_ID": "1000"}, b"", None, []),
        "without a network": (PACKAGES, {"NOT_THERE": "install"}, b"", None,
                              ["update", f"{INSTALL} missing lost", f"{INSTALL} missing", f"{INSTALL} lost"]),
    })
    def installs(self, packages, environment, skips_nothing, stderr, calls):
        (self.house / ".ci/packages").write_text(packages.format(self.house))
        self.assertEqual(self.run_ci(b"skips nothing: %s\n" % skips_nothing, stderr, **environment), calls)

    def test_without_apt_get(self):
        (self.folder / "bin/apt-get").unlink()
        self.assertEqual(self.run_ci(b"skips nothing: \n"), [])

    def test_a_network_that_never_answers(self):
        """Once a quarter of an hour is over, no other package is tried alone."""
        (self.folder / "bin/date").unlink()
        put(self.folder, {"bin/date": (FAKES / "slow-date").read_text()})
        calls = self.run_ci(b"skips nothing: \n", Has(b"lost could not be installed"), NOT_THERE="install")
        self.assertEqual(calls[2:], [f"{INSTALL} missing"])

    def test_the_status(self):
        self.run_ci(None, status=1, STATUS="1")


class Pytest(Case):
    """`./test` looks for a Python that has pytest, and installs it if it may."""

    def run_test(self, install, is_there=False):
        """What `./test` does if `.ci/install` is this command, and which packages that command was to install."""
        house = self.enterContext(scratch())
        put(house, {"test": (ROOT / "test").read_text(), ".ci/install": f'#!/bin/sh\necho "$*" >installed; {install}\n',
                    "python": '#!/bin/sh\ncase $1 in -c) test -e has-pytest ;; *) echo "ran: $*" ;; esac\n'})
        if is_there:
            (house / "has-pytest").touch()
        done = run([house / "test", "test_c", "-x"], env={"PATH": "/usr/bin:/bin", "PYTHON": str(house / "python")})
        asked = house / "installed"
        return done, asked.read_text().split() if asked.exists() else []

    @each_row({"it is there": ("exit 1", True), "it is installed": ("touch has-pytest", False)})
    def runs(self, install, is_there):
        done, packages = self.run_test(install, is_there)
        self.expect(done, stdout=b"ran: -B -m tests test_c -x\n")
        self.assertEqual("python3-pytest" in packages, not is_there)
        self.assertLessEqual(set(packages), set((ROOT / ".ci/packages").read_text().split()))

    @each_row({"it cannot be installed": ("exit 1",), "it is not there even then": ("exit 0",)})
    def is_told(self, install):
        done, packages = self.run_test(install)
        self.expect(done, 1, b"", Has(f"apt-get install {' '.join(packages)}\n".encode()))
