"""The command `latex2mathml-site`: files, folders and links, and what an interruption, a full disk or a killed process leaves."""
import contextlib
import os
import pathlib
import pty
import random
import resource
import shutil
import signal
import stat
import subprocess
import time

from tests.cases import of_size, rows
from tests.environments import environment, requires_python
from tests.integration import command, site, tex
from tests.runs import files_of
from tests.support import NOBODY, Case, as_nobody, each_row, hear_signals, limit, put, read_terminal, requires, run, scratch

PAGE = "<p>$x$ and \\(y\\)</p>\n"


def summary(pages, changed, formulas, refused=0, what="changed"):
    """A pattern for the last line of a run."""
    def count(number, name):
        return f"{number} {name}{'' if number == 1 else 's'}"
    return (f"latex2mathml-site: {count(pages, 'page')}, {changed} {what}, {count(formulas, 'formula')} converted, {refused} refused, "
            r"[0-9]+\.[0-9] s\n")


def processes_of(group):
    """The processes of a group that have not ended. One that has may stay listed if nobody asks how it ended."""
    found = []
    for path in pathlib.Path("/proc").glob("[0-9]*/stat"):
        with contextlib.suppress(OSError):
            state, _, its_group = path.read_text(errors="replace").rpartition(") ")[2].split()[:3]
            if int(its_group) == group and state not in "ZX":
                found.append(path.parent.name)
    return found


@requires_python()
class Site(Case):
    def setUp(self):
        self.made = "<p>{} and {}</p>\n".format(*tex("x", "y"))

    def put(self, *names, text=PAGE):
        put(self.folder, dict.fromkeys(names, text))

    def run_site(self, *words, status=0, says=None, stderr=b"", **more):
        done = site(*words, cwd=self.folder, **more)
        self.expect(done, status, None, stderr)
        if says:
            self.assertRegex(done.stdout.decode(), f"^{says}$")
        return done

    def holds(self, text, *names):
        for name in names:
            self.assertEqual((self.folder / name).read_text(), text, name)

    def is_clean(self):
        """Nothing that was being written is left."""
        self.assertEqual([it for it in self.folder.rglob("*") if it.name.startswith(".latex2mathml")], [])


class Files(Site):
    def test_into_a_folder(self):
        self.put("in/a.html", "in/b/c.html", "in/b/d.css")
        self.put("in/e.html", text="no formula")
        os.utime(self.folder / "in/e.html", (1000, 1000))
        (self.folder / "in/b/d.css").chmod(0o640)
        (self.folder / "in/a.html").chmod(0o604)
        before = files_of(self.folder / "in")
        self.run_site("in", "new/out", says=summary(3, 3, 4))
        out = files_of(self.folder / "new/out")
        self.assertEqual(files_of(self.folder / "in"), before)
        self.assertEqual(out.keys(), before.keys())
        self.assertEqual([out[name] for name in ("b/d.css", "e.html")], [before[name] for name in ("b/d.css", "e.html")])
        self.assertEqual((out["a.html"][:2], out["b/c.html"][0]), ((self.made.encode(), before["a.html"][1]), self.made.encode()))
        self.run_site("in", "new/out", says=summary(3, 0, 0))
        self.run_site("in", "new/out", "--fresh", says=summary(3, 0, 4))
        self.assertEqual(files_of(self.folder / "new/out"), out)

    def test_the_console_script(self):
        self.put("a.html")
        self.expect(run([environment().parent / "latex2mathml-site", "a.html"], cwd=self.folder), 0, None)
        self.holds(self.made, "a.html")

    def test_many_pages(self):
        """Several processes produce the same as one does, and report what is refused in the same order."""
        for number in range(200):
            self.put(f"in/{number % 7}/{number}.html", text=f"${number}$ $\\foo$" if number % 50 == 0 else f"${number}$")
        one = self.run_site("in", "one", "--jobs", "1", says=summary(200, 200, 200, 4), stderr=None)
        four = self.run_site("in", "four", "--jobs", "4", says=summary(200, 200, 200, 4), stderr=None)
        self.assertEqual(one.stderr, four.stderr)
        made = [{name: held for name, (held, *_) in files_of(self.folder / out).items()} for out in ("one", "four")]
        self.assertEqual(len(made[0]), 200)
        self.assertEqual(*made)

    def test_rights(self):
        """The page has those of the previous page, and its owner."""
        self.put("a.html")
        (self.folder / "a.html").chmod(0o646)
        if not os.geteuid():
            os.chown(self.folder / "a.html", NOBODY, NOBODY)
        owner = (self.folder / "a.html").stat().st_uid
        self.run_site(".")
        about = (self.folder / "a.html").stat()
        self.assertEqual((stat.S_IMODE(about.st_mode), about.st_uid), (0o646, owner))
        self.holds(self.made, "a.html")

    def test_progress(self):
        """A terminal shows the progress of a long run, and nothing of that at its end. This run counts as long from the start."""
        self.put(*(f"{number}.html" for number in range(3)))
        reader, writer = pty.openpty()
        impatient = "from latex2mathml_proved.site import command; command.PATIENCE = command.PERIOD = 0; command.script()"
        words = [environment(), "-c", impatient, ".", "--jobs", "1"]
        with subprocess.Popen(words, cwd=self.folder, stdout=subprocess.DEVNULL, stderr=writer) as running:
            os.close(writer)
            shown = read_terminal(reader)
        self.assertEqual(running.returncode, 0)
        steps = "".join(f"\rlatex2mathml-site: {number} of 3 pages\x1b[K" for number in range(3))
        self.assertEqual(shown, f"{steps}\r\x1b[K")


class Names(Site):
    def test_two_names_of_a_file(self):
        """Each of them has the converted page."""
        self.put("a.html")
        os.link(self.folder / "a.html", self.folder / "b.html")
        self.run_site(".", says=summary(2, 2, 4))
        self.holds(self.made, "a.html", "b.html")

    def test_names_that_are_no_text(self):
        # each, and how it is reported
        names = {b"\xff.html": b"\\xff.html", b"a\nb.html": b"a\\nb.html", b"\x1b[31m.html": b"\\x1b[31m.html",
                 **{it: it for it in (b"-x.html", "é ü.html".encode(), b"x" * 250 + b".html")}}
        self.put(*names, text="$x$ $\\foo$")
        done = self.run_site(".", says=summary(len(names), len(names), len(names), len(names)), stderr=None)
        for told in names.values():
            self.assertIn(told + b":1:6: \\foo: unknown command \\foo\n", done.stderr)
        self.assertEqual({os.fsencode(it.name) for it in self.folder.iterdir()}, set(names))
        for file in self.folder.iterdir():
            self.assertTrue(file.read_text().startswith(tex("x")[0]))
        self.run_site(".", says=summary(len(names), 0, 0, len(names)), stderr=None)

    def test_what_is_no_file(self):
        self.put("a.html")
        os.mkfifo(self.folder / "b.html")
        (self.folder / "c.html").mkdir()
        self.run_site(".", says=summary(1, 1, 2))


class Hostile(Site):
    def test_binary_files(self):
        binary = {"a.html": bytes(range(256)) * 40, "c.html": random.Random(1).randbytes(100_000), "d.html": "$x$".encode("utf-16")}
        put(self.folder, {**binary, "b.html": b"\0" * 5000 + b"$x$"})
        done = self.run_site(".", stderr=None)
        for name, content in binary.items():
            self.assertIn(f"{name}: not UTF-8: left as it is\n".encode(), done.stderr)
            self.assertEqual((self.folder / name).read_bytes(), content)
        self.assertEqual((self.folder / "b.html").read_bytes(), b"\0" * 5000 + tex("x")[0].encode())

    def test_50_megabytes(self):
        part = f"<p>a $x$ b &amp; <code>$x$</code> é</p>\n<p>{'prose and &lt; prose again ' * 40}</p>\n"
        count = 50_000_000 // len(part)
        self.put("a.html", text=part * count)
        self.run_site(".", says=summary(1, 1, count), timeout=600)
        self.assertEqual((self.folder / "a.html").read_text(), part.replace("$x$", tex("x")[0], 1) * count)

    @each_row({f"pages with many {key}": (of_size(text),) for _, key, text in rows("site_slow.txt")})
    def is_read(self, text):
        """Time grows with the length of a page, whatever it contains."""
        self.put("a.html", text=text(300_000))
        before = resource.getrusage(resource.RUSAGE_CHILDREN)
        self.run_site("a.html", "b.html", stderr=None)
        after = resource.getrusage(resource.RUSAGE_CHILDREN)
        self.assertLess(after.ru_utime - before.ru_utime, 15)

    def test_what_may_only_be_read(self):
        """It is reported, stays as it is, and everything else is converted."""
        self.put("a.html", "b/c.html", "d.html", "e/f.html")
        (self.folder / "a.html").chmod(0o444)
        (self.folder / "b").chmod(0o555)
        (self.folder / "e").chmod(0o000)
        other = as_nobody(self.folder)
        # a Python that everyone may run
        [packages] = environment().parent.parent.glob("lib/python*/site-packages")
        copy = self.enterContext(scratch())
        copy.chmod(0o755)
        shutil.copytree(packages / "latex2mathml_proved", copy / "latex2mathml_proved")
        done = run(["/usr/bin/python3", "-B", "-m", "latex2mathml_proved", "site", "."], cwd=self.folder,
                   env={"PYTHONPATH": str(copy), "XDG_CACHE_HOME": "/nowhere"}, **other)
        (self.folder / "e").chmod(0o755)
        self.expect(done, 1, None, b"e: Permission denied\na.html: Permission denied\nb/c.html: Permission denied\n")
        self.holds(PAGE, "a.html", "b/c.html", "e/f.html")
        self.holds(self.made, "d.html")
        self.is_clean()

    def test_a_full_disk(self):
        """If this user may not mount devices, a limit on the size of a file replaces the device. No page is lost, and a run with
        more room converts the rest."""
        device = self.folder / "device"
        device.mkdir()
        is_mounted = not run(["mount", "-t", "tmpfs", "-o", "size=400k", "tmpfs", device]).returncode
        if is_mounted:
            self.addCleanup(run, ["umount", device])
        limited = None if is_mounted else limit(FSIZE=20_000)
        reason = b"No space left on device" if is_mounted else b"File too large"
        text, made = PAGE * 200, self.made * 200
        names = [f"device/{number}.html" for number in range(20)]
        self.put(*names, text=text)
        self.put("device/small.html")
        for words in (["--jobs", "1"], ["--jobs", "4"], ["--strict"]):
            with self.subTest(words):
                done = self.run_site("device", *words, status=1, stderr=None, preexec_fn=limited)
                self.assertIn(b".html: " + reason + b"\n", done.stderr)
                found = {(self.folder / name).read_text() for name in names}
                self.assertLessEqual(found, {text, made})
                self.assertIn(text, found)
                self.is_clean()
        if is_mounted:
            self.expect(run(["mount", "-o", "remount,size=8m", "tmpfs", device]))
        self.run_site("device")
        self.holds(made, *names)

    def whole(self, names, text, made):
        """Each page is the old one or the new one. Returns how many are new."""
        found = [(self.folder / name).read_text() for name in names]
        self.assertLessEqual(set(found), {text, made})
        return found.count(made)

    def wait_until(self, condition, running):
        """Waits until something is so, or a process has ended."""
        self.wait_for(lambda: condition() or running.poll() is not None, seconds=300, pause=0.002)

    def changed(self, names, text):
        """How many pages are not what they were."""
        return sum((self.folder / name).stat().st_size != len(text) for name in names)

    def waiting(self):
        """How many new pages wait to be moved into place."""
        return len(list(self.folder.rglob(".latex2mathml-*")))

    def test_killed_at_30_moments(self):
        """Pages are whole, and the next run removes what was being written, and converts the rest."""
        text, made = PAGE * 300, self.made * 300
        names = [f"{number % 5}/{number}.html" for number in range(60)]
        moments, counts = random.Random(7), []
        for turn in range(30):
            self.put(*names, text=text)
            is_strict, moment = turn % 3 == 0, moments.randrange(len(names))
            words = command(".", "--jobs", "2", *(["--strict"] if is_strict else []))
            quiet = {"stdout": subprocess.DEVNULL, "stderr": subprocess.DEVNULL}
            with subprocess.Popen(words, cwd=self.folder, start_new_session=True, **quiet) as running:
                self.wait_until(lambda: (self.waiting() if is_strict else self.changed(names, text)) >= moment, running)
                time.sleep(moments.random() * 0.02)
                running.kill()
            self.wait_for_the_end_of(running.pid)
            counts.append(self.whole(names, text, made))
        self.assertGreater(len(set(counts)), 5, f"the moments were alike: {counts}")
        self.run_site(".", timeout=600)
        self.assertEqual(self.whole(names, text, made), len(names))
        self.is_clean()

    def wait_for_the_end_of(self, group):
        """The processes that a run has started end soon after it."""
        end = time.monotonic() + 120
        while processes_of(group):
            if time.monotonic() > end:
                os.killpg(group, signal.SIGKILL)
                self.fail("processes have outlived the run that began them")
            time.sleep(0.02)

    def test_interrupted(self):
        """By Ctrl-C, which all processes of a terminal receive, and by other signals. Nothing that was being written is left."""
        for number, words in ((signal.SIGINT, []), (signal.SIGINT, ["--jobs", "1"]), (signal.SIGINT, ["--strict"]), (signal.SIGTERM, []),
                              (signal.SIGHUP, ["--jobs", "1"]), (signal.SIGINT, [f"{self.folder}.out"])):
            with self.subTest(words, number=number):
                # if the run has ended before the signal, a longer one is tried
                self.assertTrue(any(self.is_interrupted(number, words, length) for length in (300, 3_000, 15_000)))

    def is_interrupted(self, number, words, length):
        """Ends a run over pages of this many lines by a signal, looks at what it leaves, and says whether it was under way."""
        text, made = PAGE * length, self.made * length
        names = [f"{page}.html" for page in range(60)]
        out = pathlib.Path(f"{self.folder}.out")
        self.addCleanup(shutil.rmtree, out, ignore_errors=True)
        self.put(*names, text=text)
        with subprocess.Popen(command(".", "--fresh", *words), cwd=self.folder, stdout=subprocess.PIPE, stderr=subprocess.PIPE,
                              start_new_session=True, preexec_fn=hear_signals) as running:
            self.wait_until(lambda: self.changed(names, text) + self.waiting() + (out.exists() and len(os.listdir(out))) > 5, running)
            with contextlib.suppress(ProcessLookupError):
                os.killpg(running.pid, number)
            said = running.communicate(timeout=300)
        self.wait_for_the_end_of(running.pid)
        count = self.whole(names, text, made)
        if not running.returncode:
            shutil.rmtree(out, ignore_errors=True)
            return False
        self.assertEqual((running.returncode, said), (130, (b"", b"latex2mathml-site: interrupted\n")))
        if "--strict" in words or str(out) in words:
            self.assertEqual(count, 0)
        else:
            self.assertGreater(count, 0)
        self.is_clean()
        return count < len(names)

    @requires("python:watchdog")
    def test_watching(self):
        self.put("a.html")
        with subprocess.Popen([environment("watchdog"), *command(".", "--watch")[1:]], cwd=self.folder, stdout=subprocess.PIPE,
                              stderr=subprocess.PIPE, preexec_fn=hear_signals) as running:
            try:
                self.assertRegex(running.stdout.readline().decode(), summary(1, 1, 2))
                self.put("b/c.html")
                self.assertRegex(running.stdout.readline().decode(), summary(2, 1, 2))
                self.holds(self.made, "b/c.html")
                self.put("a.html", text="$\\foo$")
                self.assertRegex(running.stdout.readline().decode(), summary(2, 1, 0, 1))
                self.assertEqual(running.stderr.readline(), b"a.html:1:2: \\foo: unknown command \\foo\n")
            finally:
                running.send_signal(signal.SIGINT)
                said = running.communicate(timeout=300)[1]
        self.assertEqual((running.returncode, said), (130, b"latex2mathml-site: interrupted\n"))
