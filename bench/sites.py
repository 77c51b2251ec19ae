"""Measures `latex2mathml-site` over pages of real documentation, and KaTeX over the same pages.

    python3 bench/sites.py FOLDER [--pages N] [--times N] [--python PYTHON]
"""
import argparse
import json
import os
import pathlib
import re
import resource
import shutil
import subprocess
import sys
import tempfile
import time

HERE = pathlib.Path(__file__).resolve().parent

# KaTeX for each formula between \( and \), or \[ and \], of the pages that are named on standard input. It gets what the page has
# there, without HTML's references, and finds formulas by the same delimiters. So it parses no HTML, which is less work.
KATEX = r"""
const fs = require('fs');
const katex = require('katex');
const FORMULA = /\\\(((?:\\[^(]|[^\\])+?)\\\)|\\\[((?:\\[^[]|[^\\])+?)\\\]/g;
const SIGNS = { '&lt;': '<', '&gt;': '>', '&amp;': '&', '&quot;': '"', '&#39;': "'", '&#x27;': "'" };
let formulas = 0, refused = 0, bytes = 0;
for (const file of fs.readFileSync(0, 'utf8').split('\0').filter(Boolean)) {
    const page = fs.readFileSync(file, 'utf8');
    const made = page.replace(FORMULA, (whole, inline, block) => {
        const latex = (inline ?? block).replace(/&(?:lt|gt|amp|quot|#39|#x27);/g, it => SIGNS[it]);
        formulas++;
        try {
            return katex.renderToString(latex, { displayMode: block !== undefined, output: process.argv[1] });
        } catch {
            refused++;
            return whole;
        }
    });
    if (made !== page) fs.writeFileSync(file, made);
    bytes += Buffer.byteLength(made);
}
console.log(JSON.stringify({ formulas, refused, bytes }));
"""


# The same with KaTeX's own search for formulas, `auto-render`, over jsdom, which parses each page and writes it again.
AUTO_RENDER = r"""
const fs = require('fs');
const { JSDOM } = require('jsdom');
let formulas = 0, refused = 0, bytes = 0;
const dom = new JSDOM('<!DOCTYPE html>');
for (const name of ['document', 'Node']) global[name] = dom.window[name];
global.window = dom.window;
const render = require('katex/dist/contrib/auto-render.js');
const delimiters = [{ left: '\\(', right: '\\)', display: false }, { left: '\\[', right: '\\]', display: true }];
for (const file of fs.readFileSync(0, 'utf8').split('\0').filter(Boolean)) {
    const page = new JSDOM(fs.readFileSync(file, 'utf8'));
    global.document = page.window.document;
    render(document.body, { delimiters, output: process.argv[1], throwOnError: true, errorCallback: () => refused++ });
    formulas += document.querySelectorAll('.katex').length;
    const made = page.serialize();
    fs.writeFileSync(file, made);
    bytes += Buffer.byteLength(made);
    page.window.close();
}
console.log(JSON.stringify({ formulas, refused, bytes }));
"""


def pages_of(folder, count):
    """Returns the pages, those with formulas first, so that as few as the number allows have none."""
    found = sorted(pathlib.Path(folder).rglob("*.html"))
    with_formulas = [it for it in found if re.search(rb"\\[(\[]", it.read_bytes())]
    others = [it for it in found if it not in set(with_formulas)]
    return (with_formulas + others)[:count], len(with_formulas)


def copied(pages, folder, to):
    for page in pages:
        target = to / page.relative_to(folder)
        target.parent.mkdir(parents=True, exist_ok=True)
        shutil.copyfile(page, target)


def measured(words, **more):
    """Returns the wall-clock seconds, the processor seconds and the output of a command."""
    before, begun = resource.getrusage(resource.RUSAGE_CHILDREN), time.perf_counter()
    done = subprocess.run(words, check=True, stdout=subprocess.PIPE, **more)
    wall, after = time.perf_counter() - begun, resource.getrusage(resource.RUSAGE_CHILDREN)
    return wall, after.ru_utime + after.ru_stime - before.ru_utime - before.ru_stime, done.stdout.decode()


def size(folder):
    return sum(it.stat().st_size for it in folder.rglob("*.html"))


MARKUP = re.compile(r"<math .*?</math>|<code class=\"latex2mathml-refused\".*?</code>", re.DOTALL)


def changes_outside(pages, folder, to):
    """Returns the pages that differ outside their formulas: the texts between the converted formulas must be the texts that were
    there, in the same order, with nothing but a formula between them. Pages that had markup before are passed over."""
    differing = []
    for page in pages:
        before, after = page.read_bytes().decode(), (to / page.relative_to(folder)).read_bytes().decode()
        between = [re.escape(it) for it in MARKUP.split(after)]
        formula = r"(?:\\\((?:\\[^(]|[^\\])+?\\\)|\\\[(?:\\[^\[]|[^\\])+?\\\]|\$\$?[^$]+\$\$?)"
        if "<math " not in before and not re.fullmatch(formula.join(between), before, re.DOTALL):
            differing.append(page)
    return differing


def main():
    parser = argparse.ArgumentParser(description=__doc__.partition("\n")[0])
    parser.add_argument("folder")
    parser.add_argument("--pages", type=int, default=1000)
    parser.add_argument("--times", type=int, default=3)
    parser.add_argument("--python", default=sys.executable, help="a Python with the package")
    given = parser.parse_args()
    pages, count = pages_of(given.folder, given.pages)
    with tempfile.TemporaryDirectory() as scratch:
        scratch = pathlib.Path(scratch)
        os.environ["XDG_CACHE_HOME"] = str(scratch / "cache")
        shutil.rmtree(scratch / "cache", ignore_errors=True)
        source = scratch / "source"
        copied(pages, given.folder, source)
        print(f"{len(pages)} pages, {count} of them with formulas, {size(source):,} bytes")
        site = [given.python, "-m", "latex2mathml_proved", "site"]
        for jobs in ("1", str(len(os.sched_getaffinity(0)))):
            runs = []
            for _ in range(given.times):
                shutil.rmtree(scratch / "made", ignore_errors=True)
                shutil.copytree(source, scratch / "made")
                runs.append(measured([*site, "--jobs", jobs, scratch / "made"], stderr=subprocess.DEVNULL))
            again = min(measured([*site, "--jobs", jobs, scratch / "made"], stderr=subprocess.DEVNULL) for _ in range(given.times))
            best = min(runs)
            print(f"latex2mathml-site --jobs {jobs}: {best[0]:.2f} s, {best[1]:.2f} s of a processor, {size(scratch / 'made'):,} bytes: "
                  f"{best[2].strip()}; again {again[0]:.2f} s, {again[1]:.2f} s of a processor")
        differing = changes_outside(pages, pathlib.Path(given.folder), scratch / "made")
        print(f"pages that differ outside of formulas: {len(differing)} {[str(it) for it in differing][:5]}")
        for name, script in (("KaTeX", KATEX), ("KaTeX over jsdom", AUTO_RENDER)):
            for output in ("mathml", "htmlAndMathml"):
                measure_node(name, script, output, given.times, source, scratch / "made")


def measure_node(name, script, output, times, source, made):
    """Measures a script over copies of the pages, and prints what it found."""
    runs = []
    for _ in range(times):
        shutil.rmtree(made, ignore_errors=True)
        shutil.copytree(source, made)
        listed = "\0".join(str(it) for it in sorted(made.rglob("*.html"))).encode()
        environment = {**os.environ, "NODE_PATH": "/usr/share/nodejs"}
        runs.append(measured(["node", "--max-old-space-size=4000", "-e", script, output], input=listed, env=environment))
    best = min(runs)
    print(f"{name}, {output}: {best[0]:.2f} s, {best[1]:.2f} s of a processor: {json.loads(best[2])}")


if __name__ == "__main__":
    main()
