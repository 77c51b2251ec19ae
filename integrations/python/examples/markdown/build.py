"""build.py FOLDER: makes page.html of page.md in a folder."""
import pathlib
import sys

import markdown

if len(sys.argv) != 2:
    sys.exit(__doc__)
source, to = pathlib.Path(__file__).with_name("page.md"), pathlib.Path(sys.argv[1])
body = markdown.markdown(
    source.read_text(encoding="utf-8"),
    extensions=["latex2mathml"],
    extension_configs={"latex2mathml": {"macros": {"R": r"\mathbb{R}"}}},
)
page = f'<!DOCTYPE html>\n<html lang="en">\n<meta charset="utf-8">\n<title>Equations</title>\n{body}\n</html>\n'
to.mkdir(parents=True, exist_ok=True)
(to / "page.html").write_text(page, encoding="utf-8")
