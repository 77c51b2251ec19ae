"""Copies the style sheet and the script for pages of `formula` and `document` into a folder."""
import argparse
import sys

from latex2mathml_proved.rendering import copy_page
from latex2mathml_proved.site import command


def main() -> int:
    if sys.argv[1:2] == ["site"]:
        return command.main(sys.argv[2:])
    parser = argparse.ArgumentParser(
        prog="python3 -m latex2mathml_proved", description=__doc__,
        epilog="The word `site` in place of the folder runs the command latex2mathml-site, with the words behind it.")
    parser.add_argument("folder", metavar="FOLDER", help="the folder, which is made where it is missing")
    copy_page(parser.parse_args().folder)
    return 0


if __name__ == "__main__":
    sys.exit(main())
