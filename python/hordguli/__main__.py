"""The commands `python3 -m hordguli` and `hordguli-explain`."""

import argparse
import io
import json
import sys

import hordguli

from ._declarations import UNICODE_VERSIONS
from ._explain import explain, page, plain, table

WHAT = "Shows why a text looks as it does."
OPTIONS = {
    "--nobreak": (hordguli.Options.NOBREAK, "break lines at mandatory breaks only"),
    "--whole-numbers": (hordguli.Options.WHOLE_NUMBERS, "do not break numbers such as $1,234.56"),
    "--reordernsm": (hordguli.Options.REORDER_NSM, "put nonspacing marks after their base"),
    "--reorder-clusters": (hordguli.Options.REORDER_CLUSTERS, "keep the characters of grapheme clusters in order"),
    "--show-spaces": (hordguli.Options.SHOW_SPACES, "show spaces at the end of lines, up to the width"),
    "--line-separators": (hordguli.Options.LINE_SEPARATORS, "end paragraphs at LF, CR and CRLF only"),
}
DIRECTIONS = {
    "--rtl": (hordguli.Options.RTL, "all paragraphs are right-to-left"),
    "--ltr": (hordguli.Options.LTR, "all paragraphs are left-to-right"),
    "--wrtl": (hordguli.Options.WEAK_RTL, "paragraphs without a strong character are right-to-left"),
    "--wltr": (hordguli.Options.WEAK_LTR, "paragraphs without a strong character are left-to-right [default]"),
}


def _add_version(command: argparse.ArgumentParser) -> None:
    version = f"hordguli {hordguli.__version__}, Unicode {hordguli.UNICODE_VERSION}"
    command.add_argument("--version", action="version", version=version)


def _add_arguments(command: argparse.ArgumentParser) -> None:
    command.add_argument("text", metavar="TEXT", nargs="?", help="the text, or - for standard input [default: -]")
    command.add_argument("--file", metavar="FILE", help="the text is in FILE, in UTF-8")
    command.add_argument("--width", metavar="N", type=int, default=80, help="wrap lines at N columns [default: 80]")
    command.add_argument("--tabs", metavar="N", type=int, help="set a tab stop every N columns, from 1 to 255")
    versions = ", ".join(UNICODE_VERSIONS)
    its_help = f"the Unicode version of the tables: {versions} [default: {hordguli.UNICODE_VERSION}]"
    command.add_argument("--unicode", metavar="VERSION", choices=UNICODE_VERSIONS, default=hordguli.UNICODE_VERSION, help=its_help)
    directions = command.add_mutually_exclusive_group()
    for group, names in ((command, OPTIONS), (directions, DIRECTIONS)):
        for name, (option, what) in names.items():
            group.add_argument(name, dest="options", action="append_const", const=option, default=[], help=what)
    command.add_argument("--json", action="store_true", help="print JSON")
    command.add_argument("--html", metavar="FILE", help="write a page that shows the text for widths up to 120")


def _text_of(given: argparse.Namespace) -> str:
    """Returns the text that the arguments name. Raises `ValueError` if it is not UTF-8."""
    if given.file is not None:
        with open(given.file, "rb") as file:
            return _decoded(file.read(), given.file)
    if given.text in (None, "-"):
        return _decoded(sys.stdin.buffer.read(), "standard input")
    return _decoded(given.text.encode(errors="surrogateescape"), "TEXT")


def _decoded(data: bytes, name: str) -> str:
    valid = hordguli.valid_utf8(data)
    if valid < len(data):
        raise ValueError(f"{name}: not UTF-8 at byte {valid}")
    return data.decode()


def _run(given: argparse.Namespace) -> None:
    options = hordguli.Options(0)
    for option in given.options:
        options |= option
    if isinstance(sys.stdout, io.TextIOWrapper):
        sys.stdout.reconfigure(errors="backslashreplace")
    try:
        text = _text_of(given)
        if given.tabs is not None:
            options |= hordguli.Options.tab_width(given.tabs)
        tables = hordguli.default_tables(given.unicode)
        if given.html:
            with open(given.html, "w", encoding="utf-8") as file:
                file.write(page(text, given.width, options, tables=tables))
        else:
            explained = explain(text, given.width, options, tables=tables)
            print(json.dumps(plain(explained)) if given.json else table(explained))
    except (OSError, ValueError) as error:
        sys.exit(f"hordguli: {error}")


def _parsed(top: argparse.ArgumentParser) -> argparse.Namespace:
    given = top.parse_args()
    if given.text is not None and given.file is not None:
        top.error("TEXT and --file are both given")
    return given


def main() -> None:
    """Runs `python3 -m hordguli`."""
    top = argparse.ArgumentParser(prog="python3 -m hordguli")
    _add_version(top)
    commands = top.add_subparsers(required=True, metavar="explain")
    _add_arguments(commands.add_parser("explain", help="show why a text looks as it does", description=WHAT))
    _run(_parsed(top))


def explain_main() -> None:
    """Runs `hordguli-explain`, which takes the arguments of `python3 -m hordguli explain`."""
    top = argparse.ArgumentParser(prog="hordguli-explain", description=WHAT)
    _add_version(top)
    _add_arguments(top)
    _run(_parsed(top))


if __name__ == "__main__":
    main()
