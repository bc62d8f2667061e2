"""Script runs, compared with a reference implementation of UAX #24 that reads the Unicode Character Database (Debian's unicode-data)."""

import pathlib
import re

import hordguli
import pytest
from hypothesis import given, settings
from hypothesis import strategies as st

FOLDER = pathlib.Path("/usr/share/unicode")
pytestmark = pytest.mark.skipif(not (FOLDER / "Scripts.txt").exists(), reason="needs the package unicode-data")
MOST_OPEN = 63


def rows(path):
    """Yields the fields of each line of a file."""
    for line in path.read_text(encoding="utf-8").splitlines():
        fields = [field.strip() for field in line.split("#")[0].split(";")]
        if len(fields) > 1:
            yield fields


def read_scripts():
    """Returns the code of each character's script. Those that the file does not name are Unknown, at least in its version."""
    codes = {name: code for kind, code, name, *_ in rows(FOLDER / "PropertyValueAliases.txt") if kind == "sc"}
    scripts = {}
    for span, name in rows(FOLDER / "Scripts.txt"):
        first, last = (re.split(r"\.\.", span) * 2)[:2]
        scripts.update(dict.fromkeys(map(chr, range(int(first, 16), int(last, 16) + 1)), codes[name]))
    return scripts


def read_brackets(folder):
    """Returns the closing bracket of each opening bracket."""
    return {chr(int(one, 16)): chr(int(other, 16)) for one, other, kind in rows(folder / "BidiBrackets.txt") if kind == "o"}


SCRIPTS = read_scripts() if (FOLDER / "Scripts.txt").exists() else {}
BRACKETS = read_brackets(pathlib.Path(__file__).parents[2] / "ucd") if SCRIPTS else {}
CLOSING = {closing: opening for opening, closing in BRACKETS.items()}
# Letters of four scripts, Common and Inherited characters, brackets, two brackets that have a script, a private-use character, and an
# unassigned one.
LETTERS = "ab\u03b1\u05d0\u0628" + " 1.\u0300\u0651\u200d" + "()[]\u2329\u232a\u3008\u3009\u2045\u2046" + "\u0f3a\u0f3b\ue000\u0378"


def takes_script(c):
    return SCRIPTS.get(c, "Zzzz") in ("Zyyy", "Zinh")


def opening_of(text, end):
    """Returns the index of the opening bracket that the bracket at `end` closes, or `None`."""
    openings = []
    for place, c in enumerate(text[: end + 1]):
        matches = [k for k, other in enumerate(openings) if BRACKETS[text[other]] == c]
        if place == end:
            return matches[-1] if matches and c in CLOSING else None, openings
        if c in BRACKETS:
            openings = [*openings, place][-MOST_OPEN:]
        elif c in CLOSING and matches:
            openings = openings[: matches[-1]]
    raise AssertionError


def scripts_of(text):
    """Returns the script of each character of a text."""
    found = []
    first = next((SCRIPTS.get(c, "Zzzz") for c in text if not takes_script(c)), "Zyyy")
    for place, c in enumerate(text):
        k, openings = opening_of(text, place)
        if not takes_script(c):
            found.append(SCRIPTS.get(c, "Zzzz"))
        elif k is not None:
            found.append(found[openings[k]])
        else:
            found.append(found[-1] if found else first)
    return found


def runs_of(scripts):
    starts = [k for k in range(len(scripts)) if k == 0 or scripts[k] != scripts[k - 1]]
    return [(start, end - start, scripts[start]) for start, end in zip(starts, [*starts[1:], len(scripts)])]


def test_scripts_are_those_of_the_database():
    named = {c: script for c, script in SCRIPTS.items() if not takes_script(c) and not "\ud800" <= c <= "\udfff"}
    text = "".join(named)
    found = [run.script for run in hordguli.script_runs(text) for _ in range(run.length)]
    assert len(named) > 140_000 and found == list(named.values())


def test_common_and_inherited_characters_take_a_script():
    taking = "".join(c for c in SCRIPTS if takes_script(c))
    assert len(taking) > 8_000
    assert hordguli.script_runs(f"\u05d0{taking}") == [(0, len(taking) + 1, "Hebr")]
    assert hordguli.script_runs(taking) == [(0, len(taking), "Zyyy")]


def test_brackets_nested_more_than_63_deep_are_not_matched():
    for depth in (62, 63, 64, 65):
        text = "a" + "(" * depth + "\u05d0" + ")" * depth
        assert hordguli.script_runs(text) == runs_of(scripts_of(text))
        assert [run.script for run in hordguli.script_runs(text)] == ["Latn", "Hebr", "Latn"]
    text = "a(\u05d0" + "[" * 63 + "]" * 63 + ")"
    assert [run.script for run in hordguli.script_runs(text)] == ["Latn", "Hebr"]


@settings(max_examples=1000)
@given(st.text(alphabet=LETTERS, max_size=40))
def test_script_runs_are_those_of_the_reference(text):
    assert hordguli.script_runs(text) == runs_of(scripts_of(text))
