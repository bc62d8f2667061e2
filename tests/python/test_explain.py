"""`explain`, and the command `python3 -m hordguli explain`."""

import base64
import json
import os
import random
import re
import subprocess
import sys
import time
import zlib

import hordguli
import pytest
from hordguli import BracketCase, Break, Options
from hordguli._explain import page, table

HEBREW = "\u05d0\u05d1\u05d2"
TEXT = f"a ({HEBREW}) 12\n{HEBREW}\t{HEBREW}  "


def run(*words, **more):
    return subprocess.run([sys.executable, "-m", "hordguli", *words], stdout=subprocess.PIPE, stderr=subprocess.PIPE, **more)


def command(*words, **more):
    """Runs `hordguli-explain`, as the wheel installs it."""
    program = "from hordguli.__main__ import explain_main; explain_main()"
    return subprocess.run([sys.executable, "-c", program, *words], stdout=subprocess.PIPE, stderr=subprocess.PIPE, **more)


def data_of(page):
    """Returns the data in a page."""
    packed = page.partition('<script id="data" type="text/plain">')[2].partition("</script>")[0]
    return json.loads(zlib.decompress(base64.b64decode(packed)))


def lines_at(data, width):
    """Returns the lines of a page's data at a width: start, length, columns, base level, levels, visual order."""
    layout = [layout for first, layout in data["layouts"] if first <= width][-1]
    lines = []
    for start, length, columns, base, runs, *order in (data["lines"][number] for number in layout):
        parts = [data["runs"][runs][at : at + 3] for at in range(0, len(data["runs"][runs]), 3)]
        levels, usual = {}, []
        for first, count, level in parts:
            levels.update(dict.fromkeys(range(first, first + count), level))
            usual += list(range(first, first + count))[:: -1 if level % 2 else 1]
        lines.append((start, length, columns, base, tuple(levels[at] for at in sorted(levels)), tuple(*order or [usual])))
    return lines


def test_levels_before_and_after_l1_are_told_apart():
    tab = hordguli.explain(f"a {HEBREW}\t{HEBREW}").characters[5]
    assert (tab.bidi_class, tab.level, tab.line_level) == ("S", 1, 0)


def test_a_character_has_its_properties_and_place():
    bracket = hordguli.explain(TEXT, 5).characters[2]
    assert bracket._replace(reason=None, break_reason=None) == hordguli.ExplainedCharacter(
        position=2, character="(", code_point="U+0028", name="LEFT PARENTHESIS", mirror="U+0029", pair="U+0029",
        is_mark=False, is_wide=False, bidi_class="ON", line_class="OP", columns=1, bracket="open",
        level=0, break_mark=Break.NEVER, line=1, line_level=0, visual=0,
        why=("N0: pairs with position 6; only Hebrew inside (position 3), but left-to-right before (position 0), as the paragraph, so left-to-right",),
        break_why="LB14: no break after an opening parenthesis", reason=None, break_reason=None,
    )  # fmt: skip
    assert (bracket.reason.partner, bracket.reason.inside, bracket.reason.bracket_case) == (6, 3, BracketCase.C2)
    assert (bracket.break_reason.rule, bracket.break_reason.base) == ("LB14", 2)


def test_positions_of_reasons_count_in_the_text():
    explained = hordguli.explain("a\n(\u2067b\u2069)! ")
    found = [one.reason for one in explained.characters[2:8]]
    assert [one.partner for one in found] == [6, None, None, None, 2, None]
    assert [one.matching for one in found] == [None, 5, None, 3, None, None]
    assert [one.opener for one in found] == [None, None, 3, None, None, None] and [one.sequence for one in found] == [2, 2, 4, 2, 2, 2]
    assert (explained.characters[7].reason.left, explained.characters[3].reason.right) == (None, None)
    assert [one.break_reason.base for one in explained.characters] == [0, 1, 2, 2, 4, 4, 6, 7, 8]
    assert [one.break_reason.behind_spaces for one in explained.characters] == [0, 1, 2, 2, 4, 4, 6, 7, 7]


# ---- Sentences: each row has a text, a position, and the explanations for it ----

OVERRIDE, ISOLATE = "\u202eab\u202c", "\u2067a\u2069"
SENTENCES = {
    "P2": ("!a", 1, ["P2: decides the base level of paragraph 0"]),
    "BD9 and X5a": (f"\u202a{ISOLATE}", 1, [
        "BD9: ends at the PDI at 3", "X5a: in the embedding from 0, so level 2", "N1: left-to-right on both sides (the start and the end), so left-to-right",
    ]),
    "BD9 without a PDI": ("a\u2066", 1, [
        "BD9: ends with the paragraph", "N1: left-to-right on both sides (position 0 and the end), so left-to-right",
    ]),
    "BD9 of a PDI": (f"a{ISOLATE}", 3, [
        "BD9: ends the isolate from 1", "N1: left-to-right on both sides (position 0 and the end), so left-to-right",
    ]),
    "BD9 without an initiator": ("a\u2069", 1, [
        "BD9: matches no isolate initiator", "N1: left-to-right on both sides (position 0 and the end), so left-to-right",
    ]),
    "X5b in an override": ("\u202e\u2066a", 1, ["BD9: ends with the paragraph", "X5b: in the override from 0, so level 1 and type R"]),
    "X5c": ("\u2068\u05d0\u2069", 0, [
        "BD9: ends at the PDI at 2", "X5c: acts as RLI, by the first strong character inside", "N1: left-to-right on both sides (the start and the end), so left-to-right",
    ]),
    "X5c to the left": ("\u2068!\u2069", 0, [
        "BD9: ends at the PDI at 2", "X5c: acts as LRI", "N1: left-to-right on both sides (the start and the end), so left-to-right",
    ]),
    "X5c in an override": ("\u202e\u2068a", 1, ["BD9: ends with the paragraph", "X5c: in the override from 0, so level 1 and type R"]),
    "X6": ("a\u202bb\u202c", 2, ["X6: in the embedding from 1, so level 1", "I2: left-to-right, so level 2"]),
    "X6 of an isolate": (f"a{ISOLATE}", 2, ["X6: in the isolate from 1, so level 1", "I2: left-to-right, so level 2"]),
    "X6 of an override": (f"a{OVERRIDE}", 2, ["X6: in the override from 1, so level 1 and type R"]),
    "X6 of an override that changes no type": ("a\u202e\u05d0\u202c", 2, ["X6: in the override from 1, so level 1"]),
    "X6a": (f"a\u202e{ISOLATE}b", 4, ["BD9: ends the isolate from 2", "X6a: in the override from 1, so level 1 and type R"]),
    "X8": ("a\u202b\n", 2, ["N1: left-to-right on both sides (position 0 and the end), so left-to-right"]),
    "X9": ("a\u00ad\u05d0", 1, ["X9: removed, so it has the level of position 0"]),
    "X9 at the start": ("\u202aa", 0, ["X9: removed, so it has the level of the paragraph"]),
    "W1": ("a\u05d0\u05b0", 2, ["W1: a mark after position 1, so R", "I1: right-to-left, so level 1"]),
    "W1 at the start": ("\u0300a", 0, ["W1: a mark at the start, so L"]),
    "W1 after a PDI": ("a\u2066\u2069\u0300", 3, [
        "W1: a mark after a PDI, so ON", "N1: left-to-right on both sides (position 0 and the end), so left-to-right",
    ]),
    "W2": ("\u0627\u03001", 2, ["W2: a number after an Arabic letter (position 0), so AN", "I2: a number, so level 2"]),
    "W3": ("a\u0627", 1, ["W3: AL counts as R", "I1: right-to-left, so level 1"]),
    "W4": ("\u05d01,2", 2, ["W4: a separator between two numbers, so EN", "I2: a number, so level 2"]),
    "W4 of Arabic numbers": ("a\u0661,\u0661", 2, ["W4: a separator between two numbers, so AN", "I1: a number, so level 2"]),
    "W5": ("\u05d0$$1", 1, ["W5: a terminator next to a number, so EN", "I2: a number, so level 2"]),
    "W5 after a number": ("\u05d01%", 2, ["W5: a terminator next to a number, so EN", "I2: a number, so level 2"]),
    "W6": ("\u05d0,\u05d0", 1, [
        "W6: a separator or terminator that joins no number, so ON", "N1: right-to-left on both sides (positions 0 and 2), so right-to-left",
    ]),
    "W7": ("a\u0300 1", 3, ["W7: a number after left-to-right text (position 0), so L"]),
    "W7 at the start": ("1", 0, ["W7: a number after left-to-right text (the start), so L"]),
    "neither W2 nor W7": ("\u05d01", 1, ["I2: a number, so level 2"]),
    "N0 c2 in a right-to-left paragraph": ("\u05d0(a)", 1, [
        "N0: pairs with position 3; only Latin inside (position 2), but right-to-left before (position 0), as the paragraph, so right-to-left", "L4: drawn as )",
    ]),
    "N0 b": ("a(\u05d0b)", 1, ["N0: pairs with position 4; Latin inside (position 3), as the paragraph, so left-to-right"]),
    "N0 b of an embedding": ("a\u202b(\u05d0)\u202c", 2, [
        "X6: in the embedding from 1, so level 1", "N0: pairs with position 4; Hebrew inside (position 3), as the embedding from 1, so right-to-left", "L4: drawn as )",
    ]),
    "N0 b of a number": ("\u05d0(1)", 3, [
        "N0: pairs with position 1; a number inside (position 2, right-to-left for N0), as the paragraph, so right-to-left", "L4: drawn as (",
    ]),
    "N0 c1": ("a\u05d0(\u05d1)", 2, [
        "N0: pairs with position 4; only Hebrew inside (position 3), and right-to-left before (position 1), so right-to-left", "I1: right-to-left, so level 1", "L4: drawn as )",
    ]),
    "N0 c1 of its closing bracket": ("a\u05d0(\u05d1)", 4, [
        "N0: pairs with position 2; only Hebrew inside (position 3), and right-to-left before (position 1), so right-to-left", "I1: right-to-left, so level 1", "L4: drawn as (",
    ]),
    "N0 c1 after a number": ("a\u05d01(\u05d1)", 3, [
        "N0: pairs with position 5; only Hebrew inside (position 4), and right-to-left before (the number at 2), so right-to-left", "I1: right-to-left, so level 1", "L4: drawn as )",
    ]),
    "N0 c1 after a mark": ("a\u05d0\u05b0(\u05d1)", 3, [
        "N0: pairs with position 5; only Hebrew inside (position 4), and right-to-left before (position 1), so right-to-left", "I1: right-to-left, so level 1",
        "L4: drawn as )",
    ]),
    "N0 c2": ("a(\u05d1)", 1, [
        "N0: pairs with position 3; only Hebrew inside (position 2), but left-to-right before (position 0), as the paragraph, so left-to-right",
    ]),
    "N0 c2 at the start": ("(\u0661)a", 2, [
        "N0: pairs with position 0; only a number inside (position 1, right-to-left for N0), but left-to-right before (the start), as the paragraph, so left-to-right",
    ]),
    "N0 d": ("a(!)b", 1, [
        "Pairs with position 3; no strong character inside, so N0 changes nothing", "N1: left-to-right on both sides (positions 0 and 4), so left-to-right",
    ]),
    "N0 d between directions": ("a(!)\u05d0", 3, [
        "Pairs with position 1; no strong character inside, so N0 changes nothing", "N2: different directions on its sides (positions 0 and 4), so left-to-right, as the paragraph",
    ]),
    "N0 of a mark": ("a(b)\u0300", 4, ["W1: a mark after position 3, so ON", "N0: a mark after the bracket at 3, so L"]),
    "unpaired, not ON": ("\u202e()\u202c", 1, [
        "X6: in the override from 0, so level 1 and type R", "Unpaired: its type is R, not ON", "L4: drawn as )",
    ]),
    "unpaired, no match": ("a(", 1, [
        "Unpaired: no bracket of its sequence matches", "N1: left-to-right on both sides (position 0 and the end), so left-to-right",
    ]),
    "unpaired, in another sequence": ("a(\u2066)\u2069", 1, [
        "Unpaired: no bracket of its sequence matches", "N1: left-to-right on both sides (position 0 and the end), so left-to-right",
    ]),
    "unpaired, past the limit": ("a" + "(" * 64 + ")", 65, [
        "Unpaired: pairing stopped at 63 open brackets (BD16)", "N1: left-to-right on both sides (position 0 and the end), so left-to-right",
    ]),
    "N1": ("a \u05d0 \u05d1", 3, ["N1: right-to-left on both sides (positions 2 and 4), so right-to-left", "I1: right-to-left, so level 1"]),
    "N1 of a number": ("a \u05d0 1", 3, [
        "N1: right-to-left on both sides (position 2 and the number at 4), so right-to-left", "I1: right-to-left, so level 1",
    ]),
    "N2": ("a \u05d0", 1, ["N2: different directions on its sides (positions 0 and 2), so left-to-right, as the paragraph"]),
    "N2 in an isolate": ("a\u2067\u05d0 b\u2069", 3, [
        "X6: in the isolate from 1, so level 1", "N2: different directions on its sides (positions 2 and 4), so right-to-left, as the isolate from 1",
    ]),
    "I1": ("a\u05d0", 1, ["I1: right-to-left, so level 1"]),
    "I1 of a number": ("a\u05d0 1", 3, ["I1: a number, so level 2"]),
    "I2": ("\u05d0a", 1, ["I2: left-to-right, so level 2"]),
    "L1": (f"a {HEBREW}\t{HEBREW}", 5, [
        "N1: right-to-left on both sides (positions 4 and 6), so right-to-left", "I1: right-to-left, so level 1", "L1: level 1 becomes 0",
    ]),
    "nothing": ("ab", 1, []),
}  # fmt: skip


@pytest.mark.parametrize("name", SENTENCES)
def test_sentences_name_what_rules_change(name):
    text, position, wanted = SENTENCES[name]
    assert list(hordguli.explain(text).characters[position].why) == wanted


@pytest.mark.parametrize("kind, inside", [("Arabic", "\u0627"), ("Hebrew", "\u05d0"), ("Nko", "\u07ca"), ("right-to-left", "\u200f")])
def test_a_strong_character_inside_is_named_by_its_script(kind, inside):
    assert f"only {kind} inside (position 2)" in hordguli.explain(f"a({inside})").characters[1].why[0]


BREAKS = {
    "LB3": ("a", 0, "LB3: the line ends with the paragraph"),
    "LB4": ("\x0ba", 0, "LB4: the line ends after a line separator"),
    "LB5 between CR and LF": ("\r\n", 0, "LB5: no break between a carriage return and a line feed"),
    "LB6": ("a\n", 0, "LB6: no break before a line feed"),
    "LB7": ("a b", 0, "LB7: no break before a space"),
    "LB8": ("\u200b b", 1, "LB8: a break after a zero width space with spaces"),
    "LB8a": ("\u200da", 0, "LB8a: no break after a zero width joiner"),
    "LB9": ("a\u0301", 0, "LB9: no break before a combining mark"),
    "LB11": ("a\u2060b", 0, "LB11: no break before a word joiner"),
    "LB11 after": ("a\u2060b", 1, "LB11: no break after a word joiner"),
    "LB12": ("\u00a0b", 0, "LB12: no break after a non-breaking character"),
    "LB12a": ("a\u00a0", 0, "LB12a: no break before a non-breaking character"),
    "LB13": ("a!", 0, "LB13: no break before an exclamation or question mark"),
    "LB14": ("(  a", 2, "LB14: no break after an opening parenthesis with spaces"),
    "LB15": ("'(", 0, "LB15: no break between a quotation mark and an opening parenthesis"),
    "LB16": (") \u3005", 1, "LB16: no break between a closing parenthesis with spaces and a nonstarter"),
    "LB17": ("\u2014\u2014", 0, "LB17: no break between two dashes"),
    "LB18": ("a b", 1, "LB18: a break after a space"),
    "LB19": ("a'", 0, "LB19: no break beside a quotation mark"),
    "LB20": ("a\ufffc", 0, "LB20: a break before an inline object"),
    "LB20 after": ("\ufffca", 0, "LB20: a break after an inline object"),
    "LB21": ("a-b", 0, "LB21: no break before a hyphen"),
    "LB21 after": ("\u00b4b", 0, "LB21: no break after a character that allows a break before it"),
    "LB21a": ("\u05d0-b", 1, "LB21a: no break after a Hebrew letter and a hyphen"),
    "LB21b": ("/\u05d0", 0, "LB21b: no break between a slash and a Hebrew letter"),
    "LB22": ("a\u2026", 0, "LB22: no break before an ellipsis"),
    "LB23": ("a1", 0, "LB23: no break between a letter and a digit"),
    "LB23a": ("$\u4e00", 0, "LB23a: no break between a numeric prefix and an ideograph"),
    "LB24": ("%a", 0, "LB24: no break between a numeric suffix and a letter"),
    "LB25": ("1%", 0, "LB25: no break inside a number"),
    "LB26": ("\u1100\u1161", 0, "LB26: no break inside a Korean syllable"),
    "LB27": ("\uac00%", 0, "LB27: no break between a Korean syllable and a numeric suffix"),
    "LB28": ("aa", 0, "LB28: no break between two letters"),
    "LB28 of a symbol": ("#a", 0, "LB28: no break between a symbol and a letter"),
    "LB28 of a mark": ("\u0301a", 0, "LB28: no break between a mark without a base and a letter"),
    "LB29": (".a", 0, "LB29: no break between a numeric separator and a letter"),
    "LB30": ("a(", 0, "LB30: no break between a letter and an opening parenthesis"),
    "LB30 of a bracket": ("]1", 0, "LB30: no break between a closing bracket and a digit"),
    "LB30a": ("\U0001f1e6\U0001f1e7\U0001f1e6", 0, "LB30a: no break inside a flag"),
    "LB31 between flags": ("\U0001f1e6\U0001f1e7\U0001f1e6", 1, "LB31: a break between two flags, which LB30a does not join"),
    "LB30b": ("\u261d\U0001f3fb", 0, "LB30b: no break between an emoji and a skin tone"),
    "LB31": ("\u4e00\u4e00", 0, "LB31: a break, since no other rule applies"),
}  # fmt: skip
LATER_BREAKS = {
    "LB15a": ("\u00ab a", 1, "LB15a: no break after an opening quotation mark"),
    "LB15b": ("a \u00bb", 1, "LB15b: no break before a closing quotation mark"),
    "LB15c": ("a .5", 1, "LB15c: a break before a decimal mark that follows a space"),
    "LB15d": ("a.", 0, "LB15d: no break before a numeric separator"),
    "LB19a": ("a\u00ab", 0, "LB19a: no break beside a quotation mark, except between East Asian characters"),
    "LB20a": ("-a", 0, "LB20a: no break after a hyphen at the start of a word"),
    "LB28a": ("\ua9a7\ua9c0", 0, "LB28a: no break inside an orthographic syllable"),
}  # fmt: skip


@pytest.mark.parametrize("name", BREAKS)
def test_sentences_name_the_rule_of_a_break_mark(name):
    text, position, wanted = BREAKS[name]
    assert hordguli.explain(text).characters[position].break_why == wanted


def test_next_line_character_inside_a_paragraph_is_lb5():
    explained = hordguli.explain("\x85a", options=hordguli.Options.LINE_SEPARATORS)
    assert explained.characters[0].break_why == "LB5: the line ends after a next line character"


@pytest.mark.parametrize("name", LATER_BREAKS)
def test_sentences_name_the_rules_of_later_versions(name):
    text, position, wanted = LATER_BREAKS[name]
    assert hordguli.explain(text, tables=hordguli.default_tables("17.0")).characters[position].break_why == wanted


def test_what_is_not_shown_has_no_place():
    end = hordguli.explain("ab \n").characters[2]
    assert (end.line, end.line_level, end.visual) == (None, None, None)


def test_all_values_are_those_of_the_library():
    explained = hordguli.explain(TEXT, 5, Options.RTL)
    with hordguli.Session(TEXT, 5, Options.RTL) as text:
        paragraphs = [text.paragraph(index) for index in range(text.counts.paragraphs)]
        lines = tuple(text)
    assert [one.level for one in explained.characters] == [level for one in paragraphs for level in one.levels]
    assert [one.break_mark for one in explained.characters] == [mark for one in paragraphs for mark in one.breaks]
    assert [(one.start, one.length, one.base_level) for one in explained.paragraphs] == [(one.start, one.length, one.base_level) for one in paragraphs]
    assert (explained.lines, explained.width) == (lines, 5)
    for number, line in enumerate(lines):
        placed = [one for one in explained.characters if one.line == number]
        assert tuple(one.visual for one in placed) == line.logical_to_visual
        assert tuple(one.line_level for one in placed) == line.levels
    for one, its in zip(explained.characters, hordguli.properties(TEXT)):
        assert one[6:12] == (its.is_mark, its.is_wide, its.bidi_class, its.line_class, its.columns, its.bracket)


@pytest.mark.parametrize("options", [Options(0), Options.RTL, Options.WHOLE_NUMBERS, Options.LINE_SEPARATORS | Options.WEAK_RTL, Options.NOBREAK | Options.tab_width(8)])
def test_reasons_have_the_levels_and_marks_of_the_layout(options):
    for version in ("15.0", "17.0"):
        explained = hordguli.explain(f"{TEXT}\n1/% \u05d0\x85\u05d0 (a)\u2029-1 .5", 5, options, tables=hordguli.default_tables(version))
        assert [one.reason.level for one in explained.characters] == [one.level for one in explained.characters]
        assert [one.break_reason.mark for one in explained.characters] == [one.break_mark for one in explained.characters]


def test_all_are_records():
    explained = hordguli.explain(TEXT)
    assert isinstance(explained, hordguli.Explanation) and {type(one) for one in explained.lines} == {hordguli.Line}
    assert {type(one) for one in explained.characters} == {hordguli.ExplainedCharacter}
    assert {type(one) for one in explained.paragraphs} == {hordguli.ExplainedParagraph}
    assert {type(one.break_mark) for one in explained.characters} == {Break}
    assert {type(one.reason) for one in explained.characters} == {hordguli.Reason}
    assert {type(one.break_reason) for one in explained.characters} == {hordguli.BreakReason}


def test_the_version_of_the_tables_is_named():
    with hordguli.Tables(unicode="17.0") as tables:
        later = hordguli.explain("ls -v", 4, tables=tables)
    assert (hordguli.explain("ls -v", 4).unicode, later.unicode) == ("15.0", "17.0")
    assert [line.text for line in later.lines] == ["ls", "-v"]


def test_the_deciding_character_is_the_first_strong_one_outside_isolates():
    def deciders(text, options=Options.WEAK_LTR):
        return [one.decided_by for one in hordguli.explain(text, 80, options).paragraphs]

    assert deciders(f"1. {HEBREW}a\n..\n!a") == [3, None, 12]
    assert deciders(f"\u2067a\u2069 {HEBREW}") == [4]
    assert deciders("\u2067a") == [None] and deciders("") == []
    assert deciders("a", Options.RTL) == deciders("a", Options.LTR) == [None]


def test_json_has_the_fields_of_the_records():
    found = json.loads(run("explain", "--width", "5", "--rtl", "--json", TEXT).stdout)
    explained = hordguli.explain(TEXT, 5, Options.RTL)
    assert list(found) == list(explained._fields) and (found["unicode"], found["width"]) == ("15.0", 5)
    for key in ("characters", "lines", "paragraphs"):
        assert [list(one) for one in found[key]] == [list(one._fields) for one in getattr(explained, key)]
    assert [one["break_mark"] for one in found["characters"]] == [one.break_mark.name.lower() for one in explained.characters]
    assert [one["name"] for one in found["characters"]] == [one.name for one in explained.characters]
    assert [(tuple(one["why"]), one["break_why"]) for one in found["characters"]] == [(one.why, one.break_why) for one in explained.characters]
    assert (found["characters"][2]["reason"]["bracket_case"], found["characters"][0]["reason"]["bracket_case"]) == ("b", None)
    assert [tuple(one["levels"]) for one in found["lines"]] == [one.levels for one in explained.lines]
    assert found["lines"][0]["runs"][0] == explained.lines[0].runs[0]._asdict()


def test_the_table_has_a_row_for_each_character():
    lines = run("explain", "a(\u05d0)\u05b0 \t\u4e2d\n").stdout.decode().split("\n")
    assert lines[0].split() == "pos char code class bracket mirror partner level L1 line visual name break break rule why".split()
    assert lines[3].startswith("2    \u05d0     U+05D0  R ")
    assert re.split("  +", lines[3])[-2:] == ["LB13: no break before a closing parenthesis", "I1: right-to-left, so level 1"]
    assert lines[2].split()[:5] == ["1", "(", "U+0028", "ON", "open"] and lines[5].split()[:2] == ["4", "\u25cc\u05b0"]
    assert {line[5:11] for line in (lines[6], lines[7], lines[9])} == {" " * 6}  # (not printable)
    # (a mark is shown as two characters in one column, and a wide character as one in two columns)
    assert [line.index("U+") for line in lines[1:10]] == [11, 11, 11, 11, 12, 11, 11, 10, 11]
    assert lines[10] == "line 0: 9 from 0, 7 columns; runs: 2 from 0 at level 0; 1 from 2 at level 1; 5 from 3 at level 0"
    assert lines[11] == "paragraph 0: 9 from 0, base level 0, decided by the character at 0"
    assert lines[12:] == ["Unicode 15.0", ""]


def test_the_table_says_what_rules_changed():
    whys = [line.rpartition("  ")[2] for line in run("explain", f"{HEBREW} (a)\t!").stdout.decode().split("\n")]
    assert whys[1] == "P2: decides the base level of paragraph 0"
    assert whys[7].endswith("before (position 2), as the paragraph, so right-to-left. L4: drawn as (")
    whys = [line.rpartition("  ")[2] for line in run("explain", f"a {HEBREW}\t{HEBREW}").stdout.decode().split("\n")]
    assert whys[6].endswith(". L1: level 1 becomes 0")


def test_the_table_has_the_partners_of_brackets():
    lines = table(hordguli.explain("(a)\u0300)")).split("\n")
    at = lines[0].index("partner")
    assert [line[at : at + 7].strip() for line in lines[1:6]] == ["2", "", "0", "", ""]
    assert lines[5].endswith("so left-to-right") and "Unpaired: no bracket of its sequence matches" in lines[5]


def test_the_text_is_an_argument_standard_input_or_a_file(tmp_path):
    file = tmp_path / "text"
    file.write_bytes("a\u05d0\r\n".encode())
    wanted = run("explain", "--json", "a\u05d0\r\n").stdout
    assert json.loads(wanted)["characters"][2]["code_point"] == "U+000D"
    assert run("explain", "--json", "--file", file).stdout == wanted
    for words in ((), ("-",)):
        assert run("explain", "--json", *words, input="a\u05d0\r\n".encode()).stdout == wanted
    assert run("explain", "--file", file, "a").returncode == 2
    assert run("explain", "--file", tmp_path / "missing").stderr.startswith(b"hordguli: ")


def test_invalid_input_names_the_byte(tmp_path):
    file = tmp_path / "text"
    file.write_bytes(b"a\xd7\x90\xff")
    assert run("explain", "-", input=b"a\xd7\x90\xff").stderr == b"hordguli: standard input: not UTF-8 at byte 3\n"
    assert run("explain", "--file", file).stderr == f"hordguli: {file}: not UTF-8 at byte 3\n".encode()
    found = run("explain", b"a\xd7\x90\xd7")
    assert (found.returncode, found.stderr) == (1, b"hordguli: TEXT: not UTF-8 at byte 3\n")


def test_hordguli_explain_is_the_same_command(tmp_path):
    words = "--width", "5", "--rtl", "--json", TEXT
    assert command(*words).stdout == run("explain", *words).stdout
    assert command("-", input=b"a\n").stdout == run("explain", "a\n").stdout
    assert b"hordguli-explain" in command("--help").stdout and b"--file" in command("--help").stdout
    assert command("--version").stdout.startswith(f"hordguli {hordguli.__version__}".encode())
    assert command("--rtl", "--ltr", "a").returncode == command("--file", tmp_path, "a").returncode == 2


def test_the_table_needs_no_unicode_terminal():
    found = run("explain", "\u05d0", env={**os.environ, "PYTHONIOENCODING": "ascii"})
    assert found.returncode == 0 and b"\\u05d0" in found.stdout


def test_the_command_writes_a_page(tmp_path):
    path = tmp_path / "page.html"
    assert run("explain", "--html", path, "</script>\u05d0").returncode == 0
    written = path.read_text(encoding="utf-8")
    assert written.count("</script>") == 2 and "http:" not in written.replace("http://www.w3.org", "")
    assert data_of(written)["text"] == "</script>\u05d0"


@pytest.mark.parametrize("options", [Options(0), Options.RTL, *(Options.RTL | one for one in (Options.REORDER_NSM, Options.REORDER_CLUSTERS, Options.SHOW_SPACES, Options.tab_width(8)))])
def test_a_page_has_the_lines_of_each_width(options):
    text = f"a ({HEBREW}\u05b0\u05b1) 12\n{HEBREW}\t{HEBREW}  e\u0301\u0302 ab\n\n \u05d0 (x) \u4e2d\u4e2d\t\n"
    data = data_of(page(text, options=options))
    with hordguli.Session(text, 1, options) as session:
        for width in range(1, 121):
            session.width = width
            wanted = [(one.start, one.length, one.width, one.base_level, one.levels, one.visual_to_logical) for one in session]
            assert lines_at(data, width) == wanted, width


def test_a_page_has_the_sentences_that_do_not_depend_on_the_width():
    text = f"a {HEBREW}\t{HEBREW} (b)"
    data, explained = data_of(page(text)), hordguli.explain(text)
    assert data["whys"] == [[why for why in one.why if not why.startswith("L")] for one in explained.characters]
    assert [data["break_sentences"][at] for at in data["break_whys"]] == [one.break_why for one in explained.characters]
    assert len(data["break_sentences"]) == len({*data["break_sentences"]}) < len(text)
    assert (data["partners"][-3:], data["unpaired"], data_of(page("(a)\u0300)"))["unpaired"]) == ([12, None, 10], [], [4])


def test_a_page_has_layouts_for_widths_that_differ_alone():
    data = data_of(page("one two three"))
    assert [first for first, _ in data["layouts"]] == [1, 2, 3, 4, 5, 7, 13]
    assert len(data["lines"]) == len({tuple(line) for line in data["lines"]})


def test_a_long_text_has_a_page_of_at_most_a_megabyte_in_a_second():
    words = "The committee (founded in 1998) \u05d0\u05de\u05e8\u05d4 \u05e9\u05dc\u05d5\u05dd said hello, \u0645\u0631\u062d\u0628\u0627 [12.5 %] here.".split()
    source = random.Random(1)
    mixed = " ".join(source.choice(words) for _ in range(2000))[:5500]
    dense = "".join(source.choice("a\u05d0 ") for _ in range(5500))
    for text in (mixed, dense):
        times = []
        for _ in range(3):
            begun = time.process_time()  # (whatever else runs here)
            written = page(text)
            times.append(time.process_time() - begun)
        assert len(written.encode()) <= 1_000_000
        assert text is dense or min(times) <= 1


def test_the_command_takes_a_version(tmp_path):
    found = json.loads(run("explain", "--unicode", "17.0", "--width", "4", "--json", "ls -v").stdout)
    assert found["unicode"] == "17.0" and [line["text"] for line in found["lines"]] == ["ls", "-v"]
    assert run("explain", "--unicode=17.0", "a").stdout.endswith(b"\nUnicode 17.0\n")
    path = tmp_path / "page.html"
    assert run("explain", "--unicode", "17.0", "--html", path, "a").returncode == 0
    assert data_of(path.read_text(encoding="utf-8"))["unicode"] == "17.0"


def test_errors_end_the_command():
    refused = run("explain", "--unicode", "16.0", "a")
    assert refused.returncode == 2 and b"15.0" in refused.stderr and b"17.0" in refused.stderr
    assert run("explain", "--width", "0", "a").returncode == 1
    assert run("explain", "--html", "/no/such/folder/page", "a").stderr.startswith(b"hordguli: ")
    assert run().returncode == run("explain", "--rtl", "--ltr", "a").returncode == 2
