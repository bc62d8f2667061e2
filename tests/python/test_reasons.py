"""`reasons` and `break_reasons`: by examples, and compared with a reference implementation."""

import enum
import itertools
import random
import sys

import hordguli
import pytest
import reference_reasons as reference
from conftest import DIRECTIONS
from hordguli import BracketCase, Break, NeutralRule, Options

sys.path.append(f"{reference.TOP}/tests/breaks")
import texts

VERSIONS = "15.0", "17.0"
MARKS = {"×": "NEVER", "÷": "MAY", "!": "MUST"}
EVERY = 40  # of the cases of a test file of Unicode
TEXTS = 1500
# Characters of all bidi classes, brackets, and brackets that are canonically equivalent.
CHARACTERS = [*reference.SAMPLES.values(), *"()[]\u2329\u232a\u3008\u3009"]
THEMES = [
    CHARACTERS, "a\u05d0 ()[]", "a1\u05d0([)]\u0300\u2067\u2069", "1\u0661,+$\u0627a\u05d0 ", "\u202a\u202b\u202d\u202e\u202c\u2067\u2069a\u05d01(",
    "a\u05d0\u2068\u2066\u2067\u2069 \u0300\u2029",
]  # fmt: skip


def plain(record):
    """Returns a record with the names of enumeration members, as the reference has them."""
    return tuple(one.name if isinstance(one, enum.Enum) else one for one in record)


@pytest.fixture(scope="module")
def references():
    return {version: reference.Tables(reference.FOLDERS[version]) for version in VERSIONS}


def differ(tables, text, direction=Options.WEAK_LTR):
    """Returns the position and both records where the package and the reference differ, or None."""
    base = 0 if Options.LTR in direction else 1 if Options.RTL in direction else None
    wanted = reference.reasons(tables, text, base, int(Options.WEAK_RTL in direction), Options.LINE_SEPARATORS in direction)
    found = [plain(one) for one in hordguli.reasons(text, direction, tables=hordguli.default_tables(tables.version))]
    return next(((text, at, one, other) for at, (one, other) in enumerate(itertools.zip_longest(wanted, found)) if one != other), None)


def breaks_differ(tables, text, options=Options(0)):
    wanted = [(*one[:-1], MARKS[one.mark]) for one in reference.break_reasons(tables, text, bool(options))]
    found = [plain(one) for one in hordguli.break_reasons(text, options, tables=hordguli.default_tables(tables.version))]
    return next(((text, at, one, other) for at, (one, other) in enumerate(itertools.zip_longest(wanted, found)) if one != other), None)


# ---- Levels ----


def test_a_reason_has_its_values():
    first, opener, letter, closer = hordguli.reasons("a(\u05d0)")
    assert opener == hordguli.Reason(
        opener=None, matching=None, sequence=0, partner=3, inside=2, left=None, right=None, class_after=("ON",) * 9 + ("L", "L"), override_class=None,
        embedding_level=0, level=0, sos="L", eos="L", bracket_case=BracketCase.C2, neutral=None,
    )  # fmt: skip
    assert (closer.partner, closer.inside, closer.bracket_case, closer.class_after) == (1, 2, BracketCase.C2, opener.class_after)
    assert (letter.class_after, letter.level, letter.partner, letter.bracket_case) == (("R",) * 11, 1, None, None)
    assert first == letter._replace(class_after=("L",) * 11, level=0)


def test_positions_count_in_the_paragraph_and_not_in_the_sequence():
    found = hordguli.reasons("\u2067a\u2069(b)")
    assert [(one.sequence, one.partner, one.inside) for one in found[3:]] == [(0, 5, 4), (0, None, None), (0, 3, 4)]
    assert [(one.sequence, one.opener, one.matching) for one in found[:3]] == [(0, None, 2), (1, 0, None), (0, None, 0)]
    assert [(one.left, one.right, one.neutral) for one in found[:3]] == [(None, 3, NeutralRule.N1), (None, None, None), (None, 3, NeutralRule.N1)]


def test_a_removed_character_has_the_level_of_the_one_before_it():
    found = hordguli.reasons("\u202b\u05d0\u00ad\u202c", Options.LTR)
    assert [(one.left, one.level, one.sequence) for one in found] == [(None, 0, None), (None, 1, 1), (1, 1, None), (1, 1, None)]
    assert found[2].class_after == ("BN", *[None] * 10) and found[2].sos is None
    assert [one.opener for one in found] == [None, 0, 0, 0]


def test_an_override_has_a_class():
    found = hordguli.reasons("\u202ea(\u202c")[1:3]
    assert [(one.override_class, one.class_after[:2], one.embedding_level, one.level) for one in found] == [("R", ("L", "R"), 1, 1), ("R", ("ON", "R"), 1, 1)]
    assert [one.bracket_case for one in found] == [None, BracketCase.NOT_OTHER]


# A text, a direction, and the case of each bracket.
CASES = {
    "b": ("\u05d0(a)", Options.LTR, "B B"),
    "b before c": ("(\u05d0a)", Options.LTR, "B B"),
    "c1": ("\u05d0(\u05d0)", Options.LTR, "C1 C1"),
    "c1 of a number": ("\u05d0(1)", Options.LTR, "C1 C1"),
    "c1 at the start": ("\u202b\u05d0\u202c(\u05d0)", Options.LTR, "C1 C1"),
    "c2": ("a(\u05d0)", Options.LTR, "C2 C2"),
    "c2 at the start": ("(\u05d0)", Options.LTR, "C2 C2"),
    "d": ("\u05d0(!)\u05d0", Options.LTR, "D D"),
    "d is not c": ("\u05d0( )", Options.RTL, "D D"),
    "not other": ("\u202e()", Options.LTR, "NOT_OTHER NOT_OTHER"),
    "no match": (")(", Options.LTR, "NO_MATCH NO_MATCH"),
    "crossing": ("([)]", Options.LTR, "D NO_MATCH D NO_MATCH"),
    "another sequence": ("(\u2067)\u2069", Options.LTR, "NO_MATCH NO_MATCH"),
    "the same sequence": ("(\u2067a\u2069)", Options.LTR, "D D"),
    "63": ("(" * 63 + "a" + ")" * 63, Options.LTR, " ".join(["B"] * 126)),
    "64": ("(" * 64 + "a" + ")" * 64, Options.LTR, " ".join(["PAST_LIMIT"] * 128)),
    "past a pair": ("(a)" + "(" * 64, Options.LTR, " ".join(["B"] * 2 + ["PAST_LIMIT"] * 64)),
    "before the limit": (")([)" + "(" * 64 + ")", Options.LTR, " ".join(["NO_MATCH", "D", "NO_MATCH", "D"] + ["PAST_LIMIT"] * 65)),
    "another sequence is not past the limit": ("(" * 64 + "\u2067(a)\u2069", Options.LTR, " ".join(["PAST_LIMIT"] * 64 + ["C2"] * 2)),
}


@pytest.mark.parametrize("name", CASES)
def test_cases_of_n0(name):
    text, direction, wanted = CASES[name]
    found = hordguli.reasons(text, direction)
    assert [one.bracket_case.name for one in found if one.bracket_case] == wanted.split()
    assert all((one.partner is None) == (one.bracket_case is None or one.bracket_case > BracketCase.D) for one in found)


def test_marks_after_a_bracket_have_it_as_their_partner():
    found = hordguli.reasons("\u05d0(a)\u0300\u0301b\u0300", Options.LTR)
    assert [one.partner for one in found] == [None, 3, None, 1, 3, 3, None, None]
    assert hordguli.reasons("( )\u0300")[3].partner is None  # (case d)


def test_reasons_of_a_paragraph_depend_on_its_separators():
    text = "\u05d0\x85\u05d0"
    assert [hordguli.reasons(text, one)[1].class_after[0] for one in (Options.WEAK_LTR, Options.LINE_SEPARATORS)] == ["B", "S"]


@pytest.mark.parametrize("version", VERSIONS)
def test_reasons_of_levels_are_those_of_the_reference(references, version):
    tables, chance = references[version], random.Random(9)
    for _ in range(TEXTS):
        theme = chance.choice(THEMES)
        text = "".join(chance.choice(theme) for _ in range(chance.randint(0, chance.choice((6, 12, 40)))))
        assert differ(tables, text, chance.choice(DIRECTIONS) | chance.choice((Options(0), Options.LINE_SEPARATORS))) is None
    deep = "".join(chance.choice("([{)]}") for _ in range(400)) + "a"
    for text in (deep, "a" + "(" * 64 + "b)", "".join(chance.choice("\u202a\u202b\u202d\u2067") for _ in range(130)) + "a(\u05d01)\u202c\u2069b"):
        assert differ(tables, text) is None


@pytest.mark.parametrize("version", VERSIONS)
def test_levels_of_unicodes_cases_have_the_reasons_of_the_reference(references, version):
    cases = itertools.islice(reference.character_cases(f"{reference.TOP}/ucd-tests/{version}/BidiCharacterTest.txt"), 0, None, EVERY)
    count = 0
    for text, base, _, _ in cases:
        direction = Options.WEAK_LTR if base is None else (Options.LTR, Options.RTL)[base]
        assert differ(references[version], text, direction) is None
        count += 1
    assert count > 2000


def test_levels_are_those_of_the_reasons():
    chance = random.Random(3)
    for _ in range(200):
        text = "".join(chance.choice(CHARACTERS) for _ in range(50))
        assert [one.level for one in hordguli.reasons(text, Options.RTL)] == hordguli.levels(text, Options.RTL)


# ---- Break marks ----


def test_a_break_reason_has_its_values():
    wanted = [
        (0, 0, "LB9", "AL", "CM", Break.NEVER), (0, 0, "LB7", "AL", "SP", Break.NEVER), (2, 0, "LB7", "SP", "SP", Break.NEVER),
        (3, 0, "LB18", "SP", "OP", Break.MAY), (4, 4, "LB3", "OP", None, Break.MUST),
    ]  # fmt: skip
    assert hordguli.break_reasons("a\u0301  (") == [hordguli.BreakReason(*one) for one in wanted]
    assert hordguli.break_reasons(" ") == [hordguli.BreakReason(0, None, "LB3", "SP", None, Break.MUST)]
    assert hordguli.break_reasons("") == []


# For each rule and version, a text whose first break mark the rule decides.
RULES = {
    "LB3": "a", "LB4": "\x0ba", "LB5": "\ra", "LB6": "a\n", "LB7": "a ", "LB8": "\u200ba", "LB8a": "\u200da", "LB9": "a\u0301", "LB11": "a\u2060",
    "LB12": "\u00a0a", "LB12a": "a\u00a0", "LB13": "a!", "LB14": "(a", "LB16": ")\u3005", "LB17": "\u2014\u2014", "LB18": " a", "LB19": "a'", "LB20": "a\ufffc",
    "LB21": "a\u2010", "LB21b": "/\u05d0", "LB22": "a\u2026", "LB23": "a1", "LB23a": "$\u4e00", "LB24": "$a", "LB25": "1%", "LB26": "\u1100\u1161",
    "LB27": "\uac00%", "LB28": "aa", "LB29": ".a", "LB30": "a(", "LB30a": "\U0001f1e6\U0001f1e7", "LB30b": "\u261d\U0001f3fb", "LB31": "\u4e00\u4e00",
}  # fmt: skip
ONLY = {
    "15.0": {"LB15": "'(", "LB21": "a-"},
    "17.0": {
        "LB15a": "\u00aba", "LB15b": " \u00bb", "LB15c": " .5", "LB15d": "a.", "LB19a": "a\u00ab", "LB20a": "-a", "LB28a": "\ua9a7\ua9c0",
    },
}  # fmt: skip


@pytest.mark.parametrize("version", VERSIONS)
def test_each_rule_is_named(version):
    tables = hordguli.default_tables(version)
    for rule, text in {**RULES, **ONLY[version]}.items():
        assert hordguli.break_reasons(text, tables=tables)[0].rule == rule, text
    assert hordguli.break_reasons("\u05d0-a", tables=tables)[1].rule == "LB21a"


@pytest.mark.parametrize("version", VERSIONS)
def test_reasons_of_breaks_are_those_of_the_reference(references, version):
    tables = references[version]
    for codes in texts.random_code_points(tables.breaks, TEXTS // 3, 4):
        for options in (Options(0), Options.WHOLE_NUMBERS):
            assert breaks_differ(tables, "".join(map(chr, codes)), options) is None
    cases = itertools.islice(reference.lines(f"{reference.TOP}/ucd-tests/{version}/LineBreakTest.txt"), 0, None, EVERY // 4)
    for line, _ in cases:
        assert breaks_differ(tables, "".join(chr(int(word, 16)) for word in line.split()[1::2])) is None


def test_marks_are_those_of_the_reasons():
    chance = random.Random(5)
    for _ in range(200):
        text = "".join(chance.choice("a1 ($.)-\u4e00'\u200d\u0301") for _ in range(50))
        for options in (Options(0), Options.WHOLE_NUMBERS):
            assert [one.mark for one in hordguli.break_reasons(text, options)] == hordguli.breaks(text, options)
