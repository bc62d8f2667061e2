"""Properties, on random input."""

import hordguli
import pytest
from conftest import state_of
from hordguli import Options, Print
from hypothesis import given, settings
from hypothesis import strategies as st

# Letters of both directions, digits, brackets, marks, spaces, separators, isolates, wide and supplementary characters.
ALPHABET = "ab\u05d0\u05d1\u0627\u06281\u0661()[]+,.$ \t\u05b0\u0301\u200d\u2067\u2068\u2069\u202b\u202c\u4e00\U0001d11e\U0001f1e9\n\r\u2028\u2029\u0085"
# Characters that Unicode 17.0 breaks differently from 15.0: quotation marks, hyphens, maqaf, a slash, Javanese
# letters.
CHANGED = "\u201c\u201d\u00ab\u00bb\u2019-\u2010\u05be/%\ua9a7\ua9b1\u25cc"
texts = st.text(st.sampled_from(ALPHABET), max_size=40)
changed_texts = st.text(st.sampled_from(ALPHABET + CHANGED), max_size=40)
any_texts = st.text(st.characters(blacklist_categories=["Cs"]), max_size=20)
options = st.builds(
    lambda direction, others: direction | others,
    st.sampled_from([Options.WEAK_LTR, Options.WEAK_RTL, Options.LTR, Options.RTL]),
    st.integers(0, 31).map(lambda bits: Options(4 * bits)),
)
widths = st.integers(1, 20)
edits = st.lists(st.tuples(st.integers(0, 60), st.integers(0, 10), changed_texts, st.none() | widths), max_size=8)


@pytest.mark.parametrize("version", ["15.0", "17.0"])
@settings(max_examples=600)
@given(changed_texts, widths, options, edits)
def test_edits_equal_a_fresh_session(version, start, width, option, edits):
    model, tables = start, hordguli.default_tables(version)
    with hordguli.Session(start, width, option, tables=tables) as text:
        for pos, count, inserted, new_width in edits:
            pos = min(pos, len(model))
            count = min(count, len(model) - pos)
            if new_width is not None:
                width = new_width
                text.width = width
            elif not inserted:
                text.delete(pos, count)
            elif count == 0:
                text.insert(pos, inserted)
            else:
                text.replace(pos, count, inserted)
            if new_width is None:
                model = model[:pos] + inserted + model[pos + count :]
            with hordguli.Session(model, width, option, tables=tables) as fresh:
                assert text.text() == model and state_of(text) == state_of(fresh)
                assert text.lines() == fresh.lines()


measured_edits = st.lists(
    st.tuples(st.integers(0, 60), st.integers(0, 10), texts, st.lists(st.sampled_from([0, 7, 640, 30_000]), max_size=40)), max_size=8
)


@settings(max_examples=400)
@given(changed_texts, st.integers(1, 200_000), options, measured_edits)
def test_measured_edits_equal_a_fresh_session(start, width, option, edits):
    model, advances = start, [0] * len(start)
    with hordguli.Session.open_measured(start, width, option) as text:
        for pos, count, inserted, given_advances in edits:
            pos = min(pos, len(model))
            count = min(count, len(model) - pos)
            text.replace(pos, count, inserted)
            model = model[:pos] + inserted + model[pos + count :]
            advances[pos : pos + count] = [0] * len(inserted)
            found = given_advances[: len(model) - pos]
            text.set_advances(pos, found)
            advances[pos : pos + len(found)] = found
            with hordguli.Session.open_measured(model, width, option) as fresh:
                fresh.set_advances(0, advances)
                assert text.text() == model and state_of(text) == state_of(fresh)


@settings(max_examples=400)
@given(texts, widths, options)
def test_damage_names_the_lines_that_changed(start, width, option):
    with hordguli.Session(start, width, option) as text:
        before = text.lines()
        damage = text.insert(len(start) // 2, "x\u05d0 ")
        after = text.lines()
        first, old, new = damage[:3]
        assert after == before[:first] + text.lines(first, new) + before[first + old :]


@settings(max_examples=600)
@given(texts | any_texts)
def test_display_is_levels_and_a_row(text):
    shown = hordguli.display(text)
    assert len(shown) == len(text)
    if not any(one.bidi_class == "B" for one in hordguli.properties(text)):
        assert shown == hordguli.row(text, hordguli.levels(text), hordguli.base_level(text)).text


@settings(max_examples=400)
@given(any_texts, widths, options)
def test_lines_equal_the_printed_ones(start, width, option):
    with hordguli.Session(start, width, option) as text:
        assert [line.text for line in text] == text.lines(show=Print.VISUAL | Print.MIRRORED)
        assert [" " * line.padding + line.text for line in text] == text.lines()
        for at, line in enumerate(text):
            assert start[line.start : line.start + line.length] == text.text(line.start, line.length)
            assert len(line.text) == line.shown and sum(line.columns) == line.width
            assert [line.visual_to_logical[place] for place in line.logical_to_visual] == list(range(line.shown))
            assert sum(run.length for run in line.runs) == line.shown
            assert text.line_start(at) == line.start


@settings(max_examples=300)
@given(any_texts)
def test_offsets_are_those_of_python(start):
    with hordguli.Session(start) as text:
        for pos in range(len(start) + 1):
            byte, unit = len(start[:pos].encode()), len(start[:pos].encode("utf-16-le")) // 2
            assert (text.byte_offset(pos), text.utf16_offset(pos)) == (byte, unit)
            assert text.position_of_byte(byte) == text.position_of_utf16(unit) == (pos, 0)
        assert text.utf8() == start.encode() and text.utf8_length() == len(start.encode())


@given(any_texts)
def test_clusters_are_those_of_a_session(start):
    with hordguli.Session(start) as text:
        assert hordguli.clusters(start) == sorted({text.cluster(pos).end for pos in range(len(start))})


@settings(max_examples=300)
@given(st.binary(max_size=30))
def test_valid_utf8_is_that_of_python(data):
    try:
        data.decode()
        valid = len(data)
    except UnicodeDecodeError as error:
        valid = error.start
    assert hordguli.valid_utf8(data) == valid
