"""Exceptions. After each, the session is unchanged, and other threads can use it."""

import copy
import itertools
import os
import pickle
import subprocess
import sys
import threading

import hordguli
import pytest
from conftest import DIRECTIONS, measured, state_of
from hordguli import Break, Cause, Direction, Edge, Options, Print, Side

HEBREW = "\u05d0\u05d1\u05d2"
LONE = "a\ud800"
MOST_IN_A_TEXT, MOST_IN_A_PARAGRAPH = 1 << 24, 1 << 20
BIG = 1 << 64

FAILING_CALLS = {
    "insert past the end": (IndexError, lambda text: text.insert(9, "x")),
    "insert at a negative position": (IndexError, lambda text: text.insert(-1, "x")),
    "insert at a position of more than 64 bits": (IndexError, lambda text: text.insert(BIG, "x")),
    "insert of a lone surrogate": (ValueError, lambda text: text.insert(0, LONE)),
    "insert of bytes": (AttributeError, lambda text: text.insert(0, b"x")),
    "insert of too long a paragraph": (ValueError, lambda text: text.insert(0, "x" * MOST_IN_A_PARAGRAPH)),
    "insert of too long a text": (ValueError, lambda text: text.insert(0, "x\n" * (MOST_IN_A_TEXT // 2))),
    "delete past the end": (IndexError, lambda text: text.delete(1, 9)),
    "delete of a negative count": (IndexError, lambda text: text.delete(0, -1)),
    "delete of a count of more than 64 bits": (IndexError, lambda text: text.delete(0, BIG)),
    "replace past the end": (IndexError, lambda text: text.replace(0, 9, "")),
    "replace by a lone surrogate": (ValueError, lambda text: text.replace(0, 1, LONE)),
    "width 0": (ValueError, lambda text: text.set_width(0)),
    "width above 65,535": (ValueError, lambda text: text.set_width(65536)),
    "width of more than 32 bits": (ValueError, lambda text: setattr(text, "width", (1 << 32) + 80)),
    "a negative width": (ValueError, lambda text: text.set_width(-1)),
    "a width that is no number": (TypeError, lambda text: text.set_width("80")),
    "advances of a session that is not measured": (hordguli.NotMeasuredError, lambda text: text.set_advances(9, [1])),
    "a measured width of a session that is not measured": (hordguli.NotMeasuredError, lambda text: text.set_measured_width(0)),
    "a line past the end": (IndexError, lambda text: text[2]),
    "a slice with step 0": (ValueError, lambda text: text[::0]),
    "a slice of strings": (TypeError, lambda text: text["a":]),
    "lines past the end": (IndexError, lambda text: text.lines(1, 2)),
    "lines from past the end": (IndexError, lambda text: text.lines(3)),
    "unknown print flags": (ValueError, lambda text: text.lines(show=1 << 9)),
    "print flags of more than 32 bits": (ValueError, lambda text: text.lines(show=1 << 32)),
    "text past the end": (IndexError, lambda text: text.text(0, 9)),
    "bytes past the end": (IndexError, lambda text: text.utf8(9)),
    "the length of characters past the end": (IndexError, lambda text: text.utf8_length(9)),
    "a paragraph past the end": (IndexError, lambda text: text.paragraph(2)),
    "a caret past the end": (IndexError, lambda text: text.caret(9)),
    "a hit past the end": (IndexError, lambda text: text.hit(2, 0)),
    "a hit at a negative column": (IndexError, lambda text: text.hit(0, -1)),
    "a place past the end": (IndexError, lambda text: text.place(9)),
    "the start of a line past the end": (IndexError, lambda text: text.line_start(2)),
    "a cluster at the end": (IndexError, lambda text: text.cluster(8)),
    "a word at the end": (IndexError, lambda text: text.word(8)),
    "spans past the end": (IndexError, lambda text: text.spans(2, 0, 1)),
    "runs past the end": (IndexError, lambda text: text.runs(2)),
    "clusters past the end": (IndexError, lambda text: text.line_clusters(2)),
    "the edge after position 0": (IndexError, lambda text: text.edge_caret(Edge(0, Side.AFTER))),
    "an edge with an unknown side": (ValueError, lambda text: text.edge_caret(Edge(0, 2))),
    "a step past the end": (IndexError, lambda text: text.step(Edge(9), hordguli.Direction.LEFT)),
    "a step in an unknown direction": (ValueError, lambda text: text.step(Edge(0), 2)),
    "an edge past the end": (IndexError, lambda text: text.edge_at(9, 0)),
    "a nearest edge past the end": (IndexError, lambda text: text.nearest_edge(9, 0)),
    "edges of a line past the end": (IndexError, lambda text: text.line_edges(9)),
    "a byte past the end": (IndexError, lambda text: text.position_of_byte(99)),
    "a code unit past the end": (IndexError, lambda text: text.position_of_utf16(99)),
    "the offset of a position past the end": (IndexError, lambda text: text.byte_offset(9)),
    "the UTF-16 offset of a position past the end": (IndexError, lambda text: text.utf16_offset(9)),
}


def from_another_thread(call):
    """Returns what a call returns in another thread. Fails if it does not end."""
    found = []
    thread = threading.Thread(target=lambda: found.append(call()), daemon=True)
    thread.start()
    thread.join(20)
    assert found, "the call does not end"
    return found[0]


@pytest.mark.parametrize("name", FAILING_CALLS)
def test_a_failing_call_changes_nothing(name):
    error, call = FAILING_CALLS[name]
    with hordguli.Session(f"ab {HEBREW}\nc", width=20) as text:
        before = state_of(text)
        with pytest.raises(error):
            call(text)
        assert from_another_thread(lambda: state_of(text)) == before
        assert text.insert(8, "!").new_lines == 1 and text.text() == f"ab {HEBREW}\nc!"


FAILING_MEASURED_CALLS = {
    "advances past the end": (IndexError, lambda text: text.set_advances(7, [1, 1])),
    "no advances past the end": (IndexError, lambda text: text.set_advances(9, [])),
    "advances at a negative position": (IndexError, lambda text: text.set_advances(-1, [1])),
    "advances that are too wide together": (ValueError, lambda text: text.set_advances(0, [(1 << 32) - 1, 1])),
    "an advance of more than 32 bits": (ValueError, lambda text: text.set_advances(0, [1 << 32])),
    "a negative advance": (ValueError, lambda text: text.set_advances(0, [1, -1])),
    "an advance that is no number": (TypeError, lambda text: text.set_advances(0, [1.5])),
    "measured width 0": (ValueError, lambda text: text.set_measured_width(0)),
    "width 0": (ValueError, lambda text: setattr(text, "width", 0)),
    "measured width above 2,147,483,647": (ValueError, lambda text: text.set_measured_width(1 << 31)),
    "width above 2,147,483,647": (ValueError, lambda text: setattr(text, "width", 1 << 31)),
    "measured width of more than 32 bits": (ValueError, lambda text: text.set_measured_width((1 << 32) + 80)),
}


@pytest.mark.parametrize("name", FAILING_MEASURED_CALLS)
def test_a_failing_call_changes_nothing_in_a_measured_session(name):
    error, call = FAILING_MEASURED_CALLS[name]
    with measured(f"ab {HEBREW}\nc", 200) as text:
        before = state_of(text)
        with pytest.raises(error):
            call(text)
        assert state_of(text) == before and text.set_advances(0, [11]).new_lines == 1


def test_a_join_of_wide_paragraphs_is_refused():
    with measured("a\nb", 200) as text:
        text.set_advances(0, [(1 << 32) - 1, 0])
        before = state_of(text)
        with pytest.raises(ValueError) as caught:
            text.delete(1, 1)
        assert str(caught.value) == "paragraph too long" and state_of(text) == before


OPENING = {
    "measured width 0": (ValueError, lambda: hordguli.Session.open_measured("", 0)),
    "measured width above 2,147,483,647": (ValueError, lambda: hordguli.Session.open_measured("", 1 << 31)),
    "a lone surrogate in a measured session": (UnicodeEncodeError, lambda: hordguli.Session.open_measured(LONE, 80)),
    "width 0": (ValueError, lambda: hordguli.Session("", 0)),
    "width above 65,535": (ValueError, lambda: hordguli.Session("", 65536)),
    "unknown options": (ValueError, lambda: hordguli.Session("", 80, 1 << 20)),
    "options of more than 32 bits": (ValueError, lambda: hordguli.Session("", 80, 1 << 32)),
    "a lone surrogate": (UnicodeEncodeError, lambda: hordguli.Session(LONE)),
    "too long a paragraph": (ValueError, lambda: hordguli.Session("x" * (MOST_IN_A_PARAGRAPH + 1))),
    "too long a text": (ValueError, lambda: hordguli.wrap("x\n" * (MOST_IN_A_TEXT // 2 + 1))),
    "display of a lone surrogate": (UnicodeEncodeError, lambda: hordguli.display(LONE)),
    "display of an unknown direction": (ValueError, lambda: hordguli.display("a", base_dir="X")),
    "display of bytes in another encoding": (UnicodeDecodeError, lambda: hordguli.display(b"\xff")),
    "display of two directions": (TypeError, lambda: hordguli.display("a", base_dir="R", direction=Options.RTL)),
    "display with another option": (ValueError, lambda: hordguli.display("a", direction=Options.NOBREAK)),
    "display of an unknown direction in options": (ValueError, lambda: hordguli.display("a", direction=-1)),
    "display with a positional upper_is_rtl": (TypeError, lambda: hordguli.display("a", "utf-8", False)),
    "levels of a lone surrogate": (UnicodeEncodeError, lambda: hordguli.levels(LONE)),
    "levels with another option": (ValueError, lambda: hordguli.levels("a", Options.NOBREAK)),
    "reasons of a lone surrogate": (UnicodeEncodeError, lambda: hordguli.reasons(LONE)),
    "reasons with another option": (ValueError, lambda: hordguli.reasons("a", Options.WHOLE_NUMBERS)),
    "break reasons of a lone surrogate": (UnicodeEncodeError, lambda: hordguli.break_reasons(LONE)),
    "break reasons with a direction": (ValueError, lambda: hordguli.break_reasons("a", Options.RTL)),
    "a base level with another option": (ValueError, lambda: hordguli.base_level("a", Options.NOBREAK)),
    "breaks with a direction": (ValueError, lambda: hordguli.breaks("a", Options.RTL)),
    "a row with too few levels": (ValueError, lambda: hordguli.row("ab", [0])),
    "a row with a level above 126": (ValueError, lambda: hordguli.row("a", [127])),
    "a row with a level above 255": (ValueError, lambda: hordguli.row("a", [256])),
    "a row with a base level above 1": (ValueError, lambda: hordguli.row("a", [0], 2)),
    "runs with too many levels": (ValueError, lambda: hordguli.row_runs("a", [0, 0])),
    "script runs of a lone surrogate": (UnicodeEncodeError, lambda: hordguli.script_runs(LONE)),
    "clusters of a lone surrogate": (UnicodeEncodeError, lambda: hordguli.clusters(LONE)),
    "properties of a lone surrogate": (UnicodeEncodeError, lambda: hordguli.properties(LONE)),
    "bytes that are not UTF-8": (ValueError, lambda: hordguli.count_utf8(b"\xff")),
    "six table files": (ValueError, lambda: hordguli.Tables([b""] * 6)),
    "a path with a null character": (ValueError, lambda: hordguli.Tables("a\0b")),
    "tables of an unknown version": (ValueError, lambda: hordguli.Tables(unicode="16.0")),
    "default tables of an unknown version": (ValueError, lambda: hordguli.default_tables("17")),
}


@pytest.mark.parametrize("name", OPENING)
def test_a_failing_function_leaves_the_tables_usable(name):
    error, call = OPENING[name]
    with pytest.raises(error):
        call()
    assert from_another_thread(lambda: hordguli.levels(HEBREW)) == [1, 1, 1]


# Calls on a text of 8 characters and 2 lines, by the message of the error that each raises.
MESSAGES = {
    "position 9 is out of range": lambda text: text.insert(9, "x"),
    "9 characters from 1 on are out of range": lambda text: text.delete(1, 9),
    "7 characters from 2 on are out of range": lambda text: text.replace(2, 7, ""),
    "character 10 is out of range": lambda text: text.text(10),
    "5 characters from 4 on are out of range": lambda text: text.utf8(4, 5),
    "6 characters from 3 on are out of range": lambda text: text.utf8_length(3, 6),
    "line 3 is out of range": lambda text: text.lines(3),
    "2 lines from 1 on are out of range": lambda text: text.lines(1, 2),
    "line 2 is out of range": lambda text: text[2],
    "line -3 is out of range": lambda text: text[-3],
    "line 4 is out of range": lambda text: text.line_start(4),
    "line 5 is out of range": lambda text: text.hit(5, 0),
    "line 6 is out of range": lambda text: text.spans(6, 0, 1),
    "line 7 is out of range": lambda text: text.runs(7),
    "line 8 is out of range": lambda text: text.edge_at(8, 0),
    "line 9 is out of range": lambda text: text.line_edges(9),
    "line 10 is out of range": lambda text: text.line_clusters(10),
    "line 11 is out of range": lambda text: text.nearest_edge(11, 0),
    "paragraph 2 is out of range": lambda text: text.paragraph(2),
    "position 10 is out of range": lambda text: text.place(10),
    "position 11 is out of range": lambda text: text.caret(11),
    "position 8 is out of range": lambda text: text.cluster(8),
    "position 12 is out of range": lambda text: text.word(12),
    "position 13 is out of range": lambda text: text.byte_offset(13),
    "position 14 is out of range": lambda text: text.utf16_offset(14),
    "byte 99 is out of range": lambda text: text.position_of_byte(99),
    "UTF-16 code unit 98 is out of range": lambda text: text.position_of_utf16(98),
    "the edge after position 0 is out of range": lambda text: text.edge_caret(Edge(0, Side.AFTER)),
    "the edge before position 9 is out of range": lambda text: text.step(Edge(9), Direction.LEFT),
    "-1 is out of range": lambda text: text.delete(0, -1),
}
MEASURED_MESSAGES = {"2 characters from 7 on are out of range": lambda text: text.set_advances(7, [1, 1])}


@pytest.mark.parametrize("message", MESSAGES)
def test_an_index_error_names_the_values(message):
    with hordguli.Session(f"ab {HEBREW}\nc", width=20) as text, pytest.raises(IndexError) as caught:
        MESSAGES[message](text)
    assert str(caught.value) == message


@pytest.mark.parametrize("message", MEASURED_MESSAGES)
def test_an_index_error_names_the_values_in_a_measured_session(message):
    with measured(f"ab {HEBREW}\nc", 200) as text, pytest.raises(IndexError) as caught:
        MEASURED_MESSAGES[message](text)
    assert str(caught.value) == message


# ---- Options ----

TAKING_A_DIRECTION = {
    "Session": lambda options: hordguli.Session(f"1. {HEBREW}\n.", 80, options).lines(),
    "wrap": lambda options: hordguli.wrap(f"1. {HEBREW}\n.", 80, options),
    "levels": lambda options: hordguli.levels("1.", options),
    "reasons": lambda options: hordguli.reasons("1.", options),
    "base_level": lambda options: hordguli.base_level("1.", options),
    "display": lambda options: hordguli.display("1.\n", direction=options),
    "explain": lambda options: hordguli.explain("1.", 80, options),
}
TAKING_OPTIONS = {
    **TAKING_A_DIRECTION,
    "breaks": lambda options: hordguli.breaks("1.", options),
    "break_reasons": lambda options: hordguli.break_reasons("1.", options),
    "row": lambda options: hordguli.row("1.", [0, 0], 0, options),
}
TAKING_PRINT_FLAGS = {
    "wrap": lambda show: hordguli.wrap("1.", show=show),
    "lines": lambda show: hordguli.Session("1.").lines(show=show),
}


@pytest.mark.parametrize("one, other", itertools.combinations(DIRECTIONS, 2))
@pytest.mark.parametrize("name", TAKING_A_DIRECTION)
def test_different_directions_are_refused(name, one, other):
    with pytest.raises(ValueError) as caught:
        TAKING_A_DIRECTION[name](one | other)
    assert str(caught.value) == f"different directions: {one | other!r}"


@pytest.mark.parametrize("name", TAKING_A_DIRECTION)
def test_a_plain_number_is_a_direction(name):
    call = TAKING_A_DIRECTION[name]
    assert [call(number) for number in range(4)] == [call(one) for one in DIRECTIONS]
    assert call(Options(0)) == call(Options.WEAK_LTR) and call(Options.LTR | Options.LTR) == call(Options.LTR)


@pytest.mark.parametrize("name", ["breaks", "break_reasons", "row"])
def test_what_has_no_direction_refuses_each(name):
    assert TAKING_OPTIONS[name](0) == TAKING_OPTIONS[name](Options(0))
    for one in DIRECTIONS:
        with pytest.raises(ValueError) as caught:
            TAKING_OPTIONS[name](one)
        assert str(caught.value) == f"not accepted: {one!r}"


@pytest.mark.parametrize("bit", [7, 16, 23, 27, 31])
@pytest.mark.parametrize("name", TAKING_OPTIONS)
def test_unknown_bits_are_named(name, bit):
    with pytest.raises(ValueError) as caught:
        TAKING_OPTIONS[name](1 << bit)
    assert f"not accepted: <Options: {1 << bit:#x}>" in str(caught.value)


@pytest.mark.parametrize("wrong", [Print.LEVELS, Break.MAY, Side.AFTER, Direction.RIGHT, hordguli.BracketCase.C2, hordguli.NeutralRule.N2])
@pytest.mark.parametrize("name", TAKING_OPTIONS)
def test_only_options_are_options(name, wrong):
    with pytest.raises(TypeError) as caught:
        TAKING_OPTIONS[name](wrong)
    assert str(caught.value).endswith(f"must be Options, not {type(wrong).__name__}")


@pytest.mark.parametrize("name", TAKING_PRINT_FLAGS)
def test_only_print_flags_are_print_flags(name):
    with pytest.raises(TypeError) as caught:
        TAKING_PRINT_FLAGS[name](Options.NOBREAK)
    assert str(caught.value) == "show must be Print, not Options"
    assert TAKING_PRINT_FLAGS[name](int(Print.DEFAULT)) == ["1."]


# ---- Copies ----


@pytest.mark.parametrize("call", [copy.copy, copy.deepcopy, pickle.dumps])
@pytest.mark.parametrize("kind", [hordguli.Session, hordguli.Tables])
def test_copies_are_refused(kind, call):
    with kind() as original:
        with pytest.raises(TypeError) as caught:
            call(original)
        assert str(caught.value) == f"cannot copy or pickle '{kind.__name__}' object"
        assert not original.closed


# ---- Limits ----


def test_functions_on_a_paragraph_have_no_limit():
    text = "x" * (MOST_IN_A_PARAGRAPH + 1)
    assert hordguli.display(text) == text and hordguli.base_level(text) == 0
    zeros = [0] * len(text)
    assert hordguli.levels(text) == zeros and set(hordguli.breaks(text)[:-1]) == {Break.NEVER}
    assert hordguli.row(text, zeros).text == text and hordguli.row_runs(text, zeros) == [(0, len(text), 0)]
    assert len(hordguli.properties(text)) == len(text)


def test_the_longest_paragraph_and_text_are_accepted():
    with hordguli.Session("x" * MOST_IN_A_PARAGRAPH, 65535) as text:
        assert text.counts.characters == MOST_IN_A_PARAGRAPH


def test_a_missing_table_file_is_named(tmp_path):
    with pytest.raises(hordguli.TableError) as caught:
        hordguli.Tables(tmp_path)
    assert (caught.value.file, caught.value.line, caught.value.cause) == ("DerivedBidiClass.txt", 0, Cause.UNREAD_FILE)
    assert caught.value.folder == os.fspath(tmp_path)
    assert str(caught.value) == f"cannot read {tmp_path}/DerivedBidiClass.txt"
    assert isinstance(caught.value.__cause__, FileNotFoundError)
    assert str(pickle.loads(pickle.dumps(caught.value))) == str(caught.value)


@pytest.mark.parametrize("given", [os.fspath, lambda path: path])
def test_a_malformed_line_in_a_folder_is_named(tmp_path, files, given):
    for name, content in zip(hordguli.TABLE_FILES, files):
        (tmp_path / name).write_bytes(content)
    (tmp_path / "BidiMirroring.txt").write_bytes(b"\n0028; 29\n")
    with pytest.raises(hordguli.TableError) as caught:
        hordguli.Tables(given(tmp_path))
    assert (caught.value.file, caught.value.line, caught.value.cause) == ("BidiMirroring.txt", 2, Cause.VALUE)
    assert str(caught.value) == f"{tmp_path}/BidiMirroring.txt:2: value"


def test_a_malformed_line_is_named(files):
    files[3] += b"0041;XYZ\n"
    with pytest.raises(hordguli.TableError) as caught:
        hordguli.Tables(files)
    line = files[3].count(b"\n")
    assert (caught.value.file, caught.value.line, caught.value.cause) == ("LineBreak.txt", line, Cause.VALUE)
    assert str(caught.value) == f"LineBreak.txt:{line}: value" and caught.value.folder is None
    assert str(pickle.loads(pickle.dumps(caught.value))) == str(caught.value)


def test_a_malformed_image_is_named(folder):
    image = (folder / "tables.image").read_bytes()
    for given, cause in ((image[:-1], Cause.TRUNCATED), (image + b"a", Cause.EXCESS), (b"a" * 99, Cause.MAGIC), (b"", Cause.TRUNCATED)):
        with pytest.raises(hordguli.TableError) as caught:
            hordguli.Tables(given)
        assert (caught.value.file, caught.value.line, caught.value.cause) == ("image", 0, cause)
        assert str(caught.value) == f"image: {cause.name.lower()}"


def test_the_known_versions_are_named(folder):
    for call in (hordguli.default_tables, lambda given: hordguli.Tables(unicode=given), lambda given: hordguli.Tables(folder, unicode=given)):
        for given in ("16.0", "17", ""):
            with pytest.raises(ValueError) as caught:
                call(given)
            assert str(caught.value) == f"the Unicode version {given!r} is none of '15.0', '17.0'"


def test_an_image_of_another_version_is_refused(folder, folder_17):
    for its, unicode in ((folder, "17.0"), (folder_17, "15.0")):
        with pytest.raises(hordguli.TableError) as caught:
            hordguli.Tables((its / "tables.image").read_bytes(), unicode=unicode)
        assert (caught.value.file, caught.value.line, caught.value.cause) == ("image", 0, Cause.VERSION)


def test_files_of_unicode_17_are_refused_as_those_of_15(folder_17):
    with pytest.raises(hordguli.TableError) as caught:
        hordguli.Tables(folder_17)
    assert (caught.value.file, caught.value.cause) == ("LineBreak.txt", Cause.VALUE)


def test_a_closed_session_raises():
    text = hordguli.Session("abc")
    assert not text.closed
    text.close()
    text.close()
    assert text.closed
    for call in (len, list, lambda text: text.insert(0, ""), lambda text: text.lines(), lambda text: text.width, lambda text: text[0], lambda text: text[:1]):
        with pytest.raises(hordguli.ClosedError):
            call(text)
    with pytest.raises(ValueError):
        text.width = 9


def test_closed_tables_raise():
    with hordguli.Tables() as tables:
        pass
    assert tables.closed
    tables.close()
    measured_session = lambda text, tables: hordguli.Session.open_measured(text, 80, tables=tables)
    for call in (hordguli.levels, hordguli.display, hordguli.wrap, hordguli.properties, hordguli.Session, measured_session):
        with pytest.raises(hordguli.ClosedError):
            call("a", tables=tables)
    with pytest.raises(hordguli.ClosedError):
        tables.unicode_version


def test_closed_default_tables_are_opened_again():
    hordguli.default_tables().close()
    assert hordguli.levels("a") == [0]


# ---- What hordguli.harfbuzz needs ----

# For each Debian package that `hordguli.harfbuzz` needs, statements that fail as if it were missing.
MISSING = {
    "python3-gi": "sys.modules['gi'] = None",
    "gir1.2-harfbuzz-0.0": "gi.require_version = lambda *_: int('none')",
    "libharfbuzz-gobject0": "gi.require_version, harfbuzz.buffer_create = print, fail",
}
# Two ways in which HarfBuzz's library can be missing: there is no such file, or the file is another library.
LIBRARIES = "libnone.so.0", "libc.so.6"


@pytest.mark.parametrize("library", LIBRARIES)
@pytest.mark.parametrize("package", MISSING)
def test_what_harfbuzz_needs_is_named(package, library):
    lines = [
        "import sys, types, hordguli._shapers",
        f"hordguli._shapers.NAME = {library!r}",
        "sys.modules['uharfbuzz'] = None",
        "def fail(): raise RuntimeError",
        "gi, repository, harfbuzz = (types.ModuleType(name) for name in ('gi', 'gi.repository', 'gi.repository.HarfBuzz'))",
        "sys.modules.update({one.__name__: one for one in (gi, repository, harfbuzz)})",
        MISSING[package],
        "import hordguli.harfbuzz",
    ]
    ran = subprocess.run([sys.executable, "-c", "\n".join(lines)], stdout=subprocess.DEVNULL, stderr=subprocess.PIPE)
    said = ran.stderr.decode().strip().split("\n")[-1]
    assert (ran.returncode, said) == (1, f"ImportError: hordguli.harfbuzz needs {library} (Debian's package libharfbuzz0b) or the package uharfbuzz")
