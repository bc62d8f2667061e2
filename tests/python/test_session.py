"""Sessions, by examples."""

import itertools

import hordguli
import pytest
from conftest import measured
from hordguli import Caret, ChangedLines, Damage, Direction, Edge, Options, Print, Session, Side

HEBREW = "\u05d0\u05d1\u05d2"
CLEF = "\U0001d11e"
AFTER = Side.AFTER


def test_lines_of_a_damage_are_those_that_changed():
    with Session("one two\nthree", width=5) as text:
        damage = text.insert(4, "and ")
        assert damage == hordguli.Damage(0, 2, 3, 0, 1, 1)
        assert text.lines(damage.first_line, damage.new_lines) == ["one", "and", "two"]


def test_changed_lines_are_those_of_the_damage_that_differ():
    with Session("one two six\nthree", width=5) as text:
        assert text.changed_lines == ChangedLines(0, 0, 4)
        assert text.insert(7, "s") == Damage(0, 3, 3, 0, 1, 1)
        assert text.changed_lines == ChangedLines(1, 1, 1)
        with pytest.raises(ValueError):
            text.set_width(0)
        assert text.changed_lines == ChangedLines(1, 1, 1)
        text.width = 80
        assert text.changed_lines == ChangedLines(0, 3, 1)


def test_edits_equal_those_of_a_str():
    with Session("abc") as text:
        text.insert(3, f"\n{CLEF}{HEBREW}")
        text.delete(1, 1)
        text.replace(3, 1, "xyz")
        assert text.text() == f"ac\nxyz{HEBREW}"
        assert text.text(3, 3) == "xyz" and text.text(9) == "" and text.text(6) == HEBREW
        assert text.utf8(2) == f"\nxyz{HEBREW}".encode() and text.utf8_length(6) == 6 and text.utf8_length(6, 1) == 2


def test_width_is_read_and_assigned():
    with Session("one two") as text:
        assert (text.width, len(text)) == (80, 1)
        text.width = 3
        assert (text.width, len(text)) == (3, 2)
        assert text.set_width(80) == (0, 2, 1, 0, 1, 1)


def test_advances_are_columns():
    with Session.open_measured(f"in {HEBREW}", 100_000) as text:
        assert (text.width, len(text), text[0].width) == (100_000, 1, 0)
        assert text.set_advances(0, [4, 9, 5, 30_000, 0, 80_000]) == Damage(0, 1, 3, 0, 1, 1)
        assert [line.width for line in text] == [13, 30_000, 80_000]
        assert text[1].columns == (0, 30_000) and text.caret(3) == Caret(1, 30_000, 1) and text.caret(4) == Caret(1, 0, 1)
        assert text.hit(1, 29_999) == (3, False) and text.nearest_edge(1, 20_000) == Edge(3)
        assert text.spans(1, 3, 5) == [(0, 30_000)]


def test_new_characters_have_advance_0():
    with measured("ab\nc", 20) as text:
        edited = text.insert(1, "xy")
        assert (edited.new_lines, text[0].width) == (1, 20)
        assert text.set_advances(1, iter((10, 10))) == Damage(0, 1, 2, 0, 1, 1)
        text.delete(0, 1)
        assert [line.width for line in text] == [20, 10, 10]
        assert text.set_advances(2, []).new_lines == 0


def test_a_measured_width_is_read_and_assigned():
    with measured("abcd", 20) as text:
        text.width = 100_000
        assert (text.width, len(text)) == (100_000, 1)
        assert text.set_measured_width(30) == Damage(0, 1, 2, 0, 1, 1)
        assert text.set_width(10) == Damage(0, 2, 4, 0, 1, 1) and text.width == 10


def test_measured_lines_are_not_padded():
    with measured(HEBREW, 50) as text:
        assert text[0].padding == 20 and text.lines() == [HEBREW[::-1]]
    with Session.open_measured("a\tb", 100, Options.tab_width(8)) as text:
        text.set_advances(0, [10, 30, 10])
        assert text[0].columns == (10, 20, 10) and text.lines() == ["a\tb"]


def test_counts_and_work():
    with Session(f"{CLEF}\nb\n", width=9) as text:
        assert text.counts == hordguli.Counts(4, 2, 2, 9)
        before = text.work
        text.insert(0, "x")
        assert text.work.analysed == before.analysed
        text.insert(0, HEBREW[0])
        assert text.work.analysed - before.analysed == 4


def test_a_line_has_its_text_maps_columns_and_runs():
    with Session(f"ab\u4e00 ({HEBREW}) \ncd") as text:
        line = text[0]
        assert line.text == f"ab\u4e00 ({HEBREW[::-1]})"
        assert (line.start, line.length, line.shown, line.width, line.padding) == (0, 11, 9, 10, 0)
        assert (line.base_level, line.is_first, text[1].start) == (0, True, 11)
        assert line.levels == (0, 0, 0, 0, 0, 1, 1, 1, 0)
        assert line.logical_to_visual == line.visual_to_logical == (0, 1, 2, 3, 4, 7, 6, 5, 8)
        assert line.columns == (1, 1, 2, 1, 1, 1, 1, 1, 1)
        assert line.runs == ((0, 5, 0), (5, 3, 1), (8, 1, 0)) == tuple(text.runs(0))


def test_lines_are_a_sequence():
    with Session("a\nb\nc", width=5) as text:
        assert [line.text for line in text] == ["a", "b", "c"] and text[-1].text == "c" and len(text) == 3
        with pytest.raises(IndexError):
            text[3]
        with pytest.raises(IndexError):
            text[-4]


def test_slices_are_those_of_a_list():
    with Session(f"a\n{HEBREW}\nc d\n", width=2) as text, Session("") as empty:
        lines, numbers = list(text), [None, *range(-6, 7), 1 << 70]
        for start, stop, step in itertools.product(numbers, numbers, [None, 1, 2, 7, -1, -3]):
            assert text[start:stop:step] == lines[start:stop:step]
        assert len(lines) == 5 and isinstance(text[1:2], list) and empty[:] == []


def test_an_empty_line_has_empty_tuples():
    with Session("\n") as text:
        assert text[0][:4] == ("", 0, 1, 0) and text[0].levels == text[0].runs == ()


def test_lines_print_each_item():
    with Session(f"{HEBREW}\nab", width=4) as text:
        assert text.lines() == [f" {HEBREW[::-1]}", "ab"]
        assert text.lines(1) == ["ab"] and text.lines(0, 1, Print.VISUAL) == [HEBREW[::-1]]
        assert text.lines(show=Print.BASEDIR) == ["RTL", "LTR"]
        assert text.lines(0, 1, Print.LTOV | Print.VTOL | Print.LEVELS) == ["2 1 0", "2 1 0", "1 1 1"]
        assert text.lines(2) == [] and text.lines(0, 0) == []


def test_paragraph_has_levels_and_breaks():
    with Session(f"a\n{HEBREW} b", width=1) as text:
        paragraph = text.paragraph(1)
        assert paragraph[:5] == (2, 5, 1, len(text) - 1, 1)
        assert paragraph.levels == (1, 1, 1, 1, 2) and paragraph.breaks[3] == hordguli.Break.MAY


def test_carets_and_hits_count_columns():
    with Session(f"ab {HEBREW} cd\n") as text:
        assert text.caret(0) == (0, 0, 0) and text.caret(3) == Caret(0, 6, 1) and text.caret(10).line == 1
        assert text.hit(0, 3) == hordguli.Hit(5, False) and text.hit(0, 99) == hordguli.Hit(8, True)
        assert text.hit(0, 3).trailing is False
        assert text.place(4) == hordguli.Place(0, 0, 4) and text.line_start(0) == 0


def test_positions_are_str_indexes():
    with Session(f"{CLEF}{CLEF}ab", width=80) as text:
        assert text.caret(2).column == text[0].columns[0] * 2
        assert text.cluster(2) == (2, 3) and text.word(2) == hordguli.Word(2, 4, 1)
        assert (text.byte_offset(2), text.utf16_offset(2)) == (8, 4)
        assert text.position_of_byte(5) == (1, 1) and text.position_of_utf16(5) == (3, 0)
        assert text.insert(2, CLEF).new_lines == 1 and text.text() == CLEF * 3 + "ab"


def test_clusters_and_words():
    with Session("e\u0301a ,") as text:
        assert text.cluster(1) == hordguli.Cluster(0, 2) and text.line_clusters(0) == [2, 3, 4, 5]
        assert text.word(0).end == 3 and text.word(4).kind == 0


def test_spans_of_a_selection():
    with Session(f"ab {HEBREW} cd") as text:
        assert text.spans(0, 1, 4) == [hordguli.Span(1, 3), hordguli.Span(5, 6)]
        assert text.spans(0, 0, 0) == []


def test_more_runs_than_the_first_buffer_holds():
    with Session("a\u05d0" * 50) as text:
        assert len(text.runs(0)) == 80
        assert len(hordguli.row_runs("a\u05d0" * 50, [0, 1] * 50)) == 100


def test_edges_of_a_position():
    with Session(f"abc {HEBREW} def") as text:
        assert text.edge_caret(Edge(4)) == (0, 7, 1) and text.edge_caret(Edge(4, AFTER)) == (0, 4, 0)
        assert text.step(Edge(0), Direction.RIGHT) == Edge(1, AFTER)
        assert text.step(Edge(0), Direction.LEFT) is None
        assert text.edge_at(0, 0) == Edge(0) and text.edge_at(0, 2**63).pos == 11
        first, last = text.line_edges(0)
        assert (first, last) == (Edge(0), Edge(11)) and isinstance(text.edge_at(0, 0).side, Side)


def test_nearest_edges():
    with Session("a漢") as text:
        edges = [text.nearest_edge(0, column) for column in (0, 1, 2, 3)]
        assert edges == [Edge(0), Edge(1), Edge(2, AFTER), Edge(2, AFTER)]


def test_options_apply():
    with Session("a b", 1, Options.NOBREAK | Options.RTL) as text:
        assert len(text) == 1 and text[0].base_level == 1


def test_tables_may_be_closed_before_their_sessions():
    tables = hordguli.Tables()
    text = Session("abc", tables=tables)
    tables.close()
    assert text.lines() == ["abc"]
    text.close()


def test_tables_are_read_from_files_a_folder_or_an_image(files, folder):
    for given in (folder, files, (folder / "tables.image").read_bytes()):
        with hordguli.Tables(given) as tables:
            assert hordguli.levels(HEBREW, tables=tables) == [1, 1, 1]
            assert hordguli.display(f"a{HEBREW}", tables=tables) == f"a{HEBREW[::-1]}"
            assert hordguli.wrap("a b", 1, tables=tables) == ["a", "b"]


def rules_of(tables):
    """Returns what differs between the versions: the level of a letter of Unicode 16.0, and the break after a hyphen (LB20a)."""
    return tables.unicode_version, hordguli.levels("\U00010d5a", tables=tables), hordguli.wrap("ls -v", 4, tables=tables)


OF_15, OF_17 = ("15.0", [0], ["ls -", "v"]), ("17.0", [1], ["ls", "-v"])


def test_tables_are_of_unicode_15_by_default(files, folder):
    for given in (None, folder, files, (folder / "tables.image").read_bytes()):
        for more in ({}, {"unicode": "15.0"}):
            with hordguli.Tables(given, **more) as tables:
                assert rules_of(tables) == OF_15


def test_tables_may_be_of_unicode_17(folder_17):
    contents = [(folder_17 / name).read_bytes() for name in hordguli.TABLE_FILES]
    image = (folder_17 / "tables.image").read_bytes()
    for given in (None, folder_17, contents, image):
        with hordguli.Tables(given, unicode="17.0") as tables:
            assert rules_of(tables) == OF_17
            assert hordguli.properties("\u1b05", tables=tables)[0].line_class == "AK"
            with Session("ls -v", 4, tables=tables) as text:
                assert text.lines() == ["ls", "-v"]
    with hordguli.Tables(image) as tables:
        assert rules_of(tables) == OF_17


def test_default_tables_are_opened_once():
    assert hordguli.default_tables() is hordguli.default_tables()
    assert hordguli.default_tables("15.0") is hordguli.default_tables()


def test_default_tables_of_each_version_are_opened_once():
    tables = hordguli.default_tables("17.0")
    assert tables is hordguli.default_tables("17.0") is not hordguli.default_tables()
    assert (rules_of(tables), rules_of(hordguli.default_tables())) == (OF_17, OF_15)
    assert hordguli.wrap("ls -v", 4) == ["ls -", "v"]
