"""The pieces of lines."""

from conftest import measured
from hordguli import Options, Piece, Session
from hypothesis import given, settings
from hypothesis import strategies as st
from test_random import changed_texts, options

HEBREW = "\u05d0\u05d1\u05d2"


def test_pieces_are_from_left_to_right():
    with measured(f"ab {HEBREW} (1) {HEBREW}\ncd", 1000) as text:
        assert text[0].left_to_right() == [
            Piece(0, "ab ", 0, 0, 30),
            Piece(9, f") {HEBREW}", 1, 30, 80),
            Piece(8, "1", 2, 80, 90),
            Piece(3, f"{HEBREW} (", 1, 90, 140),
        ]
        assert text[1].left_to_right() == [Piece(15, "cd", 0, 0, 20)]
        assert text[0].logical_text == f"ab {HEBREW} (1) {HEBREW}"
    with Session(" \n") as text:
        assert text[0].left_to_right() == [] and text[0].logical_text == ""


def test_a_tab_is_a_piece():
    for rtl in (False, True):
        letters = HEBREW if rtl else "abc"
        with Session.open_measured(f"{letters}\t\t{letters} {letters}\t", 1000, Options.tab_width(8)) as text:
            text.set_advances(0, [40 if c == "\t" else 10 for c in text.text()])
            pieces = [(0, letters, 0, 30), (3, "\t", 30, 40), (4, "\t", 40, 80), (5, f"{letters} {letters}", 80, 150), (12, "\t", 150, 160)]
            found = [(start, content, left, right) for start, content, _, left, right in text[0].left_to_right()]
            assert found == ([(start, content, 160 - right, 160 - left) for start, content, left, right in pieces[::-1]] if rtl else pieces)


@settings(max_examples=400)
@given(changed_texts, st.integers(1, 200), options)
def test_pieces_cover_the_line_in_visual_order(start, width, option):
    # (these options may change the visual order of a piece's characters)
    is_plain = not option & (Options.REORDER_NSM | Options.REORDER_CLUSTERS)
    with Session.open_measured(start, width, option | Options.tab_width(8)) as text:
        text.set_advances(0, [ord(c) % 7 for c in start])
        for line in text:
            order, right = [], 0
            assert line.logical_text == start[line.start : line.start + line.shown]
            for piece in line.left_to_right():
                places = range(piece.start - line.start, piece.start - line.start + len(piece.text))
                assert piece.left == right and piece.text == line.logical_text[places.start : places.stop]
                assert ("\t" in piece.text) == (piece.text == "\t") and {line.levels[place] for place in places} == {piece.level}
                right = piece.right
                order += reversed(places) if piece.level % 2 else places
            assert right == line.width and (not is_plain or tuple(order) == line.visual_to_logical)
