"""Functions on a text, by examples."""

import hordguli
import pytest
from hordguli import Break, Options, Print

HEBREW = "\u05d0\u05d1\u05d2"  # alef, bet, gimel
CLEF = "\U0001d11e"  # one character, and two UTF-16 units


def test_display_puts_letters_in_visual_order():
    assert hordguli.display(f"ab {HEBREW}") == f"ab {HEBREW[::-1]}"
    assert hordguli.display(f"{HEBREW} ab 12") == f"ab 12 {HEBREW[::-1]}"


def test_display_mirrors_at_odd_levels():
    assert hordguli.display(f"{HEBREW} (x)") == f"(x) {HEBREW[::-1]}"
    assert hordguli.display(f"({HEBREW})", base_dir="R") == f"({HEBREW[::-1]})"


def test_display_keeps_spaces_at_the_end():
    assert hordguli.display("ab  ") == "ab  "
    assert hordguli.display(f"{HEBREW}  ") == f"  {HEBREW[::-1]}"


def test_display_keeps_separators_at_the_end_of_their_paragraph():
    assert hordguli.display(f"{HEBREW}\nab\r\n{HEBREW} \u2029\n") == f"{HEBREW[::-1]}\nab\r\n {HEBREW[::-1]}\u2029\n"
    assert hordguli.display("\n\r\n\r") == "\n\r\n\r"


def test_display_knows_all_separators():
    characters = "".join(map(chr, [*range(0xD800), *range(0xE000, 0x110000)]))
    separators = {char for char, its in zip(characters, hordguli.properties(characters)) if its.bidi_class == "B"}
    assert set(hordguli.text._SEPARATORS.findall(characters)) == separators
    assert all(hordguli.display(f"{HEBREW}{char}{HEBREW}") == f"{HEBREW[::-1]}{char}{HEBREW[::-1]}" for char in separators)


def test_each_paragraph_has_its_own_direction():
    assert hordguli.display(f"{HEBREW}.\nab.") == f".{HEBREW[::-1]}\nab."
    assert hordguli.display(f"{HEBREW}.\nab.", base_dir="R") == f".{HEBREW[::-1]}\n.ab"


@pytest.mark.parametrize("base_dir, shown", [("L", f"{HEBREW[::-1]}."), ("R", f".{HEBREW[::-1]}"), ("AL", f".{HEBREW[::-1]}"), (None, f".{HEBREW[::-1]}")])
def test_display_takes_a_base_direction(base_dir, shown):
    assert hordguli.display(f"{HEBREW}.", base_dir=base_dir) == shown


def test_display_takes_a_direction_of_options():
    text = f"1.\n{HEBREW}.\nab."
    assert hordguli.display(text, direction=Options.LTR) == hordguli.display(text, base_dir="L") == f"1.\n{HEBREW[::-1]}.\nab."
    assert hordguli.display(text, direction=Options.RTL) == hordguli.display(text, base_dir="R") == f".1\n.{HEBREW[::-1]}\n.ab"
    assert hordguli.display(text, direction=Options.WEAK_LTR) == hordguli.display(text) == f"1.\n.{HEBREW[::-1]}\nab."
    assert hordguli.display(text.encode(), direction=Options.WEAK_RTL).decode() == f".1\n.{HEBREW[::-1]}\nab."
    assert hordguli.display("1.", direction=1) == ".1" and hordguli.display("1.", direction=0) == "1."


def test_display_of_bytes_returns_bytes():
    assert hordguli.display(f"a{HEBREW}".encode()) == f"a{HEBREW[::-1]}".encode()
    assert hordguli.display(HEBREW.encode("cp1255"), "cp1255") == HEBREW[::-1].encode("cp1255")
    assert hordguli.display(HEBREW.encode("cp1255"), encoding="cp1255", base_dir="L") == HEBREW[::-1].encode("cp1255")


def test_display_keeps_all_characters():
    text = f"\ufeff\u202b{HEBREW}\u202c\u200f\0{CLEF}\u2067x\u2069"
    assert sorted(hordguli.display(text)) == sorted(text)
    assert hordguli.display("") == "" and hordguli.display(b"") == b""


def test_wrap_returns_visual_lines():
    assert hordguli.wrap(f"ab {HEBREW} cd", width=6) == [f"ab {HEBREW[::-1]}", "cd"]
    assert hordguli.wrap("") == []
    assert hordguli.wrap("a\n\nb\n") == ["a", "", "b"]


def test_wrap_pads_right_to_left_lines_unless_asked_not_to():
    assert hordguli.wrap(HEBREW, 5) == [f"  {HEBREW[::-1]}"]
    assert hordguli.wrap(f"({HEBREW}", 5, show=Print.VISUAL | Print.MIRRORED) == [f"{HEBREW[::-1]})"]
    assert hordguli.wrap(f"({HEBREW}", 5, show=Print.VISUAL) == [f"{HEBREW[::-1]}("]


def test_wrap_takes_options():
    assert hordguli.wrap("ab cd", 2, Options.NOBREAK) == ["ab cd"]
    assert hordguli.wrap("1/%", 2) == ["1/", "%"]
    assert hordguli.wrap("1/%", 2, Options.WHOLE_NUMBERS)[0] == "1/"
    assert hordguli.wrap("a.", 3, Options.RTL) == [" .a"]
    assert hordguli.wrap("abc\tdefg h", 8, Options.tab_width(4)) == ["abc defg", "h"]
    assert hordguli.wrap("\u05d0\t\u05d1", 10, Options.tab_width(4) | Options.SHOW_SPACES) == ["     \u05d1   \u05d0"]
    for wrong in (-1, 0, 256):
        with pytest.raises(ValueError):
            Options.tab_width(wrong)


def test_line_separators_alone_end_paragraphs():
    text = "a\u2029b\x85c\x1cd\re"
    for options, paragraphs, lines in ((Options(0), 5, 5), (Options.LINE_SEPARATORS, 2, 4)):
        with hordguli.Session(text, 80, options) as session:
            assert (session.counts.paragraphs, session.counts.lines) == (paragraphs, lines)
    embedded = "\u202ba\u2029b"
    # (a paragraph separator is a level run of its own, and a line separator is in a run of the embedding)
    assert [hordguli.levels(embedded, options)[2] for options in (Options.LTR, Options.LTR | Options.LINE_SEPARATORS)] == [1, 2]
    assert hordguli.base_level(embedded, Options.LINE_SEPARATORS) == hordguli.base_level(embedded)


def test_positions_of_levels_and_breaks_are_str_indexes():
    assert hordguli.levels(f"{CLEF}{HEBREW}{CLEF}") == [0, 1, 1, 1, 0]
    assert hordguli.breaks(f"{CLEF} {HEBREW}") == [Break.NEVER, Break.MAY, Break.NEVER, Break.NEVER, Break.MUST]


def test_base_level_is_that_of_the_first_strong_character():
    assert [hordguli.base_level(text) for text in ("", "1.", f"1{HEBREW}a", f"a{HEBREW}")] == [0, 0, 1, 0]
    assert [hordguli.base_level("1.", direction) for direction in (Options.WEAK_RTL, Options.LTR, Options.RTL)] == [1, 0, 1]


def test_break_marks_are_members_of_break():
    with hordguli.Session("a b\n") as text:
        assert [type(mark) for mark in (*hordguli.breaks("a b\n"), *text.paragraph(0).breaks)] == [Break] * 8


def test_breaks_keep_numbers_whole_if_asked():
    assert hordguli.breaks("1/%")[1] == Break.MAY
    assert hordguli.breaks("1/%", Options.WHOLE_NUMBERS)[1] == Break.NEVER


def test_row_has_all_characters_and_both_maps():
    row = hordguli.row(f"({HEBREW}) ", [0, 1, 1, 1, 0, 1])
    assert row == hordguli.Row(f"({HEBREW[::-1]}) ", (0, 1, 1, 1, 0, 0), (0, 3, 2, 1, 4, 5), (0, 3, 2, 1, 4, 5))
    assert hordguli.row("", []) == ("", (), (), ())


def test_row_reorders_marks_if_asked():
    text = "\u05d0\u05b0\u05d1"
    assert hordguli.row(text, [1, 1, 1], 1).text == text[::-1]
    assert hordguli.row(text, [1, 1, 1], 1, Options.REORDER_NSM).text == "\u05d1\u05d0\u05b0"


def test_runs_of_a_row_are_from_left_to_right():
    assert hordguli.row_runs(f"{HEBREW}12", [1, 1, 1, 2, 2], 1) == [(3, 2, 2), (0, 3, 1)]


def test_clusters_of_a_text():
    text = "e\u0301\r\n\u0915\u094d\u0937\U0001f468\u200d\U0001f469a"
    assert hordguli.clusters(text) == [2, 4, 7, 10, 11]
    assert hordguli.clusters("a" * 100) == list(range(1, 101)) and hordguli.clusters("") == []


def test_script_runs_follow_brackets():
    def scripts(text):
        return [(run.length, run.script) for run in hordguli.script_runs(text)]

    assert hordguli.script_runs("a (\u05d0) 1") == [(0, 3, "Latn"), (3, 1, "Hebr"), (4, 3, "Latn")]
    assert (scripts("1 \u05d0!"), scripts("12"), scripts("")) == ([(4, "Hebr")], [(2, "Zyyy")], [])
    assert len(scripts("a\u05d0" * 50)) == 100


def test_properties_of_characters():
    bracket, letter, mark, wide, clef = hordguli.properties(f"[\u05d0\u0300\u4e00{CLEF}")
    assert bracket == hordguli.Character("]", "]", False, False, "ON", "OP", 1, "open")
    assert (letter.bidi_class, letter.line_class, letter.mirror, letter.bracket) == ("R", "HL", "", "")
    assert (mark.is_mark, mark.columns, mark.bidi_class) == (True, 0, "NSM")
    assert (wide.is_wide, wide.columns, wide.line_class) == (True, 2, "ID")
    assert (clef.bidi_class, hordguli.properties("]")[0].bracket) == ("L", "close")


def test_widths_are_of_their_version():
    assert hordguli.WIDTH_UNICODE_VERSION == "18.0"
    emoji, mark = hordguli.properties("\U0001facc\u05c8", tables=hordguli.default_tables("17.0"))  # of Unicode 18.0
    assert (emoji.columns, emoji.is_wide, mark.columns, mark.is_mark) == (2, False, 0, False)


def test_utf8_is_counted_and_checked():
    assert hordguli.count_utf8(f"a{CLEF}".encode()) == 2
    assert hordguli.valid_utf8(f"a{CLEF}".encode()[:-1]) == 1
    assert (hordguli.count_utf8(b""), hordguli.valid_utf8(b"")) == (0, 0)


def test_a_string_with_null_characters_is_taken_whole():
    assert hordguli.levels(f"\0{HEBREW}\0") == [1, 1, 1, 1, 1]
    assert hordguli.wrap("a\0b") == ["a\0b"]
