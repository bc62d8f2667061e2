"""`hordguli.harfbuzz`, and examples/caption.py. Needs Debian's HarfBuzz, Pillow and fonts."""

import doctest
import os
import pathlib
import re
import subprocess
import sys
import types

import hordguli
import hordguli.harfbuzz
import pytest
from hordguli import Options, ParagraphText, Piece, Run, Session
from hordguli.harfbuzz import UNITS, Measure, Part
from PIL import Image, ImageChops, ImageDraw, ImageFont

NOTO = [f"/usr/share/fonts/truetype/noto/{name}-Regular.ttf" for name in ("NotoSans", "NotoSansHebrew", "NotoSansArabic")]
DEJAVU = "/usr/share/fonts/truetype/dejavu/DejaVuSans.ttf"  # (has all three scripts)
CAPTION = pathlib.Path(__file__).parents[2] / "examples/caption.py"
HEBREW, BEH, LAM, ALEF = "\u05d0\u05d1\u05d2", "\u0628", "\u0644", "\u0627"
TEXT = """In Hebrew, peace is שלום. In Arabic, it is سلام (pronounced salām).
שלום עולם! מחיר: 12.50 ₪ (about $3.40), גם בערבית: لا بأس.

مرحبًا بالعالم! كُتب هذا السطر (the third one) في عام 2022.
"""
# Kerned pairs, ligatures, marks, digits of each kind, brackets, controls, and characters that no font has.
TEXTS = [TEXT, "AVAVA Toffice To", "e\u0301x\u0302 שָׁלוֹם مُحَمَّد", "لالا لآ ١٢٣ 123", f"\u2067{HEBREW} (abc) [{BEH}]\u2069 \u0007x\r\n\u6f22"]


def run_of(text, level):
    return ParagraphText(text, level % 2, (Run(0, len(text), level),))


def pillow(file, size=26):
    return ImageFont.truetype(file, size, layout_engine=ImageFont.Layout.RAQM)


def length(font, text, level):
    """Returns the width of a text that Pillow shapes, in the units of `Measure`."""
    return round(UNITS * font.getlength(text, direction="rtl" if level % 2 else "ltr"))


# ---- Advances ----


@pytest.mark.parametrize("text, level", [("AV", 0), ("office To", 0), (HEBREW, 1), ("سلام", 1), ("لا بأس", 1), ("12", 2), ("e\u0301", 0)])
@pytest.mark.parametrize("size", [9, 26, 100.5])
def test_advances_are_those_that_pillow_shapes(text, level, size):
    advances = Measure(DEJAVU, size)(run_of(text, level))
    assert len(advances) == len(text)
    if size == int(size):
        assert abs(sum(advances) - length(pillow(DEJAVU, int(size)), text, level)) <= 1


def test_letters_join_within_a_paragraph():
    measure = Measure(NOTO, 26)
    joined, alone = measure(run_of(BEH * 3, 1)), measure(run_of(BEH, 1))[0]
    assert len({*joined, alone}) > 2
    # letters also join across the runs of a paragraph
    apart = measure(ParagraphText(BEH * 3, 1, (Run(0, 1, 1), Run(1, 1, 3), Run(2, 1, 1))))
    assert apart == joined


def test_a_ligature_has_its_advance_at_its_first_character():
    lam_alef = Measure(NOTO, 26)(run_of(f"{LAM}{ALEF}", 1))
    assert lam_alef[0] > 0 and lam_alef[1] == 0
    # a letter and a mark with a glyph each
    assert Measure(NOTO, 26)(run_of("x\u0302", 0)) == [*Measure(NOTO, 26)(run_of("x", 0)), 0]


def test_right_to_left_runs_are_shaped_in_their_direction():
    measure = Measure("/usr/share/fonts/truetype/noto/NotoSans-Regular.ttf", 26)
    kerned = measure(run_of("AT", 0))
    assert measure(ParagraphText("AT", 0, (Run(0, 2, 1),))) != kerned and sum(kerned) < sum(measure(run_of(c, 0))[0] for c in "AT")


def test_each_script_is_shaped_on_its_own():
    both = Measure(DEJAVU, 26)(run_of(f"{HEBREW}{BEH * 2} {BEH}", 1))
    assert both[3:5] == Measure(DEJAVU, 26)(run_of(BEH * 2, 1)) != [both[6], both[6]]


def test_controls_have_no_advance_and_tabs_have_that_of_8_spaces():
    measure = Measure(NOTO, 26)
    space = measure(run_of(" ", 0))[0]
    assert measure(run_of("\t\n\r\x07\u2028\u2029\u2067\u200f", 0)) == [8 * space, 0, 0, 0, 0, 0, 0, 0]
    assert measure(ParagraphText("", 0, ())) == []


def test_a_character_is_in_the_first_font_that_has_it():
    measure, single = Measure(NOTO, 26), [Measure(file, 26) for file in NOTO]
    assert measure(run_of(f"{HEBREW} ", 1)) == [*single[1](run_of(HEBREW, 1)), *single[0](run_of(" ", 1))]
    assert measure(run_of("a\u6f22", 0))[1] == single[0](run_of("\u6f22", 0))[0] > 0
    # a mark gets the font of its base
    assert [part.font for part in measure.parts(Piece(0, "שָׁלוֹם", 1, 0, 0))] == [1]
    assert [part.font for part in Measure([NOTO[0], DEJAVU], 26).parts(Piece(0, "\u05d0\u0301", 1, 0, 0))] == [1]
    assert Measure(NOTO[::-1], 26)(run_of(" ", 0)) == single[2](run_of(" ", 0))


@pytest.mark.parametrize("given, error, message", [
    (("/nonexistent.ttf", 26), FileNotFoundError, None),
    ((str(CAPTION), 26), ValueError, f"{CAPTION} is no font"),
    (([], 26), ValueError, "no font is given"),
    ((NOTO, 0), ValueError, "size 0 is out of range"),
    ((NOTO, -26), ValueError, "size -26 is out of range"),
    ((NOTO, 65_536), ValueError, "size 65536 is out of range"),
    ((NOTO, 0.015), ValueError, "size 0.015 is out of range"),
    ((NOTO, float("inf")), ValueError, "size inf is out of range"),
    ((NOTO, float("nan")), ValueError, "size nan is out of range"),
])
def test_fonts_and_sizes_are_checked(given, error, message):
    with pytest.raises(error) as caught:
        Measure(*given)
    assert message in (None, str(caught.value))


def test_a_font_is_a_path_too():
    assert Measure(pathlib.Path(DEJAVU), 26)(run_of("a", 0)) == Measure([DEJAVU], 26)(run_of("a", 0))


# ---- Sessions ----


@pytest.mark.parametrize("fonts", [NOTO, DEJAVU])
@pytest.mark.parametrize("width", [60, 200, 560])
def test_edits_equal_a_new_session(fonts, width):
    measure = Measure(fonts, 26)
    for content in TEXTS:
        with Session("x\ny", width * UNITS, measure=measure) as text:
            for at, c in enumerate(content):
                text.insert(at + 1, c)
            with Session(f"x{content}\ny", width * UNITS, measure=measure) as fresh:
                assert list(text) == list(fresh)


def test_lines_fit():
    measure = Measure(NOTO, 26)
    for width in (200, 300, 560):
        with Session(TEXT, width * UNITS, measure=measure) as text:
            assert len(text) > 4 and all(line.width <= width * UNITS for line in text)
            for line in text:
                parts = [part for piece in line.left_to_right() for part in measure.parts(piece)]
                assert "".join(part.text for part in sorted(parts)) == line.logical_text
                assert all(one.right == other.left for one, other in zip(parts, parts[1:]))
                assert not parts or (parts[0].left, parts[-1].right) == (0, line.width)


def test_parts_are_from_left_to_right():
    measure = Measure(NOTO, 26)
    space = measure(run_of(" ", 0))[0]
    hebrew, arabic = (sum(measure(run_of(content, 1))) for content in (HEBREW, BEH))
    assert measure.parts(Piece(5, f"{HEBREW} {BEH}", 1, 100, 0)) == [
        Part(9, BEH, 2, 100, 100 + arabic),
        Part(8, " ", 0, 100 + arabic, 100 + arabic + space),
        Part(5, HEBREW, 1, 100 + arabic + space, 100 + arabic + space + hebrew),
    ]
    assert [part.font for part in measure.parts(Piece(0, f"a{HEBREW}a", 2, 0, 0))] == [0, 1, 0]
    assert measure.parts(Piece(0, "\t", 0, 0, 50)) == []


def test_tab_stops_are_where_8_spaces_are():
    measure = Measure(NOTO, 26)
    with Session("a\tb\nabc\td", 800 * UNITS, Options.tab_width(8), measure=measure) as text:
        stop = 8 * measure(run_of(" ", 0))[0]
        assert [line.left_to_right()[2].left for line in text] == [stop, stop]


# ---- examples/caption.py ----

SIZE, HEIGHT, MARGIN = 26, 44, 16
# For each mutant: the text to replace in caption.py, and the replacement.
CAPTION_MUTANTS = [
    ("line.padding + part.left", "part.left"),
    ("line.padding + part.left", "line.padding"),
    ('"rtl" if piece.level % 2 else "ltr"', '"ltr" if piece.level % 2 else "rtl"'),
    ("in line.left_to_right():", "in line.left_to_right()[:-1]:"),
    ("in measure.parts(piece):", "in measure.parts(piece)[::-1][:1]:"),
    ("fonts[part.font]", "fonts[0]"),
    ("MARGIN + number * HEIGHT + SIZE", "MARGIN + number // 2 * HEIGHT + SIZE"),
    ("part.text,", "part.text[::-1],"),
]


def caption(source, text, width):
    """Returns the picture that a program draws."""
    module, measure = types.ModuleType("caption"), Measure(NOTO, SIZE)
    exec(compile(source, "caption.py", "exec"), vars(module))
    with Session(text, width * UNITS, measure=measure) as session:
        return module.draw(session, measure, [pillow(file) for file in NOTO], width)


def expected(text, width):
    """Returns the expected picture, with each word at its place in the session, without using `pieces` or `parts`."""
    measure, files, fonts = Measure(NOTO, SIZE), NOTO, [pillow(file) for file in NOTO]
    with Session(text, width * UNITS, measure=measure) as session:
        picture = Image.new("L", (width + 2 * MARGIN, len(session) * HEIGHT + 2 * MARGIN), 255)
        pen = ImageDraw.Draw(picture)
        for number, line in enumerate(session):
            places = [MARGIN + line.padding / UNITS]
            for columns in line.columns:
                places.append(places[-1] + columns / UNITS)
            # each word is drawn at its leftmost character
            for found in re.finditer(r"[^\W\d_]+[\u064b-\u0652]*(?:[^\W\d_]+[\u064b-\u0652]*)*|\d+|[^\w\s]", text[line.start : line.start + line.shown]):
                level = line.levels[found.start()]
                left = min(line.logical_to_visual[k] for k in range(*found.span()))
                font = next(font for font, file in zip(fonts, files) if Measure(file, SIZE)._of(found[0][0])[0])
                pen.text((places[left], MARGIN + number * HEIGHT + SIZE), found[0], 0, font, anchor="ls", direction="rtl" if level % 2 else "ltr")
    return picture


def difference(one, other):
    """Returns how many pixels differ much, in percent of the ink. Glyphs may be a pixel apart."""
    if one.size != other.size:
        return 100
    near = lambda picture: [ImageChops.offset(picture, x, 0) for x in (-1, 0, 1)]
    darkest = lambda picture: ImageChops.darker(ImageChops.darker(*near(picture)[:2]), near(picture)[2])
    unmatched = 0
    for ink, around in ((one, darkest(other)), (other, darkest(one))):
        unmatched += sum(a < 64 and b > 192 for a, b in zip(ink.getdata(), around.getdata()))
    return 100 * unmatched / sum(a < 64 for a in one.getdata())


@pytest.mark.parametrize("width", [230, 560])
def test_the_caption_is_where_the_session_says(width):
    source = CAPTION.read_text(encoding="utf-8")
    wanted = expected(TEXT, width)
    assert difference(caption(source, TEXT, width), wanted) < 1
    for old, new in CAPTION_MUTANTS:
        assert source.count(old) == 1, old
        assert difference(caption(source.replace(old, new), TEXT, width), wanted) > 4, (old, new)


def test_the_caption_is_aligned_right_if_it_is_right_to_left():
    picture = caption(CAPTION.read_text(encoding="utf-8"), TEXT, 560)
    with Session(TEXT, 560 * UNITS, measure=Measure(NOTO, SIZE)) as text:
        for number, line in enumerate(text):
            band = picture.crop((0, MARGIN + number * HEIGHT, picture.width, MARGIN + (number + 1) * HEIGHT))
            box = ImageChops.invert(band).getbbox()
            assert (box is None) == (line.shown == 0)
            if box:
                left = MARGIN + (560 - line.width / UNITS if line.base_level else 0)
                assert abs(box[0] - left) < SIZE / 4 and abs(box[2] - left - line.width / UNITS) < SIZE / 4


def test_the_caption_is_a_program(tmp_path):
    words = [sys.executable, str(CAPTION), "560", str(tmp_path / "picture.png"), *NOTO]
    subprocess.run(words, input=TEXT.encode(), check=True, env={**os.environ, "PYTHONUTF8": "1"})
    with Image.open(tmp_path / "picture.png") as picture:
        assert picture.size[0] == 560 + 2 * MARGIN and difference(picture, expected(TEXT, 560)) < 1
    ran = subprocess.run(words[:3], input=b"", stderr=subprocess.PIPE)
    assert ran.returncode == 1 and ran.stderr.startswith(b"usage: ")
    assert len(CAPTION.read_text(encoding="utf-8").split("\n")) <= 41


# ---- Documentation ----


def test_examples_of_docstrings():
    failed, count = doctest.testmod(hordguli.harfbuzz, extraglobs={"hordguli": hordguli})
    assert failed == 0 and count > 0
