#!/usr/bin/env python3
"""Draws a text to a PNG, in lines of at most WIDTH pixels. Right-to-left paragraphs are aligned right.

    python3 examples/caption.py WIDTH PICTURE FONT... < TEXT

A letter is drawn with the first FONT that has it. Needs Debian's python3-pil, and what hordguli.harfbuzz needs.
"""
import sys

import hordguli
from hordguli.harfbuzz import UNITS, Measure
from PIL import Image, ImageDraw, ImageFont

SIZE, HEIGHT, MARGIN = 26, 44, 16  # of the letters, of a line, and around the text, in pixels


def draw(lines, measure, fonts, width):
    """Returns a picture of a session's lines, `width` pixels wide and with a margin."""
    picture = Image.new("L", (width + 2 * MARGIN, len(lines) * HEIGHT + 2 * MARGIN), "white")
    pen = ImageDraw.Draw(picture)
    for number, line in enumerate(lines):
        for piece in line.left_to_right():
            for part in measure.parts(piece):
                place = MARGIN + (line.padding + part.left) / UNITS, MARGIN + number * HEIGHT + SIZE
                direction = "rtl" if piece.level % 2 else "ltr"
                pen.text(place, part.text, "black", fonts[part.font], anchor="ls", direction=direction)
    return picture


if __name__ == "__main__":
    if len(sys.argv) < 4:
        sys.exit("usage: caption.py WIDTH PICTURE FONT... < TEXT")
    pixels, files = int(sys.argv[1]), sys.argv[3:]
    by_size = Measure(files, SIZE)
    opened = [ImageFont.truetype(file, SIZE, layout_engine=ImageFont.Layout.RAQM) for file in files]
    with hordguli.Session(sys.stdin.read(), pixels * UNITS, measure=by_size) as text:
        draw(text, by_size, opened, pixels).save(sys.argv[2])
