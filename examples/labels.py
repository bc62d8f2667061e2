#!/usr/bin/env python3
"""Draws a bar chart with Matplotlib. Its labels, in any direction, wrap where they would touch each other.

    python3 examples/labels.py PICTURE

Matplotlib draws characters from left to right, without shaping them. So it gets lines in visual order. arabic_reshaper replaces Arabic
letters with characters for their joined forms, which Matplotlib's own font has. Needs Debian's python3-matplotlib and
python3-arabic-reshaper.
"""
import sys

import hordguli
import matplotlib
from arabic_reshaper import reshape
from matplotlib import font_manager, ft2font, pyplot

UNITS, GAP = 64, 8  # units of a pixel; pixels between labels
VISITORS = {"המוזיאון הלאומי לאמנות": 41, "متحف الفن الحديث في المدينة": 28, "City Library and Archive": 33, "גן Carmel, רחוב הים 12": 19}


def label(axes, names):
    """Sets the labels of an x axis. Each has as many pixels as there are between two of its ticks."""
    width = int((axes.bbox.width / len(names) - GAP) * UNITS)
    size, resolution = matplotlib.rcParams["font.size"], axes.figure.dpi

    def measure(paragraph):
        font = font_manager.get_font(font_manager.findfont(font_manager.FontProperties()))
        font.set_size(size, resolution)
        # (the advances are fixed-point numbers with 16 fractional bits)
        return [font.load_char(ord(c), ft2font.LOAD_NO_HINTING).linearHoriAdvance * UNITS >> 16 for c in paragraph.text]

    lines = ["\n".join(hordguli.wrap(reshape(name), width, measure=measure)) for name in names]
    axes.set_xticks(range(len(names)), lines)


def draw(values, picture):
    """Draws a bar for each value."""
    figure, axes = pyplot.subplots(figsize=(5.6, 3), layout="constrained")
    axes.bar(range(len(values)), values.values(), color="steelblue")
    figure.draw_without_rendering()  # (finds the width of the axes)
    label(axes, list(values))
    figure.savefig(picture)


if __name__ == "__main__":
    if len(sys.argv) != 2:
        sys.exit("usage: labels.py PICTURE")
    matplotlib.use("Agg")
    draw(VISITORS, sys.argv[1])
