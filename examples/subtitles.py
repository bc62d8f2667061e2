#!/usr/bin/env python3
"""Breaks the lines of subtitles in SubRip format, so that none is wider than WIDTH pixels, and those of a subtitle are about equally wide.

    python3 examples/subtitles.py WIDTH FONT... < IN.srt > OUT.srt

A player finds the direction of each line separately. So a line that would get another direction than its paragraph begins with a mark,
U+200E (left-to-right) or U+200F (right-to-left). Needs what hordguli.harfbuzz needs.
"""
import re
import sys

import hordguli
from hordguli.harfbuzz import UNITS, Measure

SIZE = 26  # of the letters, in pixels


def is_whole(text):
    """Returns whether no line of a session ends inside a word."""
    for line in text:
        paragraph = text.paragraph(text.place(line.start).paragraph)
        if not paragraph.breaks[line.start + line.length - 1 - paragraph.start]:
            return False
    return True


def balance(text):
    """Sets the least width at which a session has as few lines as now."""
    count, low, high = len(text), 1, text.width  # (at width `low`, there are more)
    while high - low > 1:
        text.width = (low + high) // 2
        if len(text) == count and is_whole(text):
            high = text.width
        else:
            low = text.width
    text.width = high


def marked(line):
    """Returns a line, after a mark if it would otherwise get another direction than its paragraph."""
    is_other = hordguli.base_level(line.logical_text) != line.base_level
    return ("\u200e", "\u200f")[line.base_level] * is_other + line.logical_text


def rewrap(content, width, measure):
    """Returns the lines of a subtitle."""
    with hordguli.Session(content, width * UNITS, measure=measure) as text:
        balance(text)
        return [marked(line) for line in text]


if __name__ == "__main__":
    if len(sys.argv) < 3:
        sys.exit("usage: subtitles.py WIDTH FONT... < IN.srt > OUT.srt")
    by_size = Measure(sys.argv[2:], SIZE)
    for subtitle in re.split(r"\n\s*\n", sys.stdin.read().strip()):
        number, time, *lines = subtitle.split("\n")
        print(number, time, *rewrap("\n".join(lines), int(sys.argv[1]), by_size), "", sep="\n")
