#!/usr/bin/env python3
"""Writes a text to a PDF with ReportLab, in lines as wide as the page. Right-to-left paragraphs are aligned right.

    python3 examples/report.py PDF FONT < TEXT

ReportLab draws characters from left to right, without shaping them. So it gets lines in visual order. arabic_reshaper replaces Arabic
letters with characters for their joined forms, which FONT must have. Needs Debian's python3-reportlab and python3-arabic-reshaper.
"""
import sys

import hordguli
from arabic_reshaper import reshape
from reportlab.lib.pagesizes import A6
from reportlab.pdfbase import pdfmetrics
from reportlab.pdfbase.ttfonts import TTFont
from reportlab.pdfgen.canvas import Canvas

SIZE, LEADING, MARGIN = 12, 18, 30  # of the letters, between lines, and around the text, in points
UNITS = 1000  # of a point


def measure(paragraph):
    """Returns the advance of each character."""
    return [round(UNITS * pdfmetrics.stringWidth(c, "text", SIZE)) for c in paragraph.text]


def write(content, file, page):
    """Writes a PDF. `page` is the size of its pages."""
    canvas, y = Canvas(file, page), 0
    with hordguli.Session(reshape(content), int((page[0] - 2 * MARGIN) * UNITS), measure=measure) as text:
        for line in text:
            if y < MARGIN:
                if line.start > 0:
                    canvas.showPage()
                canvas.setFont("text", SIZE)
                y = page[1] - MARGIN - SIZE
            canvas.drawString(MARGIN + line.padding / UNITS, y, line.text)
            y -= LEADING
    canvas.save()


if __name__ == "__main__":
    if len(sys.argv) != 3:
        sys.exit("usage: report.py PDF FONT < TEXT")
    pdfmetrics.registerFont(TTFont("text", sys.argv[2]))
    write(sys.stdin.read(), sys.argv[1], A6)
