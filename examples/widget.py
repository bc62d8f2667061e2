#!/usr/bin/env python3
"""A text field for any mix of directions, with GTK 4: type, click, drag to select, resize the window.

    python3 examples/widget.py FONT...

Left and Right move the caret on the screen, and with Shift they select. Home and End go to the ends of the line. Backspace and
Delete delete a grapheme cluster. Needs what examples/caption.py needs, and Debian's python3-gi-cairo and gir1.2-gtk-4.0.
"""
import sys

import cairo
import caption
import gi
import hordguli
from caption import HEIGHT, MARGIN, SIZE
from hordguli import Direction, Edge, Side
from hordguli.harfbuzz import UNITS, Measure
from PIL import ImageChops, ImageFont

gi.require_version("Gdk", "4.0")
gi.require_version("Gtk", "4.0")
from gi.repository import Gdk, Gtk


class Field(Gtk.DrawingArea):
    """Shows the text of a session. `edge` is the caret, and the selection is between `anchor` and the position of the caret."""

    def __init__(self, files):
        super().__init__(focusable=True, hexpand=True, vexpand=True)
        self.measure = Measure(files, SIZE)
        self.fonts = [ImageFont.truetype(file, SIZE, layout_engine=ImageFont.Layout.RAQM) for file in files]
        self.session = hordguli.Session("", UNITS, measure=self.measure)
        self.edge, self.anchor, self.pixels = Edge(0), 0, 1
        self.set_draw_func(self.draw)
        self.connect("resize", self.resized)
        keys, clicks, drags = Gtk.EventControllerKey(), Gtk.GestureClick(), Gtk.GestureDrag()
        keys.connect("key-pressed", self.key_pressed)
        clicks.connect("pressed", lambda _, count, x, y: self.go(self.edge_near(x, y), False))
        drags.connect("drag-update", self.dragged)
        for controller in (keys, clicks, drags):
            self.add_controller(controller)

    def resized(self, _, width, height):
        self.pixels = max(1, width - 2 * MARGIN)
        self.session.width = self.pixels * UNITS

    # ---- Drawing ----

    def draw(self, _, context, width, height):
        context.set_source_rgb(1, 1, 1)
        context.paint()
        start, end = self.selection()
        context.set_source_rgb(0.7, 0.83, 1)
        for number, line in enumerate(self.session):
            for left, right in self.session.spans(number, start, end):
                context.rectangle(MARGIN + (line.padding + left) / UNITS, MARGIN + number * HEIGHT, (right - left) / UNITS, HEIGHT)
        context.fill()
        self.draw_text(context)
        line, column, _ = self.session.edge_caret(self.edge)
        context.set_source_rgb(0.8, 0, 0)
        context.rectangle(MARGIN + (self.padding(line) + column) / UNITS - 1, MARGIN + line * HEIGHT, 2, HEIGHT)
        context.fill()

    def draw_text(self, context):
        picture = ImageChops.invert(caption.draw(self.session, self.measure, self.fonts, self.pixels))
        stride = cairo.ImageSurface.format_stride_for_width(cairo.FORMAT_A8, picture.width)
        rows = bytearray(picture.crop((0, 0, stride, picture.height)).tobytes())
        context.set_source_rgb(0, 0, 0)
        context.mask_surface(cairo.ImageSurface.create_for_data(rows, cairo.FORMAT_A8, picture.width, picture.height, stride))

    def padding(self, line):
        """Returns the padding of a line, which can be the empty one after a separator at the end."""
        return self.session[line].padding if line < len(self.session) else 0

    # ---- The caret and the selection ----

    def selection(self):
        return sorted((self.anchor, self.edge.pos))

    def go(self, edge, is_selecting):
        self.edge = edge
        if not is_selecting:
            self.anchor = edge.pos
        self.grab_focus()
        self.queue_draw()

    def end(self):
        text = self.session
        length = text.counts.characters
        return Edge(length, Side.AFTER) if length and text.place(length).line < len(text) else Edge(length)

    def edge_near(self, x, y):
        line = max(0, int((y - MARGIN) // HEIGHT))
        if line >= len(self.session):
            return self.end()
        return self.session.nearest_edge(line, max(0, round((x - MARGIN) * UNITS) - self.padding(line)))

    def dragged(self, drag, x, y):
        _, start_x, start_y = drag.get_start_point()
        self.go(self.edge_near(start_x + x, start_y + y), True)

    def next_edge(self, direction):
        """Returns the edge to the left or right, which can be on the line before or after."""
        edge, text = self.session.step(self.edge, direction), self.session
        if edge is not None:
            return edge
        line = text.edge_caret(self.edge).line
        is_rtl = line < len(text) and text[line].base_level == 1
        other = line + (1 if (direction is Direction.RIGHT) != is_rtl else -1)
        if not 0 <= other <= text.place(text.counts.characters).line:
            return self.edge
        return text.edge_at(other, 0 if direction is Direction.RIGHT else sys.maxsize)

    # ---- Keys ----

    def replace(self, start, end, content, side=Side.AFTER):
        """Replaces a range. The caret is then on `side` of the position after `content`, or before it where
        a paragraph starts."""
        self.session.replace(start, end - start, content)
        place = start + len(content)
        is_start = place == 0 or self.session.text(place - 1, 1) == "\n"
        self.go(Edge(place) if is_start else Edge(place, side), False)

    def delete(self, pos):
        """Deletes the selection, or else the grapheme cluster that contains the character at `pos`, if there is one."""
        start, end = self.selection()
        side = Side.AFTER if pos < start else Side.BEFORE
        if start == end and 0 <= pos < self.session.counts.characters:
            start, end = self.session.cluster(pos)
        self.replace(start, end, "", side)

    def key_pressed(self, _, key, code, state):
        start, end = self.selection()
        is_selecting, c = bool(state & Gdk.ModifierType.SHIFT_MASK), chr(Gdk.keyval_to_unicode(key))
        if key in (Gdk.KEY_Left, Gdk.KEY_Right):
            self.go(self.next_edge(Direction.LEFT if key == Gdk.KEY_Left else Direction.RIGHT), is_selecting)
        elif key in (Gdk.KEY_Home, Gdk.KEY_End) and len(self.session):
            line = min(self.session.edge_caret(self.edge).line, len(self.session) - 1)
            self.go(self.session.line_edges(line)[key == Gdk.KEY_End], is_selecting)
        elif key == Gdk.KEY_BackSpace:
            self.delete(start - 1)
        elif key == Gdk.KEY_Delete:
            self.delete(start)
        elif key == Gdk.KEY_Return:
            self.replace(start, end, "\n")
        elif c.isprintable() and not state & (Gdk.ModifierType.CONTROL_MASK | Gdk.ModifierType.ALT_MASK):
            self.replace(start, end, c)
        else:
            return False
        return True


def open_window(application):
    window = Gtk.ApplicationWindow(application=application, title="hordguli", default_width=400, default_height=300)
    window.set_child(Field(sys.argv[1:]))
    window.present()


if __name__ == "__main__":
    if len(sys.argv) < 2:
        sys.exit("usage: widget.py FONT...")
    program = Gtk.Application()
    program.connect("activate", open_window)
    program.run()
