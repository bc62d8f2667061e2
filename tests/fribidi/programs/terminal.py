#!/usr/bin/env python3
"""Shows a text in a VTE terminal, and saves a picture of it. Usage, in Xvfb: terminal.py TEXT PICTURE."""
import sys
import gi
gi.require_version("Gtk", "3.0")
gi.require_version("Vte", "2.91")
from gi.repository import Gdk, GLib, Gtk, Pango, Vte

terminal = Vte.Terminal()
terminal.set_size(44, 12)
terminal.set_enable_bidi(True)
terminal.set_cursor_blink_mode(Vte.CursorBlinkMode.OFF)
terminal.set_font(Pango.FontDescription("DejaVu Sans Mono 16"))
window = Gtk.Window()
window.add(terminal)
window.show_all()
terminal.feed(b"\x1b[?25l\x1b[?2501h" + open(sys.argv[1], "rb").read().replace(b"\n", b"\r\n"))


def save():
    shown = window.get_window()
    Gdk.pixbuf_get_from_window(shown, 0, 0, shown.get_width(), shown.get_height()).savev(sys.argv[2], "png", [], [])
    Gtk.main_quit()


GLib.timeout_add(1500, save)
Gtk.main()
