"""HarfBuzz, through the first of three interfaces that works: its library, PyGObject, or the package `uharfbuzz`.

All have the same methods, and return the same advances. Only `Library` reads all glyphs of a text in one call.
"""

import ctypes
import os
from ctypes import POINTER, byref, c_int, c_int32, c_uint, c_uint32, c_void_p
from importlib import import_module
from typing import Any, Callable, Optional, Protocol

NAME = "libharfbuzz.so.0"

_MOST_KEPT = 65_536  # characters for which a buffer is kept
_GLYPH = 5  # numbers of `hb_glyph_info_t`, of which the third is the cluster, and of `hb_glyph_position_t`
_LTR, _RTL = 4, 5  # of `hb_direction_t`
_NO_SCRIPT = ("Zyyy", "Zinh", "Zzzz")  # common, inherited, unknown


class Shaper(Protocol):
    """A way to use HarfBuzz. Scripts are ISO 15924 tags."""

    def open(self, file: str, scale: int) -> Any:
        """Returns the font of a file that exists. Raises `ValueError` if it is not a font file."""

    def has(self, font: Any, c: str) -> bool:
        """Whether a font has a character."""

    def script(self, c: str) -> Optional[str]:
        """Returns the script of a character, or `None` if texts of all scripts have it."""

    def shape(self, font: Any, text: str, first: int, length: int, script: str, is_rtl: bool) -> tuple[list[int], list[int]]:
        """Shapes the `length` characters of a text from `first` on. The others are context.

        Returns the position of each glyph's cluster, and each glyph's advance, from left to right.
        """


class _Properties(ctypes.Structure):
    """`hb_segment_properties_t`."""

    _fields_ = [("direction", c_int), ("script", c_uint32), ("language", c_void_p), ("zero", c_void_p * 2)]


class _Owned:
    """An object of HarfBuzz, which is destroyed with this one."""

    def __init__(self, pointer: int, destroy: Callable[[c_void_p], Any]) -> None:
        self.pointer, self._destroy = c_void_p(pointer), destroy

    def __del__(self) -> None:
        self._destroy(self.pointer)


class Library:
    """HarfBuzz's library, through `ctypes`."""

    # The functions that return pointers: `ctypes` must know their result types. All other results have 32
    # bits.
    _POINTERS = {
        "hb_blob_create_from_file": c_void_p,
        "hb_face_create": c_void_p,
        "hb_font_create": c_void_p,
        "hb_buffer_create": c_void_p,
        "hb_unicode_funcs_get_default": c_void_p,
        "hb_buffer_get_glyph_infos": POINTER(c_uint32),
        "hb_buffer_get_glyph_positions": POINTER(c_int32),
    }

    def __init__(self) -> None:
        self._hb = ctypes.CDLL(NAME)
        for name, kind in self._POINTERS.items():
            getattr(self._hb, name).restype = kind
        self._unicode = c_void_p(self._hb.hb_unicode_funcs_get_default())
        self._properties: dict[tuple[str, bool], Any] = {}
        # The buffers that no thread is using: one, unless several threads shape at once.
        self._buffers = [self._new_buffer()]

    def _new_buffer(self) -> _Owned:
        return _Owned(self._hb.hb_buffer_create(), self._hb.hb_buffer_destroy)

    def open(self, file: str, scale: int) -> _Owned:
        hb = self._hb
        blob = _Owned(hb.hb_blob_create_from_file(os.fsencode(file)), hb.hb_blob_destroy)
        face = _Owned(hb.hb_face_create(blob.pointer, 0), hb.hb_face_destroy)
        if hb.hb_face_get_glyph_count(face.pointer) == 0:
            raise ValueError(f"{file} is no font")
        font = _Owned(hb.hb_font_create(face.pointer), hb.hb_font_destroy)
        hb.hb_font_set_scale(font.pointer, scale, scale)
        return font

    def has(self, font: _Owned, c: str) -> bool:
        return bool(self._hb.hb_font_get_nominal_glyph(font.pointer, ord(c), byref(c_uint())))

    def script(self, c: str) -> Optional[str]:
        tag: int = self._hb.hb_unicode_script(self._unicode, ord(c))
        script = tag.to_bytes(4, "big").decode()
        return None if script in _NO_SCRIPT else script

    def shape(self, font: _Owned, text: str, first: int, length: int, script: str, is_rtl: bool) -> tuple[list[int], list[int]]:
        hb, properties = self._hb, self._properties.get((script, is_rtl))
        if properties is None:
            tag = int.from_bytes(script.encode(), "big")
            properties = self._properties[script, is_rtl] = byref(_Properties(_RTL if is_rtl else _LTR, tag))
        try:
            buffer = self._buffers.pop()
        except IndexError:
            buffer = self._new_buffer()
        pointer, count = buffer.pointer, c_uint()
        hb.hb_buffer_clear_contents(pointer)
        hb.hb_buffer_add_utf32(pointer, text.encode("utf-32-le", "surrogatepass"), len(text), first, length)
        hb.hb_buffer_set_segment_properties(pointer, properties)
        hb.hb_shape(font.pointer, pointer, None, 0)
        if not hb.hb_buffer_allocation_successful(pointer):
            raise MemoryError
        infos = hb.hb_buffer_get_glyph_infos(pointer, byref(count))
        positions = hb.hb_buffer_get_glyph_positions(pointer, None)
        end = _GLYPH * count.value
        found = infos[2:end:_GLYPH], positions[:end:_GLYPH]
        if length <= _MOST_KEPT:
            self._buffers.append(buffer)
        return found


class Introspected:
    """HarfBuzz through PyGObject. Debian's packages are `python3-gi`, `gir1.2-harfbuzz-0.0` and `libharfbuzz-gobject0`."""

    def __init__(self) -> None:
        import_module("gi").require_version("HarfBuzz", "0.0")
        self._hb = import_module("gi.repository.HarfBuzz")
        self._hb.buffer_create()  # (fails if libharfbuzz-gobject0 is missing, on which gir1.2-harfbuzz-0.0 of Debian 12 does not depend)

    def open(self, file: str, scale: int) -> Any:
        face = self._hb.face_create(self._hb.blob_create_from_file(file), 0)
        if self._hb.face_get_glyph_count(face) == 0:
            raise ValueError(f"{file} is no font")
        font = self._hb.font_create(face)
        self._hb.font_set_scale(font, scale, scale)
        return font

    def has(self, font: Any, c: str) -> bool:
        return bool(self._hb.font_get_nominal_glyph(font, ord(c))[0])

    def script(self, c: str) -> Optional[str]:
        tag = int(self._hb.unicode_script(self._hb.unicode_funcs_get_default(), ord(c)))
        script = tag.to_bytes(4, "big").decode()
        return None if script in _NO_SCRIPT else script

    def shape(self, font: Any, text: str, first: int, length: int, script: str, is_rtl: bool) -> tuple[list[int], list[int]]:
        hb, buffer = self._hb, self._hb.buffer_create()
        hb.buffer_add_utf32(buffer, list(map(ord, text)), first, length)
        hb.buffer_set_direction(buffer, hb.direction_t.RTL if is_rtl else hb.direction_t.LTR)
        hb.buffer_set_script(buffer, hb.script_from_string(list(script.encode())))
        hb.shape(font, buffer, [])
        clusters = [info.cluster for info in hb.buffer_get_glyph_infos(buffer)]
        return clusters, [position.x_advance for position in hb.buffer_get_glyph_positions(buffer)]


class Uharfbuzz:
    """HarfBuzz through the package `uharfbuzz`, which contains it."""

    def __init__(self) -> None:
        self._hb = import_module("uharfbuzz")

    def open(self, file: str, scale: int) -> Any:
        with open(file, "rb") as data:
            face = self._hb.Face(data.read())
        if face.glyph_count == 0:
            raise ValueError(f"{file} is no font")
        font = self._hb.Font(face)
        font.scale = scale, scale
        return font

    def has(self, font: Any, c: str) -> bool:
        return font.get_nominal_glyph(ord(c)) is not None

    def script(self, c: str) -> Optional[str]:
        buffer = self._hb.Buffer()
        buffer.add_codepoints([ord(c)])
        buffer.guess_segment_properties()
        script: Optional[str] = buffer.script
        return script

    def shape(self, font: Any, text: str, first: int, length: int, script: str, is_rtl: bool) -> tuple[list[int], list[int]]:
        buffer = self._hb.Buffer()
        buffer.add_codepoints(list(map(ord, text)), first, length)
        buffer.direction, buffer.script = "rtl" if is_rtl else "ltr", script
        self._hb.shape(font, buffer)
        clusters = [info.cluster for info in buffer.glyph_infos]
        return clusters, [position.x_advance for position in buffer.glyph_positions]


def find_shaper() -> Callable[[], Shaper]:
    """Returns the first way that works. Raises `ImportError` if none does."""
    kinds: tuple[Callable[[], Shaper], ...] = Library, Introspected, Uharfbuzz
    for kind in kinds:
        try:
            kind()
        except (ImportError, OSError, AttributeError, ValueError, RuntimeError):
            continue
        return kind
    raise ImportError(f"hordguli.harfbuzz needs {NAME} (Debian's package libharfbuzz0b) or the package uharfbuzz")
