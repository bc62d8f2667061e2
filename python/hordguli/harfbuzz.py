"""Measures text with font files, using HarfBuzz. Importing this module raises `ImportError` if none of these is installed:

1. HarfBuzz's library `libharfbuzz.so.0`, from Debian's package `libharfbuzz0b`
2. PyGObject with HarfBuzz: Debian's packages `python3-gi`, `gir1.2-harfbuzz-0.0` and `libharfbuzz-gobject0`
3. the package `uharfbuzz`

The first that is installed is used. All return the same advances. The library is the fastest.

    >>> import hordguli
    >>> from hordguli.harfbuzz import UNITS, Measure
    >>> measure = Measure("/usr/share/fonts/truetype/noto/NotoSans-Regular.ttf", 26)
    >>> hordguli.wrap("The quick brown fox", 150 * UNITS, measure=measure)
    ['The quick', 'brown fox']

`Measure` is for the parameter `measure` of `hordguli.Session` and `hordguli.wrap`. `examples/caption.py` draws what it measures.
"""

import os
import unicodedata
from collections.abc import Iterable
from typing import Any, NamedTuple, Optional, Union

from ._records import ParagraphText, Piece
from ._shapers import find_shaper

UNITS = 64
"""The units of a pixel."""

_Shaper = find_shaper()
_CONTEXT = 5  # HarfBuzz looks at this many characters before and after those that it shapes.
_SPACES_OF_A_TAB = 8
_LONGEST_KNOWN, _MOST_KNOWN = 128, 4096  # characters of a run whose advances are kept, and runs
_CHUNK, _MOST_STAYING = 64, 256  # characters that are examined together, and known characters that stay in a part
_CONTROLS = {"Cc", "Zl", "Zp"}
_MARKS = {"Mn", "Mc", "Me"}
_COMMON = "Zyyy"

File = Union[str, "os.PathLike[str]"]


class Part(NamedTuple):
    """A part of a piece that is drawn with one font.

    `start`: position of its first character in the text. `text`: its characters in logical order. `font`: the index of the font.
    `left`, `right`: its columns, from the left edge of the line's shown part.
    """

    start: int
    text: str
    font: int
    left: int
    right: int


class Measure:
    """A function `measure` for `hordguli.Session`. It returns advances in 1/64 pixel, which is `1 / UNITS`.

    `fonts` is a font file or several. `size` is the size of the letters, in pixels per em. A character is in the first font that
    has it, as in CSS; a mark is in the font of the character before it, if that font has it.

    HarfBuzz shapes the characters of one level, font and script together, so letters join and ligatures form. The first character of
    a HarfBuzz cluster, such as a ligature, has the advance of the cluster, and the others have 0. A tab is as wide as 8 spaces, so
    `Options.tab_width` sets tab stops there. Other control characters and separators have advance 0.

    A paragraph is shaped as a whole. If a line ends inside a kerned pair, a ligature or a word whose letters join, what is drawn
    can be wider or narrower than measured.

    Raises `OSError` if a file cannot be read, and `ValueError` if it is not a font, if no font is given, or if the size is not from 1/64
    to 65,535. Several sessions and threads may share a `Measure`. It keeps the advances of up to 4,096 short runs and as many of their
    parts, so an edit shapes only what it changes and the runs next to that.

    >>> measure = Measure("/usr/share/fonts/truetype/noto/NotoSans-Regular.ttf", 26)
    >>> measure(hordguli.ParagraphText("AV", 0, (hordguli.Run(0, 2, 0),)))
    [996, 998]
    """

    def __init__(self, fonts: Union[File, Iterable[File]], size: float) -> None:
        files = [fonts] if isinstance(fonts, (str, os.PathLike)) else list(fonts)
        if not files:
            raise ValueError("no font is given")
        if not 1 / UNITS <= size <= 65_535:
            raise ValueError(f"size {size} is out of range")
        scale = round(size * UNITS)
        self._shaper = _Shaper()
        self._fonts = [self._open(os.fspath(file), scale) for file in files]
        # The fonts, script and category of each character looked up so far. For each font and script,
        # characters that do not end a part.
        self._known: dict[str, tuple[list[int], Optional[str], str]] = {}
        self._staying: dict[tuple[int, str], str] = {}
        # The advances of recent level runs and parts. They are kept because an edit leaves most of a
        # paragraph's advances unchanged.
        self._runs: dict[Any, list[int]] = {}
        self._parts: dict[Any, list[int]] = {}
        self._tab = _SPACES_OF_A_TAB * sum(self._part(" ", 0, 1, 0, _COMMON, 0))

    def _open(self, file: str, scale: int) -> Any:
        with open(file, "rb"):  # (raises `OSError`, which HarfBuzz does not)
            return self._shaper.open(file, scale)

    def __call__(self, paragraph: ParagraphText) -> list[int]:
        """Returns the advance of each character."""
        advances: list[int] = []
        for start, length, level in paragraph.runs:
            advances += self._run(paragraph.text, start, start + length, level)
        return advances

    def parts(self, piece: Piece) -> list[Part]:
        """Returns the parts of a piece of a line from left to right, for drawing. No part contains tabs or other control characters."""
        parts, left = [], piece.left
        split = self._split(piece.text, 0, len(piece.text))
        for first, end, font, script in split[::-1] if piece.level % 2 else split:
            right = left + sum(self._part(piece.text, first, end, font, script, piece.level))
            parts.append(Part(piece.start + first, piece.text[first:end], font, left, right))
            left = right
        return parts

    def _run(self, text: str, start: int, end: int, level: int) -> list[int]:
        """Returns the advance of each character of a level run."""
        before = max(0, start - _CONTEXT)
        content = text[before : end + _CONTEXT]
        key = content, start - before, end - start, level % 2
        advances = self._runs.get(key)
        if advances is None:
            advances = [self._tab if c == "\t" else 0 for c in text[start:end]]
            for first, stop, font, script in self._split(text, start, end):
                advances[first - start : stop - start] = self._part(text, first, stop, font, script, level)
            _keep(self._runs, key, content, advances)
        return advances

    def _part(self, text: str, first: int, end: int, font: int, script: str, level: int) -> list[int]:
        """Returns the advance of each character of a part of a level run that is shaped on its own."""
        before = max(0, first - _CONTEXT)
        content = text[before : end + _CONTEXT]
        first, length = first - before, end - first
        key = content, first, length, font, script, level % 2
        advances = self._parts.get(key)
        if advances is None:
            clusters, advances = self._shaper.shape(self._fonts[font], content, first, length, script, level % 2 == 1)
            if level % 2:
                clusters, advances = clusters[::-1], advances[::-1]
            if clusters != list(range(first, first + length)):
                sums = [0] * (first + length)
                for place, advance in zip(clusters, advances):
                    sums[place] += advance
                advances = sums[first:]
            if min(advances) < 0:
                advances = [max(0, advance) for advance in advances]
            _keep(self._parts, key, content, advances)
        return advances

    def _split(self, text: str, start: int, end: int) -> list[tuple[int, int, int, str]]:
        """Returns the start, end, font and script of each part of a level run that is shaped on its own."""
        found: list[tuple[int, int, int, str]] = []
        # Spaces, digits and punctuation have no script. Such characters get the script of the letters before them, or
        # else of those after them.
        script = next((its for its in map(self._script_of, text[start:end]) if its is not None), _COMMON)
        place, font = start, 0
        while place < end:
            c = text[place]
            fonts, own_script, category = self._of(c)
            script = script if own_script is None else own_script
            stays = place > start and (category == "Cf" or category in _MARKS and font in fonts)
            if fonts and not stays:
                font = fonts[0]
            place += 1
            if category in _CONTROLS:
                continue
            if not found or found[-1][1:] != (place - 1, font, script):
                found.append((place - 1, place, font, script))
            state = font, script
            staying = self._staying.get(state, "")
            if c not in staying and len(staying) < _MOST_STAYING:
                self._staying[state] = staying = staying + c
            # The characters in `staying` change neither the font nor the script.
            chunk = text[place : min(end, place + _CHUNK)]
            place += len(chunk) - len(chunk.lstrip(staying))
            found[-1] = (found[-1][0], place, font, script)
        return found

    def _script_of(self, c: str) -> Optional[str]:
        return self._of(c)[1]

    def _of(self, c: str) -> tuple[list[int], Optional[str], str]:
        """Returns the fonts that have a character, its script or `None`, and its general category."""
        known = self._known.get(c)
        if known is None:
            fonts = [at for at, font in enumerate(self._fonts) if self._shaper.has(font, c)]
            known = self._known[c] = fonts, self._shaper.script(c), unicodedata.category(c)
        return known


def _keep(known: dict[Any, list[int]], key: Any, content: str, advances: list[int]) -> None:
    """Keeps the advances of a run or part, if it is short. Forgets all others if there are too many."""
    if len(content) <= _LONGEST_KNOWN:
        if len(known) >= _MOST_KNOWN:
            known.clear()
        known[key] = advances
