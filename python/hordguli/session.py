"""Editing sessions."""

import operator
import re
from collections.abc import Iterable, Iterator
from ctypes import byref, c_size_t, c_uint32
from itertools import accumulate
from struct import calcsize
from types import TracebackType
from typing import Any, Optional, SupportsIndex, Union, overload

from ._calls import (
    Call,
    Handle,
    Measure,
    address,
    advances_of,
    flags,
    get_array,
    get_info,
    get_record,
    get_records,
    get_size,
    make_call,
    numbers,
    refuse_copy,
    size,
    text_of,
    uint32,
    uint32s,
    utf32,
)
from ._declarations import CLOSED, NO_ROOM, RawEdge, RawSession
from ._errors import check
from ._library import library, quick_base, quick_levels
from ._records import (
    BREAKS,
    FORMATS,
    Caret,
    ChangedLines,
    Cluster,
    Counts,
    Damage,
    Direction,
    Edge,
    Hit,
    Line,
    LineInfo,
    Options,
    Paragraph,
    ParagraphInfo,
    ParagraphText,
    Place,
    Position,
    Print,
    Run,
    Side,
    Span,
    Word,
    Work,
)
from .tables import Tables, default_tables

_MOST_CHARACTERS, _MOST_COLUMNS = 16_777_216, 65_535
_MOST_KEPT = 4096  # characters of a text that a session keeps for the next edit
_DIRECTIONS = Options.WEAK_LTR | Options.WEAK_RTL | Options.LTR | Options.RTL  # (all bits of a base direction)
_FIXED = (2, 3)  # the direction LTR or RTL for each base level, as plain numbers, for speed
_SEPARATOR = re.compile("\r\n|[\n\r\x1c-\x1e\x85\u2029]")  # of the tables that the library contains
_LEVEL_RUN = re.compile(b"|".join(b"\\x%02x\\x%02x*" % (level, level) for level in range(127)))


class Session:
    """A text and its layout in lines, which is kept up to date when the text is edited or the width changes.

    `text[0]` is the first line, `text[1:3]` a list of two lines, and `len(text)` the number of lines. Positions, lines,
    paragraphs and columns are counted from 0. Positions are indexes into the text as a `str`. A column is a terminal cell.

    `width` is in columns, from 1 to 65,535. `options` are `Options`. Without `tables`, `default_tables()` are used.

    Methods raise `IndexError` if a position, line or paragraph is past the end, `ValueError` if the text would be too long or
    has a lone surrogate, `MemoryError`, and `ClosedError` after `close`. After an exception, the session is unchanged.

    Several threads may use a session; it is in one call at a time.

    >>> with hordguli.Session("one two three", width=7) as text:
    ...     text.insert(4, "and ")
    ...     text.lines()
    Damage(first_line=0, old_lines=2, new_lines=3, first_paragraph=0, old_paragraphs=1, new_paragraphs=1)
    ['one and', 'two', 'three']

    With a function `measure`, the session lays out text in any font. The width and all columns are in a unit that the function
    chooses, such as 1/64 pixel, and the width is from 1 to 2,147,483,647. `measure(paragraph)` returns the advance of each
    character of a `ParagraphText`: whole numbers from 0 on. `hordguli.harfbuzz.Measure` measures with font files.

    The session calls `measure` for each paragraph when it opens. Before an edit, it calls `measure` for each paragraph whose text
    the edit will change, with the new text. If `measure` raises an exception, the session is unchanged. Further exceptions:

    - `ValueError` if `measure` returns the wrong number of advances, or one that is negative or not a whole number, or if the
      advances of a paragraph add up to more than 4,294,967,295. A paragraph that joins others is also refused if their old
      advances add up to more.
    - `RuntimeError` if `measure` uses the session. Other threads that use it wait until the edit ends.
    - `MemoryError`: an edit that fails halfway is undone. If memory runs out again meanwhile, the session is closed.

    >>> advances = {"i": 4 * 64, "n": 9 * 64, " ": 5 * 64}
    >>> measure = lambda paragraph: [advances[c] for c in paragraph.text]
    >>> with hordguli.Session("inn in", width=30 * 64, measure=measure) as text:
    ...     text.lines(), text[0].width, text.insert(3, "i").new_lines
    (['inn', 'in'], 1408, 2)

    `Session.open_measured` opens a session whose advances the program sets itself.
    """

    _is_measured = False
    _measure: Optional[Measure] = None

    def __init__(
        self,
        text: str = "",
        width: SupportsIndex = 80,
        options: Options = Options.WEAK_LTR,
        *,
        tables: Optional[Tables] = None,
        measure: Optional[Measure] = None,
    ) -> None:
        if measure is None:
            self._open(library.hordguli_session_open, text, width, options, tables)
        else:
            self._open(library.hordguli_session_open_measured, text, width, options, tables)
            self._is_measured = True
            try:
                self._start_measuring(text, measure, options, tables)
            except BaseException:
                self.close()
                raise

    @classmethod
    def open_measured(
        cls,
        text: str,
        width: SupportsIndex,
        options: Options = Options.WEAK_LTR,
        *,
        tables: Optional[Tables] = None,
    ) -> "Session":
        """Opens a measured session, for text in any font. `width` is from 1 to 2,147,483,647.

        Each character has an advance, in a unit that the caller chooses, such as 1/64 pixel. The width, and all columns of the
        session, are in this unit. A new character has advance 0, until `set_advances` sets it.

        The advances of a paragraph add up to at most 4,294,967,295. An edit that would exceed this raises `ValueError`. With
        `Options.tab_width`, a tab moves to the next multiple of its own advance, or stays where it is if that is 0. `lines` adds
        no padding; `Line.padding` is the padding that right-aligns a line.

        >>> advances = {"i": 4 * 64, "n": 9 * 64, " ": 5 * 64}
        >>> with hordguli.Session.open_measured("inn in", width=30 * 64) as text:
        ...     text.set_advances(0, [advances[c] for c in text.text()]).new_lines, text[0].width
        (2, 1408)
        """
        session = cls.__new__(cls)
        session._open(library.hordguli_session_open_measured, text, width, options, tables)
        session._is_measured = True
        return session

    def _open(
        self, function: Call, text: str, width: SupportsIndex, options: Options, tables: Optional[Tables]
    ) -> None:
        self._handle = Handle(RawSession, library.hordguli_session_close)
        self._call = self._handle.call
        data = text.encode()
        arguments = flags(Options, options, "options"), uint32(width, "width"), data, len(data)
        shared = (tables or default_tables())._handle
        with shared.lock:
            make_call(self._handle.open, function, shared.pointer, *arguments)

    __reduce__ = refuse_copy

    def close(self) -> None:
        """Frees the session. Safe to call again. Other calls then raise `ClosedError`."""
        with self._handle.lock:
            self._handle.close()
            if self._measure is not None:
                self._sample.close()
                self._advances.clear()

    @property
    def closed(self) -> bool:
        """Whether the session is closed."""
        return self._handle.closed

    def __enter__(self) -> "Session":
        return self

    def __exit__(
        self, kind: Optional[type[BaseException]], error: Optional[BaseException], traceback: Optional[TracebackType]
    ) -> None:
        self.close()

    # ---- Edits ----

    def insert(self, pos: SupportsIndex, text: str) -> Damage:
        """Inserts text before the character at `pos`, or at the end of the text. Returns which lines were replaced."""
        data = text.encode()
        return self._edit(text, size(pos), 0, library.hordguli_insert, size(pos), data, len(data))

    def delete(self, pos: SupportsIndex, count: SupportsIndex) -> Damage:
        """Deletes `count` characters from `pos` on. Returns which lines were replaced."""
        return self._edit("", size(pos), size(count), library.hordguli_delete, size(pos), size(count))

    def replace(self, pos: SupportsIndex, count: SupportsIndex, text: str) -> Damage:
        """Replaces the `count` characters from `pos` on with text, in one edit. Returns which lines were replaced.

        >>> with hordguli.Session("ab\\ncd") as text:
        ...     text.replace(1, 2, "--").new_lines, text.text()
        (1, 'a--cd')
        """
        data = text.encode()
        return self._edit(text, size(pos), size(count), library.hordguli_replace, size(pos), size(count), data, len(data))

    def set_width(self, width: SupportsIndex) -> Damage:
        """Sets the width, in columns, and rewraps all paragraphs. Raises `ValueError` if it is not from 1 to 65,535."""
        return self._set_width(library.hordguli_set_width, width)

    def set_measured_width(self, width: SupportsIndex) -> Damage:
        """Sets the width of a measured session, and rewraps all paragraphs.

        Raises `ValueError` if it is not from 1 to 2,147,483,647, and `NotMeasuredError` if the session is not measured.
        """
        return self._set_width(library.hordguli_set_measured_width, width)

    def _set_width(self, function: Any, width: SupportsIndex) -> Damage:
        with self._handle.lock:
            damage = get_record(Damage, self._call, function, uint32(width, "width"))
            self._keep_changed()
        return damage

    def set_advances(self, pos: SupportsIndex, advances: Iterable[SupportsIndex]) -> Damage:
        """Sets the advances of the characters from `pos` on, in a measured session, one for each of `advances`.

        Returns which lines were replaced: those of the paragraphs that have one of these characters. After an edit, set the
        advances of all new paragraphs. After both calls, the `old_lines` of the edit's damage have become the
        `new_lines` of this damage. Raises `NotMeasuredError` if the session is not measured, and `ValueError` if the advances of
        a paragraph would add up to more than 4,294,967,295.

        A session with a function `measure` keeps these advances until an edit changes the paragraph.
        """
        data = uint32s(advances, "advance").tobytes()
        with self._handle.lock:
            damage = self._set_advances(size(pos), data)
            if data and self._measure is not None:
                self._keep_advances(size(pos), data, damage.first_paragraph, damage.new_paragraphs)
            self._keep_changed()
        return damage

    @property
    def width(self) -> int:
        """The width, in columns. Assigning to it calls `set_width`, or `set_measured_width` if the session is measured."""
        return self.counts.width

    @width.setter
    def width(self, width: SupportsIndex) -> None:
        if self._is_measured:
            self.set_measured_width(width)
        else:
            self.set_width(width)

    # ---- Measuring ----

    def _start_measuring(self, text: str, measure: Measure, options: Options, tables: Optional[Tables]) -> None:
        # This session finds the levels and the paragraph boundaries of a text, even if the tables have been
        # closed. Between edits, it keeps the last text, if that text is short.
        self._sample = Session("", _MOST_COLUMNS, flags(Options, options, "options") | Options.NOBREAK, tables=tables)
        self._sample_length: Optional[int] = 0  # (`None` if it is not known)
        # While these tables are open, finding the levels of a short paragraph with them takes half as long as
        # with `_sample`.
        self._tables, self._direction = tables or default_tables(), int(options & _DIRECTIONS)
        # The advances of each paragraph, as arrays of `uint32_t`.
        self._advances: list[bytes] = []
        # The index, the start and the text of the paragraph that the last edit made, and the length of the
        # session's text. `None` if the edit made several paragraphs, or a long one. This is kept because most
        # edits are in the same paragraph as the edit before.
        self._recent: Optional[tuple[int, int, str, int]] = None
        self._measure = measure
        with self._handle.lock:
            found = [self._measured(paragraph) for paragraph in self._paragraph_texts(text, self.counts.paragraphs)]
            self._set_advances(0, b"".join(found))
            self._advances = found
            self._changed = ChangedLines(0, 0, self.counts.lines)

    def _edit(self, text: str, pos: int, count: int, *call: Any) -> Damage:
        """Makes an edit by a call of the C library. In a session that measures, sets the advances too.

        The edit replaces the `count` characters from `pos` on with text.
        """
        if self._measure is None:
            return get_record(Damage, self._call, *call)
        with self._handle.lock:
            recent = self._recently_touched(pos, count)
            characters = recent[4] if recent else self.counts.characters
            length = characters - count + len(text)
            if pos + count > characters or length > _MOST_CHARACTERS:
                return get_record(Damage, self._call, *call)  # (which fails)
            first, end, start, content = recent[:4] if recent else self._touched(pos, count)
            prefix, deleted, suffix = content[: pos - start], content[pos - start : pos - start + count], content[pos - start + count :]
            old = self._advances[first:end]
            changed = prefix + text + suffix
            new = old if text == deleted else self._new_advances(changed, len(prefix), len(suffix), old)
            self._recent = None  # (in case of an exception)
            try:
                damage = get_record(Damage, self._call, *call)
                lines = self._last_changed()
                if not _keeps(old, new, len(prefix), len(suffix)):
                    damage = damage._replace(new_lines=self._set_advances(start, b"".join(new)).new_lines)
                    lines = _both(lines, self._last_changed())
                elif text:
                    added = new[0][4 * len(prefix) : 4 * (len(prefix) + len(text))]
                    damage = damage._replace(new_lines=self._set_advances(pos, added).new_lines)
                    lines = _both(lines, self._last_changed())
                self._advances[first:end] = new
                self._changed = lines
            except BaseException:
                self._undo(pos, text, length, deleted, start, b"".join(old))
                raise
            if len(new) == 1 and len(changed) <= _MOST_KEPT:
                self._recent = first, start, changed, length
        return damage

    def _recently_touched(self, pos: int, count: int) -> Optional[tuple[int, int, int, str, int]]:
        """Returns what `_touched` returns and the length of the whole text, without a call of the library, if the edit touches only
        the paragraph of the last edit."""
        if self._recent is None or self._handle.closed:
            return None
        first, start, text, length = self._recent
        end = start + len(text)
        is_alone = (pos > start or start == 0) and (pos + count < end or end == length)
        return (first, first + 1, start, text, length) if is_alone else None

    def _touched(self, pos: int, count: int) -> tuple[int, int, int, str]:
        """Returns the first paragraph that an edit touches, the one after the last, where they start, and their text.

        An edit touches the paragraphs that it adjoins.
        """
        paragraphs = len(self._advances)
        if paragraphs == 0:
            return 0, 0, 0, ""
        first = self.place(pos - 1).paragraph if pos > 0 else 0
        info = self._info(first)
        end, stop = first + 1, info.start + info.length
        if pos + count >= stop and end < paragraphs:
            end = min(self.place(pos + count).paragraph + 1, paragraphs)
            last = self._info(end - 1)
            stop = last.start + last.length
        length = stop - info.start
        characters = get_array(4, self._call, library.hordguli_text_utf32, info.start, length, capacity=length)
        return first, end, info.start, text_of(characters)

    def _info(self, paragraph: int, levels: Optional[bytearray] = None) -> ParagraphInfo:
        """Returns the numbers of a paragraph, and fills `levels`, which is as long as the paragraph."""
        buffer = bytearray(FORMATS[ParagraphInfo].size)
        arrays = (0, None, None) if levels is None else (len(levels), address(levels), None)
        make_call(self._call, library.hordguli_paragraph, paragraph, address(buffer), *arrays)
        return ParagraphInfo(*FORMATS[ParagraphInfo].unpack(buffer))

    def _new_advances(self, text: str, prefix: int, suffix: int, old: list[bytes]) -> list[bytes]:
        """Returns the advances of each paragraph of a text. Its first `prefix` and last `suffix` characters have not changed.

        If these are all of a paragraph, its old advances are returned.
        """
        paragraphs = self._find_paragraphs(text)
        new: list[Optional[bytes]] = [None] * len(paragraphs)
        if prefix and len(old[0]) == 4 * prefix == 4 * len(paragraphs[0].text):
            new[0] = old[0]
        if suffix and len(old[-1]) == 4 * suffix == 4 * len(paragraphs[-1].text):
            new[-1] = old[-1]
        return [self._measured(one) if its is None else its for one, its in zip(paragraphs, new)]

    def _find_paragraphs(self, text: str) -> list[ParagraphText]:
        """Returns the paragraphs of any text."""
        if 0 < len(text) <= _MOST_KEPT and self._tables._is_builtin:
            separator = _SEPARATOR.search(text)
            paragraph = _single(text, self._tables, self._direction) if separator is None or separator.end() == len(text) else None
            if paragraph is not None:
                return [paragraph]
        sample, length = self._sample, self._sample_length
        self._sample_length = None  # (in case of an exception)
        count = sample.replace(0, sample.counts.characters if length is None else length, text).new_paragraphs
        found = sample._paragraph_texts(text, count)
        if len(text) > _MOST_KEPT:
            sample.delete(0, len(text))
        self._sample_length = len(text) if len(text) <= _MOST_KEPT else 0
        return found

    def _paragraph_texts(self, text: str, count: int) -> list[ParagraphText]:
        """Returns the session's paragraphs for a function `measure`, given the session's text and the number of its paragraphs."""
        found = []
        for index in range(count):
            length = len(text) if count == 1 else self._info(index).length
            levels = bytearray(length)
            paragraph = self._info(index, levels)
            content = text if count == 1 else text[paragraph.start : paragraph.start + length]
            found.append(ParagraphText(content, paragraph.base, _level_runs(levels)))
        return found

    def _measured(self, paragraph: ParagraphText) -> bytes:
        """Calls the function `measure`, and returns the advances that it returns."""
        assert self._measure is not None
        return self._handle.run_refusing(advances_of, self._measure, paragraph)

    def _last_changed(self) -> ChangedLines:
        """Returns which lines the last successful call of the C library changed."""
        return get_record(ChangedLines, self._call, library.hordguli_changed_lines)

    def _keep_changed(self) -> None:
        """Stores the lines that the last call changed, if the session measures. Its edits are two calls."""
        if self._measure is not None:
            self._changed = self._last_changed()

    def _set_advances(self, pos: int, data: bytes) -> Damage:
        return get_record(Damage, self._call, library.hordguli_set_advances, pos, len(data) // 4, data)

    def _keep_advances(self, pos: int, data: bytes, first: int, number: int) -> None:
        """Stores advances that were set from `pos` on in `number` paragraphs."""
        start = self._info(first).start
        for index in range(first, first + number):
            old = self._advances[index]
            before, after = max(0, pos - start), pos + len(data) // 4 - start
            self._advances[index] = old[: 4 * before] + data[4 * max(0, start - pos) :][: len(old) - 4 * before] + old[4 * after :]
            start += len(old) // 4

    def _undo(self, pos: int, text: str, length: int, deleted: str, start: int, advances: bytes) -> None:
        """Undoes an edit, or closes the session. `length` is that of the edited text.

        `advances` are the old ones of the touched paragraphs, from `start` on.
        """
        data = deleted.encode()
        try:
            # (`KeyboardInterrupt` is raised only after the interrupted call, so the edit may have been made)
            if self.counts.characters == length and self.text(pos, len(text)) == text:
                get_record(Damage, self._call, library.hordguli_replace, pos, len(text), data, len(data))
                self._set_advances(start, advances)
        except BaseException:
            self.close()

    # ---- Sizes ----

    @property
    def counts(self) -> Counts:
        """The number of characters, lines and paragraphs, and the width."""
        return get_record(Counts, self._call, library.hordguli_session_counts)

    @property
    def work(self) -> Work:
        """Work counters, for checking that edits stay incremental."""
        return get_record(Work, self._call, library.hordguli_session_work)

    @property
    def changed_lines(self) -> ChangedLines:
        """The lines that the last edit, or call that set the width or advances, changed.

        These are the lines of its damage, which names whole paragraphs, without those at its start and end that show the same as
        before. After opening, all lines have changed. With a function `measure`, an edit may name more lines than changed.

        >>> with hordguli.Session("one two three", width=5) as text:
        ...     text.insert(7, "s").new_lines, text.changed_lines
        (3, ChangedLines(first_line=1, old_lines=1, new_lines=1))
        """
        return self._last_changed() if self._measure is None else self._changed

    def __len__(self) -> int:
        return self.counts.lines

    def __bool__(self) -> bool:
        return True

    # ---- Text and lines ----

    def text(self, pos: SupportsIndex = 0, count: Optional[SupportsIndex] = None) -> str:
        """Returns `count` characters from `pos` on, or all that follow, in logical order."""
        with self._handle.lock:
            first, number = self._range("character", pos, count, self.counts.characters)
            return text_of(get_array(4, self._call, library.hordguli_text_utf32, first, number, capacity=number))

    def utf8(self, pos: SupportsIndex = 0, count: Optional[SupportsIndex] = None) -> bytes:
        """Returns the same characters as `text`, in UTF-8."""
        with self._handle.lock:
            first, number = self._range("character", pos, count, self.counts.characters)
            return bytes(get_array(1, self._call, library.hordguli_text, first, number, capacity=4 * number))

    def utf8_length(self, pos: SupportsIndex = 0, count: Optional[SupportsIndex] = None) -> int:
        """Returns how many bytes of UTF-8 the same characters need."""
        with self._handle.lock:
            chosen = self._range("character", pos, count, self.counts.characters)
            return get_size(self._call, library.hordguli_utf8_length, *chosen)

    def lines(
        self, first: SupportsIndex = 0, count: Optional[SupportsIndex] = None, show: Print = Print.DEFAULT
    ) -> list[str]:
        """Returns `count` lines from line `first` on, or all that follow, as strings.

        `show` selects, as `Print` flags, the items of a line. Each item is a separate string in the result. Numbers are decimal,
        with a space between them. By default, there is one item: the line in visual order, padded and mirrored.

        >>> with hordguli.Session("a \\u05d0\\u05d1") as text:
        ...     text.lines(show=hordguli.Print.LEVELS | hordguli.Print.VTOL)
        ['0 1 3 2', '0 0 1 1']
        """
        with self._handle.lock:
            start, number = self._range("line", first, count, len(self))
            items = flags(Print, show, "show")
            shown = get_array(1, self._call, library.hordguli_lines_utf8, start, number, items, capacity=4096)
        return shown.decode().split("\n")[:-1]

    @staticmethod
    def _range(noun: str, first: SupportsIndex, count: Optional[SupportsIndex], length: int) -> tuple[int, int]:
        """Returns the start and the number of items of a range, which by default ends at the end."""
        start = size(first)
        number = max(0, length - start) if count is None else size(count)
        if start + number > length:
            raise IndexError(f"{noun} {start} is out of range" if count is None else f"{number} {noun}s from {start} on are out of range")
        return start, number

    @overload
    def __getitem__(self, line: SupportsIndex) -> Line: ...

    @overload
    def __getitem__(self, line: slice) -> list[Line]: ...

    def __getitem__(self, line: Union[SupportsIndex, slice]) -> Union[Line, list[Line]]:
        """Returns a line, or a list of lines for a slice. As in a list, -1 is the last line."""
        with self._handle.lock:
            if isinstance(line, slice):
                return [self._line(number) for number in range(*line.indices(len(self)))]
            number = operator.index(line)
            if number < 0:
                number += len(self)
                if number < 0:
                    raise IndexError(f"line {line} is out of range")
            return self._line(number)

    def _line_info(self, number: int) -> LineInfo:
        """Returns the numbers of a line, in a third of the time of `_line`."""
        buffer = bytearray(FORMATS[LineInfo].size)
        status = self._call(library.hordguli_line, number, address(buffer), 0, None, None, None, None, None)
        if status != NO_ROOM:  # (which stores them too)
            check(status, library.hordguli_line, number)
        return LineInfo(*FORMATS[LineInfo].unpack(buffer))

    def _line(self, number: int) -> Line:
        """Returns a line. The caller holds the lock."""
        info, arrays = get_info(LineInfo, "shown", "IBIIN", self._call, library.hordguli_line, size(number))
        runs = self.runs(number)
        characters, levels, ltov, vtol, columns = arrays
        return Line(
            text_of(characters),
            info.start,
            info.length,
            info.shown,
            info.columns,
            info.padding,
            info.base,
            bool(info.first),
            tuple(levels),
            numbers(ltov, "I"),
            numbers(vtol, "I"),
            numbers(columns, "N"),
            tuple(runs),
            text_of(get_array(4, self._call, library.hordguli_text_utf32, info.start, info.shown, capacity=info.shown)),
        )

    def __iter__(self) -> Iterator[Line]:
        """Yields each line."""
        number = 0
        while number < len(self):
            yield self[number]
            number += 1

    def paragraph(self, index: SupportsIndex) -> Paragraph:
        """Returns a paragraph.

        >>> with hordguli.Session("a b\\nc") as text:
        ...     text.paragraph(0).breaks, text.paragraph(1).start
        ((<Break.NEVER: 0>, <Break.MAY: 1>, <Break.NEVER: 0>, <Break.MUST: 2>), 4)
        """
        info, (levels, marks) = get_info(
            ParagraphInfo, "length", "BB", self._call, library.hordguli_paragraph, size(index)
        )
        breaks = tuple(map(BREAKS.__getitem__, marks))
        return Paragraph(info.start, info.length, info.first_line, info.lines, info.base, tuple(levels), breaks)

    # ---- Carets and hit testing ----

    def line_start(self, line: SupportsIndex) -> int:
        """Returns the position of a line's first character."""
        return get_size(self._call, library.hordguli_line_start, size(line))

    def place(self, pos: SupportsIndex) -> Place:
        """Returns the paragraph and the line of a position.

        At the end of a text that is empty or ends with a separator, these are the numbers of paragraphs and lines.
        """
        return get_record(Place, self._call, library.hordguli_place_of, size(pos))

    def caret(self, pos: SupportsIndex) -> Caret:
        """Returns where to draw the caret for a position: at the leading edge of its character, if that is shown.

        Before a character that is not shown, and at the end of the text, the caret is at the end of the line.
        """
        return get_record(Caret, self._call, library.hordguli_caret_at, size(pos))

    def hit(self, line: SupportsIndex, column: SupportsIndex) -> Hit:
        """Returns the character at a column of a line. Column 0 is the left edge of the shown part, right of padding.

        Right of the shown part, it is the rightmost character of nonzero width.

        >>> with hordguli.Session("abc") as text:
        ...     text.hit(0, 1), text.hit(0, 9)
        (Hit(pos=1, trailing=False), Hit(pos=2, trailing=True))
        """
        pos, trailing = get_record(Hit, self._call, library.hordguli_hit_at, size(line), size(column))
        return Hit(pos, bool(trailing))

    def cluster(self, pos: SupportsIndex) -> Cluster:
        """Returns the grapheme cluster of the character at `pos`."""
        return get_record(Cluster, self._call, library.hordguli_cluster_at, size(pos))

    def word(self, pos: SupportsIndex) -> Word:
        """Returns the word of the character at `pos`: the segment between two word boundaries (UAX #29)."""
        return get_record(Word, self._call, library.hordguli_word_at, size(pos))

    def spans(self, line: SupportsIndex, start: SupportsIndex, end: SupportsIndex) -> list[Span]:
        """Returns the columns that the characters from `start` up to but not including `end` cover in a line.

        >>> with hordguli.Session("ab \\u05d0\\u05d1") as text:
        ...     text.spans(0, 1, 4)
        [Span(left=1, right=3), Span(left=4, right=5)]
        """
        return get_records(Span, self._call, library.hordguli_spans, size(line), size(start), size(end))

    def runs(self, line: SupportsIndex) -> list[Run]:
        """Returns the directional runs of a line's shown part, from left to right, for shaping text."""
        return get_records(Run, self._call, library.hordguli_runs, size(line))

    # ---- Edges ----

    def edge_caret(self, edge: Edge) -> Caret:
        """Returns where to draw the caret at an edge."""
        return get_record(Caret, self._call, library.hordguli_edge_caret, _raw(edge))

    def step(self, edge: Edge, direction: Direction) -> Optional[Edge]:
        """Returns the nearest edge to the left or right on the line, one caret unit away, or `None` at the end of the line.

        >>> with hordguli.Session("abc") as text:
        ...     text.step(hordguli.Edge(1), hordguli.Direction.RIGHT)
        Edge(pos=2, side=<Side.AFTER: 1>)
        """
        moved, found = c_uint32(), RawEdge()
        arguments = _raw(edge), uint32(direction, "direction"), byref(found), byref(moved)
        make_call(self._call, library.hordguli_step, *arguments)
        return _edge(found) if moved.value else None

    def edge_at(self, line: SupportsIndex, column: SupportsIndex) -> Edge:
        """Returns the edge at a column of a line, for moving to another line. `nearest_edge` is for mouse clicks.

        Columns 0 and `sys.maxsize` are the two ends of the line on the screen.
        """
        found = RawEdge()
        make_call(self._call, library.hordguli_edge_at, size(line), size(column), byref(found))
        return _edge(found)

    def nearest_edge(self, line: SupportsIndex, column: SupportsIndex) -> Edge:
        """Returns the edge nearest to a column of a line, for mouse clicks, which may hit either half of a character.

        >>> with hordguli.Session("漢字") as text:
        ...     text.edge_at(0, 1), text.nearest_edge(0, 1)
        (Edge(pos=0, side=<Side.BEFORE: 0>), Edge(pos=1, side=<Side.AFTER: 1>))
        """
        found = RawEdge()
        make_call(self._call, library.hordguli_nearest_edge, size(line), size(column), byref(found))
        return _edge(found)

    def line_edges(self, line: SupportsIndex) -> tuple[Edge, Edge]:
        """Returns the first and the last edge of a line in logical order, for the keys Home and End."""
        first, last = RawEdge(), RawEdge()
        make_call(self._call, library.hordguli_line_edges, size(line), byref(first), byref(last))
        return _edge(first), _edge(last)

    def line_clusters(self, line: SupportsIndex) -> list[int]:
        """Returns where the grapheme clusters of a line end, counted from the start of the line."""
        ends = get_array(calcsize("N"), self._call, library.hordguli_line_clusters, size(line))
        return list(numbers(ends, "N"))

    # ---- Offsets ----

    def byte_offset(self, pos: SupportsIndex) -> int:
        """Returns how many bytes of UTF-8 the text before `pos` needs."""
        return get_size(self._call, library.hordguli_byte_of, size(pos))

    def utf16_offset(self, pos: SupportsIndex) -> int:
        """Returns how many UTF-16 code units the text before `pos` needs, as the Language Server Protocol counts.

        >>> with hordguli.Session("a\U0001d11eb") as text:
        ...     text.utf16_offset(2), text.position_of_utf16(2)
        (3, Position(pos=1, rest=1))
        """
        return get_size(self._call, library.hordguli_utf16_of, size(pos))

    def position_of_byte(self, byte: SupportsIndex) -> Position:
        """Returns the character that contains a byte of the text in UTF-8, and how many of its own bytes precede that byte."""
        return get_record(Position, self._call, library.hordguli_position_of_byte, size(byte))

    def position_of_utf16(self, unit: SupportsIndex) -> Position:
        """Returns the character that contains a UTF-16 code unit of the text, and how many of its own units precede that unit."""
        return get_record(Position, self._call, library.hordguli_position_of_utf16, size(unit))


def _single(text: str, tables: Tables, direction: int) -> Optional[ParagraphText]:
    """Returns a paragraph for a function `measure`, or `None` if the tables are closed."""
    characters, count, base, levels = utf32(text), c_size_t(len(text)), c_uint32(), bytearray(len(text))
    with tables._handle.lock:
        pointer = tables._handle.pointer
        status = quick_base(pointer, direction, characters, count, byref(base)) or quick_levels(
            pointer, _FIXED[base.value], characters, count, count, address(levels)
        )
    if status == CLOSED:
        return None
    check(status)
    return ParagraphText(text, base.value, _level_runs(levels))


def _keeps(old: list[bytes], new: list[bytes], prefix: int, suffix: int) -> bool:
    """Whether an edit changes one paragraph, whose first `prefix` and last `suffix` characters keep their advances."""
    if len(old) != 1 or len(new) != 1:
        return False
    end = 4 * suffix
    return old[0][: 4 * prefix] == new[0][: 4 * prefix] and old[0][len(old[0]) - end :] == new[0][len(new[0]) - end :]


def _both(first: ChangedLines, second: ChangedLines) -> ChangedLines:
    """Returns the lines that two calls, one after the other, have changed, and all lines between these."""
    if first.old_lines == first.new_lines == 0 or second.old_lines == second.new_lines == 0:
        return max(first, second, key=lambda changed: changed.old_lines + changed.new_lines)
    start = min(first.first_line, second.first_line)
    end = max(first.first_line + first.new_lines, second.first_line + second.old_lines)
    return ChangedLines(start, end - start - first.new_lines + first.old_lines, end - start - second.old_lines + second.new_lines)


def _level_runs(levels: bytearray) -> tuple[Run, ...]:
    """Returns the level runs of a paragraph in logical order."""
    if levels.count(levels[0]) == len(levels):  # (in most paragraphs)
        return (Run(0, len(levels), levels[0]),)
    runs = _LEVEL_RUN.findall(levels)
    lengths = list(map(len, runs))
    return tuple(map(Run, accumulate(lengths, initial=0), lengths, map(operator.itemgetter(0), runs)))


def _raw(edge: Edge) -> RawEdge:
    return RawEdge(size(edge.pos), uint32(edge.side, "side"))


def _edge(found: RawEdge) -> Edge:
    return Edge(found.pos, Side(found.side))
