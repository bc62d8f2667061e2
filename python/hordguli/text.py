"""Functions on a text, without a session."""

import re
from codecs import utf_32_le_decode, utf_32_le_encode
from collections.abc import Iterable
from ctypes import byref, c_size_t, c_uint32
from struct import calcsize
from typing import Literal, Optional, SupportsIndex, Union, overload

from ._calls import Call, Measure, address, flags, get_array, get_records, get_size, make_call, numbers, text_of, uint32, utf32
from ._declarations import BIDI_CLASSES, LINE_CLASSES, MARK, WIDE
from ._errors import check
from ._library import library, quick_base, quick_levels, quick_row
from ._records import (
    BRACKET_CASES, BRACKETS, BREAKS, FORMATS, NEUTRAL_RULES, Break, BreakReason, Character, Options, Print, RawBreakReason, RawCharacter,
    RawReason, RawScriptRun, Reason, Row, Run, ScriptRun,
)  # fmt: skip
from .session import Session
from .tables import Buffers, Tables, default_tables

BaseDirection = Literal["L", "R", "AL"]
_BASE_DIRECTIONS = {None: 0, "L": 2, "R": 3, "AL": 3}  # (plain numbers, for speed)
_FIXED = (2, 3)  # the direction LTR or RTL for each base level
_SEPARATORS = re.compile("(\r\n|[\n\r\x1c-\x1e\x85\u2029])")  # (UAX #9, P1)
_HIGHEST_LEVEL = 126
_NO_POSITION, _NO_CLASS = 0xFFFF_FFFF, 0xFF  # (as C stores what does not exist)
_BIDI_CLASSES: dict[int, Optional[str]] = {**dict(enumerate(BIDI_CLASSES)), _NO_CLASS: None}

# In private functions, characters are in UTF-32, 4 bytes each.


@overload
def display(
    text: str,
    encoding: str = "utf-8",
    *,
    base_dir: Optional[BaseDirection] = None,
    direction: Optional[Options] = None,
    tables: Optional[Tables] = None,
) -> str: ...


@overload
def display(
    text: bytes,
    encoding: str = "utf-8",
    *,
    base_dir: Optional[BaseDirection] = None,
    direction: Optional[Options] = None,
    tables: Optional[Tables] = None,
) -> bytes: ...


def display(
    text: Union[str, bytes],
    encoding: str = "utf-8",
    *,
    base_dir: Optional[BaseDirection] = None,
    direction: Optional[Options] = None,
    tables: Optional[Tables] = None,
) -> Union[str, bytes]:
    """Returns a text in visual order, for a program that draws each character to the right of the one before it.

    Replaces `bidi.algorithm.get_display` of python-bidi. Each paragraph is one row, and its separator stays at its
    end. No character is added or removed. `bytes` are decoded, and the result is encoded.

    `direction` is a base direction of `Options`, by default `Options.WEAK_LTR`. `base_dir` is the parameter of python-bidi: `"L"` is
    `Options.LTR`, and `"R"` is `Options.RTL`.

    Raises `TypeError` if both are given. Raises `ValueError` for any other `base_dir`, for other options, for a lone surrogate, and
    for `bytes` that cannot be decoded.

    What differs from python-bidi 0.4.2 (Debian 12):

    - python-bidi has the parameters `upper_is_rtl` and `debug`, and its exception for a wrong `base_dir` is not a `ValueError`.
    - It takes classes from Python's `unicodedata`, and mirrors from an older table.
    - It raises `AssertionError` for isolates and for unassigned characters, and removes embeddings, overrides and BN.
    - It does not pair brackets (N0). It gives all paragraphs one direction, and its rules W1 to N2 do not stop at a paragraph's end.

    What differs from pyfribidi 0.12.0 (Debian 12):

    - By default, pyfribidi makes the text RTL, and puts marks after their base.
    - It uses the classes and mirrors of Unicode 10.0, and joins Arabic letters.
    - It reorders the whole text as one row, with its separators. For isolates, it uses FriBidi's rules.

    >>> hordguli.display("\\u05d0\\u05d1 (abc)") == "(abc) \\u05d1\\u05d0"
    True
    """
    if not isinstance(text, str):
        shown = display(text.decode(encoding), base_dir=base_dir, direction=direction, tables=tables)
        return shown.encode(encoding)
    if base_dir not in _BASE_DIRECTIONS:
        raise ValueError(f"base_dir is {base_dir!r} and not 'L', 'R' or None")
    chosen, tables = _BASE_DIRECTIONS[base_dir], tables or default_tables()
    if direction is not None:
        if base_dir is not None:
            raise TypeError("base_dir and direction are both given")
        chosen = flags(Options, direction, "direction")
    if text.isprintable():  # (separators are not)
        return _visual(tables, chosen, text)
    # (pieces at odd indices are separators)
    pieces = _SEPARATORS.split(text)
    return "".join(piece if at % 2 else _visual(tables, chosen, piece) for at, piece in enumerate(pieces))


def _visual(tables: Tables, direction: int, text: str) -> str:
    """Returns a paragraph in visual order. Written for speed: a short text costs little more than the calls."""
    length, characters = len(text), utf_32_le_encode(text)[0]
    count = c_size_t(length)
    handle, buffers = tables._handle, tables._buffers
    if length > buffers.capacity:
        buffers = Buffers(length)
    with handle.lock:
        pointer, levels = handle.pointer, buffers.levels
        status = quick_base(pointer, direction, characters, count, buffers.base_pointer)
        base: int = buffers.base.value
        status = (
            status
            or quick_levels(pointer, _FIXED[base], characters, count, count, levels)
            or quick_row(pointer, 0, base, count, characters, levels, count, buffers.visual, None, None, None)
        )
        if status:
            check(status, quick_base, direction)
        return utf_32_le_decode(buffers.view[: 4 * length])[0]


def wrap(
    text: str,
    width: SupportsIndex = 70,
    options: Options = Options.WEAK_LTR,
    show: Print = Print.DEFAULT,
    *,
    tables: Optional[Tables] = None,
    measure: Optional[Measure] = None,
) -> list[str]:
    """Breaks a text into lines of at most `width` columns, and returns them in visual order.

    `options` and `measure` are those of a `Session`. `show` selects what is returned for each line, as in `Session.lines`.

    Raises `ValueError` if the width is not from 1 to 65,535, or the text is too long or has a lone surrogate. With `measure`, the
    width is from 1 to 2,147,483,647, and the errors are also those of `measure` in a `Session`.

    >>> hordguli.wrap("The quick brown fox", width=10)
    ['The quick', 'brown fox']
    >>> hordguli.wrap("The quick brown fox", width=100, measure=lambda paragraph: [7] * len(paragraph.text))
    ['The quick', 'brown fox']
    """
    data = text.encode()
    chosen, items = flags(Options, options, "options"), flags(Print, show, "show")
    if measure is not None:
        with Session(text, width, chosen, tables=tables, measure=measure) as session:
            return session.lines(show=items)
    arguments = chosen, uint32(width, "width"), items, data, len(data)
    call = (tables or default_tables())._handle.call
    return get_array(1, call, library.hordguli_layout, *arguments, capacity=4096).decode().split("\n")[:-1]


def base_level(
    text: str, direction: Options = Options.WEAK_LTR, *, tables: Optional[Tables] = None
) -> int:
    """Returns the base level of a paragraph: 0 (left-to-right) or 1 (right-to-left).

    `direction` is a base direction of `Options`, which can have `Options.LINE_SEPARATORS`.

    >>> hordguli.base_level("1. \\u05d0"), hordguli.base_level("1."), hordguli.base_level("1.", hordguli.Options.WEAK_RTL)
    (1, 0, 1)
    """
    return _base(tables or default_tables(), direction, utf32(text))


def levels(
    text: str, direction: Options = Options.WEAK_LTR, *, tables: Optional[Tables] = None
) -> list[int]:
    """Returns the level of each character of a paragraph, before L1 (UAX #9). The text is not split at separators.

    `direction` is a base direction of `Options`, which can have `Options.LINE_SEPARATORS`.

    >>> hordguli.levels("ab \\u05d0\\u05d1 12")
    [0, 0, 0, 1, 1, 1, 2, 2]
    """
    chosen = flags(Options, direction, "direction")
    return list(_per_character(library.hordguli_levels, tables or default_tables(), chosen, utf32(text)))


def breaks(text: str, options: Options = Options(0), *, tables: Optional[Tables] = None) -> list[Break]:
    """Returns the break mark after each character of a paragraph (UAX #14). The text is not split.

    `options` is `Options(0)` or `Options.WHOLE_NUMBERS`.

    >>> hordguli.breaks("a b\\n")
    [<Break.NEVER: 0>, <Break.MAY: 1>, <Break.NEVER: 0>, <Break.MUST: 2>]
    """
    chosen = flags(Options, options, "options")
    marks = _per_character(library.hordguli_marks, tables or default_tables(), chosen, utf32(text))
    return list(map(BREAKS.__getitem__, marks))


def reasons(
    text: str, direction: Options = Options.WEAK_LTR, *, tables: Optional[Tables] = None
) -> list[Reason]:
    """Returns how the algorithm arrives at the level of each character of a paragraph (UAX #9). The text is not split at separators.

    `direction` is a base direction of `Options`, which can have `Options.LINE_SEPARATORS`.

    >>> [reason.partner for reason in hordguli.reasons("a(b)")]
    [None, 3, None, 1]
    """
    chosen = flags(Options, direction, "direction")
    layout = FORMATS[RawReason]
    found = _per_character(library.hordguli_reasons, tables or default_tables(), chosen, utf32(text), layout.size)
    return [
        Reason._make((
            *[None if one == _NO_POSITION else one for one in positions],
            tuple([_BIDI_CLASSES[one] for one in classes]),
            _BIDI_CLASSES[override],
            embedding,
            level,
            _BIDI_CLASSES[sos],
            _BIDI_CLASSES[eos],
            BRACKET_CASES[case],
            NEUTRAL_RULES[neutral],
        ))
        for *positions, classes, override, embedding, level, sos, eos, case, neutral in layout.iter_unpack(found)
    ]


def break_reasons(text: str, options: Options = Options(0), *, tables: Optional[Tables] = None) -> list[BreakReason]:
    """Returns which rule decides the break mark after each character of a paragraph (UAX #14). The text is not split.

    `options` is `Options(0)` or `Options.WHOLE_NUMBERS`.

    >>> [reason.rule for reason in hordguli.break_reasons("a (")]
    ['LB7', 'LB18', 'LB3']
    """
    chosen = flags(Options, options, "options")
    layout = FORMATS[RawBreakReason]
    found = _per_character(library.hordguli_break_reasons, tables or default_tables(), chosen, utf32(text), layout.size)
    return [
        BreakReason(
            base,
            None if behind_spaces == _NO_POSITION else behind_spaces,
            f"LB{rule}{chr(letter) if letter else ''}",
            LINE_CLASSES[before],
            None if after == _NO_CLASS else LINE_CLASSES[after],
            BREAKS[mark],
        )
        for base, behind_spaces, rule, letter, before, after, mark in layout.iter_unpack(found)
    ]


def row(
    text: str,
    levels: Iterable[int],
    base_level: int = 0,
    options: Options = Options(0),
    *,
    tables: Optional[Tables] = None,
) -> Row:
    """Puts a row, whose start and end the caller has chosen, into visual order.

    `base_level` is that of its paragraph, and `levels` are the levels of the row's characters in the whole paragraph.
    `options` is `Options(0)`, or any of `Options.REORDER_NSM` and `Options.REORDER_CLUSTERS`. White space at the end of the row gets
    the base level (L1).

    Raises `ValueError` if there is not one level per character, or a level is out of range.

    >>> hordguli.row("ab\\u05d0\\u05d1", [0, 0, 1, 1]).visual_to_logical
    (0, 1, 3, 2)
    """
    characters, level_bytes = _checked(text, levels, base_level)
    visual, row_levels, ltov, vtol = (bytearray(size * len(text)) for size in (4, 1, 4, 4))
    _put_row(tables or default_tables(), options, base_level, characters, level_bytes, visual, row_levels, ltov, vtol)
    return Row(text_of(visual), tuple(row_levels), numbers(ltov, "I"), numbers(vtol, "I"))


def row_runs(
    text: str, levels: Iterable[int], base_level: int = 0, *, tables: Optional[Tables] = None
) -> list[Run]:
    """Returns the directional runs of a row, from left to right. The parameters and errors are those of `row`.

    >>> hordguli.row_runs("ab\\u05d0\\u05d1", [0, 0, 1, 1])
    [Run(start=0, length=2, level=0), Run(start=2, length=2, level=1)]
    """
    characters, level_bytes = _checked(text, levels, base_level)
    call = (tables or default_tables())._handle.call
    return get_records(Run, call, library.hordguli_row_runs, base_level, len(text), characters, level_bytes)


def properties(text: str, *, tables: Optional[Tables] = None) -> list[Character]:
    """Returns the properties of each character.

    >>> hordguli.properties("(")[0].mirror, hordguli.properties("(")[0].bidi_class
    (')', 'ON')
    """
    return [
        Character(
            chr(mirror) if mirror else "",
            chr(pair) if pair else "",
            bool(flags & MARK),
            bool(flags & WIDE),
            BIDI_CLASSES[bidi_class],
            LINE_CLASSES[line_class],
            columns,
            BRACKETS[bracket],
        )
        for mirror, pair, flags, bidi_class, line_class, columns, bracket in FORMATS[RawCharacter].iter_unpack(
            _properties(tables or default_tables(), utf32(text))
        )
    ]


def clusters(text: str) -> list[int]:
    """Returns where the grapheme clusters of a text end (UAX #29). A `Session` on this text has the same clusters.

    >>> hordguli.clusters("e\\u0301a")
    [2, 3]
    """
    ends = get_array(calcsize("N"), library.hordguli_clusters, len(text), utf32(text))
    return list(numbers(ends, "N"))


def script_runs(text: str, *, tables: Optional[Tables] = None) -> list[ScriptRun]:
    """Returns the longest ranges of characters of one script (UAX #24), for fonts and shapers.

    Spaces, digits, marks and other Common or Inherited characters have the script before them or, at the start, the one after them. A
    closing bracket has the script of its opening one. `"Zyyy"` is Common, `"Zzzz"` Unknown.

    >>> [run.script for run in hordguli.script_runs("ab (\\u05d0) c")]
    ['Latn', 'Hebr', 'Latn']
    """
    call = (tables or default_tables())._handle.call
    runs = get_records(RawScriptRun, call, library.hordguli_script_runs, len(text), utf32(text))
    return [ScriptRun(start, length, script.to_bytes(4, "big").decode()) for start, length, script in runs]


def count_utf8(data: bytes) -> int:
    """Returns the number of characters in UTF-8 text. Raises `ValueError` if it is not valid.

    >>> hordguli.count_utf8("\\u05d0b".encode())
    2
    """
    return get_size(library.hordguli_count_utf8, data, len(data))


def valid_utf8(data: bytes) -> int:
    """Returns the length of the longest prefix that is valid UTF-8, in bytes.

    >>> hordguli.valid_utf8(b"ab\\xff")
    2
    """
    return get_size(library.hordguli_valid_utf8, data, len(data))


def _base(tables: Tables, direction: Options, characters: bytes) -> int:
    result = c_uint32()
    arguments = flags(Options, direction, "direction"), characters, len(characters) // 4, byref(result)
    make_call(tables._handle.call, library.hordguli_base, *arguments)
    return result.value


def _per_character(function: Call, tables: Tables, options: Options, characters: bytes, size: int = 1) -> bytearray:
    """Returns what a function stores for each character, such as its level. `size` is that of one item, in bytes."""
    count = len(characters) // 4
    result = bytearray(count * size)
    make_call(tables._handle.call, function, options, characters, count, count, address(result))
    return result


def _put_row(
    tables: Tables, options: Options, base: int, characters: bytes, levels: bytes, *arrays: bytearray
) -> None:
    """Stores a row in the arrays, of which the last ones may be left out."""
    count = len(characters) // 4
    pointers = [*map(address, arrays), None, None, None][:4]
    arguments = flags(Options, options, "options"), base, count, characters, levels, count, *pointers
    make_call(tables._handle.call, library.hordguli_row, *arguments)


def _checked(text: str, levels: Iterable[int], base_level: int) -> tuple[bytes, bytes]:
    """Returns the characters and the levels of a row as the C library takes them."""
    level_bytes = bytes(levels)
    if len(level_bytes) != len(text):
        raise ValueError(f"{len(level_bytes)} levels are given for {len(text)} characters")
    if base_level not in (0, 1) or any(level > _HIGHEST_LEVEL for level in level_bytes):
        raise ValueError("a level is out of range")
    return utf32(text), level_bytes


def _properties(tables: Tables, characters: bytes) -> bytearray:
    count = len(characters) // 4
    result = bytearray(count * FORMATS[RawCharacter].size)
    make_call(tables._handle.call, library.hordguli_properties, count, characters, address(result))
    return result
