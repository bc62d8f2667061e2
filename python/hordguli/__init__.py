"""Lays out bidirectional text in lines: Unicode's bidirectional and line breaking algorithms (UAX #9, UAX #14).

    >>> import hordguli
    >>> hordguli.wrap("The quick brown fox", width=10)
    ['The quick', 'brown fox']

- `display` returns one visual string, as `get_display` of python-bidi does. `wrap` returns visual lines.
- `Session` keeps a text and its lines under edits, and has what an editor needs: carets, hits, selections. Its columns are
  terminal cells or, with a function `measure`, the units in which that function measures text.
  `hordguli.harfbuzz.Measure` measures with font files.
- `levels`, `base_level`, `breaks`, `clusters`, `row`, `row_runs`, `script_runs` and `properties` are for programs that lay out
  lines themselves.
- `reasons` and `break_reasons` return which rules of the algorithms decide levels and break marks.
- `explain` returns what decides a layout. `python3 -m hordguli explain TEXT` prints it, or writes a page.

What to know before the first line:

- A visual string is for programs that draw one character after another. Programs that order text themselves, such as browsers,
  terminals with bidirectional text and Pillow with Raqm, would reverse it again. They need `Line.logical_text`, or the pieces of
  `Line.left_to_right()`.
- `display` does not join Arabic letters: `display(arabic_reshaper.reshape(text))` does.
- The columns of carets, hits and spans are counted from the left edge of a line's shown part. Add `Line.padding` to draw a
  right-to-left line at the right. The lines of `wrap` and `Session.lines` are padded with spaces.
- Positions are indexes into a `str`. Positions, lines and columns are counted from 0.
- A caret moves over one caret unit: a grapheme cluster or, if its characters are in several level runs, the part in one of them.

Classes (`help(hordguli.Session)` and so on):

- `Session`; `Tables`, character properties
- `Options` and `Print`, flags; `Break`, `Side`, `Direction`, `Cause`, `BracketCase`, `NeutralRule`, enumerations
- of a text and its lines: `Line`, `Piece`, `Paragraph`, `ParagraphText`, `Row`, `Run`, `ScriptRun`, `Character`, `Counts`, `Damage`,
  `ChangedLines`, `Work`
- of rules: `Reason`, `BreakReason`
- of an editor: `Caret`, `Edge`, `Hit`, `Place`, `Position`, `Span`, `Cluster`, `Word`
- of `explain`: `Explanation`, `ExplainedCharacter`, `ExplainedParagraph`
- exceptions: `ClosedError`, `NotMeasuredError`, `TableError`

Exceptions:

- `IndexError` for a position, line or paragraph that is past the end
- `ValueError` for a width, for options, for a Unicode version, and for a lone surrogate (`UnicodeEncodeError`)
- `ValueError` from `Session`, `wrap` and `explain` for a text of more than 16,777,216 characters, or a paragraph of more than
  1,048,576; the other functions have no such limits
- `ValueError` if a function `measure` returns invalid advances, and `RuntimeError` if it uses the session that calls it
- `NotMeasuredError` for the advances of a session that is not measured
- `TypeError` for a `Print` in place of `Options`, and for copying or pickling sessions and tables
- `MemoryError`, `ClosedError`, `TableError`

Threads may share sessions and tables: a lock keeps each of them in one call at a time. A call without `tables` uses
`default_tables()`, so programs that lay out long texts in several threads should open `Tables` for each. After a fork, the child
has its own copies. What another thread was using during the fork is closed in the child.

`__version__` is the version of the C library, `UNICODE_VERSION` the default Unicode version of tables, and
`WIDTH_UNICODE_VERSION` that of columns, grapheme clusters and scripts, which does not depend on the tables.
"""

from ._errors import Cause as Cause
from ._errors import ClosedError as ClosedError
from ._errors import NotMeasuredError as NotMeasuredError
from ._errors import TableError as TableError
from ._explain import explain
from ._library import UNICODE_VERSION, WIDTH_UNICODE_VERSION
from ._library import VERSION as __version__
from ._records import (
    BracketCase as BracketCase,
    Break as Break,
    BreakReason as BreakReason,
    Caret as Caret,
    ChangedLines as ChangedLines,
    Character as Character,
    Cluster as Cluster,
    Counts as Counts,
    Damage as Damage,
    Direction as Direction,
    Edge as Edge,
    ExplainedCharacter as ExplainedCharacter,
    ExplainedParagraph as ExplainedParagraph,
    Explanation as Explanation,
    Hit as Hit,
    Line as Line,
    NeutralRule as NeutralRule,
    Options as Options,
    Paragraph as Paragraph,
    ParagraphText as ParagraphText,
    Piece as Piece,
    Place as Place,
    Position as Position,
    Print as Print,
    Reason as Reason,
    Row as Row,
    Run as Run,
    ScriptRun as ScriptRun,
    Side as Side,
    Span as Span,
    Word as Word,
    Work as Work,
)
from .session import Session as Session
from .tables import TABLE_FILES, default_tables
from .tables import Tables as Tables
from .text import (
    base_level, break_reasons, breaks, clusters, count_utf8, display, levels, properties, reasons, row, row_runs, script_runs, valid_utf8,
    wrap,
)  # fmt: skip

# The classes are left out, so that help(hordguli) describes the functions and only lists the classes by name.
__all__ = [
    "TABLE_FILES",
    "UNICODE_VERSION",
    "WIDTH_UNICODE_VERSION",
    "__version__",
    "base_level",
    "break_reasons",
    "breaks",
    "clusters",
    "count_utf8",
    "default_tables",
    "display",
    "explain",
    "levels",
    "properties",
    "reasons",
    "row",
    "row_runs",
    "script_runs",
    "valid_utf8",
    "wrap",
]
