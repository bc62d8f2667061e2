"""What the calls take and return: flags, enumerations and named tuples, and how the C library stores these.

tools/generate_declarations writes the lines below each comment `from hordguli.h`.
"""

import enum
import re
from struct import Struct
from typing import Any, NamedTuple, Optional


_TAB_WIDTH = 0xFF00  # (bits of `Options`)
_TAB_OR_MORE = re.compile("\t|[^\t]+")


class Options(enum.IntFlag):
    """Options of a layout: one base direction and any of the others, combined with `|`.

    `WEAK_LTR`, `WEAK_RTL`: a paragraph has the direction of its first strong character, else the direction named.
    `LTR`, `RTL`: all paragraphs have this direction.
    Without a direction, it is `WEAK_LTR`. Two different directions raise `ValueError` in each call that they are passed to.
    Directions share bits, so use `Options.LTR in options`, not `&`, to find out which one is set.
    `NOBREAK`: lines end at mandatory breaks only.
    `REORDER_NSM`: in right-to-left text, nonspacing marks come after their base in visual order (UAX #9, L3).
    `WHOLE_NUMBERS`: lines do not end inside a number such as `$1,234.56`.
    `REORDER_CLUSTERS`: in right-to-left text, the characters of a grapheme cluster stay in logical order.
    `SHOW_SPACES`: spaces at the end of a line are shown, as far as they fit in the width.
    `LINE_SEPARATORS`: paragraphs end at LF, CR and CRLF only; U+0085 and U+2029 then end lines, not paragraphs.
    `tab_width(n)`: there is a tab stop every n columns, from 1 to 255; in a measured session, at the multiples of each tab's advance.
    """

    # (bits 0 and 1 encode the direction; bit 24 is also set if bit 0 is 0, and bit 25 if bit 1 is 0)
    # from hordguli.h: Session options
    WEAK_LTR = 0x3000000
    WEAK_RTL = 0x2000001
    LTR = 0x1000002
    RTL = 0x0000003
    NOBREAK = 4
    REORDER_NSM = 8
    WHOLE_NUMBERS = 16
    REORDER_CLUSTERS = 32
    SHOW_SPACES = 64
    LINE_SEPARATORS = 0x4000000

    @classmethod
    def tab_width(cls, n: int) -> "Options":
        """A tab stop every `n` columns, from 1 to 255."""
        if not 1 <= n <= 255:
            raise ValueError(f"tab width out of range: {n}")
        return cls(n << 8)

    def __repr__(self) -> str:
        """`IntFlag` does not name a member of several bits that is combined with others."""
        names = [name for name, one in Options.__members__.items() if one in self]
        if self & _TAB_WIDTH:
            names.append(f"tab_width({(self & _TAB_WIDTH) >> 8})")
        return f"<{'.'.join(['Options'] + names[:1])}{''.join(f'|{name}' for name in names[1:])}: {int(self):#x}>"


class Print(enum.IntFlag):
    """What to write for each line, in this order. Combine flags with `|`.

    `VISUAL`: the line in visual order. `BASEDIR`: `LTR` or `RTL`, after the first line of a paragraph.
    `LTOV`, `VTOL`: the position maps. `LEVELS`: the levels after L1.
    `PADDED` pads lines of right-to-left paragraphs with spaces on the left, up to the width.
    `MIRRORED` mirrors characters at odd levels (UAX #9, L4).
    """

    # from hordguli.h: HORDGULI_PRINT_*
    VISUAL = 1
    BASEDIR = 2
    LTOV = 4
    VTOL = 8
    LEVELS = 16
    PADDED = 32
    MIRRORED = 64
    DEFAULT = VISUAL | PADDED | MIRRORED


class Break(enum.IntEnum):
    """Whether a line ends after a character."""

    # from hordguli.h: HORDGULI_BREAK_*
    NEVER = 0
    MAY = 1
    MUST = 2


class Side(enum.IntEnum):
    """`BEFORE`: the leading edge of the character at a position. `AFTER`: the trailing edge of the one before it."""

    # from hordguli.h: HORDGULI_BEFORE, HORDGULI_AFTER
    BEFORE = 0
    AFTER = 1


class Direction(enum.IntEnum):
    """A direction on the screen."""

    # from hordguli.h: HORDGULI_LEFT, HORDGULI_RIGHT
    LEFT = 0
    RIGHT = 1


class BracketCase(enum.IntEnum):
    """Which case of N0 (UAX #9) applies to a bracket, or why it has no pair. For N0, numbers are strong.

    `B`: the pair contains a strong type of the embedding direction. `C1`: it contains strong types of the opposite direction only,
    and the strong type before the pair has that direction. `C2`: likewise, but the one before the pair has the embedding direction.
    `D`: it contains no strong type. `NOT_OTHER`: before N0, the type is not ON. `NO_MATCH`: no bracket of the sequence matches.
    `PAST_LIMIT`: pairing stopped at an opening bracket with 63 open ones before it (BD16), and this bracket was open or comes later.
    """

    # from hordguli.h: HORDGULI_BRACKET_CASE_*
    B = 1
    C1 = 2
    C2 = 3
    D = 4
    NOT_OTHER = 5
    NO_MATCH = 6
    PAST_LIMIT = 7


class NeutralRule(enum.IntEnum):
    """The rule that decides the type of a neutral (UAX #9)."""

    # from hordguli.h: HORDGULI_NEUTRAL_*
    N1 = 1
    N2 = 2


class Damage(NamedTuple):
    """What an edit replaced: `old_lines` lines from `first_line` on became `new_lines` lines; likewise for paragraphs."""

    # from hordguli.h: hordguli_damage
    first_line: int
    old_lines: int
    new_lines: int
    first_paragraph: int
    old_paragraphs: int
    new_paragraphs: int


class ChangedLines(NamedTuple):
    """The lines that a call changed: `old_lines` lines from `first_line` on became `new_lines` lines."""

    # from hordguli.h: hordguli_changed
    first_line: int
    old_lines: int
    new_lines: int


class Counts(NamedTuple):
    """The size of a session. `width` is in columns."""

    # from hordguli.h: hordguli_counts
    characters: int
    lines: int
    paragraphs: int
    width: int


class Work(NamedTuple):
    """The characters that a session has analysed, filled into lines and put into visual order since it was opened."""

    # from hordguli.h: hordguli_work
    analysed: int
    filled: int
    written: int


class Place(NamedTuple):
    """The place of a position: its paragraph, its line, and the characters of the line before it."""

    # from hordguli.h: hordguli_place
    paragraph: int
    line: int
    offset: int


class Caret(NamedTuple):
    """Where to draw a caret. `column`: the columns left of it, without padding. `level`: of its character,
    or the base level."""

    # from hordguli.h: hordguli_caret
    line: int
    column: int
    level: int


class Hit(NamedTuple):
    """The character at a column. `trailing`: the caret goes after it."""

    # from hordguli.h: hordguli_hit
    pos: int
    trailing: bool


class Cluster(NamedTuple):
    """The characters from `start` up to but not including `end`."""

    # from hordguli.h: hordguli_cluster
    start: int
    end: int


class Word(NamedTuple):
    """The characters from `start` up to but not including `end`. `kind` is 1 if one of them is alphabetic or numeric, else 0."""

    # from hordguli.h: hordguli_word
    start: int
    end: int
    kind: int


class Position(NamedTuple):
    """The character that contains an offset, and how many of its own bytes or code units precede the offset."""

    # from hordguli.h: hordguli_position
    pos: int
    rest: int


class Span(NamedTuple):
    """The columns from `left` up to but not including `right`, from the left edge of a line's shown part."""

    # from hordguli.h: hordguli_span
    left: int
    right: int


class Run(NamedTuple):
    """The `length` characters of a line from `start` on, counted from the start of the line, all at one level."""

    # from hordguli.h: hordguli_run
    start: int
    length: int
    level: int


class ScriptRun(NamedTuple):
    """The `length` characters of a text from `start` on, all of one script: its code (ISO 15924), such as `"Latn"`."""

    start: int
    length: int
    script: str


class Edge(NamedTuple):
    """One of the two edges of a position. They are apart where the direction changes or a line wraps."""

    # from hordguli.h: hordguli_edge
    pos: int
    side: Side = Side.BEFORE


class Piece(NamedTuple):
    """A part of a line in one direction, for drawing: a directional run, or the part of one before, between or after tabs.

    `start`: position of its first character in the text. `text`: its characters in logical order and not mirrored, as a shaper
    needs them. `level`: that of all its characters, odd if it is right-to-left. `left`, `right`: its columns, from the left edge
    of the line's shown part.
    """

    start: int
    text: str
    level: int
    left: int
    right: int


class Line(NamedTuple):
    """A line. The tuples have one item per shown character; positions count from the start of the line.

    `text`: the shown part in visual order, mirrored. `start`: position of the line's first character in the text.
    `length`: characters, including those that are not shown. `shown`: shown characters. `width`: their columns.
    `padding`: columns left of the shown part if it is padded. `base_level`: 0 or 1. `is_first`: the first of its paragraph.
    `levels`: after L1, in logical order. `logical_to_visual`, `visual_to_logical`: the position maps.
    `columns`: the columns at each visual position. `runs`: the directional runs, from left to right.
    `logical_text`: the shown part in logical order, not mirrored.
    """

    text: str
    start: int
    length: int
    shown: int
    width: int
    padding: int
    base_level: int
    is_first: bool
    levels: tuple[int, ...]
    logical_to_visual: tuple[int, ...]
    visual_to_logical: tuple[int, ...]
    columns: tuple[int, ...]
    runs: tuple[Run, ...]
    logical_text: str

    def left_to_right(self) -> list[Piece]:
        """Returns the pieces of the shown part from left to right, for drawing. A tab is a piece of its own.

        >>> with hordguli.Session("ab \\u05d0(\\u05d1)") as text:
        ...     [(piece.text, piece.level, piece.left) for piece in text[0].left_to_right()]
        [('ab ', 0, 0), ('\u05d0(\u05d1)', 1, 3)]
        """
        pieces: list[Piece] = []
        left = 0
        for start, length, level in self.runs:
            for first, end in _between_tabs(self.logical_text, start, start + length, level):
                right = left + sum(self.columns[place] for place in self.logical_to_visual[first:end])
                pieces.append(Piece(self.start + first, self.logical_text[first:end], level, left, right))
                left = right
        return pieces


def _between_tabs(text: str, start: int, end: int, level: int) -> list[tuple[int, int]]:
    """Returns the start and the end of each tab of a run, and of what is between tabs, from left to right."""
    found = [(part.start(), part.end()) for part in _TAB_OR_MORE.finditer(text, start, end)]
    return found[::-1] if level % 2 else found


class ParagraphText(NamedTuple):
    """What a function `measure` measures: a paragraph.

    `text`: its characters, with its separator. `base_level`: 0 or 1. `runs`: its level runs in logical order, with levels before
    L1. They cover all characters, and `start` counts from the start of the paragraph.
    """

    text: str
    base_level: int
    runs: tuple[Run, ...]


class Paragraph(NamedTuple):
    """A paragraph, with its separator.

    `start`: position of its first character. `length`: characters. `first_line`, `lines`: its lines. `base_level`: 0 or 1.
    `levels`: the level of each character before L1. `breaks`: the break mark after each character.
    """

    start: int
    length: int
    first_line: int
    lines: int
    base_level: int
    levels: tuple[int, ...]
    breaks: tuple[Break, ...]


class Row(NamedTuple):
    """A row in visual order, with the fields that have the same names in `Line`."""

    text: str
    levels: tuple[int, ...]
    logical_to_visual: tuple[int, ...]
    visual_to_logical: tuple[int, ...]


class Character(NamedTuple):
    """The properties of a character.

    `mirror`: its mirror, or `""`. `pair`: the other bracket of its pair, or `""`. `bracket`: `"open"`, `"close"` or `""`.
    `is_mark`: general category Mn or Mc. `is_wide`: East Asian width F, W or H. `columns`: its width, 0 to 3.
    `bidi_class`, `line_class`: by their short names.
    """

    mirror: str
    pair: str
    is_mark: bool
    is_wide: bool
    bidi_class: str
    line_class: str
    columns: int
    bracket: str


class Reason(NamedTuple):
    """How the algorithm arrives at the level of a character (UAX #9). What does not exist is `None`.

    `opener`: the innermost embedding, override or isolate around it that does not overflow. `matching`: the PDI of an isolate
    initiator, or the initiator of a PDI. `sequence`: the first character of its isolating run sequence. `partner`: the other bracket of
    a pair, or the bracket before a mark that N0 changes. `inside`: the strong character inside the pair that decides.
    `left`, `right`: the characters before and after a run of neutrals; for a character that X9 removes, `left` is the one whose
    level it has. `class_after`: its bidi class, then the class after X8, W1 to W7, N0 and N2.
    `override_class`: `"L"` or `"R"` directly in an override. `embedding_level`: after X8. `level`: as `levels` returns it.
    `sos`, `eos`: the directions of the start and the end of the sequence. `neutral`: the rule that decides, if the type after N0 is
    neutral. A character that X9 removes has no `sequence`.
    """

    opener: Optional[int]
    matching: Optional[int]
    sequence: Optional[int]
    partner: Optional[int]
    inside: Optional[int]
    left: Optional[int]
    right: Optional[int]
    class_after: tuple[Optional[str], ...]
    override_class: Optional[str]
    embedding_level: int
    level: int
    sos: Optional[str]
    eos: Optional[str]
    bracket_case: Optional[BracketCase]
    neutral: Optional[NeutralRule]


class BreakReason(NamedTuple):
    """The rule that decides a break mark (UAX #14), and what it reads. A base is a character and what LB9 attaches to it.

    `base`: where the base before the mark starts. `behind_spaces`: where the nearest base that is not a space starts, which rules
    with `SP*` read, or `None`. `rule`: the first rule that applies, such as `"LB8a"`. `class_before`: of that base, after LB1 and LB10.
    `class_after`: of the next base or, inside a base, character; `None` at the end. `mark`: as `breaks` returns it.
    """

    base: int
    behind_spaces: Optional[int]
    rule: str
    class_before: str
    class_after: Optional[str]
    mark: Break


class ExplainedCharacter(NamedTuple):
    """A character of an `Explanation`.

    `position`: its index in the text. `character`, `code_point`, `name`: such as `"("`, `"U+0028"`, `"LEFT PARENTHESIS"`.
    `mirror` to `bracket`: its properties, as in `Character`. `level`: its level before L1. `break_mark`: the break mark after it. `line`:
    its line. `line_level`: its level after L1. `visual`: its visual position in the line. These three are `None` if the character is
    not shown. `why`: what rules of UAX #9 change at it, as sentences in the order of the rules. `break_why`: the rule of UAX #14 that
    decides its break mark. `reason`, `break_reason`: what the sentences say, with positions in the text.
    """

    position: int
    character: str
    code_point: str
    name: str
    mirror: str
    pair: str
    is_mark: bool
    is_wide: bool
    bidi_class: str
    line_class: str
    columns: int
    bracket: str
    level: int
    break_mark: Break
    line: Optional[int]
    line_level: Optional[int]
    visual: Optional[int]
    why: tuple[str, ...]
    break_why: str
    reason: Reason
    break_reason: BreakReason


class ExplainedParagraph(NamedTuple):
    """A paragraph of an `Explanation`.

    `start`: position of its first character. `length`: characters. `base_level`: 0 or 1. `decided_by`: position of the character
    that decided the base level, or `None`.
    """

    start: int
    length: int
    base_level: int
    decided_by: Optional[int]


class Explanation(NamedTuple):
    """What `explain` returns. `unicode`: the Unicode version of the tables. `width`: in columns."""

    unicode: str
    width: int
    characters: tuple[ExplainedCharacter, ...]
    lines: tuple[Line, ...]
    paragraphs: tuple[ExplainedParagraph, ...]


# In C, the number of each item is its index.
BREAKS = [Break.NEVER, Break.MAY, Break.MUST]
BRACKET_CASES = [None, *BracketCase]
NEUTRAL_RULES = [None, *NeutralRule]
BRACKETS = ["", "open", "close"]


class TableFault(NamedTuple):
    # from hordguli.h: hordguli_table_fault
    file: int
    line: int
    cause: int


class LineInfo(NamedTuple):
    # from hordguli.h: hordguli_line_info
    start: int
    length: int
    shown: int
    columns: int
    padding: int
    base: int
    first: int


class ParagraphInfo(NamedTuple):
    # from hordguli.h: hordguli_paragraph_info
    length: int
    lines: int
    base: int
    start: int
    first_line: int


class RawScriptRun(NamedTuple):
    # from hordguli.h: hordguli_script_run
    start: int
    length: int
    script: int


class RawCharacter(NamedTuple):
    # from hordguli.h: hordguli_character
    mirror: int
    pair: int
    flags: int
    bidi_class: int
    line_class: int
    columns: int
    bracket: int


class RawReason(NamedTuple):
    # from hordguli.h: hordguli_reason
    opener: int
    matching: int
    sequence: int
    partner: int
    inside: int
    left: int
    right: int
    class_after: bytes
    override_class: int
    embedding_level: int
    level: int
    sos: int
    eos: int
    bracket_case: int
    neutral: int


class RawBreakReason(NamedTuple):
    # from hordguli.h: hordguli_break_reason
    base: int
    behind_spaces: int
    rule: int
    letter: int
    class_before: int
    class_after: int
    mark: int


# How C stores each record: N is a size_t, I a uint32_t, Q a uint64_t, B a uint8_t, 11s an array of 11
# uint8_t, and x a byte of padding or of the member `zero`.
FORMATS: dict[Any, Struct] = {
    # from hordguli.h: the records
    Damage: Struct("6N"),
    ChangedLines: Struct("3N"),
    Counts: Struct("4N"),
    Work: Struct("3Q"),
    Place: Struct("3N"),
    Caret: Struct("2NI4x"),
    Hit: Struct("NI4x"),
    Cluster: Struct("2N"),
    Word: Struct("2NI4x"),
    Position: Struct("2N"),
    Span: Struct("2N"),
    Run: Struct("2NI4x"),
    Edge: Struct("NI4x"),
    TableFault: Struct("3N"),
    LineInfo: Struct("5N2I"),
    ParagraphInfo: Struct("2NI4x2N"),
    RawScriptRun: Struct("2NI4x"),
    RawCharacter: Struct("3I4B"),
    RawReason: Struct("7I11s7B2x"),
    RawBreakReason: Struct("2I5B3x"),
}
