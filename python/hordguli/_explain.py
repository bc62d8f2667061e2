"""Why a text looks as it does: `explain`, and what `python3 -m hordguli explain` writes."""

import base64
import json
import os
import unicodedata
import zlib
from collections.abc import Sequence
from enum import Enum
from typing import Any, Optional

from ._records import BreakReason, ExplainedCharacter, ExplainedParagraph, Explanation, Line, Options, Paragraph, Reason, Run
from ._sentences import all_before, break_sentence, level_sentences, unpaired_sentence
from .session import Session
from .tables import Tables, default_tables
from .text import base_level, break_reasons, properties, reasons

WIDTHS = range(1, 121)  # of the layouts in a page
_PAGE = os.path.join(os.path.dirname(os.path.abspath(__file__)), "_explain.html")
_REORDERS = Options.REORDER_NSM | Options.REORDER_CLUSTERS  # (with these, a run may have another order than that of its level)
# The columns of the table, and the fields of a character that they show. `_shown` and `_partner` return
# the fields `shown` and `partner`.
_COLUMNS = {
    "pos": "position",
    "char": "shown",
    "code": "code_point",
    "class": "bidi_class",
    "bracket": "bracket",
    "mirror": "mirror",
    "partner": "partner",
    "level": "level",
    "L1": "line_level",
    "line": "line",
    "visual": "visual",
    "name": "name",
    "break": "break_mark",
    "break rule": "break_why",
    "why": "why",
}
_CHARACTER_COLUMNS = 4  # of a terminal, for the column "char"
_FIXED = Options.LTR, Options.RTL  # for each base level
_POSITIONS = "opener", "matching", "sequence", "partner", "inside", "left", "right", "base", "behind_spaces"  # (fields of reasons)
# What a page shows in place of a character that has no glyph.
_LABELS = {
    "\t": "TAB", "\n": "LF", "\r": "CR", "\u061c": "ALM", "\u200b": "ZWSP", "\u200c": "ZWNJ", "\u200d": "ZWJ", "\u200e": "LRM",
    "\u200f": "RLM", "\u202a": "LRE", "\u202b": "RLE", "\u202c": "PDF", "\u202d": "LRO", "\u202e": "RLO", "\u2060": "WJ", "\u2066": "LRI",
    "\u2067": "RLI", "\u2068": "FSI", "\u2069": "PDI",
}  # fmt: skip


def explain(
    text: str, width: int = 80, options: Options = Options.WEAK_LTR, *, tables: Optional[Tables] = None
) -> Explanation:
    """Returns what decides the layout of a text: properties, rules, levels, break marks and places of its characters, lines, base levels.

    Parameters and errors are those of `Session`.

    >>> hordguli.explain("\\u05d0 (b)").characters[2].why[0]
    'N0: pairs with position 4; only Latin inside (position 3), but right-to-left before (position 0), as the paragraph, so right-to-left'
    """
    tables = tables or default_tables()
    with Session(text, width, options, tables=tables) as session:
        paragraphs = [session.paragraph(index) for index in range(session.counts.paragraphs)]
        lines = tuple(session)
    explained = tuple(
        ExplainedParagraph(one.start, one.length, one.base_level, _decider(text, one, options, tables)) for one in paragraphs
    )
    levels = [level for paragraph in paragraphs for level in paragraph.levels]
    marks = [mark for paragraph in paragraphs for mark in paragraph.breaks]
    places: list[tuple[Optional[int], Optional[int], Optional[int]]] = [(None, None, None)] * len(text)
    for number, line in enumerate(lines):
        for offset, (level, visual) in enumerate(zip(line.levels, line.logical_to_visual)):
            places[line.start + offset] = number, level, visual
    known = dict(zip(set(text), _described("".join(set(text)), tables)))
    level_reasons, mark_reasons = _reasons(text, paragraphs, options, tables)
    whys = _whys(text, explained, level_reasons)
    characters = tuple(
        ExplainedCharacter._make((
            position, character, *known[character], levels[position], marks[position], *places[position],
            (*whys[position], *_whys_of_line(character, levels[position], places[position], lines)),
            break_sentence(text, mark_reasons, position), level_reasons[position], mark_reasons[position],
        ))
        for position, character in enumerate(text)
    )  # fmt: skip
    return Explanation(tables.unicode_version, width, characters, lines, explained)


def _described(characters: str, tables: Tables) -> list[tuple[Any, ...]]:
    """Returns the code point, the name and the properties of each character, in the order of `ExplainedCharacter`."""
    return [
        (_code_point(one), unicodedata.name(one, ""), *its._replace(mirror=_code_point(its.mirror), pair=_code_point(its.pair)))
        for one, its in zip(characters, properties(characters, tables=tables))
    ]


def _reasons(text: str, paragraphs: list[Paragraph], options: Options, tables: Tables) -> tuple[list[Reason], list[BreakReason]]:
    """Returns the reasons for the levels and for the break marks of all characters, with positions in the text."""
    level_reasons: list[Reason] = []
    mark_reasons: list[BreakReason] = []
    for one in paragraphs:
        its = text[one.start : one.start + one.length]
        direction = _FIXED[one.base_level] | options & Options.LINE_SEPARATORS
        level_reasons += _moved(reasons(its, direction, tables=tables), one.start)
        mark_reasons += _moved(break_reasons(its, options & Options.WHOLE_NUMBERS, tables=tables), one.start)
    return level_reasons, mark_reasons


def _moved(records: Any, start: int) -> Any:
    """Returns the reasons of a paragraph with positions in the text."""
    if start == 0 or not records:
        return records
    places = [at for at, field in enumerate(records[0]._fields) if field in _POSITIONS]

    def moved(record: Any) -> Any:
        values = list(record)
        for at in places:
            if values[at] is not None:
                values[at] += start
        return record._make(values)

    return list(map(moved, records))


def _code_point(character: str) -> str:
    return f"U+{ord(character):04X}" if character else ""


def _decider(text: str, paragraph: Paragraph, options: Options, tables: Tables) -> Optional[int]:
    """Returns the position of the character that decided the base level: the last one of the shortest prefix with a direction.

    A prefix has a direction if it has the same base level with both weak directions. Then all longer ones have it too.
    """
    if options & Options.LTR & Options.RTL:  # (the bit that both have: no character decides)
        return None

    def has_direction(length: int) -> bool:
        prefix = text[paragraph.start : paragraph.start + length]
        both = {base_level(prefix, weak, tables=tables) for weak in (Options.WEAK_LTR, Options.WEAK_RTL)}
        return len(both) == 1

    if not has_direction(paragraph.length):
        return None
    without, length = 0, paragraph.length
    while length - without > 1:
        middle = (without + length) // 2
        without, length = (without, middle) if has_direction(middle) else (middle, length)
    return paragraph.start + length - 1


def plain(value: Any) -> Any:
    """Returns a record as dicts, lists, strings and numbers, for JSON. An enumeration is its name in lower case."""
    if isinstance(value, Enum):
        return value.name.lower()
    if isinstance(value, tuple):
        fields = getattr(value, "_fields", None)
        return [plain(one) for one in value] if fields is None else {name: plain(one) for name, one in zip(fields, value)}
    return value


# ---- The sentences ----


def _whys(text: str, paragraphs: Sequence[ExplainedParagraph], reasons: Sequence[Reason]) -> list[list[str]]:
    """Returns what rules decide at each character, as sentences, without those that depend on the lines."""
    befores = all_before(reasons)
    found = [list(level_sentences(text, reasons, befores, at)) for at in range(len(text))]
    for number, paragraph in enumerate(paragraphs):
        if paragraph.decided_by is not None:
            found[paragraph.decided_by].insert(0, f"P2: decides the base level of paragraph {number}")
    return found


def _whys_of_line(character: str, level: int, place: tuple[Optional[int], ...], lines: Sequence[Line]) -> list[str]:
    """Returns what L1 and L4 change."""
    line, line_level, visual = place
    if line is None or visual is None:
        return []
    drawn = lines[line].text[visual]
    found = [f"L1: level {level} becomes {line_level}"] if level != line_level else []
    return found + [f"L4: drawn as {drawn}"] * (drawn != character)


# ---- The table ----


def table(explained: Explanation) -> str:
    """Returns an explanation as a table for a terminal: a row per character, the lines and paragraphs, the version."""
    cells = [
        {**one._asdict(), "break_mark": plain(one.break_mark), "shown": _shown(one), "partner": _partner(one), "why": ". ".join(one.why)}
        for one in explained.characters
    ]
    rows = [["" if cell[field] is None else str(cell[field]) for field in _COLUMNS.values()] for cell in cells]
    widths = [max(map(len, column)) for column in zip(_COLUMNS, *rows)]
    widths[1] = _CHARACTER_COLUMNS
    missing = [len(_shown(one)) - _columns_of(one) for one in explained.characters]  # (of a wide character, -1; of a mark, 1)
    lines = [_joined(_COLUMNS, widths, 0), *(_joined(row, widths, more) for row, more in zip(rows, missing))]
    for number, line in enumerate(explained.lines):
        runs = "; ".join(f"{run.length} from {line.start + run.start} at level {run.level}" for run in line.runs)
        lines.append(f"line {number}: {line.length} from {line.start}, {line.width} columns; runs: {runs or 'none'}")
    for number, paragraph in enumerate(explained.paragraphs):
        why = "no character" if paragraph.decided_by is None else f"the character at {paragraph.decided_by}"
        numbers = f"{paragraph.length} from {paragraph.start}, base level {paragraph.base_level}"
        lines.append(f"paragraph {number}: {numbers}, decided by {why}")
    lines.append(f"Unicode {explained.unicode}")
    return "\n".join(lines)


def _joined(row: Any, widths: list[int], more: int) -> str:
    """Returns a row of the table. `more` is the length of the character's cell minus its columns: 1 for a mark, -1 for a wide character."""
    padded = [cell.ljust(width + more * (at == 1)) for at, (cell, width) in enumerate(zip(row, widths))]
    return "  ".join(padded).rstrip()


def _shown(one: ExplainedCharacter) -> str:
    """Returns a character as it can be printed, a mark on a circle, or `""` if it is a space or has no glyph."""
    if one.is_mark:
        return "\u25cc" + one.character
    return one.character if one.character.isprintable() and one.character != " " else ""


def _partner(one: ExplainedCharacter) -> Optional[int]:
    """Returns the position of the other bracket of a pair. (A mark after a bracket has a partner too.)"""
    return one.reason.partner if one.bracket else None


def _columns_of(one: ExplainedCharacter) -> int:
    return 1 if one.is_mark else one.columns if _shown(one) else 0


# ---- The page ----


def page(text: str, width: int = 80, options: Options = Options.WEAK_LTR, *, tables: Optional[Tables] = None) -> str:
    """Returns an HTML page that shows what `explain` returns, for each width from 1 to 120. It needs no other file."""
    explained = explain(text, width, options, tables=tables)
    characters = explained.characters
    break_whys = _Numbered()
    data = {
        "unicode": explained.unicode,
        "width": width,
        "text": text,
        "properties": {one.character: _properties_in_page(one) for one in characters},
        "levels": [one.level for one in characters],
        "breaks": "".join(str(int(one.break_mark)) for one in characters),
        "paragraphs": explained.paragraphs,
        **_layouts(text, options, tables),
        "columns": _COLUMNS,
        "partners": [_partner(one) for one in characters],
        "unpaired": [one.position for one in characters if unpaired_sentence(one.reason)],
        "whys": [[why for why in one.why if not why.startswith(("L1:", "L4:"))] for one in characters],
        "break_whys": [break_whys.number_of(one.break_why) for one in characters],
        "break_sentences": break_whys.items,
    }
    packed = zlib.compress(json.dumps(data, separators=(",", ":")).encode())
    with open(_PAGE, encoding="utf-8") as template:
        return template.read().replace("{DATA}", base64.b64encode(packed).decode())


def _properties_in_page(one: ExplainedCharacter) -> dict[str, Any]:
    fields = "code_point", "name", "mirror", "bidi_class", "bracket"
    shown = _shown(one)
    return {**{field: getattr(one, field) for field in fields}, "shown": shown, "label": "" if shown else _LABELS.get(one.character, "")}


def _layouts(text: str, options: Options, tables: Optional[Tables]) -> dict[str, list[Any]]:
    """Returns the layouts of all WIDTHS for a page.

    - `layouts`: a width, and the numbers of the lines there and at all widths up to that of the next layout.
    - `lines`: the different lines: start, length, columns, base level, the number of its runs, and its visual
      order if it differs from that of the runs.
    - `runs`: the different lists of runs, as start, length and level of each.
    """
    layouts: list[Any] = []
    lines, runs = _Numbered(), _Numbered()
    with Session(text, WIDTHS[0], options, tables=tables) as session:
        for width in WIDTHS:
            session.width = width
            layout = []
            for number in range(len(session)):
                info = session._line_info(number)
                key = info.start, info.length, info.shown, info.columns  # (the padding depends on the width)
                if key not in lines.numbers:
                    found = session.runs(number)
                    order = session[number].visual_to_logical if options & _REORDERS else None
                    its_order = [] if order is None or order == _order_of(found) else [order]
                    its_runs = runs.number_of(tuple(one for run in found for one in run))
                    lines.add(key, [info.start, info.length, info.columns, info.base, its_runs, *its_order])
                layout.append(lines.numbers[key])
            if not layouts or layouts[-1][1] != layout:
                layouts.append([width, layout])
    return {"layouts": layouts, "lines": lines.items, "runs": runs.items}


class _Numbered:
    """Distinct items, in the order in which they were added. `numbers` maps the key of each item to its number."""

    def __init__(self) -> None:
        self.items: list[Any] = []
        self.numbers: dict[Any, int] = {}

    def add(self, key: Any, item: Any) -> None:
        self.numbers[key] = len(self.items)
        self.items.append(item)

    def number_of(self, item: Any) -> int:
        if item not in self.numbers:
            self.add(item, item)
        return self.numbers[item]


def _order_of(runs: list[Run]) -> tuple[int, ...]:
    """Returns the logical places of the characters of runs, from left to right, if each run is in the order of its level."""
    parts = [range(run.start, run.start + run.length) for run in runs]
    return tuple(place for run, part in zip(runs, parts) for place in (reversed(part) if run.level % 2 else part))
