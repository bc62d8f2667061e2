"""Calls that mypy checks. It refuses those with `type: ignore`, or else reports that the comment is unused."""

from typing import Optional

import hordguli
from hordguli import Options, Print
from hordguli.harfbuzz import Measure, Part

DIRECTION = Options.RTL
BOTH = Options.RTL | Options.NOBREAK | Options.tab_width(8)
SHOWN = Print.LEVELS | Print.VTOL

text = hordguli.Session("a", 80, BOTH)
line: hordguli.Line = text[0]
lines: list[hordguli.Line] = text[1:-1:2]
strings: list[str] = text.lines(show=SHOWN)
row: hordguli.Row = hordguli.row("a", hordguli.levels("a", DIRECTION), hordguli.base_level("a", DIRECTION), Options.REORDER_NSM)
shown: str = hordguli.display("a", direction=DIRECTION)
encoded: bytes = hordguli.display(b"a", base_dir="R")
later: hordguli.Tables = hordguli.default_tables("17.0")
version: str = hordguli.Tables(unicode="17.0").unicode_version

marks: list[hordguli.Break] = hordguli.breaks("a")
mark: hordguli.Break = text.paragraph(0).breaks[0]
reason: hordguli.Reason = hordguli.reasons("a", DIRECTION)[0]
case: Optional[hordguli.BracketCase] = reason.bracket_case
rule: str = hordguli.break_reasons("a", Options.WHOLE_NUMBERS)[0].rule
explanation: hordguli.Explanation = hordguli.explain("a")
character: hordguli.ExplainedCharacter = explanation.characters[0]
after: hordguli.Break = character.break_mark
decider: Optional[int] = explanation.paragraphs[0].decided_by
why: tuple[str, ...] = character.why
joined: str = explanation.lines[0].logical_text

measured: hordguli.Session = hordguli.Session.open_measured("a", 640, BOTH)
damage: hordguli.Damage = measured.set_advances(0, [640])
narrowed: hordguli.Damage = measured.set_measured_width(64)


def tens(paragraph: hordguli.ParagraphText) -> list[int]:
    return [10] * len(paragraph.text)


fitted: hordguli.Session = hordguli.Session("a", 640, BOTH, measure=tens)
measure = Measure(["a.ttf"], 26)
wrapped: list[str] = hordguli.wrap("a", 640, measure=measure)
pieces: list[hordguli.Piece] = fitted[0].left_to_right()
parts: list[Part] = measure.parts(pieces[0])

hordguli.Session("a", 640, measure=str)  # type: ignore[arg-type]
hordguli.Session("a", 640, BOTH, None, tens)  # type: ignore[misc]
measure.parts("a")  # type: ignore[arg-type]
measured.set_advances(0, ["a"])  # type: ignore[list-item]
hordguli.Session.open_measured("a")  # type: ignore[call-arg]
hordguli.Session("a", 80, SHOWN)  # type: ignore[arg-type]
hordguli.wrap("a", 80, SHOWN)  # type: ignore[arg-type]
hordguli.wrap("a", 80, BOTH, BOTH)  # type: ignore[arg-type]
text.lines(show=BOTH)  # type: ignore[arg-type]
hordguli.levels("a", SHOWN)  # type: ignore[arg-type]
hordguli.base_level("a", SHOWN)  # type: ignore[arg-type]
hordguli.breaks("a", SHOWN)  # type: ignore[arg-type]
hordguli.reasons("a", SHOWN)  # type: ignore[arg-type]
hordguli.break_reasons("a", SHOWN)  # type: ignore[arg-type]
hordguli.row("a", [0], 0, SHOWN)  # type: ignore[arg-type]
hordguli.display("a", direction=SHOWN)  # type: ignore[call-overload]
hordguli.display("a", base_dir="rtl")  # type: ignore[call-overload]
explanation["characters"]  # type: ignore[call-overload]
hordguli.explain("a", 80, SHOWN)  # type: ignore[arg-type]
hordguli.Tables(unicode=17.0)  # type: ignore[arg-type]
hordguli.Tables(None, "17.0")  # type: ignore[misc]
