"""Mutants of the model, each a wrong command, which the rows must notice."""
import re
from contextlib import contextmanager

import model
from model import DEFAULT, Layout, Style

ORIGINAL = {name: getattr(model, name) for name in ("decoded", "styled", "written", "simple", "change", "colour", "printed", "overstruck", "with_parameters", "with_link", "attributes")}
LINE, PARAGRAPH, WITH_QUOTE, COLUMNS = Layout.line, Layout.paragraph, Layout.with_quote, Layout.columns
COLOURED = model.coloured
PIECE = model.PIECE.pattern


def piece(old, new):
    """Returns the pattern of pieces with a part replaced."""
    assert PIECE.count(old) == 1, old
    return {"PIECE": re.compile(PIECE.replace(old, new))}


def text_for_sequences(replacement):
    """A sequence leaves a character."""

    def styled(text, escapes):
        if escapes != "text":
            text = re.sub("(?=\x1b\\[[0-9;]*m)", replacement, text)
        return ORIGINAL["styled"](text, escapes)

    return {"styled": styled}


def line_with(change):
    """A line whose styles are changed."""

    def line(self, line, styles, width):
        its = LINE(self, line, styles, width)
        return its._replace(cells=change(its.cells))

    return {"Layout.line": line}


def neighbours(cells):
    return [(c, cells[max(at - 1, 0)][1]) for at, (c, _) in enumerate(cells)]


def styled_padding(cells):
    first = next((style for c, style in cells if c != " "), DEFAULT)
    return [(c, first if c == " " else style) for c, style in cells]


def marks_with_their_base(cells):
    found = []
    for c, style in cells:
        found.append((c, found[-1][1] if found and model.hordguli.properties(c)[0].columns == 0 else style))
    return found


def without_reset(cells):
    text = ORIGINAL["written"](cells)
    return text[: -len("\x1b[m")] if text.endswith("\x1b[m") else text


def link_runs_on(old, new):
    return ORIGINAL["change"](old, new if new.link else new._replace(link=old.link))


def clears_bold_alone(style, n):
    return style._replace(bold=False) if n == 22 else ORIGINAL["simple"](style, n)


def with_simple(numbers, **changes):
    return {"simple": lambda style, n: style._replace(**changes) if n in numbers else ORIGINAL["simple"](style, n)}


def colours_of_16(value, first):
    return ORIGINAL["colour"](("16", value[1]) if value[0] == "256" and value[1] < 16 else value, first)


def prefix_once(self, text, styles):
    lines = PARAGRAPH(self, text, styles)
    columns = self.prefix_length(text)
    return [line._replace(cells=line.cells[columns * (at > 0) :]) for at, line in enumerate(lines)]


def replaces_and_drops(data):
    return re.sub("(?s)\ufffd.", "\ufffd", ORIGINAL["decoded"](data)) if b"\xff" in data else ORIGINAL["decoded"](data)


def kept_differently(old, new):
    return lambda text, escapes: ORIGINAL["styled"](text.replace(old, new), escapes)


def always_bold(characters, before):
    return ORIGINAL["overstruck"](characters, DEFAULT)


def last_strike(characters, before):
    return characters[-1], len(set(characters)) < len(characters), "_" in characters


def ends_in_newline(texts, its):
    output = ORIGINAL["printed"](texts, its)
    return output if output.endswith(b"\n") or not output else output + b"\n"


def ends_without(texts, its):
    return ORIGINAL["printed"](texts, its).removesuffix(b"\n")


MUTANTS = {
    "the style of the visual neighbour": line_with(neighbours),
    "padding in the style of the text": line_with(styled_padding),
    "marks in the style of their base": line_with(marks_with_their_base),
    "no reset at the end of a line": {"written": without_reset},
    "a sequence with a column": text_for_sequences(" "),
    "a sequence with a direction": text_for_sequences("\u200e"),
    "a sequence that divides clusters": text_for_sequences("\u200b"),
    "a link that runs on": {"change": link_runs_on},
    "a link without its parameters": {"with_link": lambda style, command: ORIGINAL["with_link"](style, re.sub("^8;[^;]*;", "8;;", command))},
    "a link that SGR 0 ends": {"simple": lambda style, n: Style() if n == 0 else ORIGINAL["simple"](style, n)},
    "256 colours as 16": {"colour": colours_of_16},
    "22 clears bold alone": {"simple": clears_bold_alone},
    "2 clears bold": with_simple([2], bold=False, faint=True),
    "21 clears bold": with_simple([21], bold=False),
    "6 is 5": with_simple([6], blink=5),
    "39 clears the background": with_simple([39], foreground=None, background=None),
    "colours above 255 wrap": {"coloured": lambda style, name, kind, numbers: COLOURED(style, name, kind, [n % 256 for n in numbers])},
    "no colour space": {"with_parameters": lambda style, text: ORIGINAL["with_parameters"](style, text.replace("2::", "2:").replace("2:9:", "2:"))},
    "another kind of colour is skipped": {"with_parameters": lambda style, text: ORIGINAL["with_parameters"](style, re.sub("[345]8;[0134];", "", text))},
    "prefix on the first line only": {"Layout.paragraph": prefix_once},
    "a quote at the left of all lines": {"Layout.with_quote": lambda self, quote, styles, line: WITH_QUOTE(self, quote, styles, line._replace(base=0))},
    "a byte lost behind U+FFFD": {"decoded": replaces_and_drops},
    "one U+FFFD for several invalid bytes": {"decoded": lambda data: re.sub("\ufffd+", "\ufffd", ORIGINAL["decoded"](data))},
    "U+FEFF dropped everywhere": {"decoded": lambda data: ORIGINAL["decoded"](data).replace("\ufeff", "")},
    "the next file skipped": {"printed": lambda texts, its: ORIGINAL["printed"](texts[:1], its)},
    "DEL let through": {"styled": kept_differently("\x7f", "\u200b")},
    "NEL dropped": {"styled": kept_differently("\x85", "")},
    "U+001C dropped": {"styled": kept_differently("\x1c", "")},
    "U+001F kept": {"styled": kept_differently("\x1f", "\x1e")},
    "a style for each file": {"printed": lambda texts, its: ORIGINAL["printed"]([b"".join(texts)], its)},
    "BEL ends no OSC": piece(r"{0,4096}) (?:\x07|", r"{0,4096}) (?:"),
    "strings with controls": piece(r"(?P<osc>[^\x00-\x1f\x7f-\x9f\u2028\u2029]{0,4096})", r"(?P<osc>[^\x07\x1b\x9c]{0,4096})"),
    "strings of 4,095 characters": piece(r"(?P<osc>[^\x00-\x1f\x7f-\x9f\u2028\u2029]{0,4096})", r"(?P<osc>[^\x00-\x1f\x7f-\x9f\u2028\u2029]{0,4095})"),
    "strings of 4,097 characters": piece(r"(?P<osc>[^\x00-\x1f\x7f-\x9f\u2028\u2029]{0,4096})", r"(?P<osc>[^\x00-\x1f\x7f-\x9f\u2028\u2029]{0,4097})"),
    "CSI without intermediates": piece(r"[0-?]* [\ -/]* [@-~]", r"[0-?]* [@-~]"),
    "overstruck underscores are bold": {"overstruck": always_bold},
    "any strikes are bold": {"overstruck": last_strike},
    "the last newline always": {"printed": ends_in_newline},
    "the last newline never": {"printed": ends_without},
}


@contextmanager
def planted(changes):
    """Replaces functions of the model, or methods of its class `Layout`."""
    saved = []
    for name, new in changes.items():
        owner, name = (Layout, name.removeprefix("Layout.")) if name.startswith("Layout.") else (model, name)
        saved.append((owner, name, getattr(owner, name)))
        setattr(owner, name, new)
    try:
        yield
    finally:
        for owner, name, old in saved:
            setattr(owner, name, old)


def checks(report, rows, printed_for):
    """Runs the rows with each mutant. `printed_for` is what the model prints for a row."""
    for name, changes in MUTANTS.items():
        with planted(changes):
            noticed = [row.name for row in rows if printed_for(row) != row.output]
        report(f"the rows notice the mutant: {name}", noticed)
