"""A simple model of `hordguli`: what it prints for some texts and options.

Each step is a function of its own, in the order in which a text goes through them:

1. `decoded`: bytes to characters
2. `styled`: characters to styled characters; sequences, overstrikes and dropped controls are gone
3. `paragraphs`: the paragraphs, each with its separator
4. `laid_out`: the lines of a paragraph in visual order, by the Python package; `paragraph` adds its quote or prefix
5. `written`: a line with the sequences that change the style
6. `printed`: the output for all texts

Errors, messages and statuses are not part of the model.
"""
import ctypes, os, re, sys
from typing import NamedTuple, Optional

TOP = os.path.dirname(os.path.dirname(os.path.dirname(os.path.abspath(__file__))))
LIBRARY = f"{TOP}/bin/libhordguli.so.1"
# Loads this library first, so that the package finds it under the same name.
ctypes.CDLL(LIBRARY)
sys.path.insert(0, f"{TOP}/python")
import hordguli

MOST_IN_PARAGRAPH = 1_048_576
MOST_IN_STRING = 4096
MOST_OF_LINKS = 1_048_576
WIDEST = 65_535
LOOKED_AT_FOR_DIRECTION = 65_536
# The separators that end a line but no paragraph, and those that end the last line of a paragraph: each
# without and with --line-separators.
LINE_BREAKS = re.compile("[\v\f\u2028]"), re.compile("[\v\f\x85\u2028\u2029]")
LINE_END = re.compile("(\r\n|[\n\v\f\r\x1c-\x1e\x85\u2028\u2029])\\Z"), re.compile("(\r\n|[\n\v\f\r\x85\u2028\u2029])\\Z")


# ---- Options ----

DIRECTIONS = {
    "auto": hordguli.Options.WEAK_LTR,
    "rtl-auto": hordguli.Options.WEAK_RTL,
    "ltr": hordguli.Options.LTR,
    "rtl": hordguli.Options.RTL,
}
MARKS = {
    "clusters": hordguli.Options.REORDER_CLUSTERS,
    "after": hordguli.Options.REORDER_NSM,
    "logical": hordguli.Options(0),
}


class Settings(NamedTuple):
    """The options of the command, by their long names. `width` and `tabs` are `None` for `none`."""

    width: Optional[int] = 80
    tabs: Optional[int] = 8
    marks: str = "clusters"
    direction: str = "auto"
    escapes: str = "keep"
    prefix: str = ""
    unicode: str = "15.0"
    quotes: bool = False
    whole_numbers: bool = False
    show_spaces: bool = False
    line_separators: bool = False
    nomirror: bool = False
    basedir: bool = False
    nopad: bool = False
    strict: bool = False


def settings(words, columns=None):
    """Parses arguments. `columns` is the environment variable COLUMNS. If an option is repeated, the last one counts."""
    found, at = {}, 0
    while at < len(words):
        name, equals, value = words[at].partition("=")
        field = {"-w": "width", "-d": "direction"}.get(name, name.lstrip("-").replace("-", "_"))
        at += 1
        if isinstance(Settings._field_defaults[field], bool):
            found[field] = True
            continue
        if not equals:
            value, at = words[at], at + 1
        if field in ("width", "tabs"):
            value = None if value == "none" else value if value == "auto" else int(value)
        found[field] = value
    if found.get("width", "auto") == "auto":
        found["width"] = int(columns or 80)
    return Settings(**found)


# ---- Characters ----

CONTROL = r"\x00-\x1f\x7f-\x9f"
KEPT_CONTROL = r"\x09-\x0d\x1c-\x1e\x85"
INLINE = rf"[^{CONTROL}\u2028\u2029]"  # a character that strings and overstrikes may have
SEPARATOR = r"\n\r\x1c-\x1e\x85\u2029"
MANDATORY = ("BK", "CR", "LF", "NL")


def decoded(data):
    """Decodes UTF-8. Each maximal subpart of an invalid sequence becomes U+FFFD. An initial U+FEFF is dropped."""
    return data.decode("utf-8", "replace").removeprefix("\ufeff")


def picture(c):
    """Returns what `--escapes text` shows for a character."""
    if not re.match(f"[{CONTROL}]", c) or re.match(f"[{KEPT_CONTROL}]", c):
        return c
    return chr(0x2400 + ord(c)) if c < "\x20" else "\u2421" if c == "\x7f" else "\ufffd"


# ---- Styles ----


class Style(NamedTuple):
    """How a character looks. A color is `None` or a tuple of its kind and numbers, and a link is a tuple of its parameters
    and its URI."""

    bold: bool = False
    faint: bool = False
    italic: bool = False
    underline: int = 0
    blink: int = 0
    inverse: bool = False
    conceal: bool = False
    strike: bool = False
    overline: bool = False
    foreground: Optional[tuple] = None
    background: Optional[tuple] = None
    underline_colour: Optional[tuple] = None
    link: Optional[tuple] = None


DEFAULT = Style()
FLAGS = {1: "bold", 2: "faint", 3: "italic", 7: "inverse", 8: "conceal", 9: "strike", 53: "overline"}
CLEARED = {
    22: ("bold", "faint"), 23: ("italic",), 24: ("underline",), 25: ("blink",), 27: ("inverse",), 28: ("conceal",), 29: ("strike",),
    39: ("foreground",), 49: ("background",), 55: ("overline",), 59: ("underline_colour",),
}  # fmt: skip
COLOURED = {38: "foreground", 48: "background", 58: "underline_colour"}


def number(digits):
    """Returns a parameter's number, or a meaningless one if it has many digits. An empty parameter is 0."""
    return int(digits.lstrip("0")[:9] or "0")


def simple(style, n):
    """Applies a parameter that is a single number."""
    if n == 0:
        return Style(link=style.link)
    if n in FLAGS:
        return style._replace(**{FLAGS[n]: True})
    if n in CLEARED:
        return style._replace(**{name: Style._field_defaults[name] for name in CLEARED[n]})
    if n in (4, 21):
        return style._replace(underline=1 if n == 4 else 2)
    if n in (5, 6):
        return style._replace(blink=n)
    for first, name in ((30, "foreground"), (40, "background")):
        if first <= n < first + 8:
            return style._replace(**{name: ("16", n - first)})
        if first + 60 <= n < first + 68:
            return style._replace(**{name: ("16", n - first - 60 + 8)})
    return style


def coloured(style, name, kind, numbers):
    """Sets a color, unless it is incomplete or above 255."""
    if len(numbers) != (1 if kind == 5 else 3) or max(numbers) > 255:
        return style
    return style._replace(**{name: ("256" if kind == 5 else "rgb", *numbers)})


def with_parameters(style, parameters):
    """Applies the parameters of SGR."""
    fields = [[number(digits) for digits in field.split(":")] for field in parameters.split(";")]
    while fields:
        n, *parts = fields.pop(0)
        if n in COLOURED and parts:
            kind, *numbers = parts
            if kind not in (2, 5):
                return style
            style = coloured(style, COLOURED[n], kind, numbers[1:] if kind == 2 and len(numbers) == 4 else numbers)
        elif n in COLOURED:
            kind = fields.pop(0) if fields else []
            if kind not in ([2], [5]):
                return style
            count = 1 if kind == [5] else 3
            numbers, fields = fields[:count], fields[count:]
            if all(len(field) == 1 for field in numbers):
                style = coloured(style, COLOURED[n], kind[0], [field[0] for field in numbers])
        elif n == 4 and len(parts) == 1:
            style = style._replace(underline=parts[0]) if parts[0] <= 5 else style
        elif not parts:
            style = simple(style, n)
    return style


def with_link(style, command):
    """Applies the content of an OSC sequence: `8;PARAMETERS;URI` is a link, or ends one if the URI is empty."""
    found = re.fullmatch(r"8;([^;]*);(.*)", command)
    if not found:
        return style
    return style._replace(link=found.groups() if found[2] else None)


def link_length(style):
    return len(";".join(style.link)) if style.link else 0


# ---- Sequences and overstrikes ----

ST = r"(?:\x1b\\|\x9c)"
OSC, OSC_END = r"(?:\x1b\]|\x9d)", rf"(?:\x07|{ST})"
STRING = r"(?:\x1b[PX^_]|[\x90\x98\x9e\x9f])"


def long_string(introducer, end):
    """A string that is too long, up to its end or the next separator."""
    return rf"{introducer}{INLINE}{{{MOST_IN_STRING + 1}}}(?:(?!{end})[^{KEPT_CONTROL}\u2028\u2029])*{end}?"


PIECE = re.compile(
    rf"""(?xs)
      (?:\x1b\[|\x9b) (?P<sgr>[0-9:;]*) m
    | (?:\x1b\[|\x9b) [0-?]* [\ -/]* [@-~]
    | {OSC} (?P<osc>{INLINE}{{0,{MOST_IN_STRING}}}) {OSC_END}
    | {STRING} {INLINE}{{0,{MOST_IN_STRING}}} {ST}
    | {long_string(OSC, OSC_END)}
    | {long_string(STRING, ST)}
    | \x1b [\ -/]+ [0-~] | \x1b [0-OQ-WYZ\\`-~]
    | (?P<overstrike>{INLINE} (?:\x08 {INLINE})+)
    | (?P<character>[^{CONTROL}] | [{KEPT_CONTROL}])
    | [{CONTROL}]
    """
)


def overstruck(characters, before):
    """Returns the character that overstrikes show, whether it is bold, and whether it is underlined. `before` is the style before it."""
    shown, bold, underlined = characters[0], False, False
    for c in characters[1:]:
        if c == shown == "_" and not bold and not underlined:
            underlined = before.underline > 0 and not before.bold
            bold = not underlined
        elif c == shown:
            bold, underlined = True, underlined or c == "_"
        elif c == "_":
            underlined = True
        else:
            bold, underlined = False, shown == "_"
            shown = c
    return shown, bold, underlined


def styled(text, escapes):
    """Returns the characters that remain of a text, and the style of each."""
    if escapes == "text":
        return "".join(map(picture, text)), [DEFAULT] * len(text)
    shown, styles, pen, links = [], [], DEFAULT, 0
    for piece in PIECE.finditer(text):
        if piece["sgr"] is not None:
            pen = with_parameters(pen, piece["sgr"])
        elif piece["osc"] is not None:
            linked = with_link(pen, piece["osc"])
            more = link_length(linked) if linked is not pen else 0
            pen = linked if links + more <= MOST_OF_LINKS else pen._replace(link=None)
            links += more if links + more <= MOST_OF_LINKS else 0
        elif piece["overstrike"]:
            before = styles[-1] if shown else DEFAULT
            c, bold, underlined = overstruck(piece["overstrike"][::2], before)
            shown.append(c)
            styles.append(pen._replace(bold=pen.bold or bold, underline=1 if underlined else pen.underline))
        elif piece["character"]:
            shown.append(piece["character"])
            styles.append(pen)
            links = link_length(pen) if re.match(f"[{SEPARATOR}]", piece["character"]) else links
    return "".join(shown), styles if escapes == "keep" else [DEFAULT] * len(shown)


# ---- Lines ----


def paragraphs(text, styles, line_separators):
    """Yields the characters and the styles of each paragraph."""
    ends = r"\n\r" if line_separators else SEPARATOR
    for found in re.finditer(rf"[^{ends}]*(?:\r\n|[{ends}])|[^{ends}]+\Z", text):
        yield found[0], styles[found.start() : found.end()]


class Line(NamedTuple):
    """A line: its characters from left to right, each with its style, and the base level of its paragraph."""

    cells: list
    base: int


def spaces(count, style=DEFAULT):
    return [(" ", style)] * count


def separators_of(its):
    return hordguli.Options.LINE_SEPARATORS if its.line_separators else hordguli.Options(0)


class Layout:
    """How paragraphs are laid out with some settings, in one direction."""

    def __init__(self, its, direction):
        self.its, self.direction, self.tables = its, direction, hordguli.default_tables(its.unicode)
        options = direction | MARKS[its.marks]
        options |= hordguli.Options.tab_width(its.tabs) if its.tabs else hordguli.Options(0)
        options |= hordguli.Options.WHOLE_NUMBERS if its.whole_numbers else hordguli.Options(0)
        options |= hordguli.Options.SHOW_SPACES if its.show_spaces else hordguli.Options(0)
        options |= separators_of(its)
        options |= hordguli.Options.NOBREAK if its.width is None else hordguli.Options(0)
        self.options = options

    def laid_out(self, text, styles, width):
        """Returns the lines of a paragraph. An empty paragraph after a prefix is laid out like a lone newline."""
        text = text or "\n"
        with hordguli.Session(text, WIDEST if width is None else width, self.options, tables=self.tables) as session:
            return [self.line(line, styles, width) for line in session[:]]

    def line(self, line, styles, width):
        is_padded = width is not None and not self.its.nopad
        cells = spaces(line.padding if is_padded and line.base_level == 1 else 0)
        for place, at in enumerate(line.visual_to_logical):
            style, c = styles[line.start + at], line.logical_text[at]
            if c == "\t" and self.its.tabs:
                cells += spaces(line.columns[place], style)
            else:
                cells.append((c if self.its.nomirror else line.text[place], style))
        return Line(cells, line.base_level)

    def columns(self, text):
        """Returns the columns of a prefix."""
        text, count = LINE_BREAKS[self.its.line_separators].sub("", text), 0
        for c, found in zip(text, hordguli.properties(text, tables=self.tables)):
            count += self.its.tabs - count % self.its.tabs if c == "\t" and self.its.tabs else found.columns
        return count

    def prefix_length(self, text):
        """Returns how many characters of a paragraph are its quote or prefix. Without either, it is 0. A match that has a line
        break before its last character does not count."""
        pattern = r"(?:> ?)+" if self.its.quotes else self.its.prefix
        breaks, end = LINE_BREAKS[self.its.line_separators], LINE_END[self.its.line_separators]
        found = re.match(pattern, end.sub("", text))
        length = len(found[0]) if found and not breaks.search(found[0][:-1]) else 0
        return length if self.its.width is None or self.columns(text[:length]) < self.its.width else 0

    def paragraph(self, text, styles):
        """Returns the lines of a paragraph, with its quote or prefix."""
        length = self.prefix_length(text)
        prefix, rest = text[:length], text[length:]
        columns = self.columns(prefix)
        lines = self.laid_out(rest, styles[length:], None if self.its.width is None else self.its.width - columns)
        if not prefix:
            return lines
        if self.its.quotes:
            return [self.with_quote(prefix, styles, line) for line in lines]
        first = self.prefix_cells(prefix, styles)
        return [line._replace(cells=(spaces(columns) if at else first) + line.cells) for at, line in enumerate(lines)]

    def with_quote(self, quote, styles, line):
        """Adds the quote on the side where the paragraph begins."""
        if line.base == 0:
            return line._replace(cells=[*zip(quote, styles)] + line.cells)
        mirrored = quote if self.its.nomirror else quote.replace(">", "<")
        return line._replace(cells=line.cells + [*zip(mirrored, styles)][::-1])

    def prefix_cells(self, prefix, styles):
        """Returns the characters of a prefix from left to right, as a left-to-right row. A line break at its end is not shown."""
        prefix = LINE_BREAKS[self.its.line_separators].sub("", prefix)
        levels = hordguli.levels(prefix, hordguli.Options.LTR | separators_of(self.its), tables=self.tables)
        row = hordguli.row(prefix, levels, 0, MARKS[self.its.marks], tables=self.tables)
        cells = []
        for place, at in enumerate(row.visual_to_logical):
            if prefix[at] == "\t" and self.its.tabs:
                cells += spaces(self.columns(prefix[: at + 1]) - self.columns(prefix[:at]), styles[at])
            else:
                cells.append((prefix[at] if self.its.nomirror else row.text[place], styles[at]))
        return cells


def direction_of(text, its):
    """Returns the direction for `-d file`, or else the direction that is set. The text has its sequences."""
    if its.direction != "file":
        return DIRECTIONS[its.direction]
    tables = hordguli.default_tables(its.unicode)
    for paragraph, _ in paragraphs(styled(text[:LOOKED_AT_FOR_DIRECTION], its.escapes)[0], [], its.line_separators):
        weak = [hordguli.base_level(paragraph, DIRECTIONS[name] | separators_of(its), tables=tables) for name in ("auto", "rtl-auto")]
        if weak[0] == weak[1]:  # (it has a strong character)
            return DIRECTIONS["rtl" if weak[0] else "ltr"]
    return DIRECTIONS["ltr"]


def parts(text, styles, direction, its):
    """Yields the parts of a paragraph, and their direction. A paragraph within the limit is one part."""
    for start in range(0, len(text), MOST_IN_PARAGRAPH):
        end = start + MOST_IN_PARAGRAPH
        yield text[start:end], styles[start:end], direction
        if start == 0 and len(text) > end:
            direction = DIRECTIONS["rtl" if hordguli.base_level(text[:end], direction | separators_of(its)) else "ltr"]


# ---- Output ----


def colour(value, first):
    """Returns the parameters of a foreground or background color."""
    kind, *numbers = value
    if kind == "16":
        return str(first + numbers[0] if numbers[0] < 8 else first + 60 + numbers[0] - 8)
    return ";".join(map(str, [first + 8, 5 if kind == "256" else 2, *numbers]))


def attributes(style):
    """Returns the parameters that set a style, without its link."""
    found = [n for n in (1, 2, 3) if getattr(style, FLAGS[n])]
    found += {0: [], 1: [4]}.get(style.underline, [f"4:{style.underline}"])
    found += [style.blink] * (style.blink > 0)
    found += [n for n in (7, 8, 9, 53) if getattr(style, FLAGS[n])]
    found += [colour(style.foreground, 30)] if style.foreground else []
    found += [colour(style.background, 40)] if style.background else []
    if style.underline_colour:
        kind, *numbers = style.underline_colour
        found.append(":".join(map(str, ["58:5" if kind == "256" else "58:2:", *numbers])))
    return ";".join(map(str, found))


def change(old, new):
    """Returns the sequences between two characters with these styles."""
    if old == new:
        return ""
    before, after = attributes(old), attributes(new)
    text = ""
    if before != after:
        text += "\x1b[m" * bool(before) + f"\x1b[{after}m" * bool(after)
    if old.link != new.link:
        text += "\x1b]8;{};{}\x1b\\".format(*new.link or ("", ""))
    return text


def written(cells):
    """Returns a line, which begins and ends in the default style."""
    text, pen = [], DEFAULT
    for c, style in [*cells, ("", DEFAULT)]:
        text.append(change(pen, style) + c)
        pen = style
    return "".join(text)


def lines_of(text, styles, its, whole):
    """Yields the lines of a text in a direction, and whether each is the first of its paragraph."""
    for paragraph in paragraphs(text, styles, its.line_separators):
        for characters, looks, direction in parts(*paragraph, whole, its):
            for at, line in enumerate(Layout(its, direction).paragraph(characters, looks)):
                yield line, at == 0


def page(text, styles, its, whole):
    """Returns the output for one text in a direction, with its last newline."""
    output = []
    for line, is_first in lines_of(text, styles, its, whole):
        output.append(written(line.cells) + "\n")
        if its.basedir and is_first:
            output.append("RTL\n" if line.base else "LTR\n")
    return "".join(output)


def printed(texts, its):
    """Returns what the command prints for a list of texts, each given as bytes."""
    output, text = "", ""
    for data in texts:
        text, styles = styled(decoded(data), its.escapes)
        output += page(text, styles, its, direction_of(decoded(data), its))
    if text:
        last = hordguli.properties(text[-1])[0]
        is_separator = text[-1] in "\n\r" if its.line_separators else last.bidi_class == "B"
        if not is_separator and last.line_class not in MANDATORY:
            output = output.removesuffix("\n")
    return output.encode()
