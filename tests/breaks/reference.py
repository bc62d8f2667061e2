"""Reference implementation of line breaking (UAX #14) for Unicode 15.0 and 17.0.

At each position, the rules are tried one after another. They are written as in LineBreakTest.html, section Rules: regular expressions
on the characters before and after a position. LB9 and LB10 rewrite the text, so that later rules see one character for each base.
"""
import functools, itertools, re
from typing import NamedTuple

VERSIONS = ("15.0", "17.0")

# The classes that remain after LB1, in the order of `LineClass`.
CLASSES = (
    "BK CM CR GL LF NL SP WJ ZW ZWJ B2 BA BB CB HY CL CP EX IN NS OP QU IS NU PO PR SY AL EB EM H2 H3 HL ID JL JT JV RI AK AP AS HH VF VI"
).split()


class Character(NamedTuple):
    """What the rules need to know about a character."""

    line_class: str  # after LB1
    is_wide: bool = False  # East Asian width F, W or H
    is_future_pictograph: bool = False  # Extended_Pictographic and unassigned
    kind: str = ""  # Pi or Pf for a QU of this category, D for U+25CC as AL


# ---- The rules ----


class Rule(NamedTuple):
    number: str  # as in LineBreakTest.html of 17.0, or of 15.0 if 17.0 has no such rule
    before: str
    mark: str  # × (no break), ÷ (break allowed) or ! (mandatory break)
    after: str
    versions: tuple = VERSIONS


OLD, NEW = ("15.0",), ("17.0",)

RULES = [
    # LB4 to LB6
    Rule("4.0", "BK", "!", ""),
    Rule("5.01", "CR", "×", "LF"),
    Rule("5.02", "CR", "!", ""),
    Rule("5.03", "LF", "!", ""),
    Rule("5.04", "NL", "!", ""),
    Rule("6.0", "", "×", "( BK | CR | LF | NL )"),
    # LB7
    Rule("7.01", "", "×", "SP"),
    Rule("7.02", "", "×", "ZW"),
    # LB8
    Rule("8.0", "ZW SP*", "÷", ""),
    # LB8a
    Rule("8.1", "ZWJ", "×", ""),
    # LB9 and LB10 belong here; `bases` applies them.
    # LB11
    Rule("11.01", "", "×", "WJ"),
    Rule("11.02", "WJ", "×", ""),
    # LB12
    Rule("12.0", "GL", "×", ""),
    # LB12a
    Rule("12.1", "[^ SP BA HY]", "×", "GL", OLD),
    Rule("12.1", "[^ SP BA HY HH]", "×", "GL", NEW),
    # LB13
    Rule("13.01", "", "×", "EX"),
    Rule("13.02", "", "×", "CL"),
    Rule("13.03", "", "×", "CP"),
    Rule("13.02", "", "×", "IS", OLD),
    Rule("13.04", "", "×", "SY"),
    # LB14
    Rule("14.0", "OP SP*", "×", ""),
    # LB15
    Rule("15.0", "QU SP*", "×", "OP", OLD),
    # LB15a
    Rule("15.11", "( BK | CR | LF | NL | OP | QU | GL | SP | ZW | sot ) QU_Pi SP*", "×", "", NEW),
    # LB15b
    Rule("15.21", "", "×", "QU_Pf ( SP | GL | WJ | CL | QU | CP | EX | IS | SY | BK | CR | LF | NL | ZW | eot )", NEW),
    # LB15c
    Rule("15.3", "SP", "÷", "IS NU", NEW),
    # LB15d
    Rule("15.4", "", "×", "IS", NEW),
    # LB16
    Rule("16.0", "(CL | CP) SP*", "×", "NS"),
    # LB17
    Rule("17.0", "B2 SP*", "×", "B2"),
    # LB18
    Rule("18.0", "SP", "÷", ""),
    # LB19
    Rule("19.01", "", "×", "QU", OLD),
    Rule("19.02", "QU", "×", "", OLD),
    Rule("19.01", "", "×", "QUmPi", NEW),
    Rule("19.02", "QUmPf", "×", "", NEW),
    # LB19a
    Rule("19.1", "[^EastAsian]", "×", "QU", NEW),
    Rule("19.11", "", "×", "QU ( [^EastAsian] | eot )", NEW),
    Rule("19.12", "QU", "×", "[^EastAsian]", NEW),
    Rule("19.13", "( [^EastAsian] | sot ) QU", "×", "", NEW),
    # LB20
    Rule("20.01", "", "÷", "CB"),
    Rule("20.02", "CB", "÷", ""),
    # LB20a
    Rule("20.1", "( BK | CR | LF | NL | SP | ZW | CB | GL | sot ) ( HY | HH )", "×", "( AL | HL )", NEW),
    # LB21
    Rule("21.01", "", "×", "BA"),
    Rule("21.02", "", "×", "HH", NEW),
    Rule("21.03", "", "×", "HY"),
    Rule("21.04", "", "×", "NS"),
    Rule("21.05", "BB", "×", ""),
    # LB21a
    Rule("21.1", "HL (HY | BA)", "×", "", OLD),
    Rule("21.1", "HL (HY | HH)", "×", "[^HL]", NEW),
    # LB21b
    Rule("21.2", "SY", "×", "HL"),
    # LB22
    Rule("22.0", "", "×", "IN"),
    # LB23
    Rule("23.02", "(AL | HL)", "×", "NU"),
    Rule("23.03", "NU", "×", "(AL | HL)"),
    # LB23a
    Rule("23.12", "PR", "×", "(ID | EB | EM)"),
    Rule("23.13", "(ID | EB | EM)", "×", "PO"),
    # LB24
    Rule("24.02", "(PR | PO)", "×", "(AL | HL)"),
    Rule("24.03", "(AL | HL)", "×", "(PR | PO)"),
    # LB25. In 15.0 with whole numbers, `is_in_number` replaces it.
    Rule("25.0", "(CL | CP | NU)", "×", "(PO | PR)", OLD),
    Rule("25.0", "(PO | PR)", "×", "(OP | NU)", OLD),
    Rule("25.0", "(HY | IS | NU | SY)", "×", "NU", OLD),
    Rule("25.01", "NU ( SY | IS )* CL", "×", "PO", NEW),
    Rule("25.02", "NU ( SY | IS )* CP", "×", "PO", NEW),
    Rule("25.03", "NU ( SY | IS )* CL", "×", "PR", NEW),
    Rule("25.04", "NU ( SY | IS )* CP", "×", "PR", NEW),
    Rule("25.05", "NU ( SY | IS )*", "×", "PO", NEW),
    Rule("25.06", "NU ( SY | IS )*", "×", "PR", NEW),
    Rule("25.07", "PO", "×", "OP NU", NEW),
    Rule("25.08", "PO", "×", "OP IS NU", NEW),
    Rule("25.09", "PO", "×", "NU", NEW),
    Rule("25.1", "PR", "×", "OP NU", NEW),
    Rule("25.11", "PR", "×", "OP IS NU", NEW),
    Rule("25.12", "PR", "×", "NU", NEW),
    Rule("25.13", "HY", "×", "NU", NEW),
    Rule("25.14", "IS", "×", "NU", NEW),
    Rule("25.15", "NU ( SY | IS )*", "×", "NU", NEW),
    # LB26
    Rule("26.01", "JL", "×", "JL | JV | H2 | H3"),
    Rule("26.02", "JV | H2", "×", "JV | JT"),
    Rule("26.03", "JT | H3", "×", "JT"),
    # LB27
    Rule("27.01", "JL | JV | JT | H2 | H3", "×", "PO"),
    Rule("27.02", "PR", "×", "JL | JV | JT | H2 | H3"),
    # LB28
    Rule("28.0", "(AL | HL)", "×", "(AL | HL)"),
    # LB28a
    Rule("28.11", "AP", "×", "(AK | DottedCircle | AS)", NEW),
    Rule("28.12", "(AK | DottedCircle | AS)", "×", "(VF | VI)", NEW),
    Rule("28.13", "(AK | DottedCircle | AS) VI", "×", "(AK | DottedCircle)", NEW),
    Rule("28.14", "(AK | DottedCircle | AS)", "×", "(AK | DottedCircle | AS) VF", NEW),
    # LB29
    Rule("29.0", "IS", "×", "(AL | HL)"),
    # LB30
    Rule("30.01", "(AL | HL | NU)", "×", "OPmEastAsian"),
    Rule("30.02", "CPmEastAsian", "×", "(AL | HL | NU)"),
    # LB30a
    Rule("30.11", "sot (RI RI)* RI", "×", "RI"),
    Rule("30.12", "[^RI] (RI RI)* RI", "×", "RI"),
    Rule("30.13", "RI", "÷", "RI"),
    # LB30b
    Rule("30.21", "EB", "×", "EM"),
    Rule("30.22", "ExtPictUnassigned", "×", "EM"),
]

# LB25 of 15.0 with whole numbers: no line ends inside a sequence that matches.
NUMBER = "(PR | PO)? (OP | HY)? NU (NU | SY | IS)* (CL | CP)? (PR | PO)?"

# The sets that the rules in LineBreakTest.html name. Any other name in a rule is a line breaking class.
SETS = {
    "EastAsian": lambda c: c.is_wide,
    "OPmEastAsian": lambda c: c.line_class == "OP" and not c.is_wide,
    "CPmEastAsian": lambda c: c.line_class == "CP" and not c.is_wide,
    "QU_Pi": lambda c: c.line_class == "QU" and c.kind == "Pi",
    "QU_Pf": lambda c: c.line_class == "QU" and c.kind == "Pf",
    "QUmPi": lambda c: c.line_class == "QU" and c.kind != "Pi",
    "QUmPf": lambda c: c.line_class == "QU" and c.kind != "Pf",
    "DottedCircle": lambda c: c.line_class == "AL" and c.kind == "D",
    "ExtPictUnassigned": lambda c: c.is_future_pictograph,
}


def is_in(name, c):
    """Returns whether a character is in the set or class with this name."""
    return SETS[name](c) if name in SETS else c.line_class == name


# ---- Expressions ----


def parsed(expression):
    """Returns an expression of a rule as a tree.

    A tree is ("one", is_excluded, names), ("edge",), ("sequence", trees), ("either", trees) or ("repeat", sign, tree). An edge is the
    start or the end of the text.
    """
    tokens = re.findall(r"\[\^|[\]()|*?]|\w+", expression)

    def either():
        trees = [sequence()]
        while tokens and tokens[0] == "|":
            tokens.pop(0)
            trees.append(sequence())
        return trees[0] if len(trees) == 1 else ("either", trees)

    def sequence():
        trees = []
        while tokens and tokens[0] not in ("|", ")"):
            tree = atom(tokens.pop(0))
            while tokens and tokens[0] in ("*", "?"):
                tree = ("repeat", tokens.pop(0), tree)
            trees.append(tree)
        return trees[0] if len(trees) == 1 else ("sequence", trees)

    def atom(token):
        if token == "(":
            tree = either()
            assert tokens.pop(0) == ")", expression
            return tree
        if token == "[^":
            end = tokens.index("]")
            names = tokens[:end]
            del tokens[: end + 1]
            return ("one", True, names)
        assert token.isalnum() or token in SETS, expression
        return ("edge",) if token in ("sot", "eot") else ("one", False, [token])

    tree = either()
    assert not tokens, expression
    return tree


# A letter for each character that the rules can distinguish, for matching with regular expressions.
LETTERS = {
    Character(*parts): chr(0x100 + number)
    for number, parts in enumerate(itertools.product(CLASSES, (False, True), (False, True), ("", "Pi", "Pf", "D")))
}
AL = LETTERS[Character("AL")]


def pattern(tree, is_reversed=False):
    """Returns a tree as an expression of `re` on letters. With `is_reversed`, it matches a text in reverse order."""
    kind = tree[0]
    if kind == "one":
        _, is_excluded, names = tree
        return "[%s]" % "".join(letter for c, letter in LETTERS.items() if any(is_in(name, c) for name in names) != is_excluded)
    if kind == "edge":
        return r"\Z"
    if kind == "repeat":
        return f"(?:{pattern(tree[2], is_reversed)}){tree[1]}"
    parts = [pattern(part, is_reversed) for part in tree[1]]
    return "(?:%s)" % ("|" if kind == "either" else "").join(parts[::-1] if is_reversed else parts)


@functools.lru_cache(None)
def compiled(expression, is_reversed=False):
    return re.compile(pattern(parsed(expression), is_reversed))


# ---- The marks ----


def rules_of(version, whole_numbers=False, rules=RULES):
    """Returns the rules of a version with compiled expressions, those before LB9 and those after it."""
    found = [[], []]
    for rule in rules:
        number = float(rule.number)
        if version in rule.versions and not (whole_numbers and version == "15.0" and int(number) == 25):
            found[number > 9].append((number, compiled(rule.before, is_reversed=True), rule.mark, compiled(rule.after)))
    if whole_numbers and version == "15.0":
        at = sum(number < 25 for number, *_ in found[1])
        found[1].insert(at, (25.0, None, "×", compiled(NUMBER)))
    return found


def is_in_number(number, text, at):
    """Returns whether a sequence around the position matches the expression of a number."""
    return any(number.fullmatch(text, start, end) for start in range(at) for end in range(at + 1, len(text) + 1))


def mark_at(rules, text, at):
    """Returns the mark of the first rule that applies at a position, or None."""
    reverse = text[::-1]
    for _, before, mark, after in rules:
        if before is None:
            applies = is_in_number(after, text, at)
        else:
            applies = before.match(reverse, len(text) - at) and after.match(text, at)
        if applies:
            return mark
    return None


def bases(characters, version):
    """LB9 and LB10: returns the number of characters of each base, and its letter."""
    counts, letters, end = [], [], None
    for c in characters:
        is_mark = c.line_class in ("CM", "ZWJ")
        if is_mark and end not in (None, "BK", "CR", "LF", "NL", "SP", "ZW"):
            counts[-1] += 1
        else:
            counts.append(1)
            # (LB10 of 17.0 also makes the base narrow; in 15.0, the width of an AL does not matter)
            letters.append(LETTERS[c._replace(line_class="AL", is_wide=False, kind="") if is_mark else c])
        end = c.line_class
    return counts, "".join(letters)


def marks(rules, characters, version):
    """Returns the mark after each character of a paragraph: × no break, ÷ break allowed, ! mandatory break."""
    if not characters:
        return ""
    earlier, later = rules
    text = "".join(LETTERS[c] for c in characters)
    counts, letters = bases(characters, version)
    result, end = [], 0
    for base, count in enumerate(counts, 1):
        result += ["×"] * (count - 1)
        end += count
        if base == len(counts):
            result.append("!")  # LB3
        else:
            result.append(mark_at(earlier, text, end) or mark_at(later, letters, base) or "÷")  # LB31
    return "".join(result)


# ---- Characters of table files ----


def lines(path):
    """Yields the range of code points and the value of each line of a table file."""
    with open(path, encoding="utf-8") as file:
        for line in file:
            fields = line.split("#")[0].split(";")
            if len(fields) > 1:
                first, _, last = fields[0].strip().partition("..")
                yield int(first, 16), int(last or first, 16), fields[1].strip()


class Tables:
    """The properties of all characters, from the table files in a folder such as ucd/."""

    def __init__(self, folder):
        self.classes, self.categories = ["XX"] * 0x110000, ["Cn"] * 0x110000
        self.wide, self.pictographs = bytearray(0x110000), bytearray(0x110000)
        for table, name in ((self.classes, "LineBreak"), (self.categories, "DerivedGeneralCategory")):
            for first, last, value in lines(f"{folder}/{name}.txt"):
                table[first : last + 1] = [value] * (last + 1 - first)
        for first, last, value in lines(f"{folder}/EastAsianWidth.txt"):
            if value in ("F", "W", "H"):
                self.wide[first : last + 1] = b"\1" * (last + 1 - first)
        for first, last, value in lines(f"{folder}/emoji-data.txt"):
            if value == "Extended_Pictographic":
                self.pictographs[first : last + 1] = b"\1" * (last + 1 - first)

    def character(self, c):
        """Returns the character with a code point."""
        category = self.categories[c]
        line_class = resolved(self.classes[c], category)
        is_future_pictograph = bool(self.pictographs[c]) and category == "Cn"
        kind = "D" if c == 0x25CC and line_class == "AL" else category if line_class == "QU" and category in ("Pi", "Pf") else ""
        return Character(line_class, bool(self.wide[c]), is_future_pictograph, kind)


def resolved(line_class, category):
    """LB1: returns the class with which the rules replace AI, SG, XX, SA and CJ."""
    if line_class == "SA":
        return "CM" if category in ("Mn", "Mc") else "AL"
    return {"AI": "AL", "SG": "AL", "XX": "AL", "CJ": "NS"}.get(line_class, line_class)
