"""Random texts for a terminal, and random options.

A text is a list of pieces, which are bytes. Each piece is of one kind, such as a word, a color or an unfinished sequence, and each text
has pieces of a few kinds, so that the same kinds meet often.
"""
HEBREW = "אבגדהושלםן"
NIQQUD = "\u05b0\u05b7\u05b8\u05bc\u05c1\u05c2\u0591"
ARABIC = "ابتجدسلمن"
HARAKAT = "\u064b\u064e\u0651\u0670"
ESC = "\x1b"
CONTROLS = [chr(c) for c in (*range(0x20), *range(0x7F, 0xA0))]
DROPPED = [c for c in CONTROLS if c not in "\t\n\v\f\r\x1c\x1d\x1e\x85"]
FINALS = [chr(c) for c in range(0x30, 0x7F)]
INVALID = [
    b"\xff", b"\x80", b"\xbf", b"\xc0\xaf", b"\xc1", b"\xc3", b"\xe2\x82", b"\xe2", b"\xe0\x80\x80", b"\xed\xa0\x80", b"\xf0\x9f\x98", b"\xf0\x9f",
    b"\xf0\x80\x80\x80", b"\xf4\x90\x80\x80", b"\xf5\x80\x80\x80", b"\xfe", b"\xe2\x28\xa1", b"\xf0\x9f\x1b[m", b"\x9b31m", b"\x1b[\xff1m",
    b"\x1b]8;;\xff\x07", b"\xc2", b"\xef\xbb\xbf", b"\xef\xbb", b"a\x08\xff", b"\xff\x08\xff", b"_\x08\xff",
]  # fmt: skip


def word(random, letters, most=5):
    return "".join(random.choices(letters, k=random.randint(1, most)))


# ---- Kinds of text ----


def latin(random):
    return word(random, "abcdefghij") + random.choice(["", " ", "  ", ". ", ", "])


def hebrew(random):
    return word(random, HEBREW) + random.choice(["", " ", "  ", "־", "! "])


def pointed(random):
    return "".join(c + word(random, NIQQUD, 2) * (random.random() < 0.6) for c in word(random, HEBREW))


def arabic(random):
    return "".join(c + word(random, HARAKAT, 2) * (random.random() < 0.4) for c in word(random, ARABIC)) + random.choice(["", " ", "، ", "\u200c", "\u200d"])


def numbers(random):
    return random.choice(["12", "1,234.56", "$30", "50%", "٣٤", "۱۲", "-7", "+1", "12:30 ", "1/2", "(5)", "۳٫۵"])


def brackets(random):
    return random.choice(["(", ")", "[", "]", "{", "}", "«", "»", "<", ">", "≤", "\u2329", "\u3009", "(a)", "(א)", "[(", ")]", " - ", "/", "\""])


def emoji(random):
    return random.choice(["👨\u200d👩\u200d👧", "👍🏽", "🇮🇱", "🇩🇪🇫", "❤\ufe0f", "😀", "☝🏻", "1\ufe0f\u20e3", "🏳\ufe0f\u200d🌈", "👨\u200d", "\ufe0f"])


def wide(random):
    return random.choice(["中", "文字", "カ", "ｶ", "한국", "ᄒ", "한", "、", "（", "\u3000", "Ａ", "ﷺ", "क्षि", "ស្ត្រី", "ไทย"])


def marks(random):
    return random.choice(["e\u0301", "\u0301", "a\u0308\u0304", "\u20dd", " \u0301", "\u200b", "\u00ad", "\u2060", "\ufeff", "\u034f", "\U000e0061", "ﬁ"])


def formats(random):
    return random.choice("\u2066\u2067\u2068\u2069\u2069\u202a\u202b\u202d\u202e\u202c\u202c\u200e\u200f\u061c\u2066\u2068") + random.choice(["", "a", "א", "1", " "])


def tabs(random):
    return "\t" * random.randint(1, 2)


def spaces(random):
    return random.choice([" ", "   ", "\u00a0", "\u2003", "\u1680", " " * 9])


def quotes(random):
    return random.choice(["> ", ">> ", "> > ", ">", ">  ", "\n> ", "\n>> ", "\n> > ", "\r\n>", "\n+", "\n-", "\n 12:30 ", "\nab: ", "\n12:30 "])


def line_ends(random):
    return random.choice([
        "\n", "\n", "\n", "\n", "\r\n", "\r\n", "\r", "\r\r\n", "\n\n", "\v", "\f", "\x1c", "\x1d", "\x1e", "\x85", "\u2028", "\u2029", "\r\u2029", f"\r{ESC}[m\n",
        f"\r{ESC}[31m\n", "\r\0\n", "\r\b\n", f"\r{ESC}\n", f"\r{ESC}]8;;u\a\n",
    ])  # fmt: skip


def controls(random):
    return random.choice(["\0", "\a", "\x7f", "\x0e", "\x1f", "\x1b", "\x85", "\x80", "\x9c", *random.choices(CONTROLS, k=4)])


def invalid(random):
    return random.choice(INVALID)


# ---- Sequences ----


def csi(random):
    return random.choice([f"{ESC}["] * 5 + ["\x9b"])


def st(random):
    return random.choice([f"{ESC}\\", f"{ESC}\\", "\a", "\x9c"])


def component(random):
    return random.choice(["0", "1", "7", "8", "15", "16", "128", "231", "255", "256", "300", "", "007", "65536", "4294967297", "99999999999999999999999"])


def colour(random):
    first = random.choice(["38", "48", "58"])
    kind = random.choice(["5", "5", "5", "2", "2", "2", "0", "1", "3", "4", "6", "", "05", "9"])
    separator = random.choice(";;;:::")
    most = {"5": 1, "05": 1, "2": random.choice([3, 3, 3, 4, 5])}.get(kind, random.randint(0, 3))
    fields = [component(random) if random.random() < 0.4 else str(random.randint(0, 255)) for _ in range(most)]
    if random.random() < 0.12:
        fields = fields[: random.randint(0, len(fields))]
    if kind == "2" and separator == ":" and random.random() < 0.4:
        fields.insert(0, random.choice(["", "1"]))
    if random.random() < 0.04:
        return first + random.choice(";:") + random.choice(";:").join([kind, *fields])
    return separator.join([first, kind, *fields])


def parameter(random):
    kinds = [
        lambda: random.choice("123456789"),
        lambda: random.choice("123479"),
        lambda: random.choice(["0", "", "00", "21", "22", "22", "23", "24", "25", "27", "28", "29", "39", "49", "53", "55", "59"]),
        lambda: str(random.choice([30, 31, 37, 40, 41, 47, 90, 97, 100, 107]) + random.choice([0, 0, 1, -1])),
        lambda: colour(random),
        lambda: random.choice(["4:0", "4:1", "4:2", "4:3", "4:4", "4:5", "4:6", "4:", "4:3:1", "04:3", "4::3", "1:2", "0:1", "31:", ":", ":1", "22:1"]),
        lambda: random.choice(["10", "20", "26", "38", "48", "50", "51", "52", "54", "56", "57", "58", "60", "98", "99", "108", "999", "65537", "4294967297"]),
    ]
    return random.choices(kinds, weights=[5, 5, 4, 4, 6, 2, 1])[0]()


def sgr(random):
    return csi(random) + ";".join(parameter(random) for _ in range(random.choice([0, 1, 1, 1, 2, 3, 5]))) + "m"


def simple_sgr(random):
    return f"{ESC}[{random.choice(['', '0', '1', '3', '4', '7', '9', '31', '32', '44', '1;31', '22', '39', '24'])}m"


def link(random):
    parameters = random.choice(["", "", "", "id=1", "id=1:a=b", "א", ":"])
    uri = random.choice(["", "", "", "http://a/", "u", "u", "v;w", ";", "א", "file:///tmp/x y"])
    introducer = random.choice([f"{ESC}]"] * 5 + ["\x9d"])
    command = random.choice(["8;"] * 12 + ["8", "08;", "88;", "8:", " 8;", ""])
    return f"{introducer}{command}{parameters}{random.choice([';'] * 9 + [''])}{uri}{st(random)}"


def string(random):
    introducer = random.choice([f"{ESC}]0;", f"{ESC}]", f"{ESC}P", f"{ESC}X", f"{ESC}^", f"{ESC}_", "\x90", "\x98", "\x9d", "\x9e", "\x9f"])
    return introducer + random.choice(["", "title", "1;2q", "א", "中", "[31m", "\u2028", "\u2029"]) + st(random)


def long_string(random):
    introducer = random.choice([f"{ESC}]8;;", f"{ESC}]", f"{ESC}P", "\x9d8;;", "\x9f"])
    length = 4096 - len(introducer.lstrip(f"{ESC}\x9d\x9f]P")) + random.choice([-2, -1, 0, 0, 1, 2, 700])
    tail = random.choice(["", "", "\0", f"{ESC}[31m", "\b", "\v", "\u2028", "\u2029", "\n", "א\a", f"{ESC}"])
    return introducer + random.choice("uא") * length + tail + random.choice(["", "x", "x"]) + random.choice([st(random), st(random), "\n", ""])


def unfinished(random):
    return random.choice([
        f"{ESC}[31", f"{ESC}[", f"{ESC}[3\n1m", f"{ESC}[31{ESC}[1m", f"{ESC}]0;t", f"{ESC}]8;;u", f"{ESC}P1", f"{ESC}_x\n", f"{ESC}Xab\x85", f"{ESC}^\x1c", ESC, f"{ESC}(",
        f"{ESC}({ESC}(B", f"{ESC}א", f"{ESC}[א", f"{ESC}[1;\x7fm", f"{ESC}]0;\x7f\a", f"{ESC}]0;{ESC}[1m", f"{ESC}P\a{ESC}\\", "\x9b1", "\x9b", "\x9d8;;u", "\x90", f"{ESC}\n", f"{ESC}[ 1m",
        f"{ESC}]8;;u{ESC}", f"{ESC}]8;;u{ESC}{ESC}\\", f"{ESC}]\x9bm", f"\x9b{ESC}[1m", f"{ESC}\x9b1m", f"{ESC} ", f"{ESC}]0;a\bb\a", "\x9b\x9b1m", f"{ESC}[1\x851m",
    ])  # fmt: skip


def other_csi(random):
    parameters = "".join(random.choices("0123456789:;<=>?", k=random.randint(0, 3)))
    intermediates = "".join(random.choices(" !\"#$%&'()*+,-./", k=random.choice([0, 0, 0, 1, 2])))
    return csi(random) + parameters + intermediates + random.choice([chr(c) for c in range(0x40, 0x7F)] + ["m"] * 20)


def escape(random):
    return ESC + "".join(random.choices(" !\"#$%&'()*+,-./", k=random.choice([0, 0, 1, 2]))) + random.choice(FINALS)


# ---- Overstrikes ----


def overstrike(random):
    c = random.choice(["a", "b", "a", "_", "א", "ש", "中", "\u05b8", "\u0301", "😀", "\u200d", " ", ".", "\ufffd", "1", "("])
    d = random.choice([c, "_", "b", "ב"])
    return random.choice([
        f"{c}\b{c}", f"_\b{c}", f"{c}\b_", f"_\b{c}\b{c}", f"{c}\b{c}\b_",
        f"{c}\b_\b{c}", "_\b_", "_\b__\b_", f"{c}\b{d}", f"{c}\b{d}\b{c}", f"{c}\b{c}\b{c}", f"{c}\b",
        f"\b{c}", "\b", "\b\b", f"{c}\b\b{c}", f"{c}{c}\b\b{c}{c}", f"\t\b{c}",
        f"{c}\b\t", f"\n\b{c}", f"{c}\b\n", f"{c}{ESC}[1m\b{c}", f"{c}\b{ESC}[m{c}", f"{c}\0\b{c}", f"{c}\b\x7f{c}",
        f"\u2028\b{c}", f"{c}\b\u2028", f"{c}\b\u2029", f"\u2029\b{c}", f"{c}\b\x85", f"\x85\b{c}", f"_\b_\b{c}", "_\b_\b_", f"{c}\b{c}_\b_", f"_\b{c}_\b_",
        f"_\b{c}\b{d}", f"+\b{c}\b{d}\b_", "\r\b\n",
        f"_\b{c}\b_", f"{c}\b_\b_", f"_\b_\b_\b{c}", f"{c}\b\x9b1m{c}",
    ])  # fmt: skip


def bold_word(random):
    return "".join(f"{c}\b{c}" for c in word(random, random.choice(["abc", HEBREW])))


def underlined_word(random):
    return "".join(f"_\b{c}" for c in word(random, random.choice(["abc_", HEBREW + "_"])))


TEXT = [latin, hebrew, pointed, arabic, numbers, brackets, emoji, wide, marks, formats, tabs, spaces]
OTHERS = [line_ends, controls, invalid, sgr, sgr, sgr, simple_sgr, link, link, string, unfinished, other_csi, escape, overstrike, overstrike, bold_word, underlined_word, quotes]


def text(random):
    """Returns the pieces of a random text."""
    kinds = random.choices(TEXT, k=random.randint(1, 4)) + random.choices(OTHERS, k=random.randint(1, 5))
    kinds += [line_ends] * (random.random() < 0.5) + [long_string] * (random.random() < 0.02)
    pieces = [random.choice(kinds)(random) for _ in range(random.choice([1, 2, 3, 5, 8, 12, 20, 30]))]
    pieces = ["\ufeff"] * (random.random() < 0.05) + pieces + ["\n"] * (random.random() < 0.4)
    return [piece if isinstance(piece, bytes) else piece.encode() for piece in pieces]


# ---- Options ----

PREFIXES = ["[+-]", "[0-9:]+ ?", " *[0-9]+:[0-9]+ ", "[a-z]*: ", "(ab|a|[+> -])+", ".", "..", "א?", "(>|[+-])*?x?"]


def options(random):
    """Returns random arguments."""
    width = random.choice([1, 2, 3, 4, 5, 7, 8, 10, 12, 16, 20, 33, 40, 80, 200, "none", "none"])
    words = [f"--width={width}"] if random.random() < 0.9 else []
    choices = [
        (0.3, [f"--tabs={value}" for value in (1, 2, 3, 4, 8, 100, "none", "none")]),
        (0.35, [f"--marks={value}" for value in ("clusters", "after", "after", "logical")]),
        (0.4, [f"--direction={value}" for value in ("auto", "rtl-auto", "ltr", "rtl", "rtl", "file", "file")]),
        (0.25, [f"--escapes={value}" for value in ("keep", "strip", "text", "text")]),
        (0.1, ["--whole-numbers"]),
        (0.2, ["--show-spaces"]),
        (0.15, ["--line-separators"]),
        (0.15, ["--nomirror"]),
        (0.15, ["--basedir"]),
        (0.2, ["--nopad"]),
    ]
    for chance, values in choices:
        words += [random.choice(values)] if random.random() < chance else []
    chance = random.random()
    words += ["--quotes"] if chance < 0.1 else [f"--prefix={random.choice(PREFIXES)}"] if chance < 0.2 else []
    random.shuffle(words)
    return words
