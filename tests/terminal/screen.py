"""What a terminal shows: the command's output is written to a screen of pyte, and each cell compared with the model.

pyte knows bold, italic, underlined, inverse and struck text, and the plain colors. The screen is one column wider than the lines.
"""
import os, shutil, subprocess, tempfile, unicodedata

import command, model, texts

COLOURS = ["black", "red", "green", "brown", "blue", "magenta", "cyan", "white"]
ROWS = 500


def cells_by_model(data, its):
    """Returns the cells of each line: a character with its marks, five attributes and two colors."""
    text, styles = model.styled(model.decoded(data), its.escapes)
    lines = []
    for line, _ in model.lines_of(text, styles, its, model.direction_of(model.decoded(data), its)):
        row = []
        for c, style in line.cells:
            width = model.hordguli.properties(c)[0].columns
            if width == 0:
                if row:
                    row[-1] = (unicodedata.normalize("NFC", row[-1][0] + c), *row[-1][1:])
                continue
            look = (style.bold, style.italic, style.underline > 0, style.inverse, style.strike, colour(style.foreground), colour(style.background))
            row += [(c, *look)] + [("", *look)] * (width - 1)
        lines.append(row)
    return lines


def colour(value):
    return COLOURS[value[1]] if value else "default"


def cells_on_screen(output, width):
    """Returns the cells of each row of a screen, up to the width, and whether the column after it is empty."""
    import pyte

    screen = pyte.Screen(width + 1, ROWS)
    pyte.Stream(screen).feed(output.decode().replace("\n", "\r\n"))
    rows = []
    for y in range(screen.cursor.y + (screen.cursor.x > 0)):
        row = [screen.buffer[y][x] for x in range(width + 1)]
        rows.append([(c.data, c.bold, c.italics, c.underscore, c.reverse, c.strikethrough, c.fg, c.bg) for c in row])
    return rows


BLANK = (" ", False, False, False, False, False, "default", "default")


def compares(report, name, data, width, words=()):
    its = model.settings([f"--width={width}", *words])
    output = command.run([f"--width={width}", *words], data).output
    wanted = [row + [BLANK] * (width + 1 - len(row)) for row in cells_by_model(data, its)]
    found = cells_on_screen(output, width)
    differ = [(y, x, a, b) for y, (one, other) in enumerate(zip(wanted, found)) for x, (a, b) in enumerate(zip(one, other)) if a != b]
    report(f"the screen of {name}", len(wanted) == len(found) < ROWS and not differ, f"{data!r}", f"{len(found)} rows, {len(wanted)} expected", *differ[:3])


# ---- Texts ----


def simple_sgr(random):
    n = random.choice(["", "0", "1", "3", "4", "7", "9", "22", "23", "24", "27", "29", "39", "49", "1;4", "31", "44"])
    return f"\x1b[{n or ''}m" if random.random() < 0.6 else f"\x1b[{random.choice([30, 40]) + random.randint(0, 7)}m"


def simple_text(random):
    kinds = [
        lambda: texts.latin(random),
        lambda: texts.hebrew(random).replace("־", " "),
        lambda: "".join(c + random.choice(["", "\u05b8", "\u05bc"]) for c in texts.word(random, "אבגדה")),
        lambda: random.choice(["12", "(a)", "[", ")", "中", "文字", "\t", "\n", "\n"]),
        lambda: simple_sgr(random),
        lambda: simple_sgr(random),
        lambda: texts.bold_word(random),
        lambda: texts.underlined_word(random),
        lambda: random.choice(["\x1b[K", "\x1b]8;;u\x1b\\", "\x1b]8;;\x1b\\", "\0", "\x1b(B"]),
    ]
    return "".join(random.choice(kinds)() for _ in range(random.randint(1, 40))).encode()


def git_log(folder):
    """Returns the colored log of a new repository with Hebrew and English commits."""
    fixed = {"GIT_AUTHOR_DATE": "2026-01-02T03:04:05Z", "GIT_COMMITTER_DATE": "2026-01-02T03:04:05Z", "HOME": folder, "GIT_CONFIG_NOSYSTEM": "1", "LC_ALL": "C.UTF-8"}
    names = ["-c", "user.name=דוד Levi", "-c", "user.email=a@b"]

    def git(*words):
        return subprocess.run(["git", *names, *words], cwd=folder, env={**os.environ, **fixed}, check=True, capture_output=True).stdout

    git("init", "-q", "-b", "main")
    for at, message in enumerate(["שלום world", "Fix the סוגריים (brackets) of a line that is much longer than the screen is wide", "תיקון: 12 קבצים\n\nגוף ההודעה with English"]):
        with open(f"{folder}/file", "a", encoding="utf-8") as file:
            file.write(f"שורה {at}\nline {at}\n")
        git("add", "file")
        git("commit", "-q", "-m", message)
    return git("log", "--color=always", "-p", "--stat")


def grep():
    text = "שלום world שלום\nno match\nhello (שלום) 12\n".encode()
    colours = {"GREP_COLORS": "ms=01;31:ne", "PATH": os.environ["PATH"], "LC_ALL": "C.UTF-8"}
    return subprocess.run(["grep", "--color=always", "שלום"], input=text, env=colours, check=True, capture_output=True).stdout


def manual_page(name):
    """Returns a page with overstrikes, by the formatter that is installed."""
    path = f"{model.TOP}/man/{name}"
    if shutil.which("mandoc"):
        return subprocess.run(["mandoc", "-Tutf8", "-O", "width=60", path], check=True, capture_output=True).stdout
    return subprocess.run(["groff", "-Tutf8", "-P-cbou", "-mandoc", "-rLL=60n", path], check=True, capture_output=True).stdout


def overstruck_manual_page():
    """Returns the first lines of a page whose overstrikes are as groff writes them."""
    page = manual_page("fribidi.1").decode()
    lines = page.split("\n")[:150]
    return ("\n".join(lines) + "\n").encode()


def checks(report, random, count):
    with tempfile.TemporaryDirectory() as folder:
        if shutil.which("git"):
            compares(report, "git log", git_log(folder), 50)
    for width in (20, 60):
        compares(report, f"grep at {width}", grep(), width)
    if shutil.which("mandoc") or shutil.which("groff"):
        for width in (40, 80):
            compares(report, f"a manual page at {width}", overstruck_manual_page(), width)
    for at in range(count):
        words = random.choice([[], [], ["--nopad"], ["--direction=rtl"], ["--marks=after"], ["--show-spaces"], ["--tabs=4"]])
        width = random.choice([5, 10, 20, 40])
        # (a tab that is wider than the screen would cover parts of two rows)
        narrow_tabs = ["--tabs=4"] if width == 5 else []
        compares(report, f"random text {at}", simple_text(random), width, words + narrow_tabs)
