"""The workloads on which bench/paths/run measures fast paths. Their texts are the same in each run."""
import collections, os, random

ROOT = os.path.dirname(os.path.dirname(os.path.dirname(os.path.abspath(__file__))))
ENGLISH = "the window is closed reading error (timeout) from to file, 42 3.5 of".split()
HEBREW = "שלום עולם הקובץ של לא נמצא (שגיאה) אל קריאה, 12 בשורה את הזמן".split()
ARABIC = "مرحبا العالم الملف في لم يوجد (خطأ) إلى قراءة، ٣٤ السطر من الوقت 1,234.5 ٪٢٥".split()
MIXED = ["the quick brown fox", "שלום עולם", "مرحبا بالعالم", "2022", "(12.5%)", "你好，世界", "naïve café", "🌍🌎", "λόγος", "мир"]
ASIAN = "的 一个 是 不 我们 中国 大学， 上海。 今年 これは ひらがな カタカナ です。 「東京」 日本語、 学校 2022年".split()
NESTED = [*"(a b) [א ב] {1} (ג[x]) 12.5 x".split(), "\u202bab 12\u202c", "\u2067א(b)\u2069", "\u2068שלום a\u2069", "\u202aאב\u202c", "\u202eab\u202c"]
CLUSTERS = "👩\u200d💻 🇮🇱 ❤\ufe0f 👋🏿 e\u0301 שָׁלוֹם של\u05b9 مَرْحَبًا नमस्ते 한국 x".split()
COLORS = ["\x1b[31mred\x1b[0m", "\x1b[1;32mשלום\x1b[m", "\x1b[38;5;208m12.5\x1b[39m", "\x1b]8;;http://a\x1b\\link\x1b]8;;\x1b\\", *MIXED]
STRUCK = ["N\bNA\bAM\bME\bE", "_\bf_\bi_\bl_\be", "plain", "text", "of", "a", "manual", "page", "שלום"]
LOG = "2026-11-30 12:00:01.250 INFO WARN worker[17]: request GET /index.html took 12 ms status=200 id=7f3a cache miss, retry".split()
INVALID = ["\udcff", "a\udce2\udc82b", "\udc80\udcbf", *ENGLISH, *HEBREW]  # the surrogates stand for bytes

# A run of a program. `tables` is the folder of the table files, or None if the program finds an image of them.
Run = collections.namedtuple("Run", "options text script tables", defaults=("", "", None, "ucd"))


def text(words, size, mean=93, gap=" ", end="\n"):
    """Returns a text of at least `size` bytes, in paragraphs of `mean` bytes on average."""
    rng, paragraphs, left = random.Random(15), [], size
    count = max(1, round(mean * len(words) / sum(len(f"{word}{gap}".encode(errors="replace")) for word in words)))
    while left > 0:
        paragraphs.append(gap.join(rng.choices(words, k=rng.randrange(1, 2 * count))) + end)
        left -= len(paragraphs[-1].encode(errors="replace"))
    return "".join(paragraphs)


def long(words, size, gap=" "):
    """Returns a text of one paragraph."""
    return text(words, size, gap=gap, end=gap) + "\n"


def script(count, size, commands):
    """Returns an edit script of `count` commands, at random positions in a text of `size` characters."""
    rng = random.Random(18)
    return "".join(f"{rng.choice(commands)}\n".format(pos=rng.randrange(size), line=rng.randrange(size // 50)) for _ in range(count))


def sample():
    with open(f"{ROOT}/examples/texts/sample.txt", encoding="utf-8") as file:
        return file.read()


LEVELS = "--nobreak --novisual --levels"
SHORT = text([*ENGLISH, *HEBREW], 40_000, mean=40)
EDITS = ["insert {pos} x", "insert {pos} שלום", "delete {pos} 2", "insert {pos} a\\nb"]
QUERIES = """caret {pos}|hit {line} 40|edge {pos} after|step {pos} before right|at {line} 40|ends {line}|cluster {pos}|clusters {line}|word {pos}|
spans {line} 0 {pos}|runs {line}|byte {pos}|utf16 {pos}|frombyte {pos}|fromutf16 {pos}|lines {line} 10|text {pos} 50|size""".replace("\n", "").split("|")
WORKLOADS = {
    "fribidi": {
        "English": Run("--width 80", text(ENGLISH, 200_000)),
        "short English paragraphs": Run("--width 80", text(ENGLISH, 200_000, mean=35)),
        "short mixed paragraphs": Run("--width 80", text([*ENGLISH, *HEBREW, *ARABIC], 60_000, mean=45)),
        "Hebrew": Run("--width 80", text(HEBREW, 150_000)),
        "Arabic": Run("--width 80", text(ARABIC, 150_000)),
        "mixed": Run("--width 80", text(MIXED, 120_000)),
        "a long mixed paragraph": Run("--width 80", long(MIXED, 120_000)),
        "sample.txt": Run("--width 44", sample() * 200),
        "Chinese and Japanese": Run("--width 80", text(ASIAN, 200_000, gap="")),
        "brackets and isolates": Run("--width 80", text(NESTED, 60_000)),
        "grapheme clusters": Run("--width 80 --reorder-clusters", text(CLUSTERS, 60_000)),
        "a long word": Run("--width 7", long(["x"], 60_000, gap="")),
        "tabs": Run("--width 80 --tabs 8", text([*ENGLISH, *HEBREW], 100_000, gap="\t")),
        "CR LF": Run("--width 80", text(MIXED, 120_000, end="\r\n")),
        "whole numbers": Run("--width 80 --whole-numbers --show-spaces", text([*ENGLISH, "$1,234.56  "], 150_000)),
        "position maps": Run("--width 80 --ltov --vtol --reordernsm", text([*MIXED, *CLUSTERS], 60_000)),
        "levels": Run(LEVELS, text(MIXED, 120_000)),
        "English levels": Run(LEVELS, text(ENGLISH, 300_000)),
        "levels of repeated brackets": Run(LEVELS, "א(a)" * 15_000),
        "levels of repeated embeddings": Run(LEVELS, "\u202b\u202a" * 15_000),
        "levels of repeated isolates": Run(LEVELS, "\u2067\u2066" * 15_000),
        "levels of FSI alone": Run(LEVELS, "\u2068" * 30_000),
        "base directions": Run("--novisual --basedir", text(MIXED, 400_000)),
        "mixed, Unicode 17.0": Run("--width 80 --unicode 17.0", text(MIXED, 120_000), tables="ucd-17.0"),
        "English, Unicode 17.0": Run("--width 80 --unicode 17.0", text(ENGLISH, 200_000), tables="ucd-17.0"),
        "opening a session": Run("--width 60", SHORT, ""),
        "edits of short paragraphs": Run("--width 60", SHORT, script(1_000, 20_000, EDITS)),
        "edits of a long paragraph": Run("--width 60", long(MIXED, 4_000), script(60, 1_000, EDITS[:3])),
        "width changes": Run("--width 60", SHORT, "width 20\nwidth 100\nwidth 60\n" * 3),
        "queries": Run("--width 60 --queries", SHORT, script(1_000, 20_000, QUERIES)),
        "start-up with table files": Run(),
        "start-up with an image": Run(tables=None),
    },
    "hordguli": {
        "mixed": Run("--width 80", text(MIXED, 100_000)),
        "colors": Run("--width 80", text(COLORS, 100_000)),
        "overstrikes": Run("--width 80", text(STRUCK, 100_000)),
        "log lines": Run("--width 80", text(LOG, 200_000)),
        "invalid bytes": Run("--width 80", text(INVALID, 100_000)),
        "a long line": Run("--width 80", long(LOG, 300_000)),
        "a long line with colors and CR": Run("--width 80", long([*COLORS, *LOG, "\r"], 100_000)),
        "the direction of a file": Run("--width 80 --direction file", text(["12", "34."], 100_000) + text(HEBREW, 20_000)),
    },
}


def base_of(kind):
    """Returns the run whose count is subtracted: the same command with an empty script or on an empty text. A start-up has none."""
    return kind._replace(script="") if kind.script else kind._replace(text="") if kind.text else None
