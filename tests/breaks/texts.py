"""Random texts in which many line breaking rules apply, the same in each run."""
import random

from reference import CLASSES, Character

# Lists of classes that the same rules name. Most characters of a random text are from one such theme.
THEMES = [
    CLASSES,
    "BK CR LF NL SP ZW WJ GL CM ZWJ AL OP QU QU QU ID".split(),
    "QU QU QU QU QU ID ID SP SP AL CM ZWJ OP CL CP EX IS SY GL WJ CB BB NS".split(),
    "HY HH BA HL AL SP CB GL CM ZWJ NU".split(),
    "NU NU SY IS PO PR OP CL CP HY SP CM".split(),
    "AK AP AS VF VI AL CM ZWJ QU".split(),
    "RI RI EB EM ID AL ZWJ CM".split(),
    "JL JV JT H2 H3 PO PR".split(),
]


def random_character(chance, line_class):
    return Character(line_class, chance.random() < 0.4, chance.random() < 0.1, chance.choice(("", "Pi", "Pf", "D")))


def random_text(chance):
    theme = chance.choice(THEMES)
    length = chance.randint(1, chance.choice((4, 8, 16)))
    return [random_character(chance, chance.choice(theme if chance.random() < 0.8 else CLASSES)) for _ in range(length)]


def random_texts(count, seed=17):
    """Yields texts of characters with any combination of properties, which need not occur in Unicode."""
    chance = random.Random(seed)
    for _ in range(count):
        yield random_text(chance)


def random_code_points(tables, count, seed, is_left_out=lambda c: False):
    """Yields texts of code points for which `is_left_out` is false. Chooses a combination of
    properties first, and then a code point with these properties."""
    code_points = {}
    for c in range(0x110000):
        character = tables.character(c)
        if not 0xD800 <= c < 0xE000 and not is_left_out(c):
            code_points.setdefault(character, []).append(c)
    themes = [[c for c in code_points if c.line_class in theme] for theme in THEMES]
    themes = [theme for theme in themes if theme]
    chance = random.Random(seed)
    for _ in range(count):
        theme = chance.choice(themes)
        characters = [chance.choice(theme if chance.random() < 0.8 else themes[0]) for _ in range(chance.randint(1, 12))]
        yield [chance.choice(code_points[c]) for c in characters]
