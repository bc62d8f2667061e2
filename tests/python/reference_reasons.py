"""Reference implementation of the reasons for levels and break marks.

`reasons` applies the rules of UAX #9 to one paragraph, one after another, as the annex states them. `break_reasons` does so with UAX #14,
by the rules of tests/breaks/reference.py. Both return what `hordguli_reasons` and `hordguli_break_reasons` store. Positions and classes
that do not exist are None, classes have their short names, and numbered cases have the names of their constants.

As a program, compares both with Unicode's test files of both versions. Its last line is `N passed, M failed`.

Usage: reference_reasons.py, after `make ucd ucd-17 ucd-tests`.
"""
import functools, os, re, sys
from typing import NamedTuple, Optional

TOP = os.path.dirname(os.path.dirname(os.path.dirname(os.path.abspath(__file__))))
sys.path.append(f"{TOP}/tests/breaks")
import reference

FOLDERS = {"15.0": f"{TOP}/ucd", "17.0": f"{TOP}/ucd-17.0"}
REMOVED = "LRE RLE LRO RLO PDF BN".split()  # by X9
INITIATORS = "LRI RLI FSI".split()
NEUTRALS = "B S WS ON LRI RLI FSI PDI".split()
STRONG = "L R AL".split()
MOST_LEVELS = 125  # (BD2)
MOST_OPENERS = 63  # (BD16)
STEPS = "X W1 W2 W3 W4 W5 W6 W7 N0 N".split()  # the steps after which a type is listed; N is N1 and N2


class Reason(NamedTuple):
    """What `hordguli_reason` stores."""

    opener: Optional[int]
    matching: Optional[int]
    sequence: Optional[int]
    partner: Optional[int]
    inside: Optional[int]
    left: Optional[int]
    right: Optional[int]
    class_after: tuple  # the original class, and the one after each of STEPS
    override_class: Optional[str]
    embedding_level: int
    level: int
    sos: Optional[str]
    eos: Optional[str]
    bracket_case: Optional[str]
    neutral: Optional[str]


class BreakReason(NamedTuple):
    """What `hordguli_break_reason` stores, with the rule as text."""

    base: int
    behind_spaces: Optional[int]
    rule: str
    class_before: str
    class_after: Optional[str]
    mark: str  # as in tests/breaks/reference.py


# ---- The tables ----


class Tables:
    """The bidi classes and brackets of all characters, from the table files in a folder such as ucd/."""

    def __init__(self, folder):
        self.version = "15.0" if folder.endswith("ucd") else "17.0"
        self.breaks = reference.Tables(folder)
        self.classes, self.brackets = ["L"] * 0x110000, {}
        long_names = {"Left_To_Right": "L", "Right_To_Left": "R", "Arabic_Letter": "AL", "European_Terminator": "ET", "Boundary_Neutral": "BN"}
        with open(f"{folder}/DerivedBidiClass.txt", encoding="utf-8") as file:
            text = file.read()
        defaults = re.findall(r"(?m)^# @missing: (\w+)\.\.(\w+); (\w+)", text) if self.version == "17.0" else []
        for first, last, name in defaults:
            self.set_classes(int(first, 16), int(last, 16), long_names.get(name, name))
        for first, last, name in reference.lines(f"{folder}/DerivedBidiClass.txt"):
            self.set_classes(first, last, name)
        with open(f"{folder}/BidiBrackets.txt", encoding="utf-8") as file:
            for line in file:
                fields = [field.strip() for field in line.split("#")[0].split(";")]
                if len(fields) == 3:
                    self.brackets[int(fields[0], 16)] = int(fields[1], 16), fields[2]

    def set_classes(self, first, last, name):
        self.classes[first : last + 1] = [name] * (last + 1 - first)


# ---- P2 to X10 ----


def matches(classes):
    """BD9: returns the PDI of each isolate initiator, and the initiator of each PDI, if they match."""
    found, open_ones = {}, []
    for at, one in enumerate(classes):
        if one in INITIATORS:
            open_ones.append(at)
        elif one == "PDI" and open_ones:
            first = open_ones.pop()
            found[first], found[at] = at, first
    return found


def first_strong_level(classes):
    """P2 and P3: returns the level of the first strong character outside isolates, or None."""
    found, at = matches(classes), 0
    while at < len(classes):
        if classes[at] in STRONG:
            return 0 if classes[at] == "L" else 1
        at = found.get(at, len(classes)) if classes[at] in INITIATORS else at + 1
    return None


def directed(classes):
    """X5c: returns the classes with each FSI replaced by the LRI or RLI that it acts as."""
    found = matches(classes)

    def acts_as(at):
        level = first_strong_level(classes[at + 1 : found.get(at, len(classes))])
        return "RLI" if level == 1 else "LRI"

    return [acts_as(at) if one == "FSI" else one for at, one in enumerate(classes)]


class Status(NamedTuple):
    """An entry of the directional status stack (X1)."""

    level: int
    override: Optional[str] = None
    is_isolate: bool = False
    opener: Optional[int] = None


def explicit(classes, base):
    """X1 to X8: returns the status that applies to each character. An FSI must already be replaced."""
    stack, overflow_isolates, overflow_embeddings, valid_isolates, found = [Status(base)], 0, 0, 0, []
    for at, one in enumerate(classes):
        if one == "PDI":  # X6a: a PDI is outside the isolate that it ends
            if overflow_isolates:
                overflow_isolates -= 1
            elif valid_isolates:
                overflow_embeddings = 0
                while not stack[-1].is_isolate:
                    stack.pop()
                stack.pop()
                valid_isolates -= 1
        found.append(stack[-1])
        if one in ("LRE", "LRO", "LRI", "RLE", "RLO", "RLI"):  # X2 to X5b
            last, is_isolate = stack[-1].level, one.endswith("I")
            level = last + 1 + last % 2 if one[0] == "R" else last + 2 - last % 2
            if level <= MOST_LEVELS and not overflow_isolates and not overflow_embeddings:
                valid_isolates += is_isolate
                stack.append(Status(level, one[0] if one.endswith("O") else None, is_isolate, at))
            elif is_isolate:
                overflow_isolates += 1
            elif not overflow_isolates:
                overflow_embeddings += 1
        elif one == "PDF" and not overflow_isolates:  # X7
            if overflow_embeddings:
                overflow_embeddings -= 1
            elif not stack[-1].is_isolate and len(stack) > 1:
                stack.pop()
    return found


def level_runs(kept, levels):
    """BD7: returns the runs of characters at one level, without what X9 removes."""
    runs = []
    for at in kept:
        if runs and levels[runs[-1][-1]] == levels[at]:
            runs[-1].append(at)
        else:
            runs.append([at])
    return runs


def isolating_run_sequences(runs, classes):
    """BD13: returns the sequences. A run that ends with an isolate initiator is continued by the run that begins with its PDI."""
    found, by_first = matches(classes), {run[0]: run for run in runs}

    def following(run):
        return by_first.get(found.get(run[-1])) if classes[run[-1]] in INITIATORS else None

    continued = [run[0] for run in map(following, runs) if run]
    sequences = []
    for run in runs:
        if run[0] not in continued:
            sequence = []
            while run:
                sequence += run
                run = following(run)
            sequences.append(sequence)
    return sequences


def direction(level):
    return "R" if level % 2 else "L"


def sides(sequence, kept, classes, levels, base):
    """X10: returns sos and eos."""
    first, last = kept.index(sequence[0]), kept.index(sequence[-1])
    before = levels[kept[first - 1]] if first else base
    is_open = classes[sequence[-1]] in INITIATORS and sequence[-1] not in matches(classes)
    after = base if is_open or last + 1 == len(kept) else levels[kept[last + 1]]
    return direction(max(before, levels[sequence[0]])), direction(max(after, levels[sequence[-1]]))


# ---- W1 to W7: each takes the types of a sequence, and returns those after the rule ----


def w1(types, sos):
    result = []
    for one in types:
        before = result[-1] if result else sos
        result.append(one if one != "NSM" else "ON" if before in (*INITIATORS, "PDI") else before)
    return result


def after_strong(types, sos, strong, new):
    """Returns the types with a new one for each EN for which a search backward first finds `strong` among the types in STRONG."""
    result, last = [], sos
    for one in types:
        last = one if one in STRONG else last
        result.append(new if one == "EN" and last == strong else one)
    return result


def w2(types, sos):
    return after_strong(types, sos, "AL", "AN")


def w3(types, sos):
    return ["R" if one == "AL" else one for one in types]


def w4(types, sos):
    result = list(types)
    for at in range(1, len(types) - 1):
        before, after = result[at - 1], result[at + 1]
        if before == after and (result[at], before) in (("ES", "EN"), ("CS", "EN"), ("CS", "AN")):
            result[at] = before
    return result


def w5(types, sos):
    result = list(types)
    for order in (range(len(types)), range(len(types) - 1, -1, -1)):
        is_adjacent = False
        for at in order:
            is_adjacent = result[at] == "EN" or is_adjacent and result[at] == "ET"
            if is_adjacent:
                result[at] = "EN"
    return result


def w6(types, sos):
    return ["ON" if one in ("ES", "ET", "CS") else one for one in types]


def w7(types, sos):
    return after_strong(types, sos, "L", "L")


# ---- N0 ----


def canonical(code):
    return {0x2329: 0x3008, 0x232A: 0x3009}.get(code, code)


def bracket_pairs(codes, types, brackets):
    """BD16: returns the pairs of a sequence in the order of their openers, and the places of brackets that may have no partner because
    there was no more space for an opener: those on the stack, and all from that opener on."""
    pairs, stack = [], []
    for at, code in enumerate(codes):
        other, kind = brackets.get(code, (None, None)) if types[at] == "ON" else (None, None)
        if kind == "o":
            if len(stack) == MOST_OPENERS:
                return sorted(pairs), {*(place for _, place in stack), *range(at, len(codes))}
            stack.append((canonical(other), at))
        elif kind == "c":
            for place in range(len(stack) - 1, -1, -1):
                if stack[place][0] == canonical(code):
                    pairs.append((stack[place][1], at))
                    del stack[place:]
                    break
    return sorted(pairs), set()


class Bracket(NamedTuple):
    """What N0 does with a character. Places count in the sequence."""

    case: Optional[str] = None
    partner: Optional[int] = None
    inside: Optional[int] = None


def as_strong(one):
    """Returns L or R for a type that N0 counts as strong, else None."""
    return {"L": "L", "R": "R", "AL": "R", "EN": "R", "AN": "R"}.get(one)


def case_of(opener, closer, types, embedding, sos):
    """N0 for a pair: returns the case, the new type, if any, and the place of the strong type inside that decides."""
    strong = [(at, as_strong(types[at])) for at in range(opener + 1, closer) if as_strong(types[at])]
    for at, one in strong:
        if one == embedding:
            return "B", embedding, at
    if not strong:
        return "D", None, None
    before = [as_strong(one) for one in types[:opener] if as_strong(one)]
    context = before[-1] if before else sos
    return ("C2", embedding, strong[0][0]) if context == embedding else ("C1", context, strong[0][0])


def n0(codes, explicit_types, types, brackets, embedding, sos):
    """Returns the types after N0, and what it does with each character."""
    pairs, past = bracket_pairs(codes, types, brackets)
    unpaired = ["NOT_OTHER" if one != "ON" else "PAST_LIMIT" if at in past else "NO_MATCH" for at, one in enumerate(types)]
    found = [Bracket(case if code in brackets else None) for code, case in zip(codes, unpaired)]
    types = list(types)
    for opener, closer in pairs:
        case, new, inside = case_of(opener, closer, types, embedding, sos)
        for at, partner in ((opener, closer), (closer, opener)):
            found[at] = Bracket(case, partner, inside)
            if new:
                types[at] = new
                following = at + 1
                while following < len(types) and explicit_types[following] == "NSM":
                    types[following], found[following] = new, found[following]._replace(partner=at)
                    following += 1
    return types, found


# ---- N1 to I2 ----


class Neutral(NamedTuple):
    """What N1 and N2 do with a character. Places count in the sequence. A side that is None is sos or eos."""

    rule: Optional[str] = None
    left: Optional[int] = None
    right: Optional[int] = None


def n1_and_n2(types, embedding, sos, eos):
    """Returns the types after N1 and N2, and what these do with each character."""
    result, found, at = list(types), [Neutral()] * len(types), 0
    while at < len(types):
        end = at
        while end < len(types) and types[end] in NEUTRALS:
            end += 1
        if end > at:
            left, right = (at - 1 if at else None), (end if end < len(types) else None)
            before = sos if left is None else as_strong(types[left])
            after = eos if right is None else as_strong(types[right])
            rule, new = ("N1", before) if before == after else ("N2", embedding)
            result[at:end], found[at:end] = [new] * (end - at), [Neutral(rule, left, right)] * (end - at)
        at = end + 1
    return result, found


def implicit(level, one):
    """I1 and I2."""
    if level % 2:
        return level + (one in ("L", "EN", "AN"))
    return level + {"R": 1, "AN": 2, "EN": 2}.get(one, 0)


# ---- The reasons ----


def reasons(tables, text, base=None, otherwise=0, line_separators=False):
    """Returns the reason of each character of a paragraph. `base` is 0 or 1, or None: then P2 and P3 decide, and without a strong
    character it is `otherwise`. With `line_separators`, only LF and CR have class B."""
    codes = list(map(ord, text))
    originals = ["S" if line_separators and tables.classes[code] == "B" and code not in (10, 13) else tables.classes[code] for code in codes]
    if base is None:
        level = first_strong_level(originals)
        base = otherwise if level is None else level
    classes = directed(originals)
    statuses, matching = explicit(classes, base), matches(classes)
    levels = [base if one == "B" else status.level for one, status in zip(classes, statuses)]
    types = [one if one == "B" else status.override or one for one, status in zip(classes, statuses)]
    kept = [at for at, one in enumerate(classes) if one not in REMOVED]
    found = {}
    for sequence in isolating_run_sequences(level_runs(kept, levels), classes):
        sos, eos = sides(sequence, kept, classes, levels, base)
        for at, its in zip(sequence, reasons_in(tables, [codes[at] for at in sequence], [types[at] for at in sequence], levels[sequence[0]], sos, eos)):
            steps, bracket, neutral, level = its
            place = lambda one: None if one is None else sequence[one]
            found[at] = Reason(
                statuses[at].opener, matching.get(at), sequence[0], place(bracket.partner), place(bracket.inside), place(neutral.left), place(neutral.right),
                (originals[at], types[at], *steps), statuses[at].override, levels[at], level, sos, eos, bracket.case, neutral.rule,
            )  # fmt: skip
    result, before = [], None
    for at, original in enumerate(originals):
        if at in found:
            result.append(found[at])
            before = at
        else:  # (the characters that X9 removes have the level of the character before them)
            level = base if before is None else found[before].level
            after = (original, *[None] * len(STEPS))
            result.append(Reason(statuses[at].opener, None, None, None, None, before, None, after, statuses[at].override, levels[at], level, None, None, None, None))
    return result


def reasons_in(tables, codes, types, level, sos, eos):
    """Returns for each character of a sequence: its type after each rule from W1 on, what N0, N1 and N2 do, and its level."""
    steps, first = [], types
    for rule in (w1, w2, w3, w4, w5, w6, w7):
        types = rule(types, sos)
        steps.append(types)
    types, brackets = n0(codes, first, types, tables.brackets, direction(level), sos)
    steps.append(types)
    types, neutrals = n1_and_n2(types, direction(level), sos, eos)
    steps.append(types)
    return zip(zip(*steps), brackets, neutrals, [implicit(level, one) for one in types])


# ---- Break marks ----


def name_of(number):
    """Returns the name of a rule by its number in LineBreakTest.html, such as LB30a for 30.11."""
    if number == "30.13":  # RI ÷ RI, which the annex leaves to LB31
        return "LB31"
    whole, _, rest = number.partition(".")
    if rest[0] == "0" or whole == "25":
        return f"LB{whole}"
    return "LB12a" if whole == "12" else f"LB{whole}{'abcd'[int(rest[0]) - 1]}"


@functools.lru_cache(None)
def named_rules(version, whole_numbers):
    """Returns the rules of a version as `reference.rules_of` does, those before LB9 and those after it, each with its name."""
    found = [[], []]
    for rule in reference.RULES:
        compiled = reference.rules_of(version, whole_numbers, [rule])
        for at in (0, 1):
            found[at] += [(name_of(rule.number), one) for one in compiled[at] if one[1] is not None]
    if whole_numbers and version == "15.0":  # (the expression of a number replaces LB25)
        number = next(one for one in reference.rules_of(version, True)[1] if one[1] is None)
        found[1].insert(next(at for at, (name, _) in enumerate(found[1]) if name == "LB26"), ("LB25", number))
    return found


def first_rule(rules, text, at):
    """Returns the name and the mark of the first rule that applies at a position, or None."""
    for name, rule in rules:
        mark = reference.mark_at([rule], text, at)
        if mark:
            return name, mark
    return None


def break_reasons(tables, text, whole_numbers=False):
    """Returns the reason of the break mark after each character of a paragraph."""
    characters = [tables.breaks.character(ord(one)) for one in text]
    earlier, later = named_rules(tables.version, whole_numbers)
    letters = "".join(reference.LETTERS[one] for one in characters)
    counts, base_letters = reference.bases(characters, tables.version) if text else ([], "")
    class_of = {letter: character.line_class for character, letter in reference.LETTERS.items()}
    classes = [class_of[letter] for letter in base_letters]
    starts = [sum(counts[:number]) for number in range(len(counts))]
    result = []
    for number, (start, count) in enumerate(zip(starts, counts)):
        behind = [one for one in range(number + 1) if classes[one] != "SP"]
        behind_spaces = starts[behind[-1]] if behind else None
        for at in range(start + 1, start + count):  # LB9 and, inside a base, LB8a
            rule = "LB8a" if characters[at - 1].line_class == "ZWJ" else "LB9"
            result.append(BreakReason(start, behind_spaces, rule, classes[number], characters[at].line_class, "×"))
        if number + 1 == len(counts):
            rule, mark, after = "LB3", "!", None
        else:
            end = start + count
            rule, mark = first_rule(earlier, letters, end) or first_rule(later, base_letters, number + 1) or ("LB31", "÷")
            after = classes[number + 1]
        result.append(BreakReason(start, behind_spaces, rule, classes[number], after, mark))
    return result


# ---- Unicode's test files ----

# A character of each bidi class, none of them a bracket.
SAMPLES = {
    "L": "a", "R": "\u05d0", "AL": "\u0627", "EN": "1", "ES": "+", "ET": "$", "AN": "\u0661", "CS": ",", "NSM": "\u0300", "BN": "\u00ad", "B": "\u2029",
    "S": "\t", "WS": " ", "ON": "!", "LRE": "\u202a", "LRO": "\u202d", "RLE": "\u202b", "RLO": "\u202e", "PDF": "\u202c", "LRI": "\u2066", "RLI": "\u2067",
    "FSI": "\u2068", "PDI": "\u2069",
}  # fmt: skip
SHOWN = 3  # how many differences are printed per file


def line_levels(found, base):
    """L1 for a paragraph in one line: returns the levels, or `x` for what X9 removes."""
    result, is_end = [], True
    for reason in reversed(found):
        one = reason.class_after[0]
        if one in REMOVED:
            result.append("x")
            continue
        is_end = one in ("B", "S") or is_end and one in ("WS", "FSI", "LRI", "RLI", "PDI")
        result.append(str(base if is_end else reason.level))
    return result[::-1]


def lines(path):
    with open(path, encoding="utf-8") as file:
        for line in file:
            given, _, comment = line.rstrip("\n").partition("#")
            if given.strip():
                yield given.strip(), comment


def character_cases(path):
    """Yields a text, its base level, what must be found for that, and the levels."""
    for line, _ in lines(path):
        codes, direction, level, levels, _ = line.split(";")
        yield "".join(chr(int(code, 16)) for code in codes.split()), {"0": 0, "1": 1, "2": None}[direction], int(level), levels.split()


def class_cases(path):
    wanted = None
    for line, _ in lines(path):
        if line.startswith("@"):
            wanted = line.partition(":")[2].split() if line.startswith("@Levels") else wanted
            continue
        given, bits = line.split(";")
        text = "".join(SAMPLES[name] for name in given.split())
        for bit, base in ((1, None), (2, 0), (4, 1)):
            if int(bits, 16) & bit:
                yield text, base, None, wanted


def compares_levels(tables, name, cases):
    count, differ = 0, []
    for text, base, level, wanted in cases:
        count += 1
        given = base
        if base is None:
            base = first_strong_level([tables.classes[ord(one)] for one in text]) or 0
        found = line_levels(reasons(tables, text, given), base)
        if found != wanted or level not in (None, base):
            differ.append(f"{' '.join(f'{ord(one):04X}' for one in text)}: {wanted} is expected, and {found} found")
    return report(f"{name} of {tables.version}", count, differ)


def compares_rules(tables):
    """Compares the rule at each position with the comment there.

    The rules of the file of 15.0 have the expression of a number for LB25, and LB13 does not apply inside a number.
    """
    count, differ = 0, []
    for line, comment in lines(f"{TOP}/ucd-tests/{tables.version}/LineBreakTest.txt"):
        words = line.split()
        text = "".join(chr(int(word, 16)) for word in words[1::2])
        numbers = re.findall(r"[×÷] \[([\d.]+)\]", comment)[1:]
        wanted = [{"0.3": "LB3", "999.0": "LB31"}.get(number) or name_of(number) for number in numbers]
        found = break_reasons(tables, text, whole_numbers=True)
        if tables.version == "15.0":
            wanted = ["LB13" if rule == "LB25" and one.class_after in ("CL", "CP", "IS", "SY") else rule for rule, one in zip(wanted, found)]
        count += 1
        if [one.rule for one in found] != wanted or [one.mark.replace("!", "÷") for one in found] != words[2::2]:
            differ.append(f"{line}: {' '.join(wanted)} is expected, and {' '.join(one.rule for one in found)} found")
    return report(f"the rules of LineBreakTest.txt of {tables.version}", count, differ)


def report(name, count, differ):
    print(f"reasons: {name}: {count} cases, {len(differ)} differ", *differ[:SHOWN], sep="\n  ", flush=True)
    return count - len(differ), len(differ)


def main():
    passed = failed = 0
    for version, folder in FOLDERS.items():
        tables, tests = Tables(folder), f"{TOP}/ucd-tests/{version}"
        parts = [
            compares_levels(tables, "BidiCharacterTest.txt", character_cases(f"{tests}/BidiCharacterTest.txt")),
            compares_levels(tables, "BidiTest.txt", class_cases(f"{tests}/BidiTest.txt")),
            compares_rules(tables),
        ]
        passed, failed = passed + sum(one[0] for one in parts), failed + sum(one[1] for one in parts)
    print(f"{passed} passed, {failed} failed")
    sys.exit(failed > 0)


if __name__ == "__main__":
    main()
