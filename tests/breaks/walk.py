"""A walk over the characters of a paragraph that finds its break marks, as in `crates/breaks`.

Two tables are computed from the rules of reference.py. For each state and each symbol of the next character, the first has the next state
and an outcome: a mark, or a question about the bases after the next one. For each question and each symbol, and for the end, the second
has the answer, which is again a mark or a question.

Four bits describe the last bases: whether the last character is a ZWJ (LB8a), whether the last base is a future pictograph (LB30b), and
whether the last base and the base before it are wide (LB19a). A state does not depend on these bits, but an outcome may.
"""
import itertools

from reference import NUMBER, RULES, Character, is_in, parsed

# ---- Symbols: what the tables know about a character ----

SYMBOLS_15 = (
    "BK CR LF NL SP ZW WJ GL CL CP WideCP EX IS SY OP WideOP QU B2 CB BA HY NS BB IN NU AL HL PR PO ID EB EM JL JV JT H2 H3 RI CM ZWJ"
).split()
SYMBOLS_17 = [*SYMBOLS_15[:-2], *"QU_Pi QU_Pf DottedCircle HH AK AP AS VF VI CM ZWJ".split()]
SYMBOLS = {"15.0": SYMBOLS_15, "17.0": SYMBOLS_17}
ATTACHED = ("CM", "ZWJ")
UNATTACHED = ("BK", "CR", "LF", "NL", "SP", "ZW")  # LB9: no CM or ZWJ joins these


def symbol_of(c, version):
    """Returns the symbol of a character."""
    if c.line_class in ("OP", "CP") and c.is_wide:
        return f"Wide{c.line_class}"
    if version != "15.0" and c.line_class == "QU" and c.kind in ("Pi", "Pf"):
        return f"QU_{c.kind}"
    if version != "15.0" and c.line_class == "AL" and c.kind == "D":
        return "DottedCircle"
    return c.line_class


def shown(symbol):
    """Returns a character with this symbol."""
    if symbol.startswith("Wide"):
        return Character(symbol[4:], True)
    if symbol == "DottedCircle":
        return Character("AL", kind="D")
    return Character(symbol[:2], kind=symbol[3:]) if "_" in symbol else Character(symbol)


# ---- States, each with example bases, the nearest first ----

STATES_17 = {
    "BK": "BK",
    "CR": "CR",
    "LF": "LF",  # LF or NL (the rules treat it like BK)
    "ZW": "ZW",
    "SP": "SP",  # spaces that are not after one of the classes in the next states
    "SpaceAfterZW": "SP ZW",  # (the rules treat it like ZW)
    "SpaceAfterOP": "SP OP",  # LB14, LB15a: spaces after the state OP
    "SpaceAfterCL": "SP CL",  # LB16: spaces after CL or CP
    "SpaceAfterB2": "SP B2",  # LB17
    "WJ": "WJ",
    "GL": "GL",
    "CL": "CL",  # CL, or a wide CP
    "CP": "CP",  # a CP that is not wide
    "IS": "IS",
    "SY": "SY",
    "OP": "OP",  # OP, or a QU_Pi in the context of LB15a
    "QU": "QU",  # QU that is neither Pi nor Pf, or a QU_Pi in another context
    "FinalQU": "QU_Pf",  # LB19a: only this state needs the width of the base before the last one
    "B2": "B2",
    "CB": "CB",
    "BA": "BA",  # BA, or HH that is neither word-initial nor after HL
    "HY": "HY AL",  # HY that is neither word-initial nor after HL
    "WordInitialHY": "HY",  # LB20a: a word-initial HY
    "WordInitialHH": "HH",  # LB20a: a word-initial HH
    "HebrewHyphen": "HY HL",  # LB21a: HY or HH after HL
    "BB": "BB",
    "NU": "NU",
    "AL": "AL",  # AL but U+25CC, or a CM or ZWJ that joins no character
    "HL": "HL",
    "PR": "PR",
    "PO": "PO",
    "ID": "ID",  # ID or EM
    "EB": "EB",
    "JL": "JL",
    "JV": "JV",  # JV or H2
    "JT": "JT",  # JT or H3
    "RI": "RI",  # an odd number of RI
    "Other": "EX",  # EX, IN, NS, VF, VI after no AK, AS or U+25CC, or an even number of RI
    "NumberIS": "IS NU",  # LB25: IS after NU ( SY | IS )*
    "NumberSY": "SY NU",  # LB25: SY after NU ( SY | IS )*
    "NumberCL": "CL NU",  # LB25: CL or a wide CP after NU ( SY | IS )*
    "NumberCP": "CP NU",  # LB25: a CP that is not wide, after NU ( SY | IS )*
    "DottedCircle": "DottedCircle",  # LB28a: U+25CC
    "AP": "AP",
    "AK": "AK",  # AK or AS
    "AksaraVI": "VI AK",  # LB28a: VI after AK, AS or U+25CC
}


# ---- Outcomes and questions ----

MARKS = ("×", "÷", "!")

# For each question: the bases before its position, and those after it that have been read when it is asked.
QUESTIONS_17 = {
    "LB15b": ("SP", "QU_Pf"),  # × before ( SP | GL | .. | eot ), otherwise ÷ (LB18)
    "LB15c": ("SP", "IS"),  # ÷ before NU, otherwise × (LB15d)
    "LB19a": ("ID", "QU_Pi"),  # × before [^EastAsian] or the end, otherwise ÷
    "LB25": ("PR", "OP"),  # × before NU and IS NU, otherwise ÷
    "LB25IS": ("PR", "OP IS"),  # × before NU, otherwise ÷
    "LB28a": ("AK", "AS"),  # × before VF, otherwise ÷
}

# The outcomes other than marks. Each is a function of four bits: whether the base before the last one is
# wide, whether the last base is wide, whether it is a future pictograph, and whether the next base is wide.
OUTCOMES_17 = {
    "Unless": lambda was_wide, is_wide, is_pictograph, next_is_wide: "×" if is_pictograph else "÷",  # LB30b
    "Initial": lambda was_wide, is_wide, is_pictograph, next_is_wide: "LB19a" if is_wide else "×",
    "Final": lambda was_wide, is_wide, is_pictograph, next_is_wide: "÷" if was_wide and next_is_wide else "×",
    "FinalUnless": lambda was_wide, is_wide, is_pictograph, next_is_wide: "÷" if was_wide and next_is_wide and not is_pictograph else "×",
    "FinalInitial": lambda was_wide, is_wide, is_pictograph, next_is_wide: "LB19a" if was_wide and is_wide and next_is_wide else "×",
}


# ---- Automata of the rules ----


class Rows:
    """The rules as pairs of automata: one reads the bases before a position, the other those after it.

    A base is a letter: a symbol, whether it is wide, and whether it is a future pictograph. LB8a is left to the walk. Each name in an
    expression is a position, and sets of positions are bits of a number.
    """

    def __init__(self, version, rules):
        self.symbols = [symbol for symbol in SYMBOLS[version] if symbol not in ATTACHED]
        self.letters = list(itertools.product(self.symbols, (False, True), (False, True)))
        self.numbers = {letter: number for number, letter in enumerate(self.letters)}
        self.end, self.start = len(self.letters), len(self.letters) + 1  # two more letters
        self.follow = []  # the positions that may follow each position
        self.fits = [0] * (self.start + 1)  # the positions that fit each letter
        self.firsts = 0  # where expressions on the bases before a position begin
        self.lasts = 0  # where expressions on the bases after it end
        rows = [self.row(rule) for rule in rules if version in rule.versions and rule.number != "8.1"]
        self.options = [rows]
        if version == "15.0":
            self.options.append([row for row in rows if row[0] < 25] + self.number_rows() + [row for row in rows if row[0] >= 26])

    def row(self, rule):
        before, after = self.positions(parsed(rule.before), self.start), self.positions(parsed(rule.after), self.end)
        self.firsts |= before[0]
        self.lasts |= after[1]
        return float(rule.number), before, rule.mark, after

    def number_rows(self):
        """Returns a row for each position in the expression of a number that another position can follow."""
        count = len(self.follow)
        first, last, _ = self.positions(parsed(NUMBER), self.start)
        self.firsts |= first
        self.lasts |= last
        inner = [position for position in range(count, len(self.follow)) if self.follow[position]]
        return [(25.0, (first, 1 << position, False), "×", (self.follow[position], last, False)) for position in inner]

    def positions(self, tree, edge):
        """Adds the positions of an expression. Returns where it begins, where it ends, and whether it matches no bases."""
        kind = tree[0]
        if kind in ("one", "edge"):
            position = 1 << len(self.follow)
            self.follow.append(0)
            for number in [edge] if kind == "edge" else self.letters_in(*tree[1:]):
                self.fits[number] |= position
            return position, position, False
        if kind == "repeat":
            first, last, _ = self.positions(tree[2], edge)
            if tree[1] == "*":
                self.link(last, first)
            return first, last, True
        parts = [self.positions(part, edge) for part in tree[1]]
        if kind == "either":
            return sum(part[0] for part in parts), sum(part[1] for part in parts), any(part[2] for part in parts)
        first, last, is_empty = 0, 0, True
        for part_first, part_last, part_is_empty in parts:
            self.link(last, part_first)
            first |= part_first if is_empty else 0
            last = part_last | (last if part_is_empty else 0)
            is_empty = is_empty and part_is_empty
        return first, last, is_empty

    def letters_in(self, is_excluded, names):
        """Yields the letters in one of the named sets or, if `is_excluded`, in none of them. For LB30, the
        symbol says whether a parenthesis is wide."""
        for number, (symbol, is_wide, is_pictograph) in enumerate(self.letters):
            given = {"EastAsian": is_wide, "ExtPictUnassigned": is_pictograph}
            if any(given[name] if name in given else is_in(name, shown(symbol)) for name in names) != is_excluded:
                yield number

    def link(self, lasts, firsts):
        for position in indices(lasts):
            self.follow[position] |= firsts

    def after(self, positions):
        """Returns the positions that may follow one of these."""
        found = 0
        for position in indices(positions):
            found |= self.follow[position]
        return found


def indices(bits):
    while bits:
        yield (bits & -bits).bit_length() - 1
        bits &= bits - 1


class Questions:
    """What the rules say about a position, given the conditions that hold on the bases before it.

    This is a mark if the bases read so far determine the mark. Otherwise it is a question: a tuple of what the
    rules then say, for each letter of the next base and for the end.
    """

    def __init__(self, rows):
        self.rows, self.known = rows, {}

    def asked(self, rules):
        """Returns the mark or question for a list of marks. Each mark has the positions that may come
        next, or None if its rule applies."""
        first = rules[0]
        if first[1] is None:
            return first[0]
        if rules not in self.known:
            answers = tuple(self.asked(self.read(rules, letter)) for letter in range(self.rows.end + 1))
            is_known = all(answer == answers[0] for answer in answers)
            self.known[rules] = answers[0] if is_known else answers
        return self.known[rules]

    def read(self, rules, letter):
        """Returns what is left of the rules after the next base, or after the end."""
        left = []
        for mark, positions in rules:
            read = positions if positions is None else positions & self.rows.fits[letter]
            if read is None or read & self.rows.lasts:
                left.append((mark, None))
                break
            if read:
                left.append((mark, self.rows.after(read)))
        return tuple(left)

    def before(self, holding):
        """Returns the marks and questions before each letter, if these rows hold."""
        rules = [(mark, None if after[2] else after[0]) for _, _, mark, after in holding]
        rules.append(("÷", None))  # LB31
        return [self.asked(self.read(rules, letter)) for letter in range(self.rows.end)]


class Automaton:
    """The automaton that reads the bases before a position. For each of its classes, it has what the rules say before each
    letter."""

    def __init__(self, version, rules):
        rows = self.rows = Rows(version, rules)
        states, ways = [rows.firsts & rows.fits[rows.start]], []
        numbers = {states[0]: 0}
        for positions in states:
            following = rows.firsts | rows.after(positions)
            ways.append([])
            for letter in range(rows.end):
                reached = following & rows.fits[letter]
                if reached not in numbers:
                    numbers[reached] = len(states)
                    states.append(reached)
                ways[-1].append(numbers[reached])
        questions, said = Questions(rows), {}
        outcomes = []
        for positions in states:
            holding = tuple(tuple(row for row in option if row[1][2] or positions & row[1][1]) for option in rows.options)
            if holding not in said:
                options = [questions.before(option) for option in holding]
                said[holding] = tuple(zip(*options) if len(options) > 1 else options[0])
            outcomes.append(said[holding])
        self.merge(outcomes, ways)

    def merge(self, outcomes, ways):
        """Merges the states that the rules cannot distinguish."""
        kinds, count = numbered(outcomes), 0
        while len(set(kinds)) > count:
            count = len(set(kinds))
            kinds = numbered([(kind, tuple(kinds[state] for state in row)) for kind, row in zip(kinds, ways)])
        examples = {kind: state for state, kind in reversed(list(enumerate(kinds)))}
        self.start = kinds[0]
        self.ways = {kind: [kinds[reached] for reached in ways[state]] for kind, state in examples.items()}
        self.outcomes = {kind: outcomes[state] for kind, state in examples.items()}

    def next(self, kind, *letter):
        return self.ways[kind][self.rows.numbers[letter]]


def numbered(items):
    numbers = {}
    return [numbers.setdefault(item, len(numbers)) for item in items]


# ---- The tables ----

BITS = list(itertools.product((False, True), repeat=3))  # was_wide, is_wide, is_pictograph


class Model:
    """The tables of a version.

    `next` and `outcome` have the next state and the outcome for each state and symbol, and `answers` has the answer for each question and
    symbol, and the end. An outcome is a mark, `Stays` (LB9), a question or a name in `outcomes`. An answer is a mark, a question, or
    `Narrow`: × before a base that is not wide, and otherwise ÷.
    """

    def __init__(self, version, states, outcomes, questions, rules=RULES):
        self.version, self.outcomes = version, outcomes
        self.states = {name: bases.split() for name, bases in states.items()}
        self.automaton = Automaton(version, rules)
        self.next, self.outcome, self.answers, self.named = {}, {}, {}, {mark: mark for mark in MARKS}
        self.start = self.started()
        self.known = {name: self.after(bases) for name, bases in self.states.items()}
        for question, (bases, following) in questions.items():
            first, *others = following.split()
            node = self.said(self.after(bases.split()), first)[-1]
            if len(self.automaton.rows.options) > 1:
                node = node[-1]
            for symbol in others:
                node = node[self.automaton.rows.numbers[symbol, True, True]]
            self.named[question] = node
        for question in questions:
            for symbol in [*self.automaton.rows.symbols, "end"]:
                self.answers[question, symbol] = self.answer(self.named[question], symbol)
        kinds = {name: lambda *bits, name=name: name for name in self.named} | outcomes
        meant = {tuple(self.node(kind(*bits, is_wide)) for bits in BITS for is_wide in (False, True)): name for name, kind in kinds.items()}
        for name, bases in self.states.items():
            for symbol in SYMBOLS[version]:
                if symbol in ATTACHED and bases[0] not in UNATTACHED:
                    self.next[name, symbol], self.outcome[name, symbol] = name, "Stays"
                else:
                    self.next[name, symbol] = self.reached(name, symbol)
                    self.outcome[name, symbol] = meant[self.said(self.known[name], symbol)]

    def node(self, name):
        """Returns the mark or question with a name or, for a pair of names in 15.0, both of them."""
        return tuple(map(self.named.get, name)) if isinstance(name, tuple) else self.named[name]

    def started(self):
        """Returns what is known after BK: for each value of the bits, a class of the automaton. The start of a text is like a narrow BK."""
        known = tuple(self.automaton.next(self.automaton.start, "BK", *bits[1:]) for bits in BITS)
        assert self.automaton.ways[self.automaton.start] == self.automaton.ways[known[0]]
        return known

    def read(self, known, symbol):
        """Returns what is known after one more base."""
        symbol = "AL" if symbol in ATTACHED else symbol  # LB10
        found = []
        for was_wide, is_wide, is_pictograph in BITS:
            # No rule depends on the width of the third base from the end, or on a future pictograph before
            # the last base.
            earlier = {known[number] for number, bits in enumerate(BITS) if bits[1] == was_wide}
            reached = {self.automaton.next(one, symbol, is_wide, is_pictograph) for one in earlier}
            assert len(reached) == 1
            found.append(reached.pop())
        return tuple(found)

    def after(self, bases):
        """Returns what is known after some bases, the nearest first."""
        known = self.start
        for symbol in reversed(bases):
            known = self.read(known, symbol)
        return known

    def reached(self, name, symbol):
        """Returns the next state. If the rules treat several states alike, returns the one whose last base
        has this symbol, or else the last of these states."""
        known = self.read(self.known[name], symbol)
        alike = [other for other in self.states if self.known[other] == known]
        return next((other for other in alike if self.states[other][0] == symbol), alike[-1])

    def said(self, known, symbol):
        """Returns the marks and questions before a symbol, by the bits and by whether the next base is wide."""
        symbol, found = "AL" if symbol in ATTACHED else symbol, []
        for one in known:
            for is_wide in (False, True):
                letters = [self.automaton.rows.numbers[symbol, is_wide, is_pictograph] for is_pictograph in (False, True)]
                said = {self.automaton.outcomes[one][letter] for letter in letters}
                assert len(said) == 1
                found.append(said.pop())
        return tuple(found)

    def answer(self, question, symbol):
        """Returns the answer to a question before a symbol, or at the end of the text."""
        names = {node: name for name, node in self.named.items()}
        if symbol == "end":
            return names[question[-1]]
        numbers = self.automaton.rows.numbers
        narrow, wide = ({question[numbers[symbol, is_wide, is_pictograph]] for is_pictograph in (False, True)} for is_wide in (False, True))
        assert len(narrow) == len(wide) == 1
        narrow, wide = names[narrow.pop()], names[wide.pop()]
        assert narrow == wide or (narrow, wide) == ("×", "÷")
        return narrow if narrow == wide else "Narrow"


# ---- The walk ----


class Walk:
    """The state of the walk: a state of the tables, and the bits of the last bases."""

    def __init__(self, model, first):
        self.model = model
        symbol = symbol_of(first, model.version)
        self.state = model.next["BK", symbol]
        self.is_joined, self.is_pictograph = symbol == "ZWJ", first.is_future_pictograph
        self.is_wide, self.was_wide = is_wide_base(first), False

    def pass_over(self, c):
        """Moves past the next character. Returns the mark or question before it."""
        model, symbol = self.model, symbol_of(c, self.model.version)
        outcome = model.outcome[self.state, symbol]
        if outcome == "Stays":
            self.is_joined = symbol == "ZWJ"
            return "×"
        decided = self.decided(outcome, is_wide_base(c))
        self.state = model.next[self.state, symbol]
        self.is_joined, self.is_pictograph = symbol == "ZWJ", c.is_future_pictograph
        self.is_wide, self.was_wide = is_wide_base(c), self.is_wide
        return decided

    def decided(self, outcome, next_is_wide):
        """Returns the mark or question of an outcome."""
        if self.is_joined:
            return "×"  # LB8a
        kind = self.model.outcomes.get(outcome)
        return kind(self.was_wide, self.is_wide, self.is_pictograph, next_is_wide) if kind else outcome


def is_wide_base(c):
    """Returns whether a base that begins with this character is wide. A CM or ZWJ is then an AL (LB10)."""
    return c.is_wide and c.line_class not in ATTACHED


def answer(model, question, following):
    """Returns the mark that answers a question, given the characters that follow. They may begin with marks that belong to the
    base before."""
    for c in following:
        if c.line_class not in ATTACHED:
            question = model.answers[question, symbol_of(c, model.version)]
            if question == "Narrow":
                return "÷" if c.is_wide else "×"
            if question in MARKS:
                return question
    return model.answers[question, "end"]


def marks(model, characters):
    """Returns the mark after each character of a paragraph."""
    if not characters:
        return ""
    walk, result = Walk(model, characters[0]), []
    for at, c in enumerate(characters[1:], 1):
        said = walk.pass_over(c)
        result.append(said if said in MARKS else answer(model, said, characters[at + 1 :]))
    return "".join(result) + "!"
