"""The sentences of `explain`: which rules decide the level of a character, and the break mark after it.

Positions in sentences, and in the records that they are made from, count in the text.
"""

import unicodedata
from collections.abc import Iterator, Sequence
from typing import NamedTuple, Optional

from ._records import BracketCase, BreakReason, NeutralRule, Reason

ORIGINAL, X, W1, W2, W3, W4, W5, W6, W7, N0, N2 = range(11)  # places in `Reason.class_after`
DIRECTIONS = {"L": "left-to-right", "R": "right-to-left"}
_NUMBERS = "EN", "AN"
_INITIATORS = "LRI", "RLI", "FSI"
_REMOVED = "LRE", "RLE", "LRO", "RLO", "PDF", "BN"
_LEVEL_RULES = {"RLI": "X5a", "LRI": "X5b", "FSI": "X5c", "PDI": "X6a"}  # X6 for other classes
_OPENERS = {"LRE": "embedding", "RLE": "embedding", "LRO": "override", "RLO": "override"}  # others are isolates
# The second words of letters' names. The first word of such a name is a script.
_LETTERS = {"LETTER", "CAPITAL", "SMALL", "SYLLABLE"}


class Before(NamedTuple):
    """What is before a character in its isolating run sequence: the nearest character, the nearest strong one, and the nearest one that
    is strong or a number after N0, each if there is one. The last two are not marks."""

    character: Optional[int] = None
    strong: Optional[int] = None
    context: Optional[int] = None


def all_before(reasons: Sequence[Reason]) -> list[Before]:
    """Returns what is before each character."""
    found: list[Before] = []
    ends: dict[int, Before] = {}
    for at, reason in enumerate(reasons):
        if reason.sequence is None:
            found.append(Before())
            continue
        before = ends.get(reason.sequence, Before())
        found.append(before)
        is_strong = reason.class_after[X] in ("L", "R", "AL")
        is_context = reason.class_after[X] != "NSM" and reason.class_after[N0] in ("L", "R", *_NUMBERS)
        ends[reason.sequence] = Before(at, at if is_strong else before.strong, at if is_context else before.context)
    return found


def level_sentences(text: str, reasons: Sequence[Reason], befores: Sequence[Before], at: int) -> Iterator[str]:
    """Yields what the rules BD9 to I2 do with the character at a position. A rule is named if it changes a type or the level."""
    reason = reasons[at]
    yield from _isolate_sentences(reason)
    if reason.sequence is None:
        yield f"X9: removed, so it has the level of {'the paragraph' if reason.left is None else f'position {reason.left}'}"
        return
    yield from _explicit_sentences(reasons, reason)
    yield from _weak_sentences(reasons, reason, befores[at])
    yield from _bracket_sentences(text, reasons, befores, at)
    if reason.neutral is not None:
        yield _neutral_sentence(reasons, reason, reason.neutral)
    if reason.level != reason.embedding_level:
        rule = "I2" if reason.embedding_level % 2 else "I1"
        yield f"{rule}: {DIRECTIONS.get(reason.class_after[N2] or '', 'a number')}, so level {reason.level}"


def unpaired_sentence(reason: Reason) -> str:
    """Returns why a bracket has no pair, or `""`."""
    if reason.bracket_case is BracketCase.NOT_OTHER:
        return f"Unpaired: its type is {reason.class_after[W7]}, not ON"
    if reason.bracket_case is BracketCase.NO_MATCH:
        return "Unpaired: no bracket of its sequence matches"
    if reason.bracket_case is BracketCase.PAST_LIMIT:
        return "Unpaired: pairing stopped at 63 open brackets (BD16)"
    return ""


def _isolate_sentences(reason: Reason) -> Iterator[str]:
    if reason.class_after[ORIGINAL] in _INITIATORS:
        yield f"BD9: ends {'with the paragraph' if reason.matching is None else f'at the PDI at {reason.matching}'}"
    elif reason.class_after[ORIGINAL] == "PDI":
        yield f"BD9: {'matches no isolate initiator' if reason.matching is None else f'ends the isolate from {reason.matching}'}"


def _explicit_sentences(reasons: Sequence[Reason], reason: Reason) -> Iterator[str]:
    original, new = reason.class_after[ORIGINAL], reason.class_after[X]
    rule = _LEVEL_RULES.get(original or "", "X6")
    if reason.opener is not None and original != "B":  # (a separator has the level of the paragraph)
        is_overridden = reason.override_class is not None and original != new
        yield f"{rule}: in {_named(reasons, reason)}, so level {reason.embedding_level}{f' and type {new}' if is_overridden else ''}"
    if original == "FSI" and reason.override_class is None:
        yield f"{rule}: acts as {new}, by the first strong character inside" if new == "RLI" else f"{rule}: acts as {new}"


def _named(reasons: Sequence[Reason], reason: Reason) -> str:
    """Returns what decides the embedding direction of a character."""
    if reason.opener is None:
        return "the paragraph"
    return f"the {_OPENERS.get(reasons[reason.opener].class_after[ORIGINAL] or '', 'isolate')} from {reason.opener}"


def _weak_sentences(reasons: Sequence[Reason], reason: Reason, before: Before) -> Iterator[str]:
    types = reason.class_after
    changed = {step: types[step] for step in range(W1, N0) if types[step] != types[step - 1]}
    if W1 in changed:
        nearest = None if before.character is None else reasons[before.character].class_after[X]
        if nearest in (*_INITIATORS, "PDI"):
            yield f"W1: a mark after {'a PDI' if nearest == 'PDI' else 'an isolate initiator'}, so ON"
        else:
            yield f"W1: a mark {'at the start' if before.character is None else f'after position {before.character}'}, so {types[W1]}"
    if W2 in changed:
        yield f"W2: a number after an Arabic letter (position {before.strong}), so AN"
    if W3 in changed:
        yield "W3: AL counts as R"
    if W4 in changed:
        yield f"W4: a separator between two numbers, so {types[W4]}"
    if W5 in changed:
        yield f"W5: a terminator next to a number, so {types[W5]}"
    if W6 in changed:
        yield "W6: a separator or terminator that joins no number, so ON"
    if W7 in changed:
        yield f"W7: a number after left-to-right text ({_side(reasons, before.strong, 'the start')}), so L"


def _bracket_sentences(text: str, reasons: Sequence[Reason], befores: Sequence[Before], at: int) -> Iterator[str]:
    reason = reasons[at]
    case, partner, new = reason.bracket_case, reason.partner, reason.class_after[N0] or ""
    if case is None and partner is not None:
        yield f"N0: a mark after the bracket at {partner}, so {new}"
    elif case is BracketCase.D:
        yield f"Pairs with position {partner}; no strong character inside, so N0 changes nothing"
    elif partner is not None and reason.inside is not None:
        inside = _kind_of(text[reason.inside], reasons[reason.inside], reason.inside)
        before = f"{DIRECTIONS[new]} before ({_side(reasons, befores[min(at, partner)].context, 'the start')})"
        why = {
            BracketCase.B: f"{inside}, as {_named(reasons, reason)}",
            BracketCase.C1: f"only {inside}, and {before}",
            BracketCase.C2: f"only {inside}, but {before}, as {_named(reasons, reason)}",
        }[case or BracketCase.B]
        yield f"N0: pairs with position {partner}; {why}, so {DIRECTIONS[new]}"
    elif case is not None:
        yield unpaired_sentence(reason)


def _kind_of(character: str, reason: Reason, position: int) -> str:
    """Returns which strong character is inside a pair, such as `"Hebrew inside (position 3)"`."""
    if reason.class_after[W7] in _NUMBERS:
        return f"a number inside (position {position}, right-to-left for N0)"
    words = unicodedata.name(character, "").split()
    is_letter = len(words) > 2 and words[1] in _LETTERS
    kind = words[0].capitalize() if is_letter else DIRECTIONS["L" if reason.class_after[W7] == "L" else "R"]
    return f"{kind} inside (position {position})"


def _side(reasons: Sequence[Reason], position: Optional[int], edge: str) -> str:
    if position is None:
        return edge
    return f"{'the number at' if reasons[position].class_after[N0] in _NUMBERS else 'position'} {position}"


def _neutral_sentence(reasons: Sequence[Reason], reason: Reason, rule: NeutralRule) -> str:
    left, right = _side(reasons, reason.left, "the start"), _side(reasons, reason.right, "the end")
    are_positions = left.startswith("position") and right.startswith("position")
    sides = f"positions {reason.left} and {reason.right}" if are_positions else f"{left} and {right}"
    new = DIRECTIONS[reason.class_after[N2] or ""]
    if rule is NeutralRule.N1:
        return f"N1: {new} on both sides ({sides}), so {new}"
    return f"N2: different directions on its sides ({sides}), so {new}, as {_named(reasons, reason)}"


# ---- Break marks ----

# The noun for each class. For a noun that ends in `?`, `_noun` also looks at the character.
_NOUNS = {
    "AL": "letter?", "HL": "Hebrew letter", "NU": "digit", "OP": "opening bracket?", "CP": "closing bracket?", "CL": "closing punctuation mark",
    "EX": "exclamation or question mark", "IS": "numeric separator", "SY": "slash", "QU": "quotation mark", "GL": "non-breaking character",
    "NS": "nonstarter", "IN": "ellipsis", "BA": "character that allows a break after it", "BB": "character that allows a break before it",
    "B2": "dash", "CB": "inline object", "HY": "hyphen", "HH": "hyphen", "PR": "numeric prefix", "PO": "numeric suffix", "ID": "ideograph",
    "EB": "emoji", "EM": "skin tone", "H2": "Korean syllable", "H3": "Korean syllable", "JL": "Korean syllable", "JV": "Korean syllable",
    "JT": "Korean syllable", "RI": "regional indicator", "WJ": "word joiner", "ZW": "zero width space", "ZWJ": "zero width joiner",
    "CM": "combining mark", "SP": "space", "BK": "line separator", "CR": "carriage return", "LF": "line feed", "NL": "next line character",
    "AK": "aksara", "AP": "aksara", "AS": "aksara", "VF": "virama", "VI": "virama",
}  # fmt: skip
# What each rule says. {before} and {after} name the bases before and after the mark, {both} names both of them,
# and {behind} names the last base before the mark other than spaces. Of two sentences, the first is used if
# there is no break, the second if there is one.
_RULES = {
    "LB3": "the line ends with the paragraph",
    "LB4": "the line ends after {before}",
    "LB5": ("no break between {both}", "the line ends after {before}"),
    "LB6": "no break before {after}",
    "LB7": "no break before {after}",
    "LB8": "a break after {behind}",
    "LB8a": "no break after a zero width joiner",
    "LB9": "no break before {after}",
    "LB12": "no break after {before}",
    "LB12a": "no break before {after}",
    "LB13": "no break before {after}",
    "LB14": "no break after {behind}",
    "LB15": "no break between {behind} and {after}",
    "LB15a": "no break after an opening quotation mark",
    "LB15b": "no break before a closing quotation mark",
    "LB15c": "a break before a decimal mark that follows a space",
    "LB15d": "no break before {after}",
    "LB16": "no break between {behind} and {after}",
    "LB17": "no break between two dashes",
    "LB18": "a break after a space",
    "LB19": "no break beside a quotation mark",
    "LB19a": "no break beside a quotation mark, except between East Asian characters",
    "LB20a": "no break after a hyphen at the start of a word",
    "LB21a": "no break after a Hebrew letter and {before}",
    "LB22": "no break before {after}",
    "LB25": "no break inside a number",
    "LB26": "no break inside a Korean syllable",
    "LB28a": "no break inside an orthographic syllable",
    "LB30a": "no break inside a flag",
    "LB31": "a break, since no other rule applies",
}
# The rules that apply before and after certain classes. If one of these classes is after the mark, the
# sentence says "before", else "after".
_SIDES = {"LB11": ["WJ"], "LB20": ["CB"], "LB21": ["BA", "HH", "HY", "NS"]}
_ACTIONS = "no break", "a break"


def break_sentence(text: str, reasons: Sequence[BreakReason], at: int) -> str:
    """Returns which rule decides the break mark after the character at a position, and why."""
    reason = reasons[at]
    base, following = text[reason.base], text[at + 1] if at + 1 < len(text) else ""
    before, after = _noun(reason.class_before, base), _noun(reason.class_after or "", following)
    if reason.rule in _SIDES:
        is_before = reason.class_after in _SIDES[reason.rule]
        return f"{reason.rule}: {_ACTIONS[reason.mark > 0]} {f'before {_with_article(after)}' if is_before else f'after {_with_article(before)}'}"
    both = f"two {before}s" if before == after else f"{_with_article(before)} and {_with_article(after)}"
    says = _RULES.get(reason.rule, "no break between {both}")
    if reason.rule == "LB31" and reason.class_before == reason.class_after == "RI":
        return "LB31: a break between two flags, which LB30a does not join"
    behind = before
    if reason.behind_spaces is not None and reason.behind_spaces != reason.base:
        behind = f"{_noun(reasons[reason.behind_spaces].class_before, text[reason.behind_spaces])} with spaces"
    found = says if isinstance(says, str) else says[reason.mark > 0]
    return f"{reason.rule}: " + found.format(before=_with_article(before), after=_with_article(after), both=both, behind=_with_article(behind))


def _noun(line_class: str, character: str) -> str:
    """Returns the name of a character of a class."""
    noun = _NOUNS.get(line_class, "character")
    if noun == "letter?":
        category = unicodedata.category(character)[0]
        return {"L": "letter", "M": "mark without a base", "N": "number"}.get(category, "symbol")
    if noun.endswith("?"):
        return noun.replace("bracket?", "parenthesis" if character in "()\uff08\uff09" else "bracket")
    return noun


def _with_article(noun: str) -> str:
    return f"{'an' if noun[0] in 'aeio' else 'a'} {noun}"
