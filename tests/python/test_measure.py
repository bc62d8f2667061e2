"""Sessions with a function `measure`."""

import itertools
import re
import threading

import hordguli
import pytest
from conftest import state_of, tens
from hordguli import ChangedLines, Damage, Options, ParagraphText, Run, Session, _library
from hypothesis import given, settings
from hypothesis import strategies as st
from test_random import changed_texts, options, texts

HEBREW = "\u05d0\u05d1\u05d2"
PARAGRAPHS = re.compile("[^\n\r\x1c-\x1e\x85\u2029]*(?:\r\n|[\n\r\x1c-\x1e\x85\u2029])|[^\n\r\x1c-\x1e\x85\u2029]+")


class Recorder:
    """Measures each character by its neighbours, its level and the base level, and keeps what it was called with."""

    def __init__(self):
        self.calls = []

    def __call__(self, paragraph):
        self.calls.append(paragraph)
        text = paragraph.text
        levels = [run.level for run in paragraph.runs for _ in range(run.length)]
        return [1 + ord(c) % 7 + 3 * (text[k + 1 : k + 2] > c) + 5 * levels[k] + paragraph.base_level for k, c in enumerate(text)]


def paragraph_texts(text, option, tables=None):
    """Returns the paragraphs of a text, found without a session."""
    direction = Options(option & 0x3000003)
    found = []
    for content in PARAGRAPHS.findall(text):
        runs, start = [], 0
        for level, group in itertools.groupby(hordguli.levels(content, direction, tables=tables)):
            runs.append(Run(start, len(list(group)), level))
            start += runs[-1].length
        found.append(ParagraphText(content, hordguli.base_level(content, direction, tables=tables), tuple(runs)))
    return found


def spans(text):
    return [found.span() for found in PARAGRAPHS.finditer(text)]


def fresh(text, width, option=Options.WEAK_LTR, tables=None):
    """Opens a session that gets its advances by `set_advances`."""
    session = Session.open_measured(text, width, option, tables=tables)
    session.set_advances(0, [advance for one in paragraph_texts(text, option, tables) for advance in Recorder()(one)])
    return session


# ---- What is measured ----


def test_each_paragraph_is_measured_when_the_session_opens():
    measure = Recorder()
    with Session(f"ab {HEBREW} 12\n\n{HEBREW}", 50, measure=measure) as text:
        assert measure.calls == [
            ParagraphText(f"ab {HEBREW} 12\n", 0, (Run(0, 3, 0), Run(3, 4, 1), Run(7, 2, 2), Run(9, 1, 0))),
            ParagraphText("\n", 0, (Run(0, 1, 0),)),
            ParagraphText(HEBREW, 1, (Run(0, 3, 1),)),
        ]
        assert state_of(text) == state_of(fresh(text.text(), 50))


def test_an_edit_measures_the_new_text_of_what_it_changes():
    measure = Recorder()
    with Session("one\ntwo\nthree\n", 50, measure=measure) as text:
        for edit, measured in (
            (lambda: text.insert(5, HEBREW), [f"t{HEBREW}wo\n"]),
            (lambda: text.delete(3, 1), [f"onet{HEBREW}wo\n"]),
            (lambda: text.replace(1, 3, "\n"), ["o\n", f"{HEBREW}wo\n"]),
            (lambda: text.insert(2, "x"), [f"x{HEBREW}wo\n"]),
            (lambda: text.insert(len("o\nxabcwo\nthree\n"), "end"), ["end"]),
            (lambda: text.delete(0, 2), []),
            (lambda: text.insert(0, ""), []),
            (lambda: text.insert(3, ""), []),
            (lambda: text.replace(1, 2, text.text(1, 2)), []),
            (lambda: text.insert(0, "\n"), ["\n"]),
        ):
            measure.calls.clear()
            edit()
            assert [one.text for one in measure.calls] == measured
            assert measure.calls == [one for one in paragraph_texts(text.text(), Options.WEAK_LTR) if one.text in measured]
            assert state_of(text) == state_of(fresh(text.text(), 50))


def test_edits_of_long_paragraphs_are_measured():
    with Session("x\n", 700, measure=Recorder()) as text:
        for edit in (
            lambda: text.insert(1, f"one {HEBREW} " * 1000),
            lambda: text.insert(5000, "y"),
            lambda: text.insert(5001, "\n"),
            lambda: text.delete(10, 7000),
            lambda: text.insert(9, "z"),
            lambda: text.delete(0, text.counts.characters),
            lambda: text.insert(0, f"two {HEBREW}"),
        ):
            edit()
            assert state_of(text) == state_of(fresh(text.text(), 700))


def test_separators_are_joined_and_split():
    for start, edit in (
        ("a\r", lambda text: text.insert(2, "\nb")),
        ("a\r\nb", lambda text: text.insert(2, "x")),
        ("a\rx\nb", lambda text: text.delete(2, 1)),
        ("a\r\nb", lambda text: text.delete(1, 1)),
        ("\nb", lambda text: text.insert(0, "a\r")),
        ("\r\n", lambda text: text.replace(0, 2, "\n\r")),
        ("a\u2029b\x85", lambda text: text.delete(0, 4)),
    ):
        with Session(start, 20, measure=Recorder()) as text:
            edit(text)
            assert state_of(text) == state_of(fresh(text.text(), 20))


def test_a_width_change_measures_nothing():
    measure = Recorder()
    with Session("one two", 30, measure=measure) as text:
        measure.calls.clear()
        text.width = 100_000
        text.set_measured_width(9)
        text.set_width(12)
        assert measure.calls == [] and state_of(text) == state_of(fresh("one two", 12))


def test_any_whole_numbers_are_advances():
    class Whole:
        def __index__(self):
            return 7

    for returned in ([7, Whole()], (7, 7), iter((7, 7)), {7: 0, Whole(): 0}, range(7, 9), b"\x07\x07", itertools.repeat(7, 2)):
        with Session("ab", 100, measure=lambda paragraph: returned) as text:
            assert text[0].width in (14, 15)


def test_a_damage_has_the_lines_that_are_measured():
    with Session("one two\nthree", 50, measure=tens) as text:
        before = text.lines()
        damage = text.insert(4, "and ")
        assert damage == Damage(0, 2, 3, 0, 1, 1) and text.lines() == ["one", "and", "two", *before[2:]]
        assert text.delete(0, len(text.text())) == Damage(0, 4, 0, 0, 2, 0) and text.lines() == []


def test_changed_lines_are_those_of_the_edit_and_its_advances():
    with Session("one two six\nthree", 50, measure=tens) as text:
        assert text.changed_lines == ChangedLines(0, 0, 4)
        text.insert(5, "o")
        assert text.changed_lines == ChangedLines(1, 1, 1)
        with pytest.raises(IndexError):
            text.insert(99, "x")
        assert text.changed_lines == ChangedLines(1, 1, 1)
        text.set_advances(15, [20])
        assert text.changed_lines == ChangedLines(3, 1, 2)
        text.width = 1000
        assert text.changed_lines == ChangedLines(0, 5, 2)


def test_the_advances_of_a_set_call_stay_until_the_paragraph_changes():
    with Session("ab\ncd\nef", 1000, measure=tens) as text:
        text.set_advances(1, [40, 0, 50, 60, 0, 70])
        assert [line.width for line in text] == [50, 110, 80]
        text.set_advances(0, [])
        text.insert(3, "x\n")  # (adjoins the first two paragraphs)
        assert [line.width for line in text] == [50, 10, 110, 80]
        text.insert(6, "y")
        assert [line.width for line in text] == [50, 10, 30, 80]
        text.set_advances(7, [30])
        text.set_advances(0, [1, 2])
        assert [line.width for line in text] == [3, 10, 50, 80]


def test_tables_may_be_closed_before_the_session_measures_again():
    tables, measure = hordguli.Tables(unicode="17.0"), Recorder()
    with Session("a", 80, tables=tables, measure=measure) as text:
        tables.close()
        text.insert(1, "\n\U00010d5a")
        assert measure.calls[-1] == ParagraphText("\U00010d5a", 1, (Run(0, 1, 1),))
        text.insert(3, "\U00010d5a")
        assert measure.calls[-1] == ParagraphText("\U00010d5a\U00010d5a", 1, (Run(0, 2, 1),))


def test_other_tables_may_have_other_separators(files):
    latin = re.compile(rb"(?m)^0041\.\.005A.*$")
    assert len(latin.findall(files[0])) == 1
    changed = latin.sub(b"0041..0057 ; L\n0058 ; B\n0059..005A ; L", files[0])
    measure = Recorder()
    with hordguli.Tables([changed, *files[1:]]) as tables, Session("ab", 80, tables=tables, measure=measure) as text:
        assert text.insert(1, "X").new_paragraphs == 2
        assert [one.text for one in measure.calls] == ["ab", "aX", "b"]


@pytest.mark.parametrize("version", ["15.0", "17.0"])
@settings(max_examples=400)
@given(
    changed_texts,
    st.integers(1, 200),
    options,
    st.lists(st.tuples(st.integers(0, 60), st.integers(0, 10), texts), max_size=8),
)
def test_measured_edits_equal_advances_that_are_set(version, start, width, option, edits):
    model, tables, measure = start, hordguli.default_tables(version), Recorder()
    with Session(start, width, option, tables=tables, measure=measure) as text:
        assert measure.calls == paragraph_texts(model, option, tables)
        for pos, count, inserted in edits:
            pos = min(pos, len(model))
            count = min(count, len(model) - pos)
            before, old, old_spans, growth = list(text), model, spans(model), len(inserted) - count
            measure.calls.clear()
            damage = text.replace(pos, count, inserted)
            model = model[:pos] + inserted + model[pos + count :]
            with fresh(model, width, option, tables) as other:
                assert text.text() == model and state_of(text) == state_of(other)
            is_old = lambda start, end: (start, end) in old_spans if end <= pos else start >= pos + len(inserted) and (start - growth, end - growth) in old_spans
            new = [one for one, span in zip(paragraph_texts(model, option, tables), spans(model)) if not is_old(*span)]
            assert measure.calls == ([] if model == old else new)
            same = lambda lines: [line._replace(start=0) for line in lines]
            after = list(text)
            assert same(after[: damage.first_line]) == same(before[: damage.first_line])
            assert same(after[damage.first_line + damage.new_lines :]) == same(before[damage.first_line + damage.old_lines :])
            first, old_lines, new_lines = text.changed_lines
            assert damage.first_line <= first and first + old_lines <= damage.first_line + damage.old_lines
            assert same(after[:first]) == same(before[:first])
            assert same(after[first + new_lines :]) == same(before[first + old_lines :])


# ---- Errors ----

TOO_WIDE = [(1 << 32) - 1, 1, 0]
WRONG = {
    "too few": ([1], "measure returned 1 advances for 3 characters"),
    "none": ([], "measure returned 0 advances for 3 characters"),
    "too many": ([1] * 4, "measure returned too many advances for 3 characters"),
    "infinitely many": (itertools.repeat(1), "measure returned too many advances for 3 characters"),
    "a negative one": ([1, -1, 1], "advance -1 is out of range"),
    "one of more than 32 bits": ([1, 1 << 32, 1], "advance 4294967296 is out of range"),
    "a fraction": ([1, 1.0, 1], "measure returned 'float' object as an advance"),
    "a string": ("abc", "measure returned 'str' object as an advance"),
    "no value": ([1, None, 1], "measure returned 'NoneType' object as an advance"),
    "no advances": (None, "measure returned 'NoneType' object, not advances"),
    "a number": (7, "measure returned 'int' object, not advances"),
    "advances that are too wide together": (TOO_WIDE, "the advances of a paragraph add up to 4294967296"),
}


@pytest.mark.parametrize("name", WRONG)
def test_what_is_not_an_advance_per_character_is_refused(name):
    given, message = WRONG[name]
    returned = [given]
    with pytest.raises(ValueError) as caught:
        Session("abc", 100, measure=lambda _: given)
    assert str(caught.value) == message
    with pytest.raises(ValueError):
        hordguli.wrap("abc", 100, measure=lambda _: given)
    with Session("one\n", 100, measure=lambda paragraph: returned[0] if paragraph.text == "abc" else tens(paragraph)) as text:
        before = state_of(text)
        for edit in (lambda: text.insert(4, "abc"), lambda: text.replace(0, 4, "x\ny\nabc"), lambda: text.replace(0, 4, "abc")):
            with pytest.raises(ValueError) as caught:
                edit()
            assert str(caught.value) == message and state_of(text) == before
        returned[0] = [10, 10, 10]
        text.replace(0, 4, "abc")
        assert text.lines() == ["abc"] and text[0].width == 30


def test_the_greatest_advances_are_accepted():
    with Session("abc", 1, measure=lambda _: [(1 << 32) - 2, 1, 0]) as text:
        assert [line.width for line in text] == [(1 << 32) - 2, 1]


def test_wide_paragraphs_are_not_joined():
    with Session("a\nb", 1, measure=lambda paragraph: [1 << 31, 0][: len(paragraph.text)] if len(paragraph.text) < 3 else [0] * len(paragraph.text)) as text:
        before = state_of(text)
        with pytest.raises(ValueError) as caught:
            text.replace(1, 1, "--")
        assert str(caught.value) == "paragraph too long" and state_of(text) == before
        text.insert(3, "\n\n\n")
        assert text.counts.paragraphs == 4


@pytest.mark.parametrize("error", [KeyError, TypeError, RuntimeError, MemoryError, KeyboardInterrupt, StopIteration])
def test_an_exception_leaves_the_session_as_it_was(error):
    def fail(paragraph):
        raise error("x")

    def fail_later(paragraph):
        yield 1
        raise error("x") if error is not StopIteration else RuntimeError("x")

    for measure in (fail, fail_later):
        is_failing = False
        with Session("one two\nthree", 50, measure=lambda paragraph: measure(paragraph) if is_failing else tens(paragraph)) as text:
            text.set_advances(0, [20])
            before = state_of(text)
            is_failing = True
            for edit in (
                lambda: text.insert(0, "x"),
                lambda: text.insert(13, "\nx"),
                lambda: text.delete(7, 1),
                lambda: text.replace(2, 8, "a\nb"),
            ):
                with pytest.raises((error, RuntimeError)) as caught:
                    edit()
                assert caught.value.args == ("x",) and state_of(text) == before
            assert not text.closed
            text.delete(0, 13)
            assert text.text() == ""
        with pytest.raises((error, RuntimeError)):
            Session("abc", 50, measure=measure)


def test_a_failing_edit_measures_nothing():
    measure = Recorder()
    with Session("ab", 50, measure=measure) as text:
        text.insert(2, "c")
        measure.calls.clear()
        for error, edit, message in (
            (IndexError, lambda: text.insert(4, "x"), "position 4 is out of range"),
            (IndexError, lambda: text.insert(-1, "x"), "-1 is out of range"),
            (IndexError, lambda: text.delete(1, 3), "3 characters from 1 on are out of range"),
            (IndexError, lambda: text.replace(4, 0, ""), "0 characters from 4 on are out of range"),
            (ValueError, lambda: text.insert(0, "x" * (1 << 20)), "paragraph too long"),
            (ValueError, lambda: text.insert(0, "x\n" * (1 << 23)), "text too long"),
            (UnicodeEncodeError, lambda: text.insert(0, "\ud800"), None),
        ):
            with pytest.raises(error) as caught:
                edit()
            assert message in (None, str(caught.value)) and measure.calls == [] and text.text() == "abc"
    with pytest.raises(hordguli.ClosedError):
        text.insert(0, "x")
    text = Session("ab", 50, measure=measure)
    text.insert(2, "c")
    measure.calls.clear()
    text._handle._reset()  # (as in a forked child, if another thread was using the session)
    with pytest.raises(hordguli.ClosedError):
        text.insert(0, "x")
    for width in (0, 1 << 31):
        with pytest.raises(ValueError):
            Session("abc", width, measure=measure)
    assert measure.calls == []


USES = {
    "insert": lambda text: text.insert(0, "x"),
    "delete": lambda text: text.delete(0, 1),
    "replace": lambda text: text.replace(0, 1, "x"),
    "set_advances": lambda text: text.set_advances(0, [1]),
    "set_width": lambda text: text.set_width(9),
    "width": lambda text: text.width,
    "text": lambda text: text.text(),
    "lines": lambda text: text.lines(),
    "a line": lambda text: text[0],
    "lines in a loop": lambda text: list(text),
    "caret": lambda text: text.caret(0),
    "close": lambda text: text.close(),
    "with": lambda text: text.__exit__(None, None, None),
}


@pytest.mark.parametrize("name", USES)
def test_measure_must_not_use_its_session(name):
    call, errors = USES[name], []

    def use(paragraph):
        if text is not None:
            call(text)
        return tens(paragraph)

    def use_later(paragraph):
        for advance in tens(paragraph):
            if text is not None:
                call(text)
            yield advance

    def use_and_go_on(paragraph):
        try:
            return use(paragraph)
        except RuntimeError as error:
            errors.append(error)
            return tens(paragraph)

    for measure in (use, use_later):
        text = None
        text = Session("abc\ndef", 50, measure=measure)
        before = state_of(text)
        with pytest.raises(RuntimeError) as caught:
            text.insert(1, "x")
        assert str(caught.value) == "a function `measure` must not use the session that calls it"
        assert state_of(text) == before and not text.closed
    text = None
    text = Session("abc\ndef", 50, measure=use_and_go_on)
    text.insert(1, "x")
    assert len(errors) == 1 and text.text() == "axbc\ndef" and state_of(text) == state_of(Session("axbc\ndef", 50, measure=tens))


def test_measure_may_use_another_session():
    with Session("abc", 50, measure=tens) as other:
        with Session("ab", 50, measure=lambda paragraph: [other[0].width, len(hordguli.wrap("a b", 1))][: len(paragraph.text)]) as text:
            assert text[0].columns == (30, 2)


def test_other_threads_wait_until_the_edit_ends():
    threads, found = [], []

    def measure(paragraph):
        if paragraph.text == "new":
            threads.append(threading.Thread(target=lambda: found.append(text.lines())))
            threads[0].start()
            threads[0].join(0.3)
            assert found == []
        return tens(paragraph)

    with Session("old", 50, measure=measure) as text:
        text.replace(0, 3, "new")
        threads[0].join(20)
        assert found == [["new"]]


def test_an_edit_that_fails_halfway_is_undone():
    with Session(f"ab\n{HEBREW}\ncd", 25, measure=Recorder()) as text:
        text.set_advances(1, [30, 0, 40])
        setting, before = text._set_advances, state_of(text)
        for edit in (lambda: text.insert(1, "x\n"), lambda: text.delete(1, 3), lambda: text.replace(0, 9, "y"), lambda: text.delete(0, 9)):
            fails = iter((True,))

            def set_or_fail(pos, data):
                if next(fails, False):
                    raise MemoryError
                return setting(pos, data)

            text._set_advances = set_or_fail
            with pytest.raises(MemoryError):
                edit()
            del text._set_advances
            assert state_of(text) == before
        text.delete(4, 1)
        text.set_advances(0, [advance for one in paragraph_texts(text.text(), Options.WEAK_LTR) for advance in Recorder()(one)])
        assert state_of(text) == state_of(fresh(text.text(), 25))


@pytest.mark.parametrize("interrupted", ["hordguli_insert", "hordguli_delete", "hordguli_replace", "hordguli_set_advances"])
def test_an_interrupted_edit_is_undone(interrupted):
    """`KeyboardInterrupt` is raised after the call of the library during which the key is pressed."""
    for edit in (lambda: text.insert(1, "x\n"), lambda: text.delete(1, 3), lambda: text.replace(0, 2, "yz"), lambda: text.replace(0, 2, "ab")):
        text, interrupts = Session(f"ab\n{HEBREW}\ncd", 25, measure=Recorder()), [True]
        text.set_advances(1, [30, 0, 40])
        before, call = state_of(text), text._call

        def call_and_interrupt(function, *arguments):
            status = call(function, *arguments)
            if function is getattr(_library.library, interrupted) and interrupts and interrupts.pop():
                raise KeyboardInterrupt
            return status

        text._call = call_and_interrupt
        try:
            edit()
        except KeyboardInterrupt:
            assert state_of(text) == before
        else:
            assert interrupts


def test_a_session_is_closed_if_an_edit_cannot_be_undone():
    def fail(pos, data):
        raise MemoryError

    with Session("ab", 25, measure=tens) as text:
        text._set_advances = fail
        with pytest.raises(MemoryError):
            text.insert(1, "x")
        assert text.closed


# ---- wrap ----


def test_wrap_measures():
    assert hordguli.wrap(f"one two {HEBREW}", 40, measure=tens) == ["one", "two", HEBREW[::-1]]
    assert hordguli.wrap("one two", 100_000, measure=tens) == ["one two"] and hordguli.wrap("", 9, measure=tens) == []
    assert hordguli.wrap("one two", 40, Options.NOBREAK, measure=tens) == ["one two"]
    assert hordguli.wrap(HEBREW, 50, Options.LTR, hordguli.Print.LEVELS, measure=tens) == ["1 1 1"]
    with hordguli.Tables(unicode="17.0") as tables:
        assert hordguli.wrap("ls -v", 40, tables=tables, measure=tens) == ["ls", "-v"]
    with pytest.raises(TypeError):
        hordguli.wrap("a", 40, show=Options.NOBREAK, measure=tens)
    with pytest.raises(TypeError):
        hordguli.wrap("a", 40, hordguli.Print.LEVELS, measure=tens)
