"""Threads, fork, the garbage collector and failed allocations."""

import ctypes
import gc
import os
import random
import subprocess
import sys
import threading
import time

import hordguli
import pytest
from conftest import measured, measuring, state_of, tens

HEBREW = "\u05d0\u05d1\u05d2"


def in_threads(count, call):
    """Runs a call in several threads, and returns what they return. Fails if one of them fails."""
    found = []
    threads = [threading.Thread(target=lambda number=number: found.append(call(number))) for number in range(count)]
    for thread in threads:
        thread.start()
    for thread in threads:
        thread.join(60)
    assert len(found) == count
    return found


def test_threads_share_a_session():
    with hordguli.Session("", width=9) as text:

        def edit(number):
            for k in range(300):
                text.insert(0, f"{number} {HEBREW}\n")
                text.lines(0, 1)
                text[0].runs
                text.text()

        in_threads(8, edit)
        lines = text.text().split("\n")[:-1]
        assert sorted(lines) == sorted(f"{number} {HEBREW}" for number in range(8) for _ in range(300))
        with hordguli.Session(text.text(), width=9) as fresh:
            assert state_of(text) == state_of(fresh)


def test_threads_share_tables():
    text = f"ab {HEBREW} (x) " * 50
    wanted = hordguli.display(text), hordguli.levels(text), hordguli.wrap(text)
    found = in_threads(8, lambda _: [(hordguli.display(text), hordguli.levels(text), hordguli.wrap(text)) for _ in range(100)])
    assert all(one == wanted for many in found for one in many)


def test_a_session_is_in_one_call_at_a_time():
    """Without the lock, the library finds the handle empty while a call has the session, and reports that it is closed."""
    with hordguli.Session("x " * 200_000, width=80) as text:
        widths = in_threads(4, lambda number: [text.set_width(20 + number + k) for k in range(8)])
        assert len(widths) == 4 and text.counts.characters == 400_000


def test_a_session_may_be_closed_by_another_thread():
    text = hordguli.Session("abc")
    in_threads(1, lambda _: text.close())
    with pytest.raises(hordguli.ClosedError):
        text.lines()


def test_finalizers_run_on_any_thread():
    for _ in range(50):
        kept = [hordguli.Session("abc\n" * 20), hordguli.Tables()]
        kept.append(kept)  # a cycle, which the collector finds
        del kept
        in_threads(2, lambda _: (gc.collect(), hordguli.wrap("abc")))


def in_new_process(call, **environment):
    """Returns what a function of this module prints in a new process."""
    here = os.path.dirname(os.path.abspath(__file__))
    code = f"import sys; sys.path.insert(0, {here!r}); import test_lifetimes; test_lifetimes.{call}"
    ran = subprocess.run([sys.executable, "-c", code], env={**os.environ, **environment}, stdout=subprocess.PIPE, stderr=subprocess.STDOUT)
    assert ran.returncode == 0, ran.stdout.decode()
    return ran.stdout.decode()


def drop_session():
    hordguli.Session("ab \u05d0\n" * 50).insert(0, "x")


def print_growth(drop, count):
    """Prints by how many bytes the resident memory grows if something is opened and dropped `count` times."""

    def memory():
        with open("/proc/self/statm") as file:
            return int(file.read().split()[1]) * os.sysconf("SC_PAGE_SIZE")

    for _ in range(count // 10):
        drop()
    before = memory()
    for _ in range(count):
        drop()
    print(memory() - before)


def test_dropped_sessions_are_freed():
    assert int(in_new_process("print_growth(test_lifetimes.drop_session, 10_000)")) < 2_000_000


def test_dropped_tables_are_freed():
    assert int(in_new_process("print_growth(test_lifetimes.hordguli.Tables, 50)")) < 2_000_000


def test_a_session_that_fails_to_open_is_freed():
    with pytest.raises(UnicodeEncodeError):
        hordguli.Session("\ud800")
    gc.collect()
    assert hordguli.wrap("a") == ["a"]


def forked(call):
    """Returns whether a call returns true in a forked child, which has 20 seconds."""
    child = os.fork()
    if child == 0:
        try:
            os._exit(0 if call() else 1)
        finally:
            os._exit(2)
    for _ in range(200):
        pid, status = os.waitpid(child, os.WNOHANG)
        if pid:
            return status == 0
        time.sleep(0.1)
    os.kill(child, 9)
    os.waitpid(child, 0)
    return False


def test_a_child_has_its_own_sessions():
    with hordguli.Session(f"ab {HEBREW}") as text:
        assert forked(lambda: text.insert(0, "x") and text.text() == f"xab {HEBREW}" and hordguli.display(HEBREW) == HEBREW[::-1])
        assert text.text() == f"ab {HEBREW}"


class Busy:
    """A thread that holds the lock of a handle, as during a call, while another thread forks."""

    def __init__(self, handle):
        self.handle, self.has_it, self.ends = handle, threading.Event(), threading.Event()
        self.thread = threading.Thread(target=self.hold)

    def hold(self):
        with self.handle.lock:
            self.has_it.set()
            self.ends.wait(30)

    def __enter__(self):
        self.thread.start()
        self.has_it.wait(30)

    def __exit__(self, *_):
        self.ends.set()
        self.thread.join()


def raises_closed(call):
    try:
        call()
    except hordguli.ClosedError:
        return True
    return False


def test_a_child_does_not_use_what_another_thread_was_using():
    text, other = hordguli.Session("abc"), hordguli.Session("xyz")
    with Busy(text._handle):
        assert forked(lambda: raises_closed(lambda: text.lines()) and text.closed and other.text() == "xyz")
    assert text.text() == "abc"


def test_a_child_reads_the_default_tables_again_if_they_were_in_use():
    tables = hordguli.default_tables()
    with Busy(tables._handle):
        assert forked(lambda: hordguli.display(HEBREW) == HEBREW[::-1] and hordguli.default_tables() is not tables)
    assert hordguli.default_tables() is tables


def test_a_fork_inside_a_lock_of_its_own_thread_keeps_the_handle():
    text = hordguli.Session("abc")
    with text._handle.lock:
        assert forked(lambda: text.text() == "abc")


def test_forks_during_calls_of_other_threads():
    text = hordguli.Session("abc " * 20_000)
    ends = threading.Event()

    def work():
        while not ends.is_set():
            text.set_width(random.randint(5, 80))
            hordguli.display(HEBREW)

    threads = [threading.Thread(target=work) for _ in range(2)]
    for thread in threads:
        thread.start()
    try:
        for _ in range(20):
            assert forked(lambda: hordguli.display(HEBREW) == HEBREW[::-1] and (text.closed or text.counts.characters == 80_000))
    finally:
        ends.set()
        for thread in threads:
            thread.join()


# ---- Failed allocations ----

EDITS = {
    "insert": lambda text: text.insert(2, f"x{HEBREW}\ny"),
    "delete": lambda text: text.delete(2, 4),
    "replace": lambda text: text.replace(1, 5, HEBREW),
    "set_width": lambda text: text.set_width(5),
    "lines": lambda text: text.lines(),
    "utf8": lambda text: text.utf8(),
    "cluster": lambda text: text.cluster(1),
    "word": lambda text: text.word(3),
    "line_clusters": lambda text: text.line_clusters(0),
    "edge_caret": lambda text: text.edge_caret(hordguli.Edge(1)),
    "step": lambda text: text.step(hordguli.Edge(1), hordguli.Direction.LEFT),
    "edge_at": lambda text: text.edge_at(0, 0),
    "nearest_edge": lambda text: text.nearest_edge(0, 0),
}
MEASURED_EDITS = {
    "set_advances": lambda text: text.set_advances(2, range(1, 8)),
    "set_measured_width": lambda text: text.set_measured_width(35),
    "delete from a measured session": lambda text: text.delete(9, 1),
}
MEASURING_EDITS = {
    "insert in a session that measures": lambda text: text.insert(2, f"x{HEBREW}\ny"),
    "delete in a session that measures": lambda text: text.delete(2, 4),
    "a join in a session that measures": lambda text: text.delete(9, 1),
    "replace in a session that measures": lambda text: text.replace(1, 5, HEBREW),
    "replace of all in a session that measures": lambda text: text.replace(0, 12, "a\nb\n"),
    "set_advances in a session that measures": lambda text: text.set_advances(2, range(1, 8)),
}
FUNCTIONS = {
    "Session that measures": lambda: hordguli.Session(f"ab {HEBREW}\nc", 30, measure=tens).text(),
    "wrap that measures": lambda: hordguli.wrap(f"ab {HEBREW}\nc", 30, measure=tens),
    "open_measured": lambda: hordguli.Session.open_measured(f"ab {HEBREW}", 9).text(),
    "Session": lambda: hordguli.Session(f"ab {HEBREW}", 9).text(),
    "Tables": lambda: hordguli.Tables().closed,
    "Tables of Unicode 17.0": lambda: hordguli.Tables(unicode="17.0").closed,
    "display": lambda: hordguli.display(f"ab {HEBREW} (1)"),
    # (the tables keep no memory after a long text, so the second call allocates)
    "wrap": lambda: [hordguli.wrap(text, 5) for text in ("ab " * 30_000, f"ab {HEBREW} (1)")][1],
    "breaks": lambda: hordguli.breaks("a b"),
    "reasons": lambda: hordguli.reasons(f"ab {HEBREW} (1)"),
    "break_reasons": lambda: hordguli.break_reasons("a b"),
    "row": lambda: hordguli.row("a b", [0, 1, 0]),
    "row_runs": lambda: hordguli.row_runs("a b", [0, 1, 0]),
    "script_runs": lambda: hordguli.script_runs("a \u05d0"),
    "clusters": lambda: hordguli.clusters("e\u0301a"),
}


def refusals(shim, call, check):
    """Makes each allocation of the C library fail in turn, until a call succeeds. Returns its result and how many failed."""
    for number in range(1, 10_000):
        shim.refuse(number)
        try:
            result = call()
        except MemoryError:
            check()
        else:
            return result, number - 1
        finally:
            shim.refuse(0)
    raise AssertionError("it always fails")


def refuse_each():
    """Runs in a process that preloads refuse.c."""
    shim = ctypes.CDLL(None)
    hordguli.default_tables()
    total = 0
    for name, call in FUNCTIONS.items():
        wanted = call()
        found, count = refusals(shim, call, lambda: call())
        assert found == wanted and count > 0, name
        total += count
    start = f"e\u0301 {HEBREW} cd\nef"
    opened = [(hordguli.Session, 80, *edit) for edit in EDITS.items()] + [(measured, 80, *edit) for edit in MEASURED_EDITS.items()]
    opened += [(measuring, 35, *edit) for edit in MEASURING_EDITS.items()]
    for kind, width, name, call in opened:
        with kind(start, width) as text, kind(start, width) as other:
            before = state_of(text)
            found, count = refusals(shim, lambda: call(text), lambda: state_of(text) == before or 1 / 0)
            assert found == call(other) and state_of(text) == state_of(other) and count > 0, name
            total += count
    print(total, "refused")


def test_refused_memory_raises_and_changes_nothing(tmp_path):
    here, shim = os.path.dirname(os.path.abspath(__file__)), tmp_path / "refuse.so"
    subprocess.run(["cc", "-shared", "-fPIC", "-O1", "-Wall", "-Werror", "-o", shim, f"{here}/refuse.c", "-ldl"], check=True)
    assert in_new_process("refuse_each()", LD_PRELOAD=str(shim)).endswith("refused\n")
