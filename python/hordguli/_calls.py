"""How calls of the C library are made: handles with their locks, buffers, and results."""

import ctypes
import operator
import os
import sys
import threading
import weakref
from array import array
from collections.abc import Iterable
from ctypes import Structure, byref, c_size_t
from itertools import islice
from struct import calcsize
from typing import Any, Callable, NoReturn, Optional, SupportsIndex, TypeVar

from ._declarations import NO_ROOM, OK
from ._errors import check
from ._library import SIZE_MAX
from ._records import FORMATS, BracketCase, Break, Direction, NeutralRule, Options, ParagraphText, Print, Side

Flags = TypeVar("Flags", Options, Print)
Record = TypeVar("Record", bound=tuple[Any, ...])
Result = TypeVar("Result")
Call = Callable[..., int]  # a function of the C library, or `Handle.call`
Measure = Callable[[ParagraphText], Iterable[SupportsIndex]]
_MOST_ADVANCES = 4_294_967_295  # of a paragraph, together
_INT = frozenset({int})
_ENUMERATIONS = Options, Print, Break, Side, Direction, BracketCase, NeutralRule
_TAKES_FLOATS = sys.version_info < (3, 10)  # of arrays of integers
_REFUSED = "a function `measure` must not use the session that calls it"


class Handle:
    """A handle of the C library, which is in one call at a time. The object's finalizer closes it, on any thread."""

    def __init__(self, kind: type[Structure], close: Callable[[Any], None]) -> None:
        self._kind, self._close = kind, close
        # (reentrant: in a thread that holds the lock, a signal handler or a finalizer may use the handle)
        self.lock = threading.RLock()
        self._reset()
        _handles.add(self)

    def _reset(self) -> None:
        self.closed, self.pointer = True, byref(self._kind())
        self._is_refused = False

    def open(self, function: Call, *arguments: Any) -> int:
        """Calls a function that opens the handle, and returns the status."""
        status = self.call(function, *arguments)
        self.closed = status != OK
        return status

    def call(self, function: Call, *arguments: Any) -> int:
        """Calls a function with the handle as its first argument, and returns the status."""
        with self.lock:
            if self._is_refused:
                raise RuntimeError(_REFUSED)
            return function(self.pointer, *arguments)

    def run_refusing(self, call: Callable[..., Result], *arguments: Any) -> Result:
        """Makes a call. Using the handle during this call raises `RuntimeError`, but other threads wait."""
        with self.lock:
            self._is_refused = True
            try:
                return call(*arguments)
            finally:
                self._is_refused = False

    def close(self) -> None:
        with self.lock:
            if self._is_refused:
                raise RuntimeError(_REFUSED)
            self.closed = True
            self._close(self.pointer)

    __del__ = close

    def close_if_in_use(self) -> None:
        """Closes the handle in a forked child if another thread was using it. What the handle held is not freed."""
        if self.lock.acquire(blocking=False):
            self.lock.release()
        else:
            self.lock = threading.RLock()
            self._reset()


_handles: "weakref.WeakSet[Handle]" = weakref.WeakSet()


def _after_fork() -> None:
    for handle in list(_handles):
        handle.close_if_in_use()


os.register_at_fork(after_in_child=_after_fork)


def size(number: SupportsIndex) -> int:
    """Returns a position, count, line or column as an `int`. Raises `IndexError` if it does not fit a `size_t`."""
    value = operator.index(number)
    if not 0 <= value <= SIZE_MAX:
        raise IndexError(f"{value} is out of range")
    return value


def uint32(number: SupportsIndex, name: str) -> int:
    """Returns a number as an `int`. Raises `ValueError` if it does not fit a `uint32_t`."""
    value = operator.index(number)
    if not 0 <= value < 1 << 32:
        raise ValueError(f"{name} {value} is out of range")
    return value


def uint32s(given: Iterable[SupportsIndex], name: str) -> "array[int]":
    """Returns numbers as an array of `uint32_t`. Raises `ValueError` if one does not fit."""
    numbers: list[Any] = list(given)
    try:
        if _TAKES_FLOATS and not _INT.issuperset(map(type, numbers)):
            raise TypeError
        return array("I", numbers)
    except (TypeError, OverflowError):
        return array("I", [uint32(number, name) for number in numbers])  # (raises the error for the wrong number)


def advances_of(measure: Measure, paragraph: ParagraphText) -> bytes:
    """Calls a function `measure`. Returns its advances as an array of `uint32_t`. Raises `ValueError` if it returns anything else."""
    given, count = measure(paragraph), len(paragraph.text)
    if type(given) is list:
        found = given
    else:
        try:
            items = iter(given)
        except TypeError:
            raise ValueError(f"measure returned {type(given).__name__!r} object, not advances") from None
        found = list(islice(items, count + 1))  # (the items may be infinite)
    try:
        advances = uint32s(found, "advance")
    except TypeError:
        wrong = next((type(item).__name__ for item in found if not hasattr(item, "__index__")), "unknown")
        raise ValueError(f"measure returned {wrong!r} object as an advance") from None
    if len(advances) != count:
        raise ValueError(f"measure returned {'too many' if len(advances) > count else len(advances)} advances for {count} characters")
    if sum(advances) > _MOST_ADVANCES:
        raise ValueError(f"the advances of a paragraph add up to {sum(advances)}")
    return advances.tobytes()


def flags(kind: type[Flags], given: Flags, name: str) -> Flags:
    """Returns options or print flags. Accepts a plain number, but not a member of another enumeration of this package.

    Raises `TypeError` for such a member, and `ValueError` for a number that does not fit a `uint32_t`.
    """
    if isinstance(given, _ENUMERATIONS) and not isinstance(given, kind):
        raise TypeError(f"{name} must be {kind.__name__}, not {type(given).__name__}")
    return kind(uint32(given, name))


def refuse_copy(handled: object) -> NoReturn:
    """For `__reduce__`, which `copy` and `pickle` call: a copy would share the handle."""
    raise TypeError(f"cannot copy or pickle '{type(handled).__name__}' object")


def address(buffer: bytearray) -> Optional[Any]:
    """Returns a pointer to a buffer, for the C library to write to, or `None` if the buffer is empty."""
    return byref(ctypes.c_char.from_buffer(buffer)) if buffer else None


def numbers(buffer: bytearray, code: str) -> tuple[int, ...]:
    """Returns the numbers in a buffer. `code` is their type, as in `struct`."""
    return tuple(memoryview(buffer).cast(code))


def utf32(text: str) -> bytes:
    """Returns the characters as an array of `uint32_t`. Raises `UnicodeEncodeError` for a lone surrogate."""
    return text.encode("utf-32-le")


def text_of(buffer: bytes) -> str:
    """Returns the text of an array of `uint32_t`."""
    return buffer.decode("utf-32-le")


def make_call(call: Call, *arguments: Any) -> None:
    """Makes a call, and raises the exception for its status. With `Handle.call`, the first argument is the function."""
    check(call(*arguments), *arguments)


# Each of the following functions makes a call, and returns what the call stores through its last parameters.


def get_size(call: Call, *arguments: Any) -> int:
    result = c_size_t()
    make_call(call, *arguments, byref(result))
    return result.value


def get_record(kind: type[Record], call: Call, *arguments: Any) -> Record:
    layout = FORMATS[kind]
    buffer = bytearray(layout.size)
    status = call(*arguments, address(buffer))
    if status != OK:
        check(status, *arguments)
    return kind(*layout.unpack(buffer))


def get_array(item_size: int, call: Call, *arguments: Any, capacity: int = 16) -> bytearray:
    """For calls whose last parameters are a capacity, a buffer and a length. Repeats a call that needs more capacity."""
    length = c_size_t()
    while True:
        buffer = bytearray(capacity * item_size)
        status = call(*arguments, capacity, address(buffer), byref(length))
        if status != NO_ROOM:
            check(status, *arguments)
            return buffer[: length.value * item_size]
        capacity = length.value


def get_records(kind: type[Record], call: Call, *arguments: Any) -> list[Record]:
    layout = FORMATS[kind]
    return [kind(*fields) for fields in layout.iter_unpack(get_array(layout.size, call, *arguments))]


def get_info(kind: type[Record], length: str, codes: str, call: Call, *arguments: Any) -> tuple[Record, list[bytearray]]:
    """For calls whose last parameters are a record, a capacity, and arrays of as many items as the record's field `length`.

    `codes` has the type of each array, as in `struct`.
    """
    layout = FORMATS[kind]
    buffer = bytearray(layout.size)
    capacity = 0
    while True:
        arrays = [bytearray(capacity * calcsize(code)) for code in codes]
        status = call(*arguments, address(buffer), capacity, *map(address, arrays))
        if status != NO_ROOM:
            check(status, *arguments)
        record = kind(*layout.unpack(buffer))
        needed: int = getattr(record, length)
        if needed == capacity:
            return record, arrays
        capacity = needed
