"""The exceptions, and the statuses of the C library that raise them.

tools/generate_declarations writes the lines below the comment `from hordguli.h`.
"""

import enum
import os
from typing import Any, Optional

from ._declarations import CLOSED, FUNCTIONS, NO_MEMORY, NOT_MEASURED, OK, OUT_OF_RANGE, UNKNOWN_OPTION
from ._library import library
from ._records import Options, Print, Side


class ClosedError(ValueError):
    """The session or the tables are closed.

    Also raised in a forked child for what another thread was using during the fork.
    """


class NotMeasuredError(ValueError):
    """The session is not measured: it was opened without a function `measure`, and not by `Session.open_measured`."""


class Cause(enum.IntEnum):
    """Why a line of a table file or an image is refused. `UNREAD_FILE`: the file cannot be read, and there is no line.

    The causes from `TRUNCATED` on are those of an image.
    """

    UNREAD_FILE = 0
    # from hordguli.h: HORDGULI_CAUSE_*
    NOT_ASCII = 1
    CODE_POINT = 2
    REVERSED = 3
    FIELD_COUNT = 4
    VALUE = 5
    NAMED_BEFORE = 6
    TRUNCATED = 8
    MAGIC = 9
    FORMAT = 10
    VERSION = 11
    EXCESS = 12
    CHECKSUM = 13
    PAGE_NUMBER = 14
    ENTRY = 15
    BRACKET = 16
    MIRROR = 17
    FLAGS = 18


class TableError(ValueError):
    """A table file cannot be read, one of its lines is malformed, or bytes are not an image.

    `file` is the file's name (`image` for an image), `line` the number of the line, from 1 (0 if there is none), and `cause` a
    `Cause`. `folder` is the path of the folder, or `None` if the contents of files or an image were given.
    """

    def __init__(self, file: str, line: int, cause: Cause, folder: Optional[str] = None) -> None:
        super().__init__(file, line, cause, folder)
        self.file, self.line, self.cause, self.folder = file, line, cause, folder

    def __str__(self) -> str:
        path = self.file if self.folder is None else os.path.join(self.folder, self.file)
        if self.cause is Cause.UNREAD_FILE:
            return f"cannot read {path}"
        place = f"{path}:{self.line}" if self.line else path
        return f"{place}: {self.cause.name.lower().replace('_', ' ')}"


_EXCEPTIONS: dict[int, type[Exception]] = {
    OUT_OF_RANGE: IndexError,
    NO_MEMORY: MemoryError,
    CLOSED: ClosedError,
    NOT_MEASURED: NotMeasuredError,
}
# What messages call the first parameter after the handle, by the parameter's name in C.
_NOUNS = {"pos": "position", "line": "line", "paragraph": "paragraph", "byte": "byte", "unit": "UTF-16 code unit"}


def check(status: int, function: Any = None, *arguments: Any) -> None:
    """Raises the exception for a status, unless it is OK. The default is `ValueError`.

    `arguments` are the function's arguments that follow the handle. The message has the values that are out of range or not accepted.
    """
    if status != OK:
        raise _EXCEPTIONS.get(status, ValueError)(_message(status, getattr(function, "__name__", ""), arguments))


def _message(status: int, function: str, arguments: tuple[Any, ...]) -> str:
    names = list(FUNCTIONS[function][1])[1:] if function in FUNCTIONS else []
    flags = [one for one in arguments if isinstance(one, (Options, Print))]
    if status == OUT_OF_RANGE and names[:2] == ["pos", "count"]:
        return f"{arguments[1]} characters from {arguments[0]} on are out of range"
    if status == OUT_OF_RANGE and names[:1] == ["edge"]:
        return f"the edge {Side(arguments[0].side).name.lower()} position {arguments[0].pos} is out of range"
    if status == OUT_OF_RANGE and names and names[0] in _NOUNS:
        return f"{_NOUNS[names[0]]} {arguments[0]} is out of range"
    if status == UNKNOWN_OPTION and flags:
        if isinstance(flags[0], Options) and flags[0] & flags[0] >> 24 & 3:  # (a bit is given as 0 and as 1)
            return f"different directions: {flags[0]!r}"
        return f"not accepted: {', '.join(map(repr, flags))}"
    return str(library.hordguli_status_text(status), "ascii")
