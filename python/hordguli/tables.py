"""Tables of character properties."""

import ctypes
import os
from collections.abc import Sequence
from ctypes import byref, c_uint32
from types import TracebackType
from typing import Optional, Union

from ._calls import Handle, address, refuse_copy
from ._declarations import TABLE_FAULT, UNICODE_VERSIONS, UNREAD_FILE, RawBytes, RawTables
from ._declarations import TABLE_FILES as TABLE_FILES  # (is public here too)
from ._errors import Cause, TableError, check
from ._library import UNICODE_VERSION, library
from ._records import FORMATS, TableFault

_USUAL_CAPACITY = 1000
# (keeps `errno`, the reason why a file cannot be read; no other call needs it)
_open_folder = ctypes.CDLL(library._name, use_errno=True).hordguli_tables_open_folder_version
_open_folder.restype = library.hordguli_tables_open_folder_version.restype
_open_folder.argtypes = library.hordguli_tables_open_folder_version.argtypes


class Buffers:
    """What `display` needs for a paragraph of up to `capacity` characters. To use those of `Tables`, hold their lock."""

    def __init__(self, capacity: int) -> None:
        self.capacity = capacity
        self.base = c_uint32()
        self.base_pointer = byref(self.base)
        levels, visual = bytearray(capacity), bytearray(4 * capacity)
        self.levels, self.visual = address(levels), address(visual)
        self.view = memoryview(visual)


class Tables:
    """Character properties from the Unicode Character Database.

    Without `files`, these are the tables that the library contains. `files` is a folder that has the seven files named in
    `TABLE_FILES`, the contents of these files in this order, or the bytes of a compiled image.

    `unicode` is the Unicode version, "15.0" or "17.0", which selects the rules for levels and line breaks. If it is not given, it
    is 15.0, or that of the image.

    Raises `TableError` if a file cannot be read, if a file or the image is malformed, or if the image has another version. Raises
    `ValueError` for an unknown version. The `__cause__` of a `TableError` for an unread file is an `OSError`.

    Tables may be used in several threads, one call at a time. A session shares the tables that it was opened with, so they may
    be closed before it.

    >>> with hordguli.Tables() as tables:
    ...     hordguli.levels("abc", tables=tables)
    [0, 0, 0]
    """

    def __init__(
        self, files: Union[str, "os.PathLike[str]", bytes, Sequence[bytes], None] = None, *, unicode: Optional[str] = None
    ) -> None:
        version = _number(UNICODE_VERSION if unicode is None else unicode)
        self._handle = Handle(RawTables, library.hordguli_tables_close)
        self._is_builtin = files is None
        fault = bytearray(FORMATS[TableFault].size)
        folder: Optional[str] = None
        if files is None:
            status = self._handle.open(library.hordguli_tables_open_builtin_version, version)
        elif isinstance(files, bytes):
            status = self._handle.open(library.hordguli_tables_open_image, files, len(files), address(fault))
        elif isinstance(files, (str, os.PathLike)):
            folder = os.fsdecode(files)
            if "\0" in folder:
                raise ValueError(f"a path has a null character: {folder!r}")
            status = self._handle.open(_open_folder, version, os.fsencode(folder), address(fault))
        else:
            if len(files) != len(TABLE_FILES):
                raise ValueError(f"{len(files)} files are given, and {len(TABLE_FILES)} are needed")
            contents = (RawBytes * len(TABLE_FILES))(*[RawBytes(content, len(content)) for content in files])
            status = self._handle.open(library.hordguli_tables_read_version, version, contents, address(fault))
        if status in (TABLE_FAULT, UNREAD_FILE):
            file, line, cause = FORMATS[TableFault].unpack(fault)
            number = ctypes.get_errno()
            reason = OSError(number, os.strerror(number)) if status == UNREAD_FILE else None
            raise TableError((*TABLE_FILES, "image")[file], line, Cause(cause), folder) from reason
        check(status)
        if unicode is not None and self.unicode_version != unicode:
            self.close()
            raise TableError("image", 0, Cause.VERSION)
        self._buffers = Buffers(_USUAL_CAPACITY)

    __reduce__ = refuse_copy

    def close(self) -> None:
        """Frees the tables, once no session uses them. Safe to call again. Other calls then raise `ClosedError`."""
        self._handle.close()

    @property
    def closed(self) -> bool:
        """Whether the tables are closed."""
        return self._handle.closed

    @property
    def unicode_version(self) -> str:
        """The Unicode version of the tables, "15.0" or "17.0"."""
        number = c_uint32()
        check(self._handle.call(library.hordguli_tables_version, byref(number)))
        return next(name for name, its in UNICODE_VERSIONS.items() if its == number.value)

    def __enter__(self) -> "Tables":
        return self

    def __exit__(
        self, kind: Optional[type[BaseException]], error: Optional[BaseException], traceback: Optional[TracebackType]
    ) -> None:
        self.close()


def _number(unicode: str) -> int:
    """Returns the number of a Unicode version. Raises `ValueError` for an unknown version."""
    if unicode not in UNICODE_VERSIONS:
        raise ValueError(f"the Unicode version {unicode!r} is none of {', '.join(map(repr, UNICODE_VERSIONS))}")
    return UNICODE_VERSIONS[unicode]


_defaults: dict[str, Tables] = {}


def default_tables(unicode: str = UNICODE_VERSION) -> Tables:
    """Returns the tables of a Unicode version that the library contains.

    Calls without `tables` use `default_tables()`. Tables of a version are opened when they are first needed, once per
    process. Raises `ValueError` for an unknown version.
    """
    tables = _defaults.get(unicode)
    if tables is None or tables.closed:
        tables = _defaults[unicode] = Tables(unicode=unicode)
    return tables
