"""The C library, with the functions of `_declarations.py`."""

import ctypes
import os
from ctypes import c_size_t

from ._declarations import FUNCTIONS

NAME = "libhordguli.so.1"
SIZE_MAX = c_size_t(-1).value


def _load() -> ctypes.CDLL:
    """Loads the library in this folder, where the wheel has it, or else the system's."""
    own = os.path.join(os.path.dirname(os.path.abspath(__file__)), NAME)
    try:
        loaded = ctypes.CDLL(own if os.path.exists(own) else NAME)
        for name, (result, parameters) in FUNCTIONS.items():
            getattr(loaded, name).restype, getattr(loaded, name).argtypes = result, tuple(parameters.values())
    except (OSError, AttributeError) as error:
        raise ImportError(f"hordguli needs {NAME}: {error}") from error
    return loaded


library = _load()
# For `display`: functions that neither check nor convert arguments, and so need half the time of those in
# `library`. Callers must pass sizes and pointers as ctypes objects.
quick_base, quick_levels, quick_row = (library["hordguli_" + name] for name in ("base", "levels", "row"))
VERSION: str = library.hordguli_version().decode()
UNICODE_VERSION: str = library.hordguli_unicode_version().decode()
WIDTH_UNICODE_VERSION: str = library.hordguli_width_unicode_version().decode()
