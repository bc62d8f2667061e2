"""The declarations of the package, compared with include/hordguli.h; its documentation."""

import copy
import ctypes
import doctest
import functools
import inspect
import operator
import os
import pickle
import re
import struct
import subprocess
import sys

import hordguli
import pytest
from conftest import DIRECTIONS
from hordguli import Options, _declarations, _library, _records

TOP = os.path.dirname(os.path.dirname(os.path.dirname(os.path.abspath(__file__))))
sys.path.insert(0, f"{TOP}/tools")
from c_header import Header

HEADER = Header("include/hordguli.h")
# C functions without a counterpart in Python: the package uses variants with a version, and `bytes.decode`
NOT_OFFERED = {"hordguli_decode", *(f"hordguli_tables_{name}" for name in ("open_builtin", "open_folder", "read"))}
RENAMED = {"changed_lines": "changed"}  # in C, the function has this name
NAMES = {*hordguli.__all__} | {name for name, one in vars(hordguli).items() if name[0] != "_" and not inspect.ismodule(one)}
PUBLIC = [getattr(hordguli, name) for name in sorted(NAMES)]
MOST_LINES = 400  # of help(hordguli)


def read(path):
    with open(f"{TOP}/{path}", encoding="utf-8") as file:
        return file.read()


def constants(prefix):
    """Returns the constants of the header whose names have a prefix, without it."""
    names = {one.name.removeprefix("HORDGULI_"): one.number for one in HEADER.constants if one.number is not None}
    return {name[len(prefix):]: number for name, number in names.items() if name.startswith(prefix)}


def test_each_function_of_the_header_is_called():
    folder = os.path.dirname(hordguli.__file__)
    source = "".join(open(f"{folder}/{name}").read() for name in os.listdir(folder) if name.endswith(".py"))
    assert {*HEADER.functions} - NOT_OFFERED == set(re.findall(r"library\.(hordguli_\w+)", source))


def test_functions_are_those_of_the_header():
    kinds = {"size_t": ctypes.c_size_t, "uint32_t": ctypes.c_uint32, "hordguli_edge": _declarations.RawEdge, "hordguli_status": ctypes.c_int32}
    results = {"const char *": ctypes.c_char_p, "void": None, "hordguli_status": ctypes.c_int32}
    for name, declared in HEADER.functions.items():
        function = getattr(_library.library, name)
        wanted = [ctypes.c_void_p if one.is_pointer else kinds[one.type] for one in declared.variables()]
        assert (function.restype, list(function.argtypes)) == (results[declared.result], wanted), name


def test_records_are_those_of_the_header():
    codes = {"size_t": "N", "uint32_t": "I", "uint64_t": "Q", "uint8_t": "B", "uint8_t [11]": "11s"}
    structs = {name: HEADER.members(name) for name in HEADER.structs}
    for kind, layout in _records.FORMATS.items():
        name = re.sub(r"(?<=[a-z])(?=[A-Z])", "_", kind.__name__.removeprefix("Raw")).lower()
        fields = structs.pop(f"hordguli_{RENAMED.get(name, name)}")
        wanted = "".join("4x" if name == "zero" else codes[code] for code, name in fields)
        wanted += {"reason": "2x", "break_reason": "3x"}.get(name, "")  # (padding, which the module struct does not add at the end)
        assert list(kind._fields) == [name for _, name in fields if name != "zero"], kind
        unrolled = re.sub(r"(\d+)([A-Z])", lambda m: int(m[1]) * m[2], layout.format)
        assert unrolled == wanted and layout.size == struct.calcsize(wanted), kind
    # the other structs, handles and `hordguli_bytes`, have pointers
    assert {*structs} == {"hordguli_tables", "hordguli_session", "hordguli_bytes"}


def test_constants_are_those_of_the_header():
    assert {name: at for at, name in enumerate(_declarations.BIDI_CLASSES)} == constants("BIDI_CLASS_")
    assert {name: at for at, name in enumerate(_declarations.LINE_CLASSES)} == constants("LINE_CLASS_")
    assert {name.replace(".", "_"): number for name, number in _declarations.UNICODE_VERSIONS.items()} == constants("UNICODE_")
    assert {one.name: one.value for one in hordguli.Break} == constants("BREAK_")
    assert {one.name: one.value for one in hordguli.Cause if one} == constants("CAUSE_")
    assert {one.name: one.value for one in hordguli.BracketCase} == constants("BRACKET_CASE_")
    assert {one.name: one.value for one in hordguli.NeutralRule} == constants("NEUTRAL_")
    assert {name: int(value) for name, value in hordguli.Print.__members__.items() if name != "DEFAULT"} == constants("PRINT_")
    both = constants("")
    assert {name: both[name] for name in ("BEFORE", "AFTER")} == {one.name: one.value for one in hordguli.Side}
    assert {name: both[name] for name in ("LEFT", "RIGHT")} == {one.name: one.value for one in hordguli.Direction}
    assert [both[f"BRACKET_{name.upper() or 'NONE'}"] for name in _records.BRACKETS] == [0, 1, 2]
    plain = {name: value for name, value in vars(_declarations).items() if isinstance(value, int)}
    assert plain == {name: both[name] for name in plain} and {"OK", "UNREAD_FILE", "MARK", "WIDE"} <= {*plain}


def test_options_are_those_of_the_header():
    options = {f"HORDGULI_{name}": int(value) for name, value in Options.__members__.items()}
    assert options == {one.name: one.number for one in HEADER.constants if one.section == "Session options" and one.number is not None}


def test_each_direction_contains_itself_alone():
    assert all((one in other) == (one is other) for one in DIRECTIONS for other in DIRECTIONS)
    assert all(one in one | Options.NOBREAK and one & ~one == Options(0) for one in DIRECTIONS)
    assert (Options.LTR | Options.NOBREAK) & ~Options.LTR | Options.RTL == Options.RTL | Options.NOBREAK


def test_options_show_their_names():
    assert [one.name for one in DIRECTIONS] == ["WEAK_LTR", "WEAK_RTL", "LTR", "RTL"]
    assert repr(Options.LTR) == "<Options.LTR: 0x1000002>"
    assert repr(Options.NOBREAK | Options.WEAK_LTR | Options.tab_width(4)) == "<Options.WEAK_LTR|NOBREAK|tab_width(4): 0x3000404>"
    assert repr(Options.LTR | Options.RTL) == "<Options.LTR|RTL: 0x1000003>"
    assert (repr(Options(0)), repr(Options(1 << 16))) == ("<Options: 0x0>", "<Options: 0x10000>")


def test_options_are_copied_and_pickled():
    every = functools.reduce(operator.or_, Options.__members__.values())
    for one in (*Options, *DIRECTIONS, every, Options(0), Options(2), Options.LTR | Options.tab_width(8)):
        copies = copy.copy(one), copy.deepcopy(one), pickle.loads(pickle.dumps(one))
        assert all(made == one and type(made) is Options for made in copies)


def test_version_is_that_of_the_repository():
    assert hordguli.__version__ == read("VERSION").strip()


def test_each_public_name_has_a_docstring():
    for one in PUBLIC:
        if callable(one):
            assert one.__doc__ and not one.__doc__.startswith(f"{one.__name__}("), one
        if inspect.isclass(one) and one.__module__ in ("hordguli.session", "hordguli.tables"):
            for name, member in vars(one).items():
                if not name.startswith("_"):
                    assert member.__doc__, (one, name)


def test_all_names_are_in_the_manual():
    shown = manual("hordguli")
    assert [name for name in sorted(NAMES) if not re.search(rf"\b{name}\b", shown)] == []
    for name in ("Session", "Tables", "Line", "Break", "Explanation"):
        assert manual(f"hordguli.{name}").startswith(f"Help on class {name} in hordguli")


def manual(name):
    return subprocess.run([sys.executable, "-m", "pydoc", name], stdout=subprocess.PIPE, check=True).stdout.decode()


def test_the_manual_is_short_and_has_the_functions_first():
    shown = manual("hordguli")
    assert shown.count("\n") <= MOST_LINES and "\nCLASSES" not in shown
    functions = {name for name in hordguli.__all__ if inspect.isfunction(getattr(hordguli, name))}
    assert functions == set(re.findall(r"(?m)^    (\w+)\(", shown.partition("\nFUNCTIONS")[2]))
    assert {name for name in NAMES if inspect.isclass(getattr(hordguli, name))} == {*NAMES} - {*hordguli.__all__}


@pytest.mark.parametrize("name", ["hordguli", "hordguli.text", "hordguli.session", "hordguli.tables", "hordguli._records", "hordguli._explain"])
def test_examples_of_docstrings(name):
    failed, count = doctest.testmod(sys.modules[name], extraglobs={"hordguli": hordguli})
    assert failed == 0 and count > 0


def test_examples_of_the_readme():
    failed, count = doctest.testfile(f"{TOP}/README.md", module_relative=False, encoding="utf-8")
    assert failed == 0 and count > 0


def test_examples_of_the_guide():
    failed, count = doctest.testfile(f"{TOP}/docs/guide.md", module_relative=False, encoding="utf-8")
    assert failed == 0 and count > 0


def test_types_are_checked():
    words = ["/usr/bin/mypy", "--strict", "--python-version", "3.9", "--cache-dir", os.devnull]
    checked = os.path.dirname(hordguli.__file__), f"{TOP}/tests/python/typed.py"
    ran = subprocess.run([*words, *checked], stdout=subprocess.PIPE)
    assert ran.returncode == 0, ran.stdout.decode()
