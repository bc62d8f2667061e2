"""Parses C headers: include/hordguli.h, c/core.h and c/fribidi/core.h.

A declaration in an unknown form ends the program, so that none is skipped.
"""
import os, re, sys
from typing import NamedTuple

TOP = os.path.dirname(os.path.dirname(os.path.abspath(__file__)))
FUNCTION = re.compile(r"([\w ]+[ *])(\w+)\(([^()]*)\);")
STRUCT = re.compile(r"typedef struct (\w+) \{([^{}]*)\} \1;")
OTHER = re.compile(r'typedef \w+ \w+;|extern [\w ]+(\[\])?;|extern "C" \{|\}')
VARIABLE = re.compile(r"(.*[ *])(\w+)(\[.*\])?")
DEFINE = re.compile(r"#define (\w+(?:\(\w+\))?) ((?:(?!/\*).)+?)(?:  +/\* (.*) \*/)?")


class Variable(NamedTuple):
    """A parameter or a member. A parameter that is an array has a type such as `const uint8_t []`, and a member such as `uint8_t [11]`."""

    type: str
    name: str

    @property
    def is_pointer(self):
        return self.type.endswith(("*", "[]"))

    @property
    def length(self):
        """The type of the items and their number, if this is a member that is an array, or None."""
        found = re.fullmatch(r"(\w+) \[(\d+)\]", self.type)
        return found and (found[1], int(found[2]))


class Function(NamedTuple):
    result: str
    parameters: list  # their declarations, such as `const char *text`

    def variables(self):
        return list(map(variable, self.parameters))


class Constant(NamedTuple):
    name: str  # that of a macro ends with its parameter, such as `HORDGULI_TAB_WIDTH(n)`
    value: str
    comment: str  # on the same line
    section: str  # the last heading `---- Name ----`

    @property
    def number(self):
        """The value, or None if it is an expression."""
        found = re.fullmatch(r"(?:UINT32_C\()?(0x[0-9A-Fa-f]+|\d+)\)?", self.value)
        return int(found[1], 0) if found else None


def known(found, text):
    """Returns a match. Ends the program if there is none."""
    return found or sys.exit(f"a declaration in an unknown form: {text[:80]}")


def variable(declaration):
    """Returns the type and the name in a declaration."""
    kind, name, array = known(VARIABLE.fullmatch(declaration), declaration).groups()
    return Variable(f"{kind}[]" if array else kind.strip(), name)


def defines(text):
    """Returns the name, the value and the comment of each constant and macro."""
    return [known(DEFINE.fullmatch(line), line).groups("") for line in re.findall(r"(?m)^ *# *define.*", text)]


class Header:
    """The declarations of a header, in its order.

    `functions` are by name, `structs` are the declarations of their members, by name, and `constants` are a list. `text` is the whole
    header.
    """

    def __init__(self, path):
        with open(f"{TOP}/{path}", encoding="utf-8") as file:
            self.text = file.read()
        self.functions, self.structs = {}, {}
        code = " ".join(re.sub(r"(?m)^#.*", "", re.sub(r"(?s)/\*.*?\*/", "", self.text)).split())
        while code:
            struct, function = STRUCT.match(code), FUNCTION.match(code)
            if struct:
                self.structs[struct[1]] = [one.strip() for one in struct[2].split(";") if one.strip()]
            elif function:
                parameters = [] if function[3] == "void" else function[3].split(", ")
                self.functions[function[2]] = Function(function[1].strip(), parameters)
            code = code[known(struct or function or OTHER.match(code), code).end():].lstrip()
        titled = re.split(r"(?m)^/\* ---- (.*?) ----", self.text)[1:]
        sections = zip(titled[::2], titled[1::2])
        self.constants = [Constant(*define, title) for title, body in sections for define in defines(body)]

    def comment(self, function):
        """Returns the comment above a function."""
        return known(re.search(rf"/\*((?:(?!\*/).)*)\*/\n[^\n;{{]*\b{function}\(", self.text, re.S), function)[1]

    def since(self, function):
        """Returns the first version that has a function, such as `0.6`, or None if the comment above it does not say."""
        found = re.search(r"(?m)^ \* Since: (\d+\.\d+)\.", self.comment(function))
        return found and found[1]

    def members(self, name):
        return [variable(re.sub(r"(\w+) (\w+)\[(\d+)\]", r"\1 [\3] \2", one)) for one in self.structs[name]]
