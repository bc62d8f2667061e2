"""The Rust files that repeat the declarations of include/hordguli.h. tools/generate_declarations writes them.

- rust/hordguli-sys/src/declarations.rs: the constants, structs and functions, with their comments.
- rust/hordguli/src/numbers.rs: the lists of numbers that have their own type, such as bidi classes.

The files have the form that rustfmt gives them.
"""
import re, sys

WIDTH = 100
SCALARS = {"char": "c_char", "void": "c_void", "size_t": "usize", "int32_t": "i32", "uint8_t": "u8", "uint32_t": "u32", "uint64_t": "u64"}
# A constant has the type of the first pattern that matches its name, or u32 if none does. This is the type of
# the fields and parameters for which the constant is a value.
TYPES = [
    (r"VERSION_\w+|UNICODE_\w+", "u32"),
    (r"BREAK_\w+|BRACKET_(NONE|OPEN|CLOSE|CASE_\w+)|NEUTRAL_\w+|BIDI_CLASS_\w+|LINE_CLASS_\w+", "u8"),
    (r"TABLE_FILES|BIDI_CLASS|BIDI_BRACKETS|BIDI_MIRRORING|LINE_BREAK|GENERAL_CATEGORY|EAST_ASIAN_WIDTH|EMOJI_DATA|IMAGE|CAUSE_\w+", "usize"),
]
MACROS = '''/// Sets a tab stop every `n` columns, from 1 to 255. Calls refuse a greater `n` as an unknown option.
pub const fn HORDGULI_TAB_WIDTH(n: u32) -> u32 {
    if n > 255 {
        1 << 16
    } else {
        n << 8
    }
}
'''
# For each type in numbers.rs: the prefix of its constants, the type of their values, and a description.
NUMBERS = {
    "BidiClass": ("BIDI_CLASS_", "u8", "A bidi class (UAX #9)."),
    "LineClass": ("LINE_CLASS_", "u8", "A line breaking class (UAX #14). Tables of Unicode 15.0 have those up to `XX`."),
    "Cause": ("CAUSE_", "usize", "Why a line of a table file is malformed, or why bytes are not an image."),
    "UnicodeVersion": ("UNICODE_", "u32", "A version of Unicode: 65,536 times the major version plus 256 times the minor one."),
}


def fail(what):
    sys.exit(f"generate_declarations: no Rust type for {what}")


def named(kind):
    """Returns the Rust type of a C type that is not a pointer."""
    return SCALARS.get(kind) or (kind if kind.startswith("hordguli_") else fail(kind))


def rust_type(kind):
    """Returns the Rust type of a C type. A member can be an array of a fixed length."""
    array = re.fullmatch(r"(\w+) \[(\d+)\]", kind)
    if array:
        return f"[{named(array[1])}; {array[2]}]"
    found = re.fullmatch(r"(const )?(\w+)( \*| \[\])?", kind) or fail(kind)
    return f"*{'const' if found[1] else 'mut'} {named(found[2])}" if found[3] else named(found[2])


def constant(header, one):
    """Returns the declaration of a constant, or of a macro that is one in C."""
    short = one.name.removeprefix("HORDGULI_")
    comment = f" // {one.comment}" if one.comment else ""
    if one.value == "{ NULL }":
        kind = "hordguli_" + short.removesuffix("_INIT").lower()
        value = f"{kind} {{ {header.members(kind)[0].name}: null_mut() }}"
    else:
        kind = "hordguli_status" if one.section == "Statuses" else next((kind for pattern, kind in TYPES if re.fullmatch(pattern, short)), "u32")
        value = re.sub(r"UINT32_C\(([^()]*)\)", r"\1", one.value)
        value = value[1:-1] if value.startswith("(") else value
    line = f"pub const {one.name}: {kind} = {value};"
    if len(line) > WIDTH:
        line = f"pub const {one.name}: {kind} =\n    {value};"
    return line + comment


def documentation(header, name, indent=""):
    """Returns the comment above the declaration of a struct or function, as a Rust doc comment."""
    found = re.search(rf"/\* ((?:(?!\*/)[^~])*?) ?\*/\n[^\n;{{]*\b{name}\b(?: \{{|\()", header.text)
    lines, is_code = [], False
    for line in found[1].split("\n") if found else []:
        text = line.removeprefix(" *").removeprefix(" ").rstrip()
        is_indented = text.startswith("    ")
        if is_indented and lines[-1:] == [""] and not is_code:  # (after other lines, it continues an item of a list)
            is_code = True
            lines.append("```c")
        elif is_code and text and not is_indented:
            is_code = False
            lines[-1:] = ["```", ""]  # (an empty line is before it)
        if re.match("(Errors|Cost|Since):", text) and lines[-1:] != [""]:
            lines.append("")
        lines.append(text[4:] if is_code else re.sub(r"^  (\w+)  +", r"- `\1`: ", text))
    lines += ["```"] * is_code
    return "".join(f"{indent}///{' ' * (line != '')}{line}\n" for line in lines)


def struct(header, name):
    members = header.members(name)
    is_handle = f"#define {name.upper()}_INIT " in header.text
    traits = ["Debug"] if is_handle else ["Clone", "Copy", "Debug"] + ["Default", "PartialEq", "Eq"] * (not any(one.is_pointer for one in members))
    body = re.search(rf"typedef struct {name} \{{(.*?)\}} {name};", header.text, re.S)[1]
    comments = dict(re.findall(r"(\w+)(?:\[\d+\])?; +/\* (.*?) \*/", body))
    fields = "".join(f"    /// {comments.get(one.name)}\n" * (one.name in comments) + f"    pub {one.name}: {rust_type(one.type)},\n" for one in members)
    return f"{documentation(header, name)}#[derive({', '.join(traits)})]\n#[repr(C)]\npub struct {name} {{\n{fields}}}\n"


def function(header, name):
    declared = header.functions[name]
    result = "" if declared.result == "void" else f" -> {rust_type(declared.result)}"
    parameters = [f"{one.name}: {rust_type(one.type)}" for one in declared.variables()]
    line = f"    pub fn {name}({', '.join(parameters)}){result};"
    comment = documentation(header, name, "    ")
    if len(line) <= WIDTH:
        return comment + line
    return f"{comment}    pub fn {name}(\n" + "".join(f"        {one},\n" for one in parameters) + f"    ){result};"


def declarations(header, head):
    """Returns rust/hordguli-sys/src/declarations.rs."""
    sections, last = [], None
    for one in header.constants:
        if "(" in one.name:
            continue
        sections += [f"\n// {one.section}\n"] * (one.section != last) + [constant(header, one) + "\n"]
        last = one.section
    structs = "\n".join(struct(header, name) for name in header.structs)
    functions = "\n".join(function(header, name) for name in header.functions)
    return f"""{head}
use std::os::raw::{{c_char, c_void}};
use std::ptr::null_mut;

pub type hordguli_status = i32;
{''.join(sections)}
{MACROS}
{structs}
extern "C" {{
{functions}
}}
"""


def items(header, prefix):
    """Yields the name and the comment of each constant with a prefix."""
    for one in header.constants:
        if one.name.startswith(prefix):
            short = one.name.removeprefix(prefix)
            yield (f"V{short}" if short[0].isdigit() else short), one.name, one.comment


def number_type(header, name, prefix, kind, what):
    rows = "".join(f"    /// {comment or f'`{short}`'}\n    {short} = {full};\n" for short, full, comment in items(header, f"HORDGULI_{prefix}"))
    return f"numbers! {{\n    /// {what}\n    {name}({kind})\n{rows}}}\n"


def numbers(header, head):
    """Returns rust/hordguli/src/numbers.rs."""
    files = "".join(f'    "{one.comment}",\n' for one in header.constants if one.comment.endswith(".txt"))
    types = "\n".join(number_type(header, name, *row) for name, row in NUMBERS.items())
    return f"""{head}
use hordguli_sys::*;

/// The names of the table files, in the order of [`Tables::from_files`](crate::Tables::from_files).
pub const TABLE_FILES: [&str; HORDGULI_TABLE_FILES] = [
{files}];

{types}"""
