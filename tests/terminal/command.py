"""Runs `hordguli`, and parses its output."""
import os, re, resource, signal, subprocess, tempfile, time
from typing import NamedTuple

import model

TOP = model.TOP
EMULATOR = os.environ.get("EMULATOR", "").split()
PROGRAM = [*EMULATOR, f"{TOP}/bin/hordguli"]
TABLES = ["--ucd", f"{TOP}/ucd"]
SECONDS = 60


class Result(NamedTuple):
    output: bytes
    message: str
    status: int


def use(program):
    """Chooses a program. An installed program finds its tables itself."""
    PROGRAM[:] = [*EMULATOR, os.path.abspath(program)]
    if os.path.exists(os.path.join(os.path.dirname(PROGRAM[-1]), "../../share/hordguli/ucd")):
        TABLES.clear()


def environment(variables=()):
    return {"PATH": os.environ["PATH"], "LC_ALL": "C.UTF-8", **dict(variables)}


def run(words, data=b"", variables=(), folder=None, seconds=SECONDS):
    """Runs the command to its end."""
    ran = subprocess.run([*PROGRAM, *TABLES, *words], input=data, capture_output=True, env=environment(variables), cwd=folder, timeout=seconds)
    return Result(ran.stdout, ran.stderr.decode(errors="replace"), ran.returncode)


def run_on(texts, words):
    """Runs the command on files with these texts."""
    with tempfile.TemporaryDirectory() as folder:
        names = [str(at) for at in range(len(texts))]
        for name, text in zip(names, texts):
            with open(f"{folder}/{name}", "wb") as file:
                file.write(text)
        return run([*words, *names], folder=folder)


class Costs(NamedTuple):
    seconds: float
    processor_seconds: float
    kilobytes: int


def measured(words, path, output_path, seconds, by_byte=False):
    """Runs the command on a file. Returns its status, its message, the elapsed time, the processor time, and the peak resident set size.

    With `by_byte`, the command reads the file from a pipe, one byte at a time.
    """
    begun = time.monotonic()
    with open(path, "rb") as file, open(output_path, "wb") as sink, tempfile.TemporaryFile() as messages:
        source, target = os.pipe2(os.O_DIRECT | os.O_CLOEXEC) if by_byte else (os.dup(file.fileno()), None)
        child = subprocess.Popen([*PROGRAM, *TABLES, *words], stdin=source, stdout=sink, stderr=messages, env=environment(), preexec_fn=lambda: limit(seconds))
        os.close(source)
        if by_byte:
            write_bytes(target, file.read())
        _, status, usage = os.wait4(child.pid, 0)
        child.returncode = os.waitstatus_to_exitcode(status)
        messages.seek(0)
        return child.returncode, messages.read().decode(errors="replace"), Costs(time.monotonic() - begun, usage.ru_utime + usage.ru_stime, usage.ru_maxrss)


def write_bytes(target, data):
    """Writes each byte to a pipe, and closes it. With O_DIRECT, a read returns no more than one write has written."""
    try:
        for at in range(len(data)):
            os.write(target, data[at : at + 1])
    except BrokenPipeError:
        pass
    os.close(target)


def limit(seconds):
    resource.setrlimit(resource.RLIMIT_CPU, (seconds + 1, seconds + 1))
    signal.alarm(4 * seconds)


# ---- Parsing output ----

# The sequences that the command may write: an SGR with all attributes that differ from the default style,
# in this order, or a link.
COLOUR = r"{0}[0-7]|{1}[0-7]|{0}8;5;\d+|{0}8;2;\d+;\d+;\d+"
PARAMETERS = [
    ("bold", "1"), ("faint", "2"), ("italic", "3"), ("underline", r"4(?::[2-5])?"), ("blink", "[56]"), ("inverse", "7"), ("conceal", "8"), ("strike", "9"),
    ("overline", "53"), ("foreground", COLOUR.format(3, 9)), ("background", COLOUR.format(4, 10)), ("underline_colour", r"58:5:\d+|58:2::\d+:\d+:\d+"),
]  # fmt: skip
SGR = re.compile(r"\x1b\[" + "".join(rf"(?:(?P<{name}>{pattern})(?:;(?=\d)|(?=m)))?" for name, pattern in PARAMETERS) + "m")
LINK = re.compile(r"\x1b\]8;([^;\x00-\x1f\x7f-\x9f]*);([^\x00-\x1f\x7f-\x9f]*)\x1b\\")


def read_back(line):
    """Returns the characters of a line of output, each with its attributes and link, or a text that says what is wrong.

    Attributes are the parameters that set them. This is the only difference from the attributes of the model.
    """
    cells, attributes, link, at = [], "", None, 0
    while at < len(line):
        if line[at] != "\x1b":
            cells.append((line[at], attributes, link))
            at += 1
            continue
        found = SGR.match(line, at)
        if found:
            new = found[0][2:-1]
            if bool(new) == bool(attributes):
                return f"{found[0]!r} in the style {attributes!r}"
            if any(int(n) > 255 for n in re.findall(r"\d+", new)):
                return f"a number in {found[0]!r}"
            attributes = new
        else:
            found = LINK.match(line, at)
            if not found:
                return f"a sequence at {line[at : at + 20]!r}"
            new = found.groups() if found[2] else None
            if new == link:
                return f"{found[0]!r} in the link {link!r}"
            link = new
        at = found.end()
    return cells if (attributes, link) == ("", None) else f"the style {attributes!r} and the link {link!r} at the end of the line"
