"""Input that is meant to cost time or memory, and what the command prints for it."""
import os, tempfile

import command
from command import Costs

SECONDS = 10
SECONDS_BY_BYTE = 2
# A paragraph may need 40 bytes per character.
KILOBYTES, KILOBYTES_OF_LONG_PARAGRAPHS = 100 * 1024, 10 * 1024 + 40 * 5_000_000 // 1024
E = "\x1b"
MILLION = 1_000_000
WIDTH = 80
LIMIT = 1_048_576


def lines(text):
    """Returns the lines of a paragraph of narrow characters without break opportunities, at the default width."""
    return "".join(text[start : start + WIDTH] + "\n" for start in range(0, len(text), WIDTH))


def in_parts(text):
    return "".join(lines(text[start : start + LIMIT]) for start in range(0, len(text), LIMIT))


# Each case has a name, input, output, and whether the status is 1 because a paragraph exceeds the limit.
CASES = [
    ("an unfinished string of 10 MB", lambda: f"{E}]0;" + "u" * 10 * MILLION, lambda: "", False),
    ("a string of 10 MB", lambda: f"a{E}P" + "u" * 10 * MILLION + f"{E}\\b\n", lambda: "ab\n", False),
    ("a link of 10 MB", lambda: f"a{E}]8;;" + "u" * 10 * MILLION + f"{E}\\b\n", lambda: "ab\n", False),
    ("10 MB of unfinished strings", lambda: f"{E}]0;u\n" * (10 * MILLION // 7), lambda: "]0;u\n" * (10 * MILLION // 7), False),
    ("a million introducers", lambda: f"{E}]" * MILLION, lambda: lines("]" * MILLION)[:-1], False),
    ("unfinished strings of 4,000 characters", lambda: (f"{E}]" + "u" * 4000) * 250 + "\n", lambda: lines(("]" + "u" * 4000) * 250), False),
    ("a parameter of 10 MB", lambda: f"{E}[" + "1" * 10 * MILLION + "ma\n", lambda: "a\n", False),
    ("an unfinished CSI of 1 MB", lambda: f"{E}[" + "1" * MILLION, lambda: lines("[" + "1" * MILLION)[:-1], False),
    ("a million parameters", lambda: f"{E}[" + "1;" * MILLION + "3ma\n", lambda: f"{E}[1;3ma{E}[m\n", False),
    ("a million intermediates", lambda: E + " " * MILLION + "0a\n", lambda: "a\n", False),
    ("a million SGR", lambda: f"{E}[31m" * MILLION + "a\n", lambda: f"{E}[31ma{E}[m\n", False),
    ("a million SGR in two colours", lambda: f"{E}[31m{E}[32m" * (MILLION // 2) + "a\n", lambda: f"{E}[32ma{E}[m\n", False),
    ("an SGR for each character", lambda: f"{E}[31ma{E}[32mb" * 200_000 + "\n", lambda: (f"{E}[31ma{E}[m{E}[32mb{E}[m" * 40 + "\n") * 5000, False),
    ("a link for each character", lambda: "".join(f"{E}]8;;http://a/{n:06}{E}\\b" for n in range(70_000)) + "\n", None, False),
    ("a million escapes", lambda: E * MILLION, lambda: "", False),
    ("a million combining marks", lambda: "e" + "\u0301" * MILLION + "\n", lambda: "e" + "\u0301" * MILLION + "\n", False),
    ("a million niqqud", lambda: "\u05d0" + "\u05b8" * MILLION + "\n", lambda: " " * 79 + "\u05d0" + "\u05b8" * MILLION + "\n", False),
    ("a million backspaces", lambda: "\b" * MILLION + "a\n", lambda: "a\n", False),
    ("a million strikes", lambda: "a" + "\ba" * MILLION + "\n", lambda: f"{E}[1ma{E}[m\n", False),
    ("a million characters that are replaced", lambda: "a" + "\bb\ba" * (MILLION // 2) + "\n", lambda: "a\n", False),
    ("10 MB of NUL", lambda: "\0" * 10 * MILLION, lambda: "", False),
    ("5 MB without a newline", lambda: "a" * 5 * MILLION, lambda: in_parts("a" * 5 * MILLION)[:-1], True),
    ("5 MB of 0xFF", lambda: b"\xff" * 5 * MILLION, lambda: in_parts("\ufffd" * 5 * MILLION)[:-1], True),
    ("a million newlines", lambda: "\n" * MILLION, lambda: "\n" * MILLION, False),
    ("a million carriage returns", lambda: "\r" * MILLION, lambda: "\n" * MILLION, False),
    ("a million carriage returns with sequences", lambda: f"\r{E}[m" * MILLION, lambda: "\n" * MILLION, False),
    ("a carriage return and a million sequences", lambda: "a\r" + f"{E}[m" * MILLION + "\nb\n", lambda: "a\nb\n", False),
    ("a million opening brackets", lambda: "(" * MILLION + "\n", lambda: lines("(" * MILLION), False),
    ("a million isolates", lambda: "\u2067" * MILLION + "\n", lambda: "\u2067" * MILLION + "\n", False),
    ("a million tabs", lambda: "\t" * MILLION + "\n", lambda: (" " * 80 + "\n") * (MILLION // 10), False),
]

# Each case has a name, and a text with n characters between a CR and its LF, so that many chunks are read before the
# LF.
AFTER_CR = [
    ("a string", lambda n: f"\r{E}]0;" + "u" * n + f"{E}\\\n"),
    ("a string with many ESC", lambda n: f"\r{E}P" + "u" * 5000 + f"{E}u" * (n // 2) + f"{E}\\\n"),
    ("parameters", lambda n: f"\r{E}[" + "1" * n + "m\n"),
    ("intermediates", lambda n: f"\r{E}" + " " * n + "0\n"),
    ("sequences", lambda n: "\r" + f"{E}[m" * (n // 3) + "\n"),
    ("short strings", lambda n: "\r" + f"{E}]0;u\a" * (n // 6) + "\n"),
    ("dropped controls", lambda n: "\r" + "\0" * n + "\n"),
]
# Each case has a name, and a text of n characters without a strong one, so `-d file` must read all of it.
WITHOUT_DIRECTION = [
    ("digits", lambda n: "1" * n),
    ("short paragraphs", lambda n: "1\n" * (n // 2)),
    ("a string after CR", lambda n: f"\r{E}]0;" + "u" * (n - 7) + f"{E}\\"),
]
LOOKED_AT_FOR_DIRECTION = 65_536
# Arguments, and whether the command accepts the texts of AFTER_CR with them, in spite of their length.
WORDS = [([], True), (["-d", "file"], True), (["--strict"], False)]


def proportional(folder, report):
    """Twice the characters must not take much more than twice the processor's time."""
    for name, text in AFTER_CR:
        for words, is_allowed in WORDS:
            seconds = []
            for n in (10 * MILLION, 20 * MILLION):
                with open(f"{folder}/input", "w", newline="") as file:
                    file.write(text(n))
                status, message, costs = command.measured(words, f"{folder}/input", f"{folder}/output", SECONDS)
                with open(f"{folder}/output", "rb") as file:
                    output = file.read()
                shown = f"{n} characters of {name} after CR, {' '.join(words)}"
                report(f"the output for {shown}", output == (b"\n" if is_allowed else b""), output[:60])
                report(f"the status for {shown}", status == (not is_allowed), message[:300])
                seconds.append(costs.processor_seconds)
            report(f"time in proportion for {name} after CR, {' '.join(words)}",
                   seconds[1] <= 2.5 * seconds[0] + 0.3, f"{seconds[0]:.2f} s, {seconds[1]:.2f} s")


def byte_by_byte(folder, report):
    """Four times the characters, read one byte at a time, must not take much more than four times the processor's time."""
    for name, text in WITHOUT_DIRECTION:
        seconds = []
        for n in (LOOKED_AT_FOR_DIRECTION // 4, LOOKED_AT_FOR_DIRECTION):
            data = text(n - 2).encode() + b"\n\xd7\x90\n"
            with open(f"{folder}/input", "wb") as file:
                file.write(data)
            status, message, costs = command.measured(["-d", "file"], f"{folder}/input", f"{folder}/output", SECONDS_BY_BYTE, by_byte=True)
            with open(f"{folder}/output", "rb") as file:
                output = file.read()
            shown = f"{n} characters of {name}, read one byte at a time"
            report(f"the output for {shown}", output == command.run(["-d", "rtl"], data).output, output[:60])
            report(f"the status for {shown}", status == 0, message[:300])
            seconds.append(costs.processor_seconds)
        report(f"time in proportion for {name}, read one byte at a time", seconds[1] <= 6 * seconds[0] + 0.2, f"{seconds[0]:.2f} s, {seconds[1]:.2f} s")


def checks(report):
    """Runs all cases. `report` takes a name, whether it holds, and what to show if it does not."""
    import model

    with tempfile.TemporaryDirectory() as folder:
        path, output_path = f"{folder}/input", f"{folder}/output"
        for name, text, wanted, is_too_long in CASES:
            data = text()
            data = data if isinstance(data, bytes) else data.encode()
            with open(path, "wb") as file:
                file.write(data)
            expected = wanted().encode() if wanted else model.printed([data], model.Settings())
            del data
            status, message, costs = command.measured([], path, output_path, SECONDS)
            with open(output_path, "rb") as file:
                output = file.read()
            os.remove(output_path)
            at = next((at for at, (a, b) in enumerate(zip(output, expected)) if a != b), min(len(output), len(expected)))
            report(f"the output for {name}", output == expected,
                   f"{len(output)} bytes, {len(expected)} are expected; from byte {at} on {output[at : at + 60]!r} and not {expected[at : at + 60]!r}")
            report(f"the status for {name}", status == is_too_long and bool(message) == is_too_long, f"{status}", message[:300])
            most = KILOBYTES_OF_LONG_PARAGRAPHS if is_too_long else KILOBYTES
            report(f"the costs of {name}", within(costs, most), f"{costs.seconds:.1f} s, {costs.kilobytes} KB")
        proportional(folder, report)
        byte_by_byte(folder, report)


def within(costs: Costs, kilobytes):
    return costs.seconds <= SECONDS and costs.kilobytes <= kilobytes
