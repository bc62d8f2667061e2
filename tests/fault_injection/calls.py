"""Runs programs in which calls to the C library fail (faults.c). Shared by several scripts.

The environment variable EMULATOR is a command that runs programs of another processor, such as `qemu-aarch64`, and CC compiles for it.
"""
import os, shutil, subprocess, sys, tempfile

ROOT = os.path.dirname(os.path.dirname(os.path.dirname(os.path.abspath(__file__))))
FOLDER = tempfile.TemporaryDirectory()
EMULATOR = os.environ.get("EMULATOR", "").split()
CC = os.environ["CC"] if EMULATOR else "cc"
PART, NOTHING = -1, 0
# With these settings, malloc gets its memory from the system in one step, which makes thousands of short runs a third faster. Symbols are
# bound at the start, since the amount of stack that lazy binding uses depends on the processor.
SAME = {"MALLOC_MMAP_THRESHOLD_": "100000000", "MALLOC_TOP_PAD_": "8000000", "LD_BIND_NOW": "1"}
TABLES = "DerivedBidiClass BidiBrackets BidiMirroring LineBreak DerivedGeneralCategory EastAsianWidth emoji-data".split()


def stored(name, data):
    path = f"{FOLDER.name}/{name}"
    with open(path, "wb") as file:
        file.write(data)
    return path


def compiled():
    """Compiles faults.c. Returns the library's path."""
    if not shutil.which(CC):
        subprocess.run("apt-get update -q && apt-get install -qy gcc libc6-dev", shell=True, check=True, stdout=sys.stderr)
    library = f"{FOLDER.name}/faults.so"
    subprocess.run([CC, "-Wall", "-Werror", "-O1", "-shared", "-fPIC", "-o", library, f"{ROOT}/tests/fault_injection/faults.c", "-ldl"], check=True)
    return library


def environment(fault):
    """Returns the environment of a run with this fault, which may be empty."""
    given = {f"FAULT_{key.upper()}": str(value) for key, value in fault.items()}
    preload = {"QEMU_SET_ENV": f"LD_PRELOAD={LIBRARY}"} if EMULATOR else {"LD_PRELOAD": LIBRARY}
    return {"PATH": os.environ["PATH"], **SAME, **({**preload, **given} if given else {})}


def run(words, input=b"", stdin=None, cwd=None, program=None, **fault):
    """Runs a program. Returns its output, messages and exit status. `program` replaces the executable that the first word names."""
    source = {"stdin": stdin} if stdin else {"input": input}
    pipes = {"stdout": subprocess.PIPE, "stderr": subprocess.PIPE}
    ran = subprocess.run([*EMULATOR, *words], executable=program, **source, **pipes, cwd=cwd, env=environment(fault), timeout=60)
    return ran.stdout, ran.stderr.decode(), ran.returncode


def counted(words, input=b"", **given):
    """Runs a program. Returns its result, and the counts of faults.c by name."""
    with tempfile.NamedTemporaryFile(dir=FOLDER.name) as file:
        ending = run(words, input, count=file.name, **given)
        return ending, {name: int(number) for name, number in map(str.split, file.read().decode().splitlines())}


def finish(passed, failed):
    """Prints how many checks passed and failed, and exits."""
    print(f"{passed} passed, {failed} failed")
    sys.exit(failed > 0)


LIBRARY = compiled()
