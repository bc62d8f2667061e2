"""Writes the results in results.tsv to the column "Saves" of list.md."""
import os, re

PATHS = os.path.dirname(os.path.abspath(__file__))
LIST, RESULTS = f"{PATHS}/list.md", f"{PATHS}/results.tsv"
SHOWN = 0.5  # percent: savings below this are not told apart from effects of the code's layout


def read(path):
    with open(path, encoding="utf-8") as file:
        return file.read()


def results():
    """Returns the last saving of each edit, in percent, with its workload."""
    rows = [line.split("\t") for line in read(RESULTS).splitlines()[1:]]
    return {row[0]: (float(row[3]), row[4]) for row in rows}


def cell_of(result):
    """Returns what the column has for a result."""
    if result is None:
        return "–"
    percent, workload = result
    return f"{percent:.1f}, {workload}" if percent >= SHOWN else f"below {SHOWN}"


def rows_of(text):
    """Yields the edit of each row in the text of list.md, and the row. Other lines have no edit."""
    crate = None
    for line in text.split("\n"):
        heading, row = re.match(r"## (?:`(\w+)`)?", line), re.match(r"\| `([\w-]+)` \|", line)
        crate = heading[1] if heading else crate
        yield f"{crate}/{row[1]}" if row and crate else None, line


def corrected(row, result):
    """Returns a row with a result in its last column."""
    return f"{row[:-2].rsplit(' | ', 1)[0]} | {cell_of(result)} |"


def write_savings():
    found, text = results(), read(LIST)
    lines = [corrected(line, found.get(edit)) if edit else line for edit, line in rows_of(text)]
    with open(LIST, "w", encoding="utf-8") as file:
        file.write("\n".join(lines))
