"""Reads mutants, which are files NAME.edit."""
import os, re, sys


def read(path):
    with open(path, encoding="utf-8") as file:
        return file.read()


def write(path, text):
    with open(path, "w", encoding="utf-8") as file:
        file.write(text)


class Mutant:
    """A mutant of the files of a folder. `test` is its test, if the first line names one, and `pairs` are its replacements: a file, the
    old text and the new text. `places` has the text of each file before a replacement, and the index after the old text."""

    def __init__(self, path, folder):
        self.name, self.pairs, self.places = os.path.basename(path)[:-5], [], []
        text = read(path)
        test = re.match(r"test: (.*)\n", text)
        self.test = test[1] if test else None
        parts = re.split(r"(?m)^(file|old|new): ?", text)[1:]
        given, texts = {}, {}
        for key, text in zip(parts[::2], parts[1::2]):
            given[key] = text.rstrip("\n")
            if key == "new":
                self.pairs.append((given["file"].strip(), given["old"], given["new"]))
        for file, old, new in self.pairs:
            text = texts.get(file) or read(f"{folder}/{file}")
            if text.count(old) != 1:
                sys.exit(f"mutants: {path}: not exactly once in {file}: {old!r}")
            self.places.append((file, text, text.index(old) + len(old)))
            texts[file] = text.replace(old, new)

    def plant(self, folder):
        """Makes the replacements in a copy of the folder. Returns the text of each changed file before, by path."""
        kept = {}
        for file, old, new in self.pairs:
            path = f"{folder}/{file}"
            text = read(path)
            kept.setdefault(path, text)
            write(path, text.replace(old, new))
        return kept
