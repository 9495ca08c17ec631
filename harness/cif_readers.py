"""Reads written files with programs of others that read CIF, and compares what they find with what was typed.

Usage: cif_readers.py FOLDER

FOLDER has NAME.cif and NAME.typed, as 'harness cif-files' writes them. Each reader must find the block, every item
and nothing else, and refuse exactly the files with a value that docs/CIF-READERS.md lists for it. A reader that is
not installed is skipped. Ends with 'N passed, M failed'.
"""

import contextlib
import io
import json
import math
import pathlib
import shutil
import subprocess
import sys


class Typed:
    """What was typed: the block name, and name, kind and value of each item in order."""

    def __init__(self, block, items):
        self.block = block
        self.items = items

    @classmethod
    def read(cls, path):
        first, *lines = path.read_text(encoding="ascii").split("\n")[:-1]
        return cls(first.removeprefix("block\t"), [line.split("\t") for line in lines])

    def changed(self):
        """Lists with one thing wrong: the block, a value, an item too few, an item too many."""
        yield Typed(self.block + "x", self.items)
        *others, [name, kind, value] = self.items
        yield Typed(self.block, [*others, [name, kind, value + "1"]])
        yield Typed(self.block, others)
        yield Typed(self.block, [*self.items, ["_refine_ls_shift/su_max", "number", "0.1"]])


def is_quoted(value):
    return value[0] in "'\""


def text_of(value):
    """The value without its quotes."""
    return value[1:-1] if is_quoted(value) else value


def begins(*words):
    """A test: the value is bare and begins so, in capitals or small letters."""
    return lambda value: not is_quoted(value) and value.lower().startswith(words)


class Gemmi:
    """Keeps quotes, so that values are compared as typed; also their text, null and number."""

    title = "gemmi"
    refuses = staticmethod(begins("loop_", "stop_", "global_"))

    def __init__(self):
        import gemmi

        self.gemmi = gemmi
        self.name = f"{self.title} {gemmi.__version__}"

    def fault(self, path, typed):
        cif = self.gemmi.cif
        try:
            document = cif.read(str(path))
        except (ValueError, RuntimeError) as fault:
            return Refused(str(fault))
        if [block.name for block in document] != [typed.block]:
            return f"blocks {[block.name for block in document]}, not {typed.block}"
        block = document.sole_block()
        pairs = [tuple(item.pair or ()) for item in block]
        if pairs != [(name, value) for name, _, value in typed.items]:
            return f"items {pairs}"
        for name, kind, value in typed.items:
            raw = block.find_value(name.lower())
            unassigned = value in ("?", ".")
            if cif.is_null(raw) != unassigned:
                return f"{name} {value}: null {cif.is_null(raw)}"
            if not unassigned and cif.as_string(raw) != text_of(value):
                return f"{name} {value}: text {cif.as_string(raw)!r}"
            number = cif.as_number(raw)
            if kind == "number" and not (math.isnan(number) if unassigned else number == float(value.split("(")[0])):
                return f"{name} {value}: number {number}"
        return None


class CodTools:
    """Says of each value whether it was quoted. One run for all files."""

    title = "cod-tools"
    refuses = staticmethod(lambda value: False)
    TYPES = {"'": ["SQSTRING"], '"': ["DQSTRING"]}

    def __init__(self):
        if not shutil.which("cif_parse"):
            raise ImportError("no program cif_parse")
        version = subprocess.run(["cif_parse", "--version"], capture_output=True, text=True).stdout.split()
        self.name = f"{self.title} {version[-1] if version else ''}"
        self.read = {}

    def read_all(self, paths):
        run = subprocess.run(["cif_parse", "--output-json", *map(str, paths)], capture_output=True, text=True)
        decoder, rest, documents = json.JSONDecoder(), run.stdout.strip(), []
        while rest:
            document, end = decoder.raw_decode(rest)
            documents.append(document)
            rest = rest[end:].strip()
        if run.returncode == 0 and len(documents) == len(paths):
            self.read = dict(zip(paths, documents))

    def fault(self, path, typed):
        if path not in self.read:
            return Refused("cif_parse does not read all files")
        block = self.read[path]["data"]
        if block["name"] != typed.block or block["loops"] or block["save_blocks"]:
            return f"block {block['name']}, not {typed.block}"
        found = [(tag, block["values"][tag]) for tag in block["tags"]]
        if found != [(name.lower(), [text_of(value)]) for name, _, value in typed.items]:
            return f"items {found}"
        for name, kind, value in typed.items:
            types = block["types"][name.lower()]
            bare = ["FLOAT"], ["INT"]
            if kind != "number" or value in ("?", "."):
                bare += (["UQSTRING"],)
            if types not in ([self.TYPES[value[0]]] if is_quoted(value) else bare):
                return f"{name} {value}: {types}"
        return None


class PyCifRw:
    """Takes quotes off, so that texts are compared."""

    title = "PyCIFRW"
    refuses = staticmethod(begins("stop_", "global_", "{"))

    def __init__(self):
        import CifFile

        self.read = CifFile.ReadCif
        self.name = self.title

    def fault(self, path, typed):
        try:
            with contextlib.redirect_stdout(io.StringIO()), contextlib.redirect_stderr(io.StringIO()):
                file = self.read(str(path), grammar="1.1")
        except Exception as fault:  # its parser raises exceptions of several kinds
            return Refused(str(fault))
        if [name.lower() for name in file.keys()] != [typed.block.lower()]:
            return f"blocks {file.keys()}, not {typed.block}"
        block = file.first_block()
        found = {name.lower(): block[name] for name in block.keys()}
        if found != {name.lower(): text_of(value) for name, _, value in typed.items}:
            return f"items {found}"
        return None


class Refused(str):
    """What a reader says that does not read a file."""


def check(reader, what, files):
    """Prints one line; whether each file is read, or refused where that is listed."""
    values = refused = 0
    for path, typed in files:
        listed = [value for _, _, value in typed.items if reader.refuses(value)]
        fault = reader.fault(path, typed)
        if listed and isinstance(fault, Refused):
            refused += 1
        elif listed or fault:
            fault = " ".join(fault.split())[:200] if fault else f"read, though {listed[0]} is listed"
            print(f"FAIL {reader.name}, {path.name}: {fault}")
            return False
        else:
            values += len(typed.items)
    read = len(files) - refused
    print(f"ok {reader.name}, {what}: {read} files read, {values} values as typed, {refused} files refused as listed")
    return bool(files)


def finds_changes(reader, path, typed):
    """Prints one line; whether the comparison can fail."""
    found = [isinstance(reader.fault(path, changed), str) for changed in typed.changed()]
    print(f"{'ok' if all(found) else 'FAIL'} {reader.name}, {len(found)} changed lists are found different")
    return all(found)


def main(folder):
    paths = sorted(pathlib.Path(folder).glob("*.cif"))
    files = [(path, Typed.read(path.with_suffix(".typed"))) for path in paths]
    first = next(file for file in files if file[0].name == "text-1.cif")
    results = []
    for kind in (Gemmi, CodTools, PyCifRw):
        try:
            reader = kind()
        except ImportError as fault:
            print(f"skipped: {kind.title} ({fault})")
            continue
        if hasattr(reader, "read_all"):
            reader.read_all(paths)
        results.append(finds_changes(reader, *first))
        for what, prefix in ("single texts", "text-"), ("generated sheets", "sheet-"):
            results.append(check(reader, what, [file for file in files if file[0].name.startswith(prefix)]))
    print(f"{results.count(True)} passed, {results.count(False)} failed")
    return 0 if all(results) else 1


if __name__ == "__main__":
    if len(sys.argv) != 2:
        sys.exit(__doc__)
    sys.exit(main(sys.argv[1]))
