#!/usr/bin/env python3
"""Holds the comparison to mutants of the reference: each must be found, or stand in survivors.txt with its reason.

  harness/mutants/mutants.py           as the gate runs it: the survivors of the list have a few inputs alone
  harness/mutants/mutants.py --long    each mutant that lives so long gets the whole comparison, with a million lines

Needs the proved archives. Prints what is not as it must be, and at the end 'N passed, M failed'.
"""
import os
import pathlib
import resource
import subprocess
import sys
from concurrent.futures import ThreadPoolExecutor

sys.dont_write_bytecode = True
import make

HERE = pathlib.Path(__file__).resolve().parent
TREE = HERE.parent.parent
TARGET = TREE / "build" / "cargo"
SHORT, LONG = 4000, 1_000_000
# A mutant that takes longer does not end; it is found.
SECONDS = {SHORT: 120, LONG: 3600}
# Bytes of memory that a run of them may take, far more than the comparison needs: a mutant that asks for memory without end is ended soon, and found.
MEMORY = 2 << 30


def built():
    """Writes and builds the mutants; answers their names, of which the first is number 1."""
    names = make.make(TREE / "reference" / "src", TREE / "build" / "mutated")
    cargo = ["cargo", "build", "--release", "--offline", "--quiet", "--manifest-path", HERE / "Cargo.toml"]
    subprocess.run(cargo, check=True, env=os.environ | {"CARGO_TARGET_DIR": str(TARGET)})
    return names


def listed():
    """The survivors' reasons, by name. A line that begins with # is the reason of the names below it."""
    reasons, reason = {}, None
    for line in (HERE / "survivors.txt").read_text().splitlines():
        if line.startswith("# "):
            reason = line[2:]
        elif line:
            reasons[line] = reason
    return reasons


def run(numbers, names, count, seconds):
    """How each of these mutants is found, None for those that are not. One that ends the program, or does not end, is found. A name begins with
    the mutant's file; number 0 has none."""
    told, waiting = {}, list(numbers)
    while waiting:
        files = [names[number - 1].split(".rs ")[0] if number else "" for number in waiting]
        words = [TARGET / "release" / "mutants", str(count), *(f"{number}:{file}" for number, file in zip(waiting, files))]
        try:
            lines = subprocess.run(words, stdout=subprocess.PIPE, text=True, timeout=seconds * len(waiting)).stdout
        except subprocess.TimeoutExpired as late:
            lines = late.stdout.decode() if late.stdout else ""
        for line in lines.splitlines():
            number, result = line.split(" ", 1)
            told[int(number)] = None if result == "survives" else result
        waiting = [number for number in waiting if number not in told]
        if waiting:
            told[waiting.pop(0)] = "it ends the program, or does not end"
    return told


def run_all(numbers, names, count, seconds):
    """The same of many, as many at once as there are processors."""
    at_once = os.cpu_count() or 1
    with ThreadPoolExecutor(at_once) as pool:
        parts = list(pool.map(lambda at: run(numbers[at::at_once], names, count, seconds), range(at_once)))
    return {number: how for part in parts for number, how in part.items()}


def wrong(names, found, reasons):
    """What is not as it must be."""
    out = [f"no reason in survivors.txt: {name}" for name, reason in reasons.items() if not reason]
    out += [f"no such mutant, but in survivors.txt: {name}" for name in reasons if name not in names]
    for number, name in enumerate(names, 1):
        if found[number] is None and name not in reasons:
            out.append(f"not found: {name}")
        elif found[number] is not None and name in reasons:
            out.append(f"found, but in survivors.txt: {name}: {found[number][:200]}")
    return out


def can_fail(names, found, reasons):
    """A survivor that is not listed, a listed mutant that is found, and a name of none are each told."""
    some = next(iter(reasons))
    other = next(name for number, name in enumerate(names, 1) if found[number] is not None)
    less = {name: reason for name, reason in reasons.items() if name != some}
    changed = [less, reasons | {other: "-"}, reasons | {"no mutant": "-"}]
    return all(len(wrong(names, found, case)) > len(wrong(names, found, reasons)) for case in changed)


def main():
    if sys.argv[1:] not in ([], ["--long"]):
        sys.exit("usage: mutants.py [--long]")
    names, reasons, count = built(), listed(), LONG if sys.argv[1:] == ["--long"] else SHORT
    expected = [number for number, name in enumerate(names, 1) if name not in reasons]
    survivors = [number for number, name in enumerate(names, 1) if name in reasons]
    resource.setrlimit(resource.RLIMIT_AS, (MEMORY, MEMORY))
    found = run_all([0, *expected], names, count, SECONDS[count])
    faults = [] if found[0] is None else [f"the reference itself differs: {found[0]}"]
    found |= run_all(survivors, names, count if count == LONG else 0, SECONDS[count])
    faults += wrong(names, found, reasons)
    if not can_fail(names, found, reasons):
        faults.append("a wrong list is not told")
    print("\n".join(faults), end="\n" if faults else "")
    print(f"{len(names)} mutants, {len(survivors)} of them listed as survivors")
    print(f"{len(names) - len(faults)} passed, {len(faults)} failed")
    sys.exit(bool(faults))


if __name__ == "__main__":
    main()
