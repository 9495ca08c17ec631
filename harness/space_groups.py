#!/usr/bin/env python3
"""Operators of the space groups by gemmi, held against the programs here: space_groups.py HARNESS CAMP.

The operators of every setting that gemmi has are read as texts, in several spellings; each row must be gemmi's operator.
Each list of rows must be a group, with all its pairs. The lists are then damaged, and what is told of them, answer and
pairs, must be told by the reference too and be what gemmi's products make of it. camp symmetry reads a part of the texts.
Prints a line for each check, and at the end 'N passed, M failed'.
"""
import random
import subprocess
import sys

import gemmi

HARNESS, CAMP = sys.argv[1:]
SEED = 5
# A setting in so many is given to camp.
CAMP_ONE_IN = 8
SCALE = gemmi.Op.DEN // 24
MOST = 192
IDENTITY = (1, 0, 0, 0, 1, 0, 0, 0, 1, 0, 0, 0)

passed = failed = 0


def check(name, faults):
    """Counts a check; the faults are texts."""
    global passed, failed
    faults = list(faults)
    if faults:
        failed += 1
        print(f"FAIL {name}: {len(faults)} faults, the first: {faults[0][:300]}")
    else:
        passed += 1
        print(f"ok {name}")


def row_of(op):
    """An operator of gemmi as a row: factors, and translations in 24ths modulo 1."""
    factors = [factor // gemmi.Op.DEN for line in op.rot for factor in line]
    return tuple(factors + [shift // SCALE % 24 for shift in op.tran])


def spellings(op, source):
    """The operator's text as gemmi writes it, and with each part written otherwise."""
    parts = op.triplet().split(",")
    return [",".join(parts), ",".join(respelled(part, source) for part in parts)]


def respelled(part, source):
    """The terms of a part with a fraction at the other end, letters in another order, a plus before it."""
    signed = part if part[0] in "+-" else "+" + part
    terms, at = [], 0
    while at < len(signed):
        end = at + (4 if "/" in signed[at : at + 4] else 2)
        terms.append(signed[at:end])
        at = end
    letters = [term for term in terms if "/" not in term]
    fractions = [term for term in terms if "/" in term]
    source.shuffle(letters)
    text = "".join(fractions + letters if source.random() < 0.5 else letters + fractions)
    return text[1:] if text[0] == "+" and source.random() < 0.5 else text


def asked(mode, commands):
    """The answers to trace commands."""
    told = subprocess.run([HARNESS, mode], input="\n".join(commands) + "\n", stdout=subprocess.PIPE, text=True, check=True)
    return told.stdout.splitlines()


def hexed(text):
    return f"symop {text.encode().hex()}"


def listed(rows):
    return "symlist " + (",".join(str(number) for row in rows for number in row) or "-")


def damaged(rows, source):
    """The list with a row dropped, doubled, changed, moved; the damage's name with each."""
    at, to = source.randrange(len(rows)), source.randrange(len(rows) + 1)
    rest = rows[:at] + rows[at + 1 :]
    yield "dropped", rest
    yield "doubled", rows[:to] + [rows[at]] + rows[to:]
    changed = list(rows[at])
    place = source.randrange(12)
    changed[place] = source.choice([number for number in ([-1, 0, 1] if place < 9 else range(24)) if number != changed[place]])
    yield "changed", rows[:at] + [tuple(changed)] + rows[at + 1 :]
    to = source.randrange(len(rows))
    yield "moved", rest[:to] + [rows[at]] + rest[to:]


def op_of(row):
    op = gemmi.Op("x,y,z")
    op.rot = [[gemmi.Op.DEN * row[3 * part + letter] for letter in range(3)] for part in range(3)]
    op.tran = [SCALE * shift for shift in row[9:]]
    return op


def by_gemmi(rows):
    """Answer and pairs by gemmi's determinants and products; a product applies the second first."""
    if len(rows) > MOST:
        return 13, 0
    ops = [op_of(row) for row in rows]
    if any(abs(op.det_rot()) != gemmi.Op.DEN**3 for op in ops):
        return 14, 0
    if IDENTITY not in rows:
        return 15, 0
    if len(set(rows)) < len(rows):
        return 16, 0
    known, pairs = set(rows), 0
    for first in ops:
        for second in ops:
            pairs += 1
            if row_of(first.combine(second).wrap()) not in known:
                return 17, pairs
    return 0, pairs


def missing(rows):
    """What camp symmetry must tell is missing of a list that is a group but for a product: gemmi's text."""
    _, pairs = by_gemmi(rows)
    first, second = divmod(pairs - 1, len(rows))
    return op_of(rows[first]).combine(op_of(rows[second])).wrap().triplet()


def camp_says(texts):
    told = subprocess.run([CAMP, "symmetry"], input="\n".join(texts) + "\n", stdout=subprocess.PIPE, text=True)
    return told.returncode, told.stdout


def main():
    source = random.Random(SEED)
    settings = {}
    for group in gemmi.spacegroup_table():
        ops = list(group.operations())
        settings.setdefault(tuple(sorted(row_of(op) for op in ops)), (group.xhm(), ops))
    settings = list(settings.values())
    texts = [[spellings(op, source) for op in ops] for _, ops in settings]
    rows = [[row_of(op) for op in ops] for _, ops in settings]
    number = sum(len(ops) for ops in rows)

    flat = [spelling for ops in texts for op in ops for spelling in op]
    wanted = [row for ops in rows for row in ops for _ in range(2)]
    for mode in ("trace", "reference-trace"):
        answers = asked(mode, map(hexed, flat))
        faults = (f"{text}: {told}" for text, row, told in zip(flat, wanted, answers, strict=True) if told != f"0 {' '.join(map(str, row))}")
        check(f"{mode}: {number} operators of {len(settings)} settings, each in two spellings, are gemmi's", faults)

    for mode in ("trace", "reference-trace"):
        answers = asked(mode, map(listed, rows))
        faults = (f"{name}: {told}" for (name, _), ops, told in zip(settings, rows, answers, strict=True) if told != f"0 {len(ops) ** 2}")
        check(f"{mode}: {len(settings)} settings are groups with all pairs", faults)

    lists = [(name, damage, ops) for (name, _), whole in zip(settings, rows) for damage, ops in damaged(whole, source)]
    answers, reference = (asked(mode, (listed(ops) for *_, ops in lists)) for mode in ("trace", "reference-trace"))
    told = list(zip(lists, answers, reference, strict=True))
    seen = {}
    for damage in ("dropped", "doubled", "changed", "moved"):
        own = [(name, ops, answer, other) for (name, of, ops), answer, other in told if of == damage]
        for *_, answer, _ in own:
            number = answer.split()[0]
            seen.setdefault(damage, {})[number] = seen.setdefault(damage, {}).get(number, 0) + 1
        faults = (f"{name}: {answer}, reference {other}" for name, _, answer, other in own if answer != other)
        check(f"a row {damage}: {len(own)} lists, told as by the reference ({counts(seen[damage])})", faults)
        if damage != "moved":
            faults = (f"{name}: {answer}" for name, ops, answer, _ in own if answer != "%d %d" % by_gemmi(ops))
            check(f"a row {damage}: {len(own)} lists, told as gemmi's products say", faults)

    faults = []
    for ops in texts[::CAMP_ONE_IN]:
        spelled = [source.choice(op) for op in ops]
        if camp_says(spelled) != (0, f"camp: standard input: a group of {len(ops)} operator{'s' * (len(ops) > 1)}\n"):
            faults.append(f"{spelled}: {camp_says(spelled)}")
    check(f"camp symmetry: {len(texts[::CAMP_ONE_IN])} settings are groups", faults)
    faults, count = [], 0
    for ops, spelled in list(zip(rows, texts))[:: CAMP_ONE_IN // 2]:
        if len(ops) > 2 and ops[0] == IDENTITY:
            count += 1
            status, told = camp_says([op[0] for op in spelled[:-1]])
            if status != 1 or not told.endswith(f", which is `{missing(ops[:-1])}`\n"):
                faults.append(f"{told} not {missing(ops[:-1])}")
    check(f"camp symmetry: {count} settings without the last operator, and what is missing", faults)
    print(f"{passed} passed, {failed} failed")
    return 1 if failed else 0


def counts(seen):
    return ", ".join(f"{number}: {seen[number]}" for number in sorted(seen, key=int))


if __name__ == "__main__":
    sys.exit(main())
