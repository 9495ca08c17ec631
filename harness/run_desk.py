"""Drives the running desk (camp run) over pseudo-terminals, for harness/run.sh.

  run_desk.py CAMP kills KILLS SEED     entries at four benches, killed at random moments, started again
  run_desk.py CAMP torn [LIBRARY]       the log cut at every byte of its last record; with the library of a disk that fails
  run_desk.py CAMP full FOLDER          a file system that runs full; FOLDER is on it
  run_desk.py CAMP limit                the same by a limit on the file's length
  run_desk.py CAMP sync LIBRARY         a disk that fails when it is flushed, by that library
  run_desk.py CAMP saving LIBRARY       an Enter that is being saved, by the same library: what the others see meanwhile, and every end
  run_desk.py CAMP removed              a log that others remove, cut or lengthen
  run_desk.py CAMP inputs               keypads that end and come back, raw mode put back, two on one device
  run_desk.py CAMP fifo LIBRARY         a FIFO between two writers, by the same library
  run_desk.py CAMP signals              the signals that end the desk, and those that do not
  run_desk.py CAMP console              the counsellor's commands
  run_desk.py CAMP screen COLUMNS ROWS  what goes to a terminal of that size, byte by byte
  run_desk.py CAMP terminal             the terminal's modes, however the desk ends
  run_desk.py CAMP load SECONDS LIBRARY [WAITS]
                                        four benches at 50 keys a second each: how long until a key is shown, with a
                                        disk that takes so many milliseconds more for each flush
  run_desk.py CAMP memory KEYS          the program's memory over so many keys

Each prints one line for each check, 'ok NAME' or 'FAIL NAME: WHY', and what was measured.
"""
import atexit
import fcntl
import os
import pty
import random
import re
import resource
import select
import signal
import stat
import struct
import subprocess
import sys
import tempfile
import termios
import time

NAMES = {4: "_refine_ls_R_factor_gt", 6: "_refine_ls_wR_factor_ref", 8: "_refine_ls_shift/su_max", 2: "_chemical_formula_weight"}
# The item that each bench owns.
OWN = {0: 4, 1: 6, 2: 4, 3: 8}
ROOM = 65536


# A desk that outlived its test would open keypads of the next by their names, and take their keys.
STARTED = []
atexit.register(lambda: [process.kill() for process in STARTED if process.poll() is None])


def check(name, wrong):
    """One check: `wrong` is empty where it holds."""
    print(f"FAIL {name}: {wrong}" if wrong else f"ok {name}", flush=True)


def records(data):
    """The records of a log, as (bench, item, value), and what is left behind the last whole one."""
    found, at = [], 0
    while len(data) - at >= 6:
        length = data[at] + 256 * data[at + 1]
        if length < 7 or len(data) - at < length:
            break
        found.append((data[at + 4], data[at + 5], data[at + 6:at + length].decode()))
        at += length
    return found, data[at:]


def record(bench, item, value):
    return struct.pack("<HHBB", 6 + len(value), 1, bench, item) + value.encode()


def read(path):
    with open(path, "rb") as file:
        return file.read()


def write(path, data):
    with open(path, "wb") as file:
        file.write(data)


class Keypads:
    """Pseudo-terminals in place of keypads; the desk opens the other sides."""

    def __init__(self, benches=range(4)):
        self.pairs = {bench: pty.openpty() for bench in benches}

    def options(self):
        return [word for bench, (_, slave) in self.pairs.items() for word in ("--bench", f"{bench}={os.ttyname(slave)}")]

    def type(self, bench, text):
        os.write(self.pairs[bench][0], text if isinstance(text, bytes) else text.encode())

    def close(self):
        for master, slave in self.pairs.values():
            os.close(master)
            os.close(slave)


class Desk:
    """A running desk in its plain form."""

    def __init__(self, camp, log, options, **how):
        self.process = subprocess.Popen([camp, "run", "--plain", "--log", log, *options], stdin=subprocess.PIPE,
                                        stdout=subprocess.PIPE, stderr=subprocess.PIPE, **how)
        STARTED.append(self.process)
        self.text = b""
        os.set_blocking(self.process.stdout.fileno(), False)

    def read(self, seconds=0.0):
        """Adds what is printed within a time; false at its end."""
        ready, _, _ = select.select([self.process.stdout], [], [], seconds)
        if ready:
            got = os.read(self.process.stdout.fileno(), 65536)
            self.text += got
            return got != b""
        return True

    def until(self, pattern, seconds=30.0):
        """Reads until a pattern is printed; whether it was."""
        end = time.monotonic() + seconds
        while not re.search(pattern, self.text.decode(errors="replace"), re.M):
            if time.monotonic() > end or not self.read(0.05):
                return re.search(pattern, self.text.decode(errors="replace"), re.M) is not None
        return True

    def times(self, words, count, seconds=30.0):
        """Reads until words are printed so many times; whether they were."""
        end = time.monotonic() + seconds
        while self.text.count(words.encode()) < count and time.monotonic() < end and self.read(0.05):
            pass
        return self.text.count(words.encode()) >= count

    def lines(self):
        """Whole lines alone."""
        return self.text.decode(errors="replace").split("\n")[:-1]

    def say(self, line):
        """A line of the counsellor, who does not know whether the desk has ended."""
        try:
            self.process.stdin.write(line.encode() + b"\n")
            self.process.stdin.flush()
        except OSError:
            pass

    def kill(self):
        self.process.kill()
        self.process.wait()
        while self.read(0.01) and select.select([self.process.stdout], [], [], 0)[0]:
            pass

    def quit(self, seconds=30.0):
        """Its exit status and what it said on standard error."""
        self.say("quit")
        end = time.monotonic() + seconds
        while self.read(0.05) and time.monotonic() < end:
            pass
        self.process.wait(timeout=seconds)
        return self.process.returncode, self.process.stderr.read().decode()


ACCEPTED = re.compile(r"^bench (\d): accepted, sheet (\d), entry (\d+): (\S+) (\S+)$")


def kills(camp, count, seed):
    """Every accepted entry is in the log, in order, with its bench and number; none twice, none that was refused."""
    folder = tempfile.mkdtemp()
    log = os.path.join(folder, "camp.log")
    chance = random.Random(seed)
    shown, typed, wrong, torn, entered = [], {bench: [] for bench in range(4)}, "", 0, 0
    number, starts, foreign = 0, 0, 0
    while starts < count and not wrong:
        starts += 1
        if os.path.exists(log) and os.path.getsize(log) > ROOM - 4000:
            # A new day: what was there is looked at below, and a new log begins.
            wrong = compare(shown, read(log), typed)
            entered += len(records(read(log))[0])
            os.remove(log)
            shown = []
        before = len(records(read(log))[0]) if os.path.exists(log) else 0
        pads = Keypads()
        desk = Desk(camp, log, pads.options())
        if not desk.until(r"^bench 3: \S+ is open"):
            wrong = f"start {starts}: {desk.text!r} {desk.process.stderr.read()!r}"
            break
        if f": {before} entr" not in desk.lines()[0]:
            wrong = f"start {starts}: {before} records, and it says {desk.lines()[0]}"
        data = read(log)
        owners = {bench for bench, _, _ in records(data)[0]}
        wrong = wrong or asked(desk, data)
        moment = time.monotonic() + chance.random() * 0.15
        while time.monotonic() < moment:
            for bench in range(4):
                number += 1
                value = f"0.{number % 1000000:06d}"
                kind = chance.random()
                if kind < 0.1:
                    # Refused: no number.
                    pads.type(bench, f"{NAMES[OWN[bench]]} x{number}\n\x18")
                elif kind < 0.2 and bench ^ 1 in owners:
                    # Refused: the neighbour's item.
                    pads.type(bench, f"{NAMES[OWN[bench ^ 1]]} {value}\n\x18")
                else:
                    typed[bench].append(value)
                    pads.type(bench, f"{NAMES[OWN[bench]]} {value}\n")
            # At this pace keypads and output never fill, so that neither side waits for the other for ever.
            desk.read()
            time.sleep(0.002)
        desk.kill()
        pads.close()
        for line in desk.lines():
            match = ACCEPTED.match(line)
            if match:
                shown.append((int(match[1]), int(match[2]), int(match[3]), match[5]))
            foreign += ": refused, 9, " in line
        data = read(log)
        torn += records(data)[1] != b""
        wrong = wrong or compare(shown, data, typed)
    entered += len(records(read(log))[0])
    if not wrong and foreign == 0 and starts > 5:
        wrong = "no bench was refused its neighbour's item"
    check(f"killed {starts} times: each of {entered} entries in the log, in order, once", wrong)
    print(f"  measured: {starts} kills, {entered} entries in the log, {number} lines typed, {foreign} of a neighbour's item refused, {torn} torn records", flush=True)
    for name in os.listdir(folder):
        os.remove(os.path.join(folder, name))
    os.rmdir(folder)


def asked(desk, data):
    """What is wrong with what the desk answers, just started, of who typed each item, by its log."""
    last, counts, times = {}, [0, 0], {}
    for bench, item, value in records(data)[0]:
        sheet = bench // 2
        counts[sheet] += 1
        times[(sheet, item)] = times.get((sheet, item), 0) + 1
        last[(sheet, item)] = (bench, counts[sheet], times[(sheet, item)], value)
    for (sheet, item), (bench, entry, typed, value) in last.items():
        desk.say(f"who {item}")
        if not desk.until(rf"^sheet {sheet}, item {item} \S+: bench {bench}, entry {entry}, typed {typed} times?: {re.escape(value)}$"):
            return f"sheet {sheet}, item {item}: not bench {bench}, entry {entry}, typed {typed} times: {value}, but {desk.lines()[-2:]}"
    return ""


def compare(shown, data, typed):
    """What is wrong with a log, by what was shown as accepted and what each bench typed, in order."""
    found, _ = records(data)
    counts, numbered = [0, 0], {}
    left = {bench: iter(values) for bench, values in typed.items()}
    for bench, item, value in found:
        sheet = bench // 2
        counts[sheet] += 1
        numbered[(sheet, counts[sheet])] = (bench, value)
        # What was typed before the last value of a bench is used up: nothing is there twice or in another order.
        if item != OWN[bench] or value not in left[bench]:
            return f"{bench} {item} {value} was not typed so, or not behind the one before it"
    for bench, sheet, entry, value in shown:
        if numbered.get((sheet, entry)) != (bench, value):
            return f"sheet {sheet}, entry {entry} was shown as {bench} {value} and is {numbered.get((sheet, entry))}"
    return ""


def torn(camp, library=None):
    """Cut at every byte of the last record: the others stay, what is torn is kept, and the next entry follows."""
    folder = tempfile.mkdtemp()
    log = os.path.join(folder, "camp.log")
    whole = record(0, 4, "0.16") + record(2, 4, "0.03")
    last = record(1, 6, "0.123(4)")
    wrong = ""
    for cut in range(len(last) + 1):
        write(log, whole + last[:cut])
        pads = Keypads([0])
        desk = Desk(camp, log, pads.options())
        desk.until(r"is open")
        pads.type(0, f"{NAMES[4]} 0.17\n")
        if not desk.until(r"^bench 0: accepted, sheet 0, entry %d: " % (3 if cut == len(last) else 2)):
            wrong = wrong or f"byte {cut}: {desk.text!r}"
        status, said = desk.quit()
        pads.close()
        want = whole + (last if cut == len(last) else b"") + record(0, 4, "0.17")
        kept = read(log + ".torn") if os.path.exists(log + ".torn") else b""
        told = f"camp: {log}: byte {len(whole)}: 20, the log ends inside this record; its {cut} byte{'' if cut == 1 else 's'}: in {log}.torn, and the log goes on before it\n"
        if status != 0 or read(log) != want:
            wrong = wrong or f"byte {cut}: status {status}, log {read(log)!r}"
        if cut in (0, len(last)) and (kept or said):
            wrong = wrong or f"byte {cut}: told {said!r}, kept {kept!r}"
        if 0 < cut < len(last) and (kept != last[:cut] or said != told):
            wrong = wrong or f"byte {cut}: told {said!r}, kept {kept!r}"
        if os.path.exists(log + ".torn"):
            os.remove(log + ".torn")
        if wrong:
            break
    check(f"torn at each of {len(last)} bytes", wrong)
    for name, data, number, byte in [("no record", whole + b"\x05\x00abcdefgh", 18, len(whole)), ("a foreign overwrite", whole + record(1, 4, "0.2"), 19, len(whole)),
                                     ("no log at all", b"REPORT 12\n01 CHEMS_01s C 1\n", 18, 0), ("too long", whole + record(0, 4, "0.16") * 6600, 18, None)]:
        write(log, data)
        desk = Desk(camp, log, ["--bench", "0=/dev/null"])
        status, said = desk.quit()
        place = f"byte {byte}: " if byte is not None else "byte "
        told = f"{log}: {place}" in said and f": {number}, " in said and said.endswith("; the desk is not started, and nothing is changed; start with a copy or another --log\n")
        bad = "" if status == 1 and told and read(log) == data and os.listdir(folder) == ["camp.log"] else f"status {status}, {said!r}"
        check(f"stopped by {name}", bad)
    beside = log + ".torn"

    def start(name, why, **how):
        """A start that cannot keep what is torn leaves the log as it is."""
        write(log, whole + last[:5])
        status, said = Desk(camp, log, ["--bench", "0=/dev/null"], **how).quit()
        want = f"camp: {log}: byte {len(whole)}: 20, the log ends inside this record; {why}; the desk is not started, and the torn record not cut off\n"
        check(f"torn, and {name}", "" if status == 1 and said == want and read(log) == whole + last[:5] else f"status {status}, {said!r}")

    os.mkdir(beside)
    start("LOG.torn is a folder", f"{beside}: Is a directory")
    os.rmdir(beside)
    os.mkfifo(beside)
    start("LOG.torn is a pipe", f"{beside}: No such device or address")
    os.remove(beside)
    os.symlink("/dev/full", beside)
    start("LOG.torn is a device", f"{beside}: not an ordinary file")
    os.remove(beside)
    os.symlink("none/none", beside)
    start("LOG.torn cannot be made", f"{beside}: No such file or directory")
    os.remove(beside)
    write(beside, b"x" * 5000)
    start("LOG.torn cannot grow", f"{beside}: File too large", preexec_fn=lambda: resource.setrlimit(resource.RLIMIT_FSIZE, (5000, 5000)))
    write(beside, b"earlier")
    if library:
        sign = os.path.join(folder, "sign")
        write(sign, b"")
        start("it cannot be cut off", f"{log}: Input/output error", env={**os.environ, "LD_PRELOAD": library, "CUT_FAILS": sign})
        write(beside, b"earlier")
    write(log, whole + last[:5])
    Desk(camp, log, ["--bench", "0=/dev/null"]).quit()
    check("torn again: added to LOG.torn", "" if read(beside) == b"earlier" + last[:5] and read(log) == whole else repr(read(beside)))
    subprocess.run(["rm", "-r", folder], check=True)


def no_room(camp, log, name, why, **how):
    """A file that cannot grow: what was accepted stays, the rest is told as not kept, and nothing is half there."""
    pads = Keypads([0, 2])
    desk = Desk(camp, log, pads.options(), **how)
    desk.until(r"^bench 2: \S+ is open")
    accepted, refused = 0, 0
    text = "'" + "x" * 160 + "'"
    for number in range(400):
        pads.type(0, "\n" if refused else f"_reflns_threshold_expression {text}\n")
        if not desk.until(r"(^bench 0: (accepted|not kept).*\n){%d}" % (number + 1)):
            break
        accepted = desk.text.count(b"accepted, ")
        refused = desk.text.count(b"not kept, ")
        if refused == 2:
            break
    found, rest = records(read(log))
    last = desk.lines()[-1]
    wrong = ""
    if accepted == 0 or refused != 2 or f"not kept, {why}: " not in last:
        wrong = f"{accepted} accepted, {refused} not kept, {last[:120]}"
    elif len(found) != accepted or rest:
        wrong = f"{accepted} accepted and {len(found)} records, {len(rest)} bytes behind them"
    # The desk is as it was: its count, its line, and the other camp.
    desk.say("who 10")
    if not wrong and not desk.until(r"^sheet 0, item 10 .*: bench 0, entry %d, typed %d times" % (accepted, accepted)):
        wrong = f"who: {desk.lines()[-1][:120]}"
    status, said = desk.quit()
    if not wrong and (status != 0 or f"bench 0 has not entered `_reflns_threshold_expression {text}`" not in desk.lines()):
        wrong = f"status {status}, {said!r}"
    pads.close()
    again = Desk(camp, log, ["--bench", "0=/dev/null"])
    again.until(r"bytes left")
    if not wrong and f": {accepted} entries, " not in again.lines()[0]:
        wrong = f"started again: {again.lines()[0]}"
    again.quit()
    check(name, wrong)


def limit(camp):
    folder = tempfile.mkdtemp()

    def few():
        resource.setrlimit(resource.RLIMIT_FSIZE, (5000, 5000))

    no_room(camp, os.path.join(folder, "camp.log"), "the file cannot grow, in the middle of a record", "File too large", preexec_fn=few)
    os.remove(os.path.join(folder, "camp.log"))
    os.rmdir(folder)


def sync(camp, library):
    """A record that is not on the disk is no entry: the desk and the file are as before, and a later Enter keeps it."""
    folder = tempfile.mkdtemp()
    log, sign = os.path.join(folder, "camp.log"), os.path.join(folder, "sign")
    calls = os.path.join(folder, "calls")
    pads = Keypads([0, 1])
    how = {"env": {**os.environ, "LD_PRELOAD": library, "SYNC_FAILS": sign, "SYNC_TOLD": calls}}
    desk = Desk(camp, log, pads.options(), **how)
    desk.until(r"^bench 1: \S+ is open")
    check("the name of a new log is kept", "" if read(calls) == b"fsync folder\n" else repr(read(calls)))
    pads.type(0, f"{NAMES[4]} 0.1\n")
    desk.until(r"^bench 0: accepted, sheet 0, entry 1: ")
    before = read(log)
    write(sign, b"")
    pads.type(0, f"{NAMES[4]} 0.2\n")
    told = desk.until(r"^bench 0: not kept, Input/output error: %s 0\.2$" % NAMES[4])
    check("a disk that fails: told, and not in the log", "" if told and read(log) == before and desk.text.count(b"accepted") == 1 else f"{desk.text!r} {read(log)!r}")
    pads.type(0, "\n")
    told = desk.until(r"^bench 0: not kept, the log file cannot be cut back: %s 0\.2$" % NAMES[4])
    want = b"fdatasync 9\nfdatasync 18 fails\nftruncate 9\nfdatasync 9 fails\nftruncate 9\nfdatasync 9 fails\n"
    check("what is cut off is flushed too", "" if told and read(calls).endswith(want) else f"{desk.text!r} {read(calls)!r}")
    os.remove(sign)
    pads.type(1, f"{NAMES[6]} 0.3\n")
    desk.until(r"^bench 1: accepted")
    pads.type(0, "\n")
    desk.until(r"^bench 0: accepted, sheet 0, entry 3: ")
    desk.quit()
    check("a disk that works again: the line is entered, once", "" if records(read(log)) == ([(0, 4, "0.1"), (1, 6, "0.3"), (0, 4, "0.2")], b"") else repr(read(log)))
    pads.close()
    write(calls, b"")
    again = Desk(camp, log, ["--bench", "0=/dev/null"], **how)
    again.until(r"bytes left")
    check("the name of a log that was there is kept", "" if read(calls) == b"fsync folder\n" else repr(read(calls)))
    again.quit()
    write(sign, b"")
    status, said = Desk(camp, log, ["--bench", "0=/dev/null"], **how).quit()
    check("a folder that cannot be flushed", "" if status == 1 and said == f"camp: {log}: Input/output error\n" else f"{status} {said!r}")
    subprocess.run(["rm", "-r", folder], check=True)


def held_disk(folder, library, **more):
    """A file that holds every flush while it is there, and how a desk with that disk is started."""
    sign = os.path.join(folder, "hold")
    write(sign, b"")
    return sign, {"env": {**os.environ, "LD_PRELOAD": library, "SYNC_HOLDS": sign, **more}}


def is_saving(log, length=1, seconds=30.0):
    """Waits until the file has so many bytes, which are written before they are flushed; whether it has."""
    end = time.monotonic() + seconds
    while time.monotonic() < end and (not os.path.exists(log) or os.path.getsize(log) < length):
        time.sleep(0.005)
    return os.path.exists(log) and os.path.getsize(log) >= length


def as_logged(desk, log, count):
    """What is wrong with the accepted entries that a desk told, of one log since it was empty: their order, numbers and how many there are."""
    found, rest = records(read(log))
    told = [(int(match[1]), int(match[2]), int(match[3]), match[5]) for match in map(ACCEPTED.match, desk.lines()) if match]
    counts, want = [0, 0], []
    for bench, _, value in found:
        counts[bench // 2] += 1
        want.append((bench, bench // 2, counts[bench // 2], value))
    return "" if told == want and len(want) == count and not rest else f"told {told}, in the log {want}, {len(rest)} bytes behind them, of {count}"


def saving(camp, library):
    """An Enter that is being saved: its own bench and every Enter wait, the others type on, and nothing is told before it is on the disk."""
    folder = tempfile.mkdtemp()
    for part in (saving_others, saving_turns, saving_fails, saving_pairs, saving_pulled, saving_ends, saving_killed, saving_shown, at_once):
        part(camp, library, tempfile.mkdtemp(dir=folder))
    subprocess.run(["rm", "-r", folder], check=True)


def saving_others(camp, library, folder):
    """The other benches type on; all Enters come in their order."""
    log, (hold, how), pads = os.path.join(folder, "camp.log"), held_disk(folder, library), Keypads()
    desk = Desk(camp, log, pads.options(), **how)
    desk.until(r"^bench 3: \S+ is open")
    pads.type(0, f"{NAMES[4]} 0.1\n")
    is_saving(log)
    # Byte 7 is no key, and is told: so the keys before it were taken.
    pads.type(0, f"{NAMES[4]} 0.2\x07\n")
    right = True
    for bench in (1, 2, 3):
        pads.type(bench, f"{NAMES[OWN[bench]]} 0.{bench}5\x07\b7\x07\n")
        right = right and desk.times(f"bench {bench}: refused, 3, ", 2, 10)
    desk.say("who 4")
    desk.say("history")
    right = right and desk.until(r"^item 4 is empty$", 10) and desk.until(r"^there is no entry$", 10)
    check("while an Enter is saved the other benches type on", "" if right and b"accepted" not in desk.text and b"bench 0: refused" not in desk.text else repr(desk.text))
    os.remove(hold)
    desk.times("accepted, ", 5)
    wrong = as_logged(desk, log, 5)
    for bench, values in {0: ["0.1", "0.2"], 1: ["0.17"], 2: ["0.27"], 3: ["0.37"]}.items():
        if [value for of, _, value in records(read(log))[0] if of == bench] != values:
            wrong = wrong or f"bench {bench}: not {values}"
    if not wrong and (records(read(log))[0][0] != (0, 4, "0.1") or desk.text.index(b"bench 0: accepted") > desk.text.index(b"bench 0: refused")):
        wrong = f"{desk.text!r}"
    check("and each Enter has its turn, its number, and its own bench's keys before and behind it", wrong)
    desk.quit()
    pads.close()


def saving_turns(camp, library, folder):
    """Two benches whose Enters wait in numbers do not keep another's waiting."""
    log, (hold, how), pads = os.path.join(folder, "camp.log"), held_disk(folder, library), Keypads([0, 1, 2])
    desk = Desk(camp, log, pads.options(), **how)
    desk.until(r"^bench 2: \S+ is open")
    for bench in (0, 1):
        pads.type(bench, "".join(f"{NAMES[OWN[bench]]} 0.{number:02d}\n" for number in range(20)))
    is_saving(log)
    pads.type(2, f"\x07{NAMES[4]} 0.5\n")
    desk.until(r"^bench 2: refused, 3, ")
    # Its Enter came with that byte, or soon after it.
    time.sleep(0.2)
    os.remove(hold)
    desk.times("accepted, ", 41)
    place = [bench for bench, _, _ in records(read(log))[0]].index(2) if b"bench 2: accepted" in desk.text else 99
    check("an Enter waits for those before it alone", as_logged(desk, log, 41) or ("" if place <= 6 else f"{place} before it"))
    desk.quit()
    pads.close()


def saving_fails(camp, library, folder):
    """The flush fails while others type: its bench is as before it, with its line and what it typed since, and so are the others."""
    fails = os.path.join(folder, "fails")
    log, (hold, how), pads = os.path.join(folder, "camp.log"), held_disk(folder, library, SYNC_FAILS=fails), Keypads()
    desk = Desk(camp, log, pads.options(), **how)
    desk.until(r"^bench 3: \S+ is open")
    write(fails, b"")
    pads.type(0, f"{NAMES[4]} 0.1\n")
    is_saving(log)
    pads.type(0, "9\x07")
    pads.type(1, f"{NAMES[6]} 0.2\x07")
    pads.type(2, f"{NAMES[4]} 0.3\x07")
    typed = desk.until(r"^bench 1: refused, 3, ", 10) and desk.until(r"^bench 2: refused, 3, ", 10)
    os.remove(hold)
    told = desk.until(r"^bench 0: not kept, Input/output error: %s 0\.1$" % NAMES[4])
    check("a flush that fails while others type is told", "" if typed and told and read(log) == b"" and b"accepted" not in desk.text else repr(desk.text))
    desk.until(r"^bench 0: refused, 3, ")
    os.remove(fails)
    for bench in (2, 0, 1):
        pads.type(bench, "\n")
        desk.until(r"^bench %d: accepted, " % bench)
    check("and all lines are entered when it works again", as_logged(desk, log, 3) or ("" if records(read(log))[0] == [(2, 4, "0.3"), (0, 4, "0.19"), (1, 6, "0.2")] else repr(read(log))))
    desk.quit()
    pads.close()


def saving_pairs(camp, library, folder):
    """Pairs keep the order of their file: what is told is the same with every disk."""
    log, keys, (hold, how) = os.path.join(folder, "camp.log"), os.path.join(folder, "keys"), held_disk(folder, library)
    lines = [f"{NAMES[4]} 0.1\n", f"\x07{NAMES[6]} 0.2\n", f"{NAMES[4]} 0.3\n", "\x07"]
    write(keys, "".join(f"{bench}{char}" for bench, line in enumerate(lines) for char in line).encode())
    desk = Desk(camp, log, ["--pairs", keys], **how)
    is_saving(log)
    time.sleep(0.2)
    early = desk.read() and b"refused" in desk.text
    os.remove(hold)
    desk.until(r"is at its end$")
    # Where the keys come from is told, and what came of them.
    want = ["accepted", "refused", "accepted", "accepted", "refused"]
    got = [word for line in desk.lines() for word in ("accepted", "refused") if f": {word}, " in line]
    check("pairs wait for an Enter that is being saved", "" if not early and got == want and "is at its end" in desk.lines()[-1] else repr(desk.text))
    desk.quit()


def saving_pulled(camp, library, folder):
    """A keypad that is pulled out behind its Enter: the entry is told, and then that it ended."""
    log, (hold, how) = os.path.join(folder, "camp.log"), held_disk(folder, library)
    path = os.path.join(folder, "fifo")
    os.mkfifo(path)
    desk = Desk(camp, log, ["--bench", f"0={path}"], **how)
    desk.until(r"is open$")
    with open(path, "wb") as file:
        file.write(f"{NAMES[4]} 0.1\n".encode())
    is_saving(log)
    time.sleep(0.2)
    os.remove(hold)
    desk.until(r"ended; it is opened again")
    got = [word for line in desk.lines() for word in ("accepted", "ended") if word in line]
    check("a keypad that is pulled out behind its Enter", "" if got == ["accepted", "ended"] else repr(desk.text))
    desk.quit()


def saving_ends(camp, library, folder):
    """Whatever ends the desk, the Enter that is being saved and one that waits behind it are told before, with all that was read."""
    for name, end in [("quit", None), ("SIGTERM", signal.SIGTERM), ("SIGINT", signal.SIGINT)]:
        log, (hold, how), pads = os.path.join(folder, name), held_disk(folder, library), Keypads([0, 2])
        desk = Desk(camp, log, pads.options(), **how)
        desk.until(r"^bench 2: \S+ is open")
        pads.type(0, f"{NAMES[4]} 0.1\n_half")
        is_saving(log)
        pads.type(2, f"\x07{NAMES[4]} 0.2\n")
        desk.until(r"^bench 2: refused, 3, ", 10)
        time.sleep(0.2)
        if end is None:
            desk.say("quit")
        else:
            desk.process.send_signal(end)
        time.sleep(0.3)
        early = desk.process.poll() is not None or (desk.read() and b"accepted" in desk.text)
        os.remove(hold)
        status, said = desk.quit()
        wrong = as_logged(desk, log, 2)
        if not wrong and (early or status != 0 or said or "bench 0 has not entered `_half`" not in desk.lines() or f"{log}: 2 entries, " not in desk.lines()[-1]):
            wrong = f"early {early}, status {status}, {said!r}, {desk.text!r}"
        check(f"{name} while an Enter is saved", wrong)
        pads.close()


def saving_killed(camp, library, folder):
    """Killed while an Enter is saved: it was not told, and what was told before is in the log."""
    log, (hold, how), pads = os.path.join(folder, "camp.log"), held_disk(folder, library), Keypads([0, 2])
    os.remove(hold)
    desk = Desk(camp, log, pads.options(), **how)
    desk.until(r"^bench 2: \S+ is open")
    pads.type(2, f"{NAMES[4]} 0.1\n")
    desk.until(r"^bench 2: accepted, ")
    before = read(log)
    write(hold, b"")
    pads.type(0, f"{NAMES[4]} 0.2\n")
    is_saving(log, len(before) + 1)
    pads.type(2, f"{NAMES[4]} 0.3\x07")
    desk.until(r"^bench 2: refused, 3, ", 10)
    desk.kill()
    os.remove(hold)
    found = records(read(log))[0]
    again = Desk(camp, log, ["--bench", "0=/dev/null"])
    again.until(r"bytes left")
    right = desk.text.count(b"accepted") == 1 and read(log).startswith(before) and found[1:] in ([], [(0, 4, "0.2")]) and f": {len(found)} entr" in again.lines()[0]
    check("killed while an Enter is saved", "" if right else f"{desk.text!r} {read(log)!r} {again.text!r}")
    again.quit()
    pads.close()


def saving_shown(camp, library, folder):
    """The screen: the bench whose entry is saved is told so, and the others' lines are drawn meanwhile."""
    log, (hold, how), pads = os.path.join(folder, "camp.log"), held_disk(folder, library), Keypads()
    shown = Screen(camp, log, pads.options(), env=how["env"])
    shown.until("desk>")
    pads.type(0, f"{NAMES[4]} 0.1\n")
    is_saving(log)
    for bench in (1, 2, 3):
        pads.type(bench, f"_line_{bench}")
    pads.type(0, "_behind")
    right = shown.shows("Saving ..", f"{NAMES[4]} 0.1", "_line_1", "_line_2", "_line_3", "0 entries", seconds=10)
    check("on the screen: an Enter is saved, and the others type on", "" if right and b"Thank" not in shown.sent and b"_behind" not in shown.sent else plain(shown.bytes))
    os.remove(hold)
    shown.until("Thank you! Entry 1 of sheet 0 is kept.", seconds=10)
    right = shown.until("_behind", seconds=10) and shown.shows("1 entry,", "_behind", "_line_1", "_line_2", "_line_3", seconds=10)
    check("on the screen: it is kept, and its bench goes on", "" if right and "Saving" not in plain(shown.bytes) else plain(shown.bytes))
    shown.process.terminate()
    shown.wait()
    shown.close()
    pads.close()


def at_once(camp, library, folder):
    """Four Enters at once, again and again: each is accepted once, as it is in the log."""
    log, pads, rounds = os.path.join(folder, "camp.log"), Keypads(), 40
    desk = Desk(camp, log, pads.options(), env={**os.environ, "LD_PRELOAD": library, "SYNC_WAITS": "2"})
    desk.until(r"^bench 3: \S+ is open")
    for bench in range(4):
        pads.type(bench, f"{NAMES[OWN[bench]]} 0.000")
    for number in range(1, rounds + 1):
        for bench in range(4):
            pads.type(bench, f"\n{NAMES[OWN[bench]]} 0.{number:03d}")
        desk.times("accepted, ", 4 * number)
    wrong = as_logged(desk, log, 4 * rounds)
    for bench in range(4):
        if [value for of, _, value in records(read(log))[0] if of == bench] != [f"0.{number:03d}" for number in range(rounds)]:
            wrong = wrong or f"bench {bench}: not all its values, in order"
    check("four Enters at once", wrong)
    desk.quit()
    pads.close()


def removed(camp):
    """A log that another program removes, cuts or lengthens while the desk runs."""
    folder = tempfile.mkdtemp()
    log = os.path.join(folder, "camp.log")
    pads = Keypads([0])
    desk = Desk(camp, log, pads.options())
    desk.until(r"is open")
    pads.type(0, f"{NAMES[4]} 0.1\n")
    desk.until(r"accepted")
    whole = read(log)
    os.truncate(log, 3)
    pads.type(0, f"{NAMES[4]} 0.2\n")
    check("a log that is cut from outside", "" if desk.until(r"^bench 0: not kept, the log file was cut by another program: ") else repr(desk.text))
    write(log, whole + record(1, 6, "0.5"))
    pads.type(0, "\n")
    check("a log that is longer from outside", "" if desk.until(r"^bench 0: not kept, another program wrote to the log file: ") and read(log) == whole + record(1, 6, "0.5") else repr(read(log)))
    write(log, whole)
    pads.type(0, "\n")
    check("and as it was again", "" if desk.until(r"^bench 0: accepted, sheet 0, entry 2: ") and read(log) == whole + record(0, 4, "0.2") else repr(read(log)))
    os.remove(log)
    pads.type(0, f"{NAMES[4]} 0.3\n")
    check("a log that is removed", "" if desk.until(r"^bench 0: not kept, the log file was removed: ") else repr(desk.text))
    desk.quit()
    pads.close()
    subprocess.run(["rm", "-r", folder], check=True)


def inputs(camp):
    folder = tempfile.mkdtemp()
    log, fifo, link = (os.path.join(folder, name) for name in ("camp.log", "fifo", "keypad"))
    none = os.path.join(folder, "n" * 200, "n" * 200, "none")
    os.mkfifo(fifo)
    pads = Keypads([1])
    master, slave = pty.openpty()
    before = termios.tcgetattr(slave)
    os.symlink(os.ttyname(slave), link)
    desk = Desk(camp, log, ["--bench", f"0={link}", "--bench", f"2={fifo}", "--bench", f"3={none}", "--speed", "4800", *pads.options()])
    desk.until(r"^bench 1: \S+ is open")
    check("a keypad that is not there is told", "" if desk.until(r"^bench 3: \S+/none is not there: No such file or directory$") else repr(desk.text))
    raw = termios.tcgetattr(slave)
    check("raw mode and speed", "" if raw[3] & (termios.ICANON | termios.ECHO | termios.ISIG) == 0 and raw[0] & termios.ICRNL == 0 and raw[4] == termios.B4800 else repr(raw))
    # The last byte tells that the others were taken.
    os.write(master, f"{NAMES[4]} 0.1\x07".encode())
    desk.until(r"^bench 0: refused, 3, .*: byte 7$", 30)
    pads.type(1, f"{NAMES[6]} 0.2\n")
    check("a bench goes on beside it", "" if desk.until(r"^bench 1: accepted, sheet 0, entry 1: ") else repr(desk.text))
    # The name goes first: the number of the pseudo-terminal may be another program's at once.
    os.remove(link)
    os.close(slave)
    os.close(master)
    check("a keypad that ends is told", "" if desk.until(r"^bench 0: \S+ ended; it is opened again when it comes back$") else repr(desk.text))
    pads.type(1, f"{NAMES[6]} 0.3\n")
    check("the others go on without it", "" if desk.until(r"^bench 1: accepted, sheet 0, entry 2: ") else repr(desk.text))
    master, slave = pty.openpty()
    os.symlink(os.ttyname(slave), link)
    seen = len(desk.text)
    check("a keypad that comes back is told", "" if desk.until(r"(?s)ended; .*^bench 0: \S+ is open$") else repr(desk.text[seen:]))
    os.write(master, b"6\n")
    check("and goes on with its line", "" if desk.until(r"^bench 0: accepted, sheet 0, entry 3: %s 0\.16$" % NAMES[4]) else repr(desk.text[seen:]))
    for number in (1, 2):
        with open(fifo, "wb") as file:
            file.write(f"{NAMES[4]} 0.0{number}\n".encode())
        check(f"a FIFO, writer {number}", "" if desk.until(r"^bench 2: accepted, sheet 1, entry %d: " % number) else repr(desk.text))
    os.write(master, bytes(range(128, 256)) + b"\x1b[2J\x07\r\x7f")
    desk.until(r"^bench 0: refused, 3, .*: byte 127$")
    check("bytes that are no keys are told by number", "" if desk.text.count(b"bench 0: refused, 3, ") == 133 and all(byte == 10 or 32 <= byte <= 126 for byte in desk.text) else repr(desk.text[-300:]))
    status, said = desk.quit()
    after = termios.tcgetattr(slave)
    check("the end, and modes put back", "" if status == 0 and not said and after[3] & termios.ICANON and after[0] & termios.ICRNL and after[4] == before[4] else f"{status} {said!r} {after!r}")
    other = os.path.join(folder, "other")
    os.symlink(os.ttyname(slave), other)
    desk = Desk(camp, log, ["--bench", f"0={link}", "--bench", f"1={other}"])
    check("two benches on one device", "" if desk.until(r"^bench 1: \S+ is not there: this is the input of another bench$") else repr(desk.text))
    # The device of bench 0 goes and comes back: it is not bench 1's meanwhile.
    os.write(master, b"\x07")
    desk.until(r"^bench 0: refused, 3, ")
    for path in (other, link):
        os.remove(path)
    os.close(slave)
    os.close(master)
    desk.until(r"^bench 0: \S+ ended")
    master, slave = pty.openpty()
    for path in (other, link):
        os.symlink(os.ttyname(slave), path)
    desk.until(r"(?s)ended; .*^bench 0: \S+ is open$")
    time.sleep(0.6)
    os.write(master, f"{NAMES[4]} 0.17\n".encode())
    check("they do not change places", "" if desk.until(r"^bench 0: accepted, .* 0\.17$") and b"bench 1: accepted" not in desk.text and desk.text.count(b"bench 1: ") == 1 else repr(desk.text))
    desk.process.send_signal(signal.SIGTERM)
    desk.process.wait(timeout=10)
    check("ended by a signal", "" if desk.process.returncode == 0 else str(desk.process.returncode))
    if os.geteuid() == 0:
        os.mknod(f"{folder}/null", 0o600 | stat.S_IFCHR, os.stat("/dev/null").st_rdev)
        desk = Desk(camp, log, ["--bench", "0=/dev/null", "--bench", f"1={folder}/null"])
        check("two benches on one device by two nodes", "" if desk.until(r"^bench 1: \S+ is not there: this is the input of another bench$", 3) else repr(desk.text))
        desk.quit()
    pads.close()
    subprocess.run(["rm", "-r", folder], check=True)


def fifo(camp, library):
    """A line that a second writer puts into a FIFO while the end of the first is told is not lost; closing takes its time."""
    folder = tempfile.mkdtemp()
    path = os.path.join(folder, "fifo")
    os.mkfifo(path)
    desk = Desk(camp, os.path.join(folder, "camp.log"), ["--bench", f"0={path}"], env={**os.environ, "LD_PRELOAD": library, "CLOSE_WAITS": "1"})
    desk.until(r"is open$")
    for number, pause in ((1, 0.3), (2, 0)):
        file = os.open(path, os.O_WRONLY)
        os.write(file, f"{NAMES[4]} 0.{number}\n".encode())
        os.close(file)
        time.sleep(pause)
    check("a FIFO between two writers", "" if desk.until(r"^bench 0: accepted, sheet 0, entry 2: \S+ 0\.2$", 5) else repr(desk.text))
    desk.kill()
    subprocess.run(["rm", "-r", folder], check=True)


def signals(camp):
    """Signals that end the desk, also where an input always has something; and those that it leaves as they were."""
    folder = tempfile.mkdtemp()
    log, keys = os.path.join(folder, "camp.log"), os.path.join(folder, "keys")
    write(keys, b"0\x07" * 4000000)
    for name, options in [("a keypad that floods", ["--bench", "0=/dev/zero"]), ("a long file of pairs", ["--pairs", keys])]:
        desk = Desk(camp, log, options)
        desk.until(r"refused, 3, ")
        desk.process.send_signal(signal.SIGTERM)
        end = time.monotonic() + 10
        while desk.process.poll() is None and time.monotonic() < end:
            desk.read(0.05)
            desk.text = desk.text[-100000:]
        check(f"ended by a signal beside {name}", "" if desk.process.poll() == 0 else f"{desk.process.poll()}")
        desk.kill()
    os.remove(keys)
    for number in (signal.SIGTERM, signal.SIGINT, signal.SIGHUP, signal.SIGQUIT):
        master, slave = pty.openpty()
        before = termios.tcgetattr(slave)
        desk = Desk(camp, log, ["--bench", f"0={os.ttyname(slave)}"])
        desk.until(r"is open$")
        raw = termios.tcgetattr(slave)
        desk.process.send_signal(number)
        try:
            status = desk.process.wait(timeout=10)
        except subprocess.TimeoutExpired:
            status = "none"
        right = status == 0 and desk.until(r"(?s)bytes left.*bytes left") and raw[3] != before[3] and termios.tcgetattr(slave) == before
        check(f"ended by {signal.Signals(number).name}, modes put back", "" if right else f"{status} {desk.text!r}")
        desk.kill()
        os.close(master)
        os.close(slave)
    # nohup ignores the one, a shell's background the other.
    desk = Desk(camp, log, ["--bench", "0=/dev/null"], preexec_fn=lambda: signal.signal(signal.SIGHUP, signal.SIG_IGN))
    desk.until(r"is open$")
    for number in (signal.SIGHUP, signal.SIGTTIN, signal.SIGTTOU, signal.SIGTSTP):
        desk.process.send_signal(number)
    desk.say("who 4")
    check("goes on after nohup's SIGHUP, SIGTTIN, SIGTTOU and SIGTSTP", "" if desk.until(r"^item 4 is empty$", 3) else f"{desk.process.poll()} {desk.text!r}")
    desk.kill()
    subprocess.run(["rm", "-r", folder], check=True)


def console(camp):
    folder = tempfile.mkdtemp()
    log = os.path.join(folder, "camp.log")
    pads = Keypads()
    desk = Desk(camp, log, pads.options(), cwd=folder)
    desk.until(r"^bench 3: \S+ is open")
    for bench, line in [(0, f"{NAMES[4]} 0.16"), (2, f"{NAMES[4]} 0.03"), (0, f"{NAMES[4]} 0.045")]:
        seen = desk.text.count(b"accepted")
        pads.type(bench, line + "\n")
        desk.until(r"(?s)(accepted.*){%d}" % (seen + 1))
    item = "_refine_ls_R_factor_gt"
    asked = [
        ("who 4", [f"sheet 0, item 4 {item}: bench 0, entry 2, typed 2 times: 0.045", f"sheet 1, item 4 {item}: bench 2, entry 1, typed 1 time: 0.03"]),
        (f"who {item.upper()}", [f"sheet 0, item 4 {item}: bench 0, entry 2, typed 2 times: 0.045"]),
        ("who 5", ["item 5 is empty"]),
        ("who 0", ["0 is neither the number nor the name of an item"]),
        ("who", ["who takes ITEM"]),
        ("  who   5  ", ["item 5 is empty"]),
        ("report", ["sheet 0, our camp: 2 entries, 14 alerts in 25 rows", "  C 08 RFACR_01: wR factor missing (1, missing)", "sheet 1, visitors: 1 entry, 14 alerts in 25 rows"]),
        ("report powder", ["sheet 0, our camp: 2 entries, 8 alerts in 25 rows"]),
        ("report dust", ["report takes nothing, or powder"]),
        ("hydrogen", [f"camp: {log}: neither a formula nor a weight is typed"]),
        ("history", [f"sheet 0, entry 1, bench 0: {item} 0.16", f"sheet 1, entry 1, bench 2: {item} 0.03", f"sheet 0, entry 2, bench 0: {item} 0.045"]),
        ("cif 1 camp-1 a.cif", ["a.cif: written"]),
        ("cif 2 camp-1 b.cif", ["12, no such sheet: 0 is the camp's, of benches 0 and 1, and 1 the visitors', of benches 2 and 3"]),
        ("cif 0 camp_1 b.cif", ["11, not 1 to 32 letters, digits or -"]),
        ("cif x camp-1 b.cif", ["x is not the number of a sheet"]),
        ("cif 0 camp-1 none/b.cif", ["none/b.cif: No such file or directory"]),
        ("cif 0 camp-1 camp.log", ["camp.log: this is the log"]),
        ("cif 0 camp-1 -", ["-: not the name of a file"]),
        ("quit now", ["quit takes nothing"]),
        ("help", [f"{'quit':9}{'':16} end the desk; the log has all that was accepted"]),
        ("caf\xe9\x1b[2J", ["caf[2J is not a command; help tells all"]),
        ("x" * 500, ["a command has at most 400 characters"]),
        ("", []),
    ]
    for line, want in asked:
        desk.text = b""
        desk.say(line)
        desk.say("who 9")
        desk.until(r"^item 9 is empty$")
        missing = [text for text in want if text not in desk.lines()]
        check(f"console: {line[:30].strip()!a}", f"{missing} not in {desk.lines()}" if missing or (not want and len(desk.lines()) != 1) else "")
    check("console: the file is written", "" if read(os.path.join(folder, "a.cif")) == f"data_camp-1\n{item} 0.03\n".encode() else "not so")
    pads.type(1, "_half a line")
    time.sleep(0.2)
    desk.text = b""
    status, said = desk.quit()
    check("console: quit", "" if status == 0 and not said and "bench 1 has not entered `_half a line`" in desk.lines() else f"{status} {said!r} {desk.text!r}")
    pads.close()
    write(os.path.join(folder, "none"), b"")
    for name, text, times in [("a last line without its end", "who 5\nwho 5", 2), ("a command behind quit", "who 5\nquit\nwho 5\n", 1)]:
        answered = subprocess.run([camp, "run", "--plain", "--log", log, "--pairs", os.path.join(folder, "none")], input=text, capture_output=True, text=True, timeout=20)
        check(f"console: {name}", "" if answered.returncode == 0 and answered.stdout.count("item 5 is empty\n") == times else repr(answered))
    subprocess.run(["rm", "-r", folder], check=True)


class Screen:
    """The desk on the screen of a pseudo-terminal, which is its own terminal; words are what it draws, without the places."""

    def __init__(self, camp, log, options, columns=80, rows=24, term="xterm-256color", stdin=None, env=None):
        self.master, self.slave = pty.openpty()
        fcntl.ioctl(self.slave, termios.TIOCSWINSZ, struct.pack("HHHH", rows, columns, 0, 0))
        self.before = termios.tcgetattr(self.slave)
        self.bytes = self.sent = b""

        def own():
            os.setsid()
            fcntl.ioctl(1, termios.TIOCSCTTY, 0)

        self.process = subprocess.Popen([camp, "run", "--log", log, *options], stdin=self.slave if stdin is None else stdin, stdout=self.slave, stderr=self.slave,
                                        env={**os.environ, **(env or {}), "TERM": term}, preexec_fn=own)
        STARTED.append(self.process)
        os.set_blocking(self.master, False)

    def read(self, seconds=0.0):
        """What is drawn within a time."""
        got = b""
        if select.select([self.master], [], [], seconds)[0]:
            try:
                got = os.read(self.master, 65536)
            except OSError:
                pass
        self.bytes += got
        self.sent += got
        return got

    def shows(self, *words, seconds=60.0):
        """Has all drawn anew until the words stand there, be they folded or not; whether they do."""
        end = time.monotonic() + seconds
        while time.monotonic() < end:
            self.bytes = b""
            self.process.send_signal(signal.SIGWINCH)
            while self.read(1.0):
                if all(word.replace(" ", "") in plain(self.bytes).replace(" ", "") for word in words):
                    return True
        return False

    def until(self, *words, seconds=60.0):
        """Reads until all words are drawn since the last time; whether they were."""
        end = time.monotonic() + seconds
        while not all(word in plain(self.bytes) for word in words):
            if time.monotonic() > end:
                return False
            self.read(0.05)
        return True

    def type(self, keys):
        """The counsellor's keys; what was drawn before is forgotten."""
        self.bytes = b""
        os.write(self.master, keys)

    def resize(self, columns, rows):
        fcntl.ioctl(self.slave, termios.TIOCSWINSZ, struct.pack("HHHH", rows, columns, 0, 0))
        self.bytes = b""

    def modes(self):
        return termios.tcgetattr(self.slave)

    def wait(self, seconds=60.0):
        """The exit status, with what is drawn until then."""
        end = time.monotonic() + seconds
        while self.process.poll() is None and time.monotonic() < end:
            self.read(0.02)
        while self.read(0.01):
            pass
        return self.process.poll()

    def close(self):
        if self.process.poll() is None:
            self.process.kill()
        self.process.wait()
        os.close(self.master)
        os.close(self.slave)


def plain(drawn):
    """What was drawn without the terminal's commands; each place that is gone to is a space."""
    return re.sub(r"\s+", " ", re.sub(r"\x1b(\[[0-9;?]*[ -/]*[@-~]|[()][A-Z0-9]|[=>78M])", " ", drawn.decode("latin-1")))


def screen(camp, columns, rows):
    """What goes to the terminal at this size, and what becomes of the terminal."""
    folder = tempfile.mkdtemp()
    # The title has the name of the log, with bytes that no terminal may get.
    log, size = os.path.join(folder, "\x07\x9b\xe9.log"), f"{columns}x{rows}"
    large = columns >= 80 and rows >= 24
    write(log, record(0, 4, "0.16") + record(1, 6, "0.2")[:5])
    pads = Keypads()
    master, slave = pty.openpty()
    link = os.path.join(folder, "keypad")
    os.symlink(os.ttyname(slave), link)
    del pads.pairs[0]
    shown = Screen(camp, log, ["--bench", f"0={link}", *pads.options()], columns, rows)

    def seen(name, *words):
        if large:
            check(f"on a screen of {size}: {name}", "" if shown.shows(*words) else f"{words} not in {plain(shown.bytes)!r}")
        else:
            time.sleep(0.2)
            shown.read(0.2)

    shown.until("THE DESK")
    seen("a torn record", "20, the log ends inside this record", "the log goes on before it")
    shown.type(b"\r")
    seen("the sheets", "SHEET 0 our camp: 1 typed")
    os.write(master, b"\303\251\033[2J\007_refine\n")
    pads.type(1, bytes(range(127, 256)) + f"{NAMES[6]} 0.3\n".encode())
    pads.type(2, "_" * 300)
    pads.type(3, f"{NAMES[8]} abc\n")
    seen("answers to keys", "This is not a name", "Thank you! Entry 2 of sheet 0 is kept.", "The line is full", "This item wants a number")
    os.remove(link)
    os.close(slave)
    os.close(master)
    seen("a keypad that is pulled out", "The keypad is not there: No such file or directory.")
    shown.type(b"cif 2 camp-1 b.cif\r")
    seen("an answer that is wider than the screen", "12, no such sheet", "of benches 2 and 3")
    shown.type(b"x" * 500 + b"\033")
    time.sleep(0.2)
    shown.type(b"who 4\r")
    seen("Escape empties a line that is too long", "bench 0, entry 1, typed 1 time")
    shown.type(b"history\r\033[6~\033[5~\033[A\033[B\177\b")
    for smaller in ((50, 16), (20, 10), (12, 3), (1, 1), (columns, rows)):
        shown.resize(*smaller)
        shown.process.send_signal(signal.SIGWINCH)
        time.sleep(0.1)
        shown.read(0.1)
    shown.type(b"\r")
    seen("as it was", "SHEET 1 visitors: 0 typed")
    shown.type(b"quit\r")
    status = shown.wait()
    check(f"on a screen of {size}: quit, and the modes are put back", "" if status == 0 and shown.modes() == shown.before else f"{status} {shown.modes()} {plain(shown.bytes)[-300:]!r}")
    wrong = sorted({byte for byte in shown.sent if byte >= 127 or byte == 7})
    check(f"on a screen of {size}: no byte over 126, no bell", "" if len(shown.sent) > 1000 and not wrong else f"{wrong} in {len(shown.sent)} bytes")
    shown.close()
    pads.close()
    subprocess.run(["rm", "-r", folder], check=True)


def terminal(camp):
    """What becomes of the terminal, however the desk ends."""
    folder = tempfile.mkdtemp()
    log = os.path.join(folder, "camp.log")
    pads = Keypads([0])
    for name, end in [("SIGTERM", signal.SIGTERM), ("SIGHUP", signal.SIGHUP), ("SIGINT", signal.SIGINT), ("Ctrl-C", b"\3")]:
        shown = Screen(camp, log, pads.options())
        shown.until("desk>")
        raw = shown.modes()
        if isinstance(end, bytes):
            shown.type(end)
        else:
            shown.process.send_signal(end)
        status = shown.wait()
        check(f"the terminal after {name}", "" if status == 0 and raw[3] & termios.ICANON == 0 and shown.modes() == shown.before and b"\x1b[?1049l" in shown.bytes else f"{status} {shown.modes()}")
        shown.close()
    shown = Screen(camp, log, pads.options(), term="unknown-terminal")
    status = shown.wait()
    check("a terminal that is not known", "" if status == 1 and "camp: this terminal cannot be drawn on; see --plain in 'camp help run'" in plain(shown.bytes) and shown.modes() == shown.before else f"{status} {shown.bytes!r}")
    shown.close()
    for name, end in [("quit", b"who 4\nquit\n"), ("Ctrl-C", b"")]:
        console, typed = os.pipe()
        shown = Screen(camp, log, pads.options(), stdin=console)
        shown.until("desk>")
        os.write(typed, end)
        if not end:
            os.write(shown.master, b"\x13\3")
        status = shown.wait(10)
        check(f"standard input is not the terminal: {name}", "" if status == 0 and shown.modes() == shown.before else f"{status} {shown.modes()}")
        shown.close()
        os.close(console)
        os.close(typed)
    shown = Screen(camp, log, ["--plain", "--pairs", "-"])
    shown.until("standard input is open")
    check("pairs that a person types", "" if shown.modes() == shown.before else f"{shown.modes()}")
    os.write(shown.master, b"\3")
    check("pairs that a person types: Ctrl-C", "" if shown.wait(10) == 0 else str(shown.process.poll()))
    shown.close()
    pads.close()
    subprocess.run(["rm", "-r", folder], check=True)


class Picture:
    """What stands on a terminal of xterm's kind, each place with its background; the commands are those that ncurses sends."""

    COMMAND = re.compile(rb"\x1b\[([?>=]?)([0-9;]*)([@-~])|\x1b[()][A-Z0-9]|\x1b[=>78M]|[\x20-\x7e]|[\b\r\n]")

    def __init__(self, columns, rows):
        self.columns, self.rows = columns, rows
        self.cells = [self.blank() for _ in range(rows)]
        self.row = self.column = 0
        self.top, self.bottom = 0, rows - 1
        self.back, self.last, self.rest = 0, " ", b""

    def blank(self):
        return [(" ", 0)] * self.columns

    def put(self, char):
        if self.column >= self.columns:
            self.column, self.row = 0, min(self.row + 1, self.rows - 1)
        self.cells[self.row][self.column] = (char, self.back)
        self.column += 1
        self.last = char

    def shift(self, at, count):
        """Lines at a place go up by so many, or down; new ones are empty."""
        for _ in range(abs(count)):
            self.cells.insert(self.bottom if count > 0 else at, self.blank())
            del self.cells[at if count > 0 else self.bottom + 1]

    def colour(self, numbers):
        for number in numbers or [0]:
            if number in (0, 49) or 40 <= number <= 47:
                self.back = number if 40 <= number <= 47 else 0

    def command(self, numbers, letter):
        count, line = (numbers[0] if numbers else 0) or 1, self.cells[self.row]
        if letter == "m":
            self.colour(numbers)
        elif letter == "H":
            self.row, self.column = count - 1, ((numbers[1:] or [1])[0] or 1) - 1
        elif letter == "d":
            self.row = count - 1
        elif letter == "G":
            self.column = count - 1
        elif letter in "AB":
            self.row += count if letter == "B" else -count
        elif letter in "CD":
            self.column += count if letter == "C" else -count
        elif letter == "K":
            first, end = (0, self.column + 1) if numbers == [1] else (self.column, self.columns)
            line[first:end] = [(" ", self.back)] * (end - first)
        elif letter == "J" and numbers == [2]:
            self.cells = [self.blank() for _ in range(self.rows)]
        elif letter == "J":
            line[self.column:] = [(" ", self.back)] * (self.columns - self.column)
            self.cells[self.row + 1:] = [self.blank() for _ in range(self.rows - self.row - 1)]
        elif letter == "X":
            line[self.column:self.column + count] = [(" ", self.back)] * min(count, self.columns - self.column)
        elif letter == "P":
            line[self.column:] = line[self.column + count:] + [(" ", self.back)] * count
        elif letter == "@":
            line[self.column:] = ([(" ", self.back)] * count + line[self.column:])[:self.columns - self.column]
        elif letter == "b":
            for _ in range(count):
                self.put(self.last)
        elif letter == "r":
            self.top, self.bottom = count - 1, ((numbers[1:] or [self.rows])[0] or self.rows) - 1
            self.row = self.column = 0
        elif letter in "ST":
            self.shift(self.top, count if letter == "S" else -count)
        elif letter in "LM":
            self.shift(self.row, count if letter == "M" else -count)
        elif letter not in "hlt":
            raise ValueError(f"the terminal's command {letter} is not known here")

    def draw(self, data):
        """Takes what was drawn; the beginning of a command waits for its rest."""
        data = self.rest + data
        at = 0
        while at < len(data):
            match = self.COMMAND.match(data, at)
            if not match:
                break
            at = match.end()
            if match[3]:
                if not match[1]:
                    self.command([int(number or 0) for number in match[2].split(b";")] if match[2] else [], match[3].decode())
            elif match[0] == b"\r":
                self.column = 0
            elif match[0] == b"\b":
                self.column -= 1
            elif match[0] == b"\n" and self.row == self.bottom:
                self.shift(self.top, 1)
            elif match[0] == b"\n":
                self.row += 1
            elif match[0] == b"\x1bM" and self.row == self.top:
                self.shift(self.top, -1)
            elif match[0] == b"\x1bM":
                self.row -= 1
            elif len(match[0]) == 1:
                self.put(match[0].decode())
        self.rest = data[at:]
        if len(self.rest) > 30:
            raise ValueError(f"{self.rest[:30]!r} is not known here")

    def line(self, bench):
        """The line of a bench, up to the coloured place behind it, on a screen of 40 rows or more."""
        row = self.cells[2 + 3 * bench][21:]
        end = next((at for at, (_, back) in enumerate(row) if back), 0)
        return "".join(char for char, _ in row[:end])


class Typist:
    """A bench that types entries, each of another value, and when each key was due and shown."""

    def __init__(self, bench):
        self.bench, self.due, self.shown, self.number = bench, [], [], 0
        self.keys, self.states, self.line = "", [], ""

    def next(self, due):
        """The next key."""
        if len(self.keys) == len(self.due):
            self.number += 1
            line = f"{NAMES[OWN[self.bench]]} {self.value(self.number)}"
            self.states += [line[:at + 1] for at in range(len(line))] + [""]
            self.keys += line + "\n"
        self.due.append(due)
        return self.keys[len(self.due) - 1]

    def value(self, number):
        return f"0.{number:05d}"

    def see(self, line, moment):
        """Another line stands on the screen: the next state that is so. Lines of two entries begin the same, but end otherwise."""
        if line == self.line:
            return
        self.line = line
        for at in range(len(self.shown), len(self.due)):
            if self.states[at] == line:
                self.shown += [moment] * (at + 1 - len(self.shown))
                return

    def all_shown(self):
        return len(self.shown) == len(self.due)


def load(camp, seconds, library, waits="0"):
    """Four benches at 50 keys a second each, one in thirty an Enter that is flushed: from when a key is due until it is drawn.

    Keys are sent when they are due, whether or not the ones before were shown. The disk takes `waits` milliseconds more for
    each flush. A key behind an Enter of its own bench, which has to be saved first, counts from the end of that flush; an
    Enter is late where it is shown more than 10 ms after its flush, or where that begins so late without another before it."""
    folder = tempfile.mkdtemp(dir=os.environ.get("RUN_FOLDER"))
    pads = Keypads()
    log, times = os.path.join(folder, "camp.log"), os.path.join(folder, "times")
    shown = Screen(camp, log, pads.options(), 200, 60, env={"LD_PRELOAD": library, "SYNC_WAITS": waits, "SYNC_TIMES": times})
    picture, seen = Picture(200, 60), 0
    shown.until("desk>")
    while shown.read(0.1):
        pass
    typists = [Typist(bench) for bench in range(4)]
    keys, begin, sent = round(seconds * 200), time.monotonic(), 0
    end = begin + seconds + 60
    while (sent < keys or not all(one.all_shown() for one in typists)) and time.monotonic() < end:
        due = begin + sent * 0.005
        if sent < keys and time.monotonic() >= due:
            pads.type(sent % 4, typists[sent % 4].next(due))
            sent += 1
            continue
        shown.read(max(0.0, due - time.monotonic()) if sent < keys else 0.1)
        moment = time.monotonic()
        if len(shown.sent) > seen:
            picture.draw(shown.sent[seen:])
            seen = len(shown.sent)
            for one in typists:
                one.see(picture.line(one.bench), moment)
    shown.process.terminate()
    shown.wait()
    found, rest = records(read(log))
    flushes = [tuple(map(float, line.split())) for line in read(times).decode().splitlines()]
    judge(typists, found, flushes, int(waits), seconds)
    shown.close()
    pads.close()
    subprocess.run(["rm", "-r", folder], check=True)


def judge(typists, found, flushes, waits, seconds):
    """How late the keys were shown, by the records in the log and the times of their flushes."""
    at = {(bench, value): number for number, (bench, _, value) in enumerate(found)}
    keys, behind, enters, begun, lost = [], [], [], [], 0
    for one in typists:
        lost += len(one.due) - len(one.shown)
        number, saved = 0, 0.0
        for key, due, moment in zip(one.keys, one.due, one.shown):
            if key != "\n":
                (keys if saved <= due else behind).append(moment - max(saved, due))
                continue
            number += 1
            place = at.get((one.bench, one.value(number)))
            if place is None:
                lost += 1
                continue
            start, saved = flushes[place]
            enters.append(moment - saved)
            begun.append(start - max(due, flushes[place - 1][1] if place else 0.0))
    what = f"with a flush of {waits} ms" if waits else "with flushing"
    # Others use the processors too, so one in ten may be late.
    for name, took in [("keys other than Enter", keys + behind), ("Enters, from their flush and to it", enters + begun)]:
        late = sum(1 for one in took if one > 0.010)
        check(f"{what}: {name}, within 10 ms", "" if took and late * 10 <= len(took) and not lost and len(flushes) == len(found) == len(enters)
              else f"{late} of {len(took)} late, the worst {max(took, default=0) * 1000:.1f} ms, {lost} not shown, {len(found)} records, {len(flushes)} flushes of {len(enters)} Enters")

    def told(took):
        if not took:
            return "none"
        took = sorted(took)
        late = sum(1 for one in took if one > 0.010)
        return f"{len(took)}, half within {took[len(took) // 2] * 1000:.2f} ms, 99 of 100 within {took[len(took) * 99 // 100] * 1000:.2f} ms, the worst {took[-1] * 1000:.2f} ms, {late} over 10 ms"

    lasted = sorted(end - start for start, end in flushes) or [0.0]
    print(f"  measured: four benches, 50 keys a second each, {seconds:g} s {what}")
    print(f"    keys other than Enter: {told(keys)}")
    print(f"    behind an Enter of their own bench, after its flush: {told(behind)}")
    print(f"    Enters, after their flush: {told(enters)}")
    print(f"    from an Enter, or the end of the flush before, to its flush: {told(begun)}")
    print(f"    flushes: {len(flushes)}, half within {lasted[len(lasted) // 2] * 1000:.2f} ms, the worst {lasted[-1] * 1000:.2f} ms", flush=True)


def memory(camp, count):
    """The program's memory does not grow: after the first tenth of the keys, and at the end."""
    folder = tempfile.mkdtemp()
    pads = Keypads([0, 2])
    shown = Screen(camp, os.path.join(folder, "camp.log"), pads.options())
    shown.until("desk>")

    def drawn(seconds):
        shown.bytes = b""
        shown.read(seconds)

    def resident():
        with open(f"/proc/{shown.process.pid}/status") as file:
            return next(int(line.split()[1]) for line in file if line.startswith("VmRSS"))

    text = ("_refine x" * 20 + "\n" + "\x18" + "\x07").encode() * 4
    sent, first = 0, 0
    while sent < count:
        for bench in (0, 2):
            rest = text
            while rest:
                _, ready, _ = select.select([], [pads.pairs[bench][0]], [], 5)
                os.set_blocking(pads.pairs[bench][0], False)
                try:
                    rest = rest[os.write(pads.pairs[bench][0], rest):]
                except BlockingIOError:
                    pass
                drawn(0)
            sent += len(text)
        if not first and sent > count // 10:
            first = resident()
    for _ in range(50):
        drawn(0.01)
    last = resident()
    shown.process.terminate()
    shown.wait()
    check(f"memory over {count} keys", "" if first and last - first <= 64 else f"{first} kB, then {last} kB")
    print(f"  measured: {first} kB after {count // 10} keys, {last} kB after {count}", flush=True)
    shown.close()
    pads.close()
    subprocess.run(["rm", "-r", folder], check=True)


def main(camp, what, *words):
    if what == "kills":
        kills(camp, int(words[0]), int(words[1]))
    elif what == "torn":
        torn(camp, *words)
    elif what == "full":
        no_room(camp, os.path.join(words[0], "camp.log"), "a file system that runs full in the middle of a record", "No space left on device")
    elif what == "limit":
        limit(camp)
    elif what == "sync":
        sync(camp, words[0])
    elif what == "saving":
        saving(camp, words[0])
    elif what == "removed":
        removed(camp)
    elif what == "inputs":
        inputs(camp)
    elif what == "fifo":
        fifo(camp, words[0])
    elif what == "signals":
        signals(camp)
    elif what == "console":
        console(camp)
    elif what == "screen":
        screen(camp, int(words[0]), int(words[1]))
    elif what == "terminal":
        terminal(camp)
    elif what == "load":
        load(camp, float(words[0]), *words[1:])
    elif what == "memory":
        memory(camp, int(words[0]))
    else:
        sys.exit(f"{what} is nothing to run")


main(*sys.argv[1:])
