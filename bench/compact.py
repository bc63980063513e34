#!/usr/bin/env python3
"""Measures what a compaction costs and saves: bench/compact.py [KAPD] [POINTS] [BATCH]

Makes a store of POINTS points (1,000,000 if none is given) in batches of BATCH (5,000), by the built program KAPD
(crates/kapd/out/kapd, which `rt run` in crates/kapd builds), in a folder of its own: with two tasks, one that is disabled
and enabled now and then, tasks that are deleted, with a life behind them or without one, and changes that change nothing.
A tenth of it, and all of it, are compacted. It prints, a line each, with the most that it should be: the peaks of an
opening and of the compaction in KiB, the processor seconds of the compaction by those of the opening, its seconds by the
clock, the bytes and records of the log before and behind it; and by how much the peaks of the two compactions differ. It
ends with status 1 where a figure is above its most, or the lists aren't byte for byte what they were, or the new log isn't
byte for byte the records of the old one that are to stay, or the head doesn't name it, or where any of that isn't so behind
a second compaction. It needs GNU time as /usr/bin/time."""
import os
import shutil
import subprocess
import sys
import tempfile

TOP = os.path.dirname(os.path.dirname(os.path.abspath(__file__)))
KAPD = sys.argv[1] if len(sys.argv) > 1 else f"{TOP}/crates/kapd/out/kapd"
POINTS = int(sys.argv[2]) if len(sys.argv) > 2 else 1_000_000
BATCH = int(sys.argv[3]) if len(sys.argv) > 3 else 5_000
SCRIPTS = {
    "high": "stream|from().measurement('cpu').groupBy('host')|alert().crit(lambda: \"f\" > 95)",
    "mean": "stream|from().measurement('cpu')|window().periodCount(50).everyCount(20)|max('f')|alert().warn(lambda: \"max\" > 99)",
    "often": "stream|from().measurement('cpu')|alert().crit(lambda: \"f\" > 99).topic('often')",
}
SHORT = "stream|from().measurement('none')|log()"
LISTS = ["tasks", "topics", "alerts", "export"]
WRONG = []


def call(folder, words, given=b""):
    done = subprocess.run([KAPD, folder, *words], input=given, capture_output=True, check=False)
    if done.returncode:
        sys.exit(f"compact.py: {words[0]} ended with {done.returncode}: {done.stderr.decode()}")
    return done.stdout


def measured(folder, command):
    """The peak in KiB, the processor seconds and the seconds of a command."""
    told = f"{folder}.time"
    subprocess.run(["/usr/bin/time", "-f", "%M %U %S %e", "-o", told, KAPD, folder, command], stdout=subprocess.DEVNULL,
                   check=True)
    with open(told, encoding="ascii") as lines:
        peak, user, system, clock = lines.read().split()[-4:]
    return int(peak), float(user) + float(system), float(clock)


def lines(first, count):
    return "".join(f"cpu,host=h{at % 8} f={37 * at % 101}i,other={at}i {at}000000000\n" for at in range(first, first + count)).encode()


def change(folder, number):
    """What comes before some batches: records that are needed no more, and some that are."""
    if number % 10 == 0:
        call(folder, ["define", "never"], SHORT.encode())
        call(folder, ["disable", "never"])
        call(folder, ["delete", "never"])
        call(folder, ["enable", "high"])
    if number % 20 == 5:
        call(folder, ["disable", "often"])
        call(folder, ["disable", "often"])
        call(folder, ["define", "short"], SHORT.encode())
        call(folder, ["enable", "short"])
    if number % 20 == 15:
        call(folder, ["enable", "often"])
        call(folder, ["delete", "short"])


def records(log):
    """The records of a log, each with its gate, and what stands behind the last."""
    if log[:8] != b"KAPLOG01":
        sys.exit("compact.py: no log")
    found, at = [], 8
    while log[at] == 0xA5:
        end = at + 5 + int.from_bytes(log[at + 1:at + 5], "big")
        found.append(log[at:end])
        at = end
    return found, log[at:]


def id_of(record):
    """The id of a record of a task, behind its gate, its length, its kind and the id's length."""
    return record[10:10 + int.from_bytes(record[6:10], "big")]


def staying(found):
    """The records that stay: all but the snapshots before the last, what changes nothing, and the Define and the Delete of
    a task that never had a life and is deleted. A task of the commands is defined as one that isn't enabled."""
    kinds = [record[5] for record in found]
    last = max((place for place, kind in enumerate(kinds) if kind == 7), default=None)
    lived, there, out = {}, {}, set(place for place, kind in enumerate(kinds) if kind == 7 and place != last)
    for place, record in enumerate(found):
        if kinds[place] > 4:
            continue
        task = id_of(record)
        if kinds[place] == 1:
            there[task] = [place, False]
        elif kinds[place] == 4:
            define, _ = there.pop(task)
            if define not in lived:
                out |= {define, place}
        elif there[task][1] == (kinds[place] == 2):
            out.add(place)
        else:
            there[task][1] = kinds[place] == 2
            lived[there[task][0]] = True
    return [record for place, record in enumerate(found) if place not in out]


def contents(folder, name):
    with open(f"{folder}/{name}", "rb") as file:
        return file.read()


def tell(what, figure, most=None):
    print(f"{what}: {figure:.3g}" if isinstance(figure, float) else f"{what}: {figure}", end="")
    print("" if most is None else f" (at most {most})", flush=True)
    if most is not None and figure > most:
        WRONG.append(what)


def expect(what, right):
    if not right:
        WRONG.append(what)


def compacted(store, points):
    """Compacts a copy of a store twice. It answers the peak of the first compaction."""
    folder = shutil.copytree(store, f"{store}.copy")
    before = [call(folder, [name]) for name in LISTS]
    old = contents(folder, "left")
    opening, opened, _ = measured(folder, "tasks")
    peak, taken, clock = measured(folder, "compact")
    new = contents(folder, "right")
    stay = staying(records(old)[0])
    tell(f"KiB of an opening of {points} points", opening)
    tell("KiB of its compaction", peak, 32_768)
    tell("its processor seconds by those of the opening", taken / max(opened, 0.01), 3)
    tell("its seconds", clock)
    tell("bytes of the log before", len(old))
    tell("bytes of the log behind", len(new), len(old))
    tell("records before", len(records(old)[0]))
    tell("records behind", len(stay))
    expect("the new log isn't of the records that stay", new == b"KAPLOG01" + b"".join(stay) + b"\0")
    expect("the head doesn't name the new log", contents(folder, "head")[:10] == b"KAPHEAD1\xa5\0")
    expect("lists", [call(folder, [name]) for name in LISTS] == before)
    call(folder, ["compact"])
    expect("the second compaction changes the records", contents(folder, "left") == new)
    expect("the head doesn't name the first log again", contents(folder, "head")[:11] == b"KAPHEAD1\xa5\xa5\0")
    expect("lists behind a second compaction", [call(folder, [name]) for name in LISTS] == before)
    shutil.rmtree(folder)
    return peak


def main():
    top = tempfile.mkdtemp(prefix="compact-")
    store = f"{top}/store"
    os.mkdir(store)
    call(store, ["init"])
    for name, script in SCRIPTS.items():
        call(store, ["define", name], script.encode())
        call(store, ["enable", name])
    batches = max(1, POINTS // BATCH)
    few, peaks = max(1, batches // 10), []
    for number in range(batches):
        change(store, number)
        call(store, ["write", "d", "r"], lines(number * BATCH + 1, BATCH))
        if number + 1 in (few, batches):
            peaks.append(compacted(store, (number + 1) * BATCH))
    tell("KiB of the one compaction beside the other", abs(peaks[-1] - peaks[0]), 1024)
    shutil.rmtree(top)
    sys.exit(f"compact.py: wrong: {'; '.join(WRONG)}" if WRONG else 0)


main()
