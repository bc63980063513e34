#!/usr/bin/env python3
"""Kills writes and compactions at random moments and looks at what is stored: bench/stops.py [KAPD] [ROUNDS] [POINTS]

Makes a store with two tasks in a folder of its own, by the built program KAPD (crates/kapd/out/kapd, which `rt run` in
crates/kapd builds), and writes ROUNDS (200 if none is given) batches of POINTS points (50) to it, each by a process that is
killed by SIGKILL after a random time, up to about as long as a write takes. Behind each it opens the store by `export` and
asks: each batch whose process ended with 0 is there, once; no batch is there in part, or twice; and what `alerts` prints
is what a replay of the export prints of the same tasks. Then the store is compacted by a process that is killed so too, and
it asks: each list is byte for byte what it was, and the head names the log that it named, or the other one, and that where
the process ended with 0. It ends with status 1 at the first store of which that isn't so, and leaves its folder there."""
import os
import random
import shutil
import subprocess
import sys
import tempfile
import time

TOP = os.path.dirname(os.path.dirname(os.path.abspath(__file__)))
KAPD = sys.argv[1] if len(sys.argv) > 1 else f"{TOP}/crates/kapd/out/kapd"
ROUNDS = int(sys.argv[2]) if len(sys.argv) > 2 else 200
POINTS = int(sys.argv[3]) if len(sys.argv) > 3 else 50
SCRIPTS = {
    "high": "stream|from().measurement('m').groupBy('host')|alert().crit(lambda: \"x\" > 90)",
    "mean": "stream|from().measurement('m')|window().periodCount(7).everyCount(5)|max('x')|alert().warn(lambda: \"max\" > 95)",
}
LISTS = ["tasks", "topics", "alerts", "export"]


def call(folder, words, given=b""):
    done = subprocess.run([KAPD, folder, *words], input=given, capture_output=True, check=False)
    if done.returncode:
        sys.exit(f"stops.py: {words[0]} ended with {done.returncode}: {done.stderr.decode()}")
    return done.stdout


def batch(number):
    """The lines of a batch: each point tells the batch and its place there, and no two are the same."""
    lines = [f"m,host=h{place % 3} x={(number * 31 + place * 17) % 101}i,batch={number}i,place={place}i {number * POINTS + place}"
             for place in range(POINTS)]
    return ("\n".join(lines) + "\n").encode()


def killed(folder, words, given, most):
    """Runs a command, killed after a random time. It answers whether it ended with 0, and the seconds."""
    start = time.monotonic()
    with subprocess.Popen([KAPD, folder, *words], stdin=subprocess.PIPE, stdout=subprocess.DEVNULL,
                          stderr=subprocess.DEVNULL) as child:
        try:
            child.stdin.write(given)
            child.stdin.close()
        except BrokenPipeError:
            pass
        try:
            child.wait(random.uniform(0, most))
        except subprocess.TimeoutExpired:
            child.kill()
        child.wait()
    return child.returncode == 0, time.monotonic() - start


def stored(export):
    """How many points of each batch are there, in the order of the batches; and whether the points are in their order."""
    counts, places = {}, []
    for line in export.decode().splitlines()[2::3]:
        fields = dict(field.split("=") for field in line.split(" ")[1].split(","))
        number, place = int(fields["batch"][:-1]), int(fields["place"][:-1])
        counts[number] = counts.get(number, 0) + 1
        places.append((number, place))
    return counts, places == sorted(places)


def look(folder, acknowledged):
    export = call(folder, ["export"])
    counts, in_order = stored(export)
    told = [line for line in call("-", ["replay", *(word for pair in SCRIPTS.items() for word in pair)], export).splitlines()
            if line.startswith(b"alert ")]
    wrongs = [f"batch {number} isn't stored" for number in acknowledged if number not in counts]
    wrongs += [f"{count} points of batch {number} are stored" for number, count in counts.items() if count != POINTS]
    wrongs += [] if in_order else ["the points aren't in their order"]
    wrongs += [] if call(folder, ["alerts"]).splitlines() == told else ["the alerts aren't those of the export"]
    if wrongs:
        sys.exit(f"stops.py: {folder}: {'; '.join(wrongs[:5])}")
    return len(counts)


def run_of(folder):
    """How many gates of the head are open."""
    with open(f"{folder}/head", "rb") as head:
        gates = head.read()[8:]
    return len(gates) - len(gates.lstrip(b"\xa5"))


def compact(folder, most):
    """Compacts the store, killed after a random time. It answers whether that ended with 0, whether the head names the
    other log, and the seconds."""
    before, run = [call(folder, [name]) for name in LISTS], run_of(folder)
    whole, seconds = killed(folder, ["compact"], b"", most)
    opened = run_of(folder) - run
    if opened not in (0, 1) or (whole and opened == 0):
        sys.exit(f"stops.py: {folder}: the head has {run + opened} open gates behind a compaction at {run}")
    if [call(folder, [name]) for name in LISTS] != before:
        sys.exit(f"stops.py: {folder}: the lists aren't what they were before a compaction")
    return whole, opened == 1, seconds


def nearer(most, whole, seconds):
    """The most of random times behind a command that took so long, or was killed: nearer to how long it takes."""
    return 0.9 * most + 0.15 * seconds if whole else min(2, 1.03 * most)


def main():
    random.seed(1)
    folder = tempfile.mkdtemp(prefix="stops-")
    call(folder, ["init"])
    for name, script in SCRIPTS.items():
        call(folder, ["define", name], script.encode())
        call(folder, ["enable", name])
    most, acknowledged, there = 0.2, [], 0
    most_compact, done, switched = 0.2, 0, 0
    for number in range(ROUNDS):
        whole, seconds = killed(folder, ["write", "d", "r"], batch(number), most)
        most = nearer(most, whole, seconds)
        if whole:
            acknowledged.append(number)
        there = look(folder, acknowledged)
        whole, other, seconds = compact(folder, most_compact)
        most_compact = nearer(most_compact, whole, seconds)
        done, switched = done + whole, switched + other
    print(f"{ROUNDS} writes, {len(acknowledged)} acknowledged, {there} stored: each acknowledged one, and none in part")
    print(f"{ROUNDS} compactions, {done} ended with 0, {switched} done: the lists stayed")
    shutil.rmtree(folder)


main()
