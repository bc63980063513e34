#!/usr/bin/env python3
"""Measures what workers shorten: bench/workers.py [KAPD] [ROUNDS] [POINTS]

Replays a recording of POINTS points (200,000 if none is given) by four tasks and by sixteen, each of which logs all
points or has windows of a minute by host with an alert, by the built program KAPD (crates/kapd/out/kapd, which `rt run`
in crates/kapd builds), with one worker and with four in turn. It prints, job by job, the least wall-clock seconds of
ROUNDS rounds (5) with one and with four, their ratio with the most that it should be, and the peak of the memory with
four. It ends with status 1 where a ratio is above its most, a peak above 32 MiB, or the two write different bytes."""
import hashlib
import os
import random
import subprocess
import sys
import tempfile
import time

TOP = os.path.dirname(os.path.dirname(os.path.abspath(__file__)))
KAPD = sys.argv[1] if len(sys.argv) > 1 else f"{TOP}/crates/kapd/out/kapd"
ROUNDS = int(sys.argv[2]) if len(sys.argv) > 2 else 5
POINTS = int(sys.argv[3]) if len(sys.argv) > 3 else 200_000
PEAK_LIMIT = 32

LOG = "stream|from().measurement('cpu')|log()"
PEAK = """stream|from().measurement('net').groupBy('host')|window().period(1m).every(1m).align()|max('err').as('errs')
|alert().warn(lambda: "errs" > 100).stateChangesOnly().message('{{ .ID }} {{ index .Fields "errs" }}')"""


def cpu(at, _numbers):
    return f"d\nr\ncpu,host=h{at % 8} f={37 * at % 101}i {at}000000000\n"


def net(at, numbers):
    host, errors = at % 64, numbers.randint(0, 104)
    return f"d\nr\nnet,host=web{host},interface=eth0 bytes={1000 + at}i,err={errors}i {at * 125}000000\n"


def recording(folder, group):
    path = f"{folder}/{group.__name__}"
    numbers = random.Random(POINTS)
    with open(path, "w", encoding="ascii") as file:
        file.writelines(group(at, numbers) for at in range(1, POINTS + 1))
    return path


def replay(path, words, out):
    """The wall-clock seconds of a replay that writes to a file."""
    with open(path, "rb") as given, open(out, "wb") as file:
        begun = time.monotonic()
        subprocess.run([KAPD, "-", "replay", *words], stdin=given, stdout=file, check=True)
        return time.monotonic() - begun


def peak_mib(path, words):
    """The most memory that a replay has at once, as GNU time tells it."""
    run = ["/usr/bin/time", "-f", "%M", KAPD, "-", "replay", *words]
    with open(path, "rb") as given:
        ran = subprocess.run(run, stdin=given, stdout=subprocess.DEVNULL, stderr=subprocess.PIPE, check=True)
    return int(ran.stderr.split()[-1]) / 1024


def digest(path):
    with open(path, "rb") as file:
        return hashlib.file_digest(file, "sha256").digest()


def main():
    if not os.access(KAPD, os.X_OK):
        sys.exit(f"workers.py: no program at {KAPD}")
    is_high = False
    print(f"{'job':<8} {'one':>8} {'four':>8} {'ratio':>7} {'at most':>8} {'MiB':>6}")
    with tempfile.TemporaryDirectory() as folder:
        recordings = {"log": recording(folder, cpu), "peak": recording(folder, net)}
        for tasks, most in ((4, 0.5), (16, 0.4)):
            for name, script in (("log", LOG), ("peak", PEAK)):
                path = recordings[name]
                words = [word for task in range(tasks) for word in (f"t{task}", script)]
                ways = {count: ["--workers", count, *words] for count in ("1", "4")}
                rounds = [[replay(path, ways[it], f"{folder}/{it}") for it in ways] for _ in range(ROUNDS)]
                one, four = (min(times) for times in zip(*rounds))
                mib = peak_mib(path, ways["4"])
                is_same = digest(f"{folder}/1") == digest(f"{folder}/4")
                told = "" if is_same else "  DIFFERENT BYTES"
                is_high = is_high or four / one > most or mib > PEAK_LIMIT or not is_same
                figures = f"{one:8.2f} {four:8.2f} {four / one:7.2f} {most:8} {mib:6.1f}"
                print(f"{name} x{tasks:<3} {figures}{told}", flush=True)
    sys.exit(is_high)


main()
