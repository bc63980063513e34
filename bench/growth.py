#!/usr/bin/env python3
"""Measures how the cost of a replay grows: bench/growth.py [KAPD] [ROUNDS]

Replays by the built program KAPD (crates/kapd/out/kapd, which `rt run` in crates/kapd builds) and prints, line by line, the
ratio of two costs, with the most that it should be: many groups beside few, a long window beside a short one, a chain of
`where` beside none. The cost of a replay is its user and system time, the least of ROUNDS runs (5 if none is given), in
turn. Two lines more are microseconds of a processor for an epoch of one point in 64 tasks of ten nodes, where all tasks
take the point and where none does: each read of the input then gives one point, as a write does to a service. It ends
with status 1 where a figure is above its most."""
import os
import resource
import socket
import subprocess
import sys
import tempfile

TOP = os.path.dirname(os.path.dirname(os.path.abspath(__file__)))
KAPD = sys.argv[1] if len(sys.argv) > 1 else f"{TOP}/crates/kapd/out/kapd"
ROUNDS = int(sys.argv[2]) if len(sys.argv) > 2 else 5
POINTS = 200_000
TASKS = 64
EPOCHS = 2_000


def group(at, hosts, measurement="cpu"):
    """The three lines of a point: one a second, of one of so many hosts in turn."""
    return f"d\nr\n{measurement},host=h{at % hosts} f={37 * at % 101}i {at}000000000\n"


def recording(folder, hosts):
    path = f"{folder}/{hosts}"
    if not os.path.exists(path):
        with open(path, "w", encoding="ascii") as file:
            file.writelines(group(at, hosts) for at in range(1, POINTS + 1))
    return path


def seconds(run):
    """The user and system seconds of the child that this runs."""
    before = resource.getrusage(resource.RUSAGE_CHILDREN)
    run()
    after = resource.getrusage(resource.RUSAGE_CHILDREN)
    return after.ru_utime + after.ru_stime - before.ru_utime - before.ru_stime


def replay(path, script):
    with open(path, "rb") as file:
        words = [KAPD, "-", "replay", "t", script]
        return seconds(lambda: subprocess.run(words, stdin=file, stdout=subprocess.DEVNULL, check=True))


def packets(measurement, count):
    """A replay of so many points, each of which comes in a packet of its own."""
    script = "stream|from().measurement('cpu')" + "|where(lambda: \"f\" >= 0)" * 7 + "|log()"
    words = [word for task in range(TASKS) for word in (f"t{task}", script)]

    def run():
        ours, theirs = socket.socketpair(socket.AF_UNIX, socket.SOCK_SEQPACKET)
        words_of_all = [KAPD, "-", "replay", *words]
        with subprocess.Popen(words_of_all, stdin=theirs, stdout=subprocess.DEVNULL) as child:
            theirs.close()
            for at in range(1, count + 1):
                ours.send(group(at, 8, measurement).encode())
            ours.close()
            if child.wait():
                sys.exit(f"growth.py: {KAPD} ended with {child.returncode}")

    return seconds(run)


def least(*runs):
    """The least cost of each of the runs, which are made in turn."""
    rounds = [[run() for run in runs] for _ in range(ROUNDS)]
    return [min(costs) for costs in zip(*rounds)]


def main():
    if not os.access(KAPD, os.X_OK):
        sys.exit(f"growth.py: no program at {KAPD}")
    changes = "stream|from().groupBy('host')|changeDetect('f')|alert().crit(lambda: \"f\" > 99)"
    window = "stream|from()|window().period({0}).every({0})|count('f')|log()"
    chain = "stream|from(){}|where(lambda: \"f\" < 0)|log()"
    wheres = "|where(lambda: \"f\" >= 0)" * 32
    is_high = False

    def tell(name, figure, most):
        nonlocal is_high
        is_high = is_high or figure > most
        print(f"{name:<66} {figure:8.2f} {most:8}", flush=True)

    print(f"{'figure':<66} {'is':>8} {'at most':>8}")
    with tempfile.TemporaryDirectory() as folder:
        ten, thousand, many = (recording(folder, hosts) for hosts in (10, 1_000, 100_000))
        few, lots = least(lambda: replay(thousand, changes), lambda: replay(many, changes))
        tell("200,000 points of 100,000 groups, beside 1,000 groups", lots / few, 3)
        minute, day = least(lambda: replay(ten, window.format("1m")), lambda: replay(ten, window.format("24h")))
        tell("a window of 86,400 points, beside one of 60", day / minute, 2)
        none, long = least(lambda: replay(ten, chain.format("")), lambda: replay(ten, chain.format(wheres)))
        tell("32 where in a chain, beside none", long / none, 12)
    for name, measurement, most in (("all take it", "cpu", 120), ("none takes it", "mem", 15)):
        one, all_of_them = least(lambda: packets(measurement, 1), lambda: packets(measurement, EPOCHS + 1))
        tell(f"microseconds of an epoch of one point, 64 tasks of 10 nodes, {name}", (all_of_them - one) / EPOCHS * 1e6, most)
    sys.exit(is_high)


main()
