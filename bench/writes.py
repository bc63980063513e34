#!/usr/bin/env python3
"""Measures what a write costs: bench/writes.py [KAPD] [ROUNDS] [POINTS]

Makes stores by the built program KAPD (crates/kapd/out/kapd, which `rt run` in crates/kapd builds) in folders of its own
and prints, a line each, with the most that it should be: the milliseconds of a processor that a write of one point takes
beside its opening (a write less a `tasks`), with 64 tasks of ten nodes; how often it syncs a file beside its opening,
where it makes a transition and where it makes none (needs strace); what a write of 5,000 points takes beside its opening,
by their replay; and the seconds of a write of one point to a store of POINTS (1,000,000) points. Each time is the least
of ROUNDS runs (9), in turn. It ends with status 1 where a figure is above its most."""
import os
import resource
import shutil
import subprocess
import sys
import tempfile

TOP = os.path.dirname(os.path.dirname(os.path.abspath(__file__)))
KAPD = sys.argv[1] if len(sys.argv) > 1 else f"{TOP}/crates/kapd/out/kapd"
ROUNDS = int(sys.argv[2]) if len(sys.argv) > 2 else 9
POINTS = int(sys.argv[3]) if len(sys.argv) > 3 else 1_000_000
TEN_NODES = "stream|from().measurement('cpu')" + "|where(lambda: \"f\" >= 0)" * 7 + "|log()"
ALERT = "stream|from().measurement('cpu')|alert().crit(lambda: \"f\" > 50)"
ABOVE = []


def seconds(words, given=b""):
    """The user and system seconds of a run."""
    before = resource.getrusage(resource.RUSAGE_CHILDREN)
    subprocess.run([KAPD, *words], input=given, stdout=subprocess.DEVNULL, check=True)
    after = resource.getrusage(resource.RUSAGE_CHILDREN)
    return after.ru_utime + after.ru_stime - before.ru_utime - before.ru_stime


def made_store(folder, tasks, script):
    os.mkdir(folder)
    seconds([folder, "init"])
    for task in range(tasks):
        seconds([folder, "define", f"t{task}"], script.encode())
        seconds([folder, "enable", f"t{task}"])
    return folder


def lines(first, count, value=None):
    return "".join(f"cpu,host=h{at % 10} f={37 * at % 101 if value is None else value}i {at}000000000\n"
                   for at in range(first, first + count)).encode()


def recording(count):
    return b"".join(b"d\nr\n" + line + b"\n" for line in lines(1, count).splitlines())


def beside_opening(make, given):
    """The least seconds of a write on a new copy of a store, less the least of its opening."""
    opened, written = [], []
    for _ in range(ROUNDS):
        folder = make()
        opened.append(seconds([folder, "tasks"]))
        written.append(seconds([folder, "write", "d", "r"], given))
        shutil.rmtree(folder)
    return min(written) - min(opened)


def syncs(folder, words, given=b""):
    traced = subprocess.run(["strace", "-f", "-c", "-e", "trace=fsync,fdatasync", KAPD, folder, *words], input=given,
                            capture_output=True, check=True).stderr.decode()
    return sum(int(row.split()[3]) for row in traced.splitlines() if row.endswith(("fsync", "fdatasync")))


def tell(what, figure, most):
    print(f"{what}: {figure:.3g} (at most {most})")
    if figure > most:
        ABOVE.append(what)


def main():
    top = tempfile.mkdtemp(prefix="writes-")
    many, one = made_store(f"{top}/many", 64, TEN_NODES), made_store(f"{top}/one", 1, ALERT)

    def copy_of(store):
        return lambda: shutil.copytree(store, f"{top}/copy")

    small = 1000 * beside_opening(copy_of(many), lines(1, 1))
    tell("milliseconds of a write of one point, 64 tasks of 10 nodes", small, 0.2)
    opening = syncs(one, ["tasks"])
    tell("syncs of a write without a transition", syncs(one, ["write", "d", "r"], lines(1, 1, 1)) - opening, 2)
    tell("syncs of a write with a transition", syncs(one, ["write", "d", "r"], lines(2, 1, 99)) - opening, 4)
    words = [word for task in range(64) for word in (f"t{task}", TEN_NODES)]
    replayed = min(seconds(["-", "replay", *words], recording(5000)) for _ in range(ROUNDS))
    tell("a write of 5,000 points by their replay", beside_opening(copy_of(many), lines(1, 5000)) / replayed, 1.3)
    piece = min(POINTS, 100_000)
    for first in range(1, POINTS + 1, piece):
        seconds([one, "write", "d", "r"], lines(first, piece, 1))
    last = min(seconds([one, "write", "d", "r"], lines(POINTS + at, 1, 1)) for at in range(1, ROUNDS + 1))
    tell(f"seconds of a write of one point to {POINTS} points", last, 0.3)
    shutil.rmtree(top)
    sys.exit(f"writes.py: above its most: {'; '.join(ABOVE)}" if ABOVE else 0)


main()
