#!/usr/bin/env python3
"""Counts what a run of the gate takes: bench/gate_seconds.py PID

PID is that of an `rt ci` that runs at the top of a clone, begun just before. Each second this looks at the processes
that it has started, until it ends, and then prints a table of Markdown: for each crate the lines of code, definitions
and proofs, blank ones aside, its wrong bodies that the gate tries and those that stand as texts, and the processor
seconds of its proof, of its tests and of its edits. What an earlier run has kept takes none, so a clone on a machine
that keeps nothing, or under another name of the crates, tells what a run costs from nothing."""
import glob
import os
import sys
import time

TICKS = os.sysconf("SC_CLK_TCK")


def text_of(path):
    try:
        with open(path, "rb") as file:
            return file.read()
    except OSError:
        return b""


def children_of(pid):
    found = []
    for file in glob.glob(f"/proc/{pid}/task/*/children"):
        for child in text_of(file).split():
            found += [int(child), *children_of(int(child))]
    return found


def seen(pid):
    """The crate that a process works on, what it does there, and its processor seconds so far."""
    words = text_of(f"/proc/{pid}/cmdline").decode(errors="replace").split("\0")
    if len(words) < 2 or os.path.basename(words[0]) != "rattle" or "--crate-name" not in words:
        return None
    try:
        folder = os.readlink(f"/proc/{pid}/cwd")
    except OSError:
        return None
    times = text_of(f"/proc/{pid}/stat").rpartition(b")")[2].split()
    if len(times) < 15:
        return None
    is_edit = os.path.basename(folder).startswith("rt-edit-")
    work = "edits" if is_edit else "tests" if "--test" in words else "proof"
    seconds = sum(int(times[at]) for at in (11, 12, 13, 14)) / TICKS
    return words[words.index("--crate-name") + 1], work, seconds


def lines_of(crate, part, ending):
    files = glob.glob(f"crates/{crate}/{part}/**/*{ending}", recursive=True)
    return sum(1 for file in files for line in text_of(file).splitlines() if line.strip())


def table(taken):
    names = [line.split("#")[0].split(":")[0].split() for line in open("crates.txt", encoding="utf-8")]
    rows, sums = [], {"proof": 0.0, "tests": 0.0, "edits": 0.0}
    for crate in [it[0] for it in names if it]:
        sizes = [lines_of(crate, "src", ".rt"), lines_of(crate, "specs", ".antt"), lines_of(crate, "proofs", ".antt")]
        bodies = [len(glob.glob(f"crates/{crate}/must-fail/*{ending}")) for ending in (".edit", ".md")]
        spent = {work: sum(s for (name, of), s in taken.items() if (name, of) == (crate, work)) for work in sums}
        for work, seconds in spent.items():
            sums[work] += seconds
        cells = [f"`{crate}`", *sizes, *bodies, *(round(it) for it in spent.values())]
        rows.append("| " + " | ".join(map(str, cells)) + " |")
    print("| Crate | Code | Definitions | Proofs | Edits | Texts | Proof, s | Tests, s | Edits, s |")
    print("|---|---|---|---|---|---|---|---|---|")
    print("\n".join(rows))
    minutes = {work: seconds / 60 for work, seconds in sums.items()}
    told = ", ".join(f"{work} {spent:.1f}" for work, spent in minutes.items())
    print(f"\nMinutes of a processor: {sum(minutes.values()):.1f} ({told}).")


def main():
    gate, spent = int(sys.argv[1]), {}
    while os.path.exists(f"/proc/{gate}"):
        for pid in children_of(gate):
            found = seen(pid)
            if found:
                crate, work, seconds = found
                spent[pid, crate, work] = seconds
        time.sleep(1)
    taken = {}
    for (_, crate, work), seconds in spent.items():
        taken[crate, work] = taken.get((crate, work), 0.0) + seconds
    table(taken)


if __name__ == "__main__":
    if len(sys.argv) != 2 or not sys.argv[1].isdigit():
        sys.exit(__doc__)
    os.chdir(os.path.join(os.path.dirname(os.path.abspath(__file__)), ".."))
    main()
