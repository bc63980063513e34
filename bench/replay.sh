#!/bin/sh
# Times a replay: bench/replay.sh [KAPD] [POINTS]
#
# Makes a recording of POINTS points (1,000,000 if none is given) of one measurement, replays it three times with the built
# program KAPD (crates/kapd/out/kapd, which `rt run` in crates/kapd builds), and prints the least of the user and system
# seconds, and how many lines came out, which must be one for each point.
set -eu
top=$(cd "$(dirname "$0")/.." && pwd)
kapd=${1:-$top/crates/kapd/out/kapd}
points=${2:-1000000}
if [ ! -x "$kapd" ]; then
    echo "replay.sh: no program at $kapd" >&2
    exit 2
fi
work=$(mktemp -d)
trap 'rm -rf "$work"' EXIT

awk -v points="$points" 'BEGIN {
    for (i = 1; i <= points; i++)
        printf "telegraf\nautogen\ncpu,host=h%d usage_idle=%di %d000000000\n", i % 8, 37 * i % 101, i
}' > "$work/recording"

for turn in 1 2 3; do
    ( "$kapd" - replay bench "stream|from().measurement('cpu')|log()" < "$work/recording" > "$work/lines"; times ) |
        tail -n 1 >> "$work/times"
done

lines=$(wc -l < "$work/lines")
awk -v points="$points" -v lines="$lines" '
    function seconds(text,  part) { split(text, part, /[ms]/); return 60 * part[1] + part[2] }
    { spent = seconds($1) + seconds($2); if (NR == 1 || spent < best) best = spent }
    END {
        printf "%d points, %d lines, %.2f s\n", points, lines, best
        exit (lines == points ? 0 : 1)
    }' "$work/times"
