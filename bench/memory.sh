#!/bin/sh
# Measures the memory of replays: bench/memory.sh [KAPD] [SMALL] [LARGE]
#
# Replays recordings of SMALL and of LARGE points (100,000 and 1,000,000 if none are given; the last three
# jobs take a tenth, a tenth and a thousandth of these) by the built program KAPD (crates/kapd/out/kapd,
# which `rt run` in crates/kapd builds), and prints the peaks of both runs in KiB, job by job. It ends
# with status 1 where the two differ by more than 1 MiB, or the second is above 32 MiB, in the last job
# above 96 MiB. It needs GNU time as /usr/bin/time.
set -eu
top=$(cd "$(dirname "$0")/.." && pwd)
kapd=${1:-$top/crates/kapd/out/kapd}
small=${2:-100000}
large=${3:-1000000}
most=32768
if [ ! -x "$kapd" ]; then
    echo "memory.sh: no program at $kapd" >&2
    exit 2
fi
work=$(mktemp -d)
trap 'rm -rf "$work"' EXIT

# A point a second, of one of so many hosts in turn.
recording() {
    awk -v points="$1" -v hosts="$2" 'BEGIN {
        for (i = 1; i <= points; i++)
            printf "telegraf\nautogen\ncpu,host=h%d f=%di %d000000000\n", i % hosts, 37 * i % 101, i
    }'
}

# The peak of a replay of so many points of so many hosts by the tasks that follow.
peak() {
    recording "$1" "$2" > "$work/recording"
    shift 2
    /usr/bin/time -f %M -o "$work/peak" "$kapd" - replay "$@" < "$work/recording" > /dev/null
    tail -n 1 "$work/peak"
}

# A job: its name, what its numbers of points are divided by, how many hosts and tasks there are, and the
# script of each task.
job() {
    name=$1 part=$2 hosts=$3 tasks=$4 script=$5
    set --
    while [ "$tasks" -gt 0 ]; do
        set -- "$@" "t$tasks" "$script"
        tasks=$((tasks - 1))
    done
    one=$(peak $((small / part)) "$hosts" "$@")
    other=$(peak $((large / part)) "$hosts" "$@")
    printf '%-34s %9d %9d %9d %9d\n' "$name" $((small / part)) "$one" $((large / part)) "$other"
    if [ $((other - one)) -gt 1024 ] || [ $((one - other)) -gt 1024 ] || [ "$other" -gt "$most" ]; then
        echo "$name" >> "$work/large"
    fi
}

logs=$(awk 'BEGIN { for (i = 0; i < 254; i++) printf "|log()" }')
branch="s|eval(lambda: \"f\" + 1).as('z')|log()"

printf '%-34s %9s %9s %9s %9s\n' job points KiB points KiB
job 'one log' 1 10 1 "stream|from()|log()"
job 'an eval between two logs' 1 10 1 "stream|from()|log()|eval(lambda: \"f\" + 1).as('z')|log()"
job 'two branches with an eval' 1 10 1 "var s = stream|from()
$branch
$branch"
job 'four branches with an eval' 1 10 1 "var s = stream|from()
$branch
$branch
$branch
$branch"
job 'two tasks, grouped' 1 10 2 "stream|from().groupBy('host')|log()"
job 'four tasks, changes of 10000 groups' 1 10000 4 "stream|from().groupBy('host')|changeDetect('f')|log()"
job 'the first 20 of 100 at each point' 10 10 1 \
    "stream|from().groupBy('host')|window().periodCount(100).everyCount(1)|top(20, 'f')|log()"
job '64 tasks, one log each' 10 10 64 "stream|from()|log()"
# The net of these 16,384 nodes takes 77 MiB at a single point already.
most=98304
job '64 tasks, 254 logs each' 1000 10 64 "stream|from()$logs"

if [ -e "$work/large" ]; then
    exit 1
fi
