#!/bin/sh
# What no clause says of a store on a real folder: bench/folders.sh [KAPD]
#
# By the built program KAPD (crates/kapd/out/kapd, which `rt run` in crates/kapd builds): while another process has the
# lock of `head`, `init` and `tasks` end with status 73, say why and leave the files as they are; when it has ended,
# `init` makes the store; of eight `init` at once just one makes it, whose store is then opened; and a head that can't
# be synced is a disk fault, before a byte of it counts. It needs flock of util-linux.
set -eu
top=$(cd "$(dirname "$0")/.." && pwd)
kapd=${1:-$top/crates/kapd/out/kapd}
if [ ! -x "$kapd" ]; then
    echo "folders.sh: no program at $kapd" >&2
    exit 2
fi
work=$(mktemp -d)
trap 'rm -rf "$work"' EXIT

# The status of a command, whose standard error goes to a file.
status_of() {
    code=0
    timeout 60 "$kapd" "$@" > "$work/out" 2> "$work/said" || code=$?
    echo "$code"
}

fail() {
    echo "folders.sh: $1" >&2
    cat "$work/said" >&2
    exit 1
}

# While this shell has the lock.
mkdir "$work/held"
: > "$work/held/head"
exec 9<> "$work/held/head"
flock --exclusive 9
for command in init tasks; do
    [ "$(status_of "$work/held" "$command")" = 73 ] || fail "$command beside another process isn't a disk fault"
    grep -qx 'kapd: another process uses the store' "$work/said" || fail "$command doesn't say that another process is there"
    [ -s "$work/held/head" ] && fail "$command changed the head beside another process"
    [ -e "$work/held/left" ] && fail "$command made a log beside another process"
done
exec 9>&-
[ "$(status_of "$work/held" init)" = 0 ] || fail "init behind another process doesn't make the store"
[ "$(status_of "$work/held" tasks)" = 0 ] || fail "the store that was made isn't opened"

# Eight at once.
mkdir "$work/raced"
for number in 1 2 3 4 5 6 7 8; do
    (
        code=0
        "$kapd" "$work/raced" init > /dev/null 2>&1 || code=$?
        echo "$code" > "$work/code$number"
    ) &
done
wait
made=0
for number in 1 2 3 4 5 6 7 8; do
    case $(cat "$work/code$number") in
        0) made=$((made + 1)) ;;
        8 | 73) ;;
        *) fail "an init at the same time ended with $(cat "$work/code$number")" ;;
    esac
done
[ "$made" = 1 ] || fail "$made of eight at once made the store"
[ "$(status_of "$work/raced" tasks)" = 0 ] || fail "the store of eight at once isn't opened"

# A head that can be locked and read, and not synced.
mkdir "$work/null"
ln -s /dev/null "$work/null/head"
[ "$(status_of "$work/null" tasks)" = 73 ] || fail "a sync that fails isn't a disk fault"
echo "one process at a time, and each sync counts"
