#!/usr/bin/env bash
# Tries wrong bodies: bench/wrong_bodies.sh [CRATE ..]
#
# Each crate has wrong bodies of its functions in must-fail/, which the prover must refuse: the gate tries those that are
# files NAME.edit, and the others stand as texts NAME.md. This tries both, of the named crates or of all, on a copy, says
# of each whether it was refused, and ends with how many were and how many were not. It is begun with what `rt check` has
# kept on this machine, and proves what lacks.
set -u
cd "$(dirname "$0")/.." || exit 1
copy=$(mktemp -d) || exit 1
trap 'rm -rf "$copy"' EXIT

mkdir "$copy/.git"
tar -cf - --exclude='crates/*/out' crates crates.txt HANDLES | tar -xf - -C "$copy" || exit 1
for text in "$copy"/crates/*/must-fail/*.md; do
    awk '/^```/ { inside = !inside; next } inside' "$text" > "${text%.md}.edit"
done

(cd "$copy" && rt must-fail "$@" 2>&1) | tee "$copy/said"
refused=$(grep -c 'must-fail .*: refused, as it must be' "$copy/said")
others=$(grep -cE 'must-fail .*: (NOT REFUSED|BAD EDIT|NOT TRIED)' "$copy/said")
if [ "$refused" -eq 0 ] && [ "$others" -eq 0 ]; then
    echo "wrong_bodies.sh: none was tried" >&2
    exit 1
fi
echo "$refused refused, $others not"
[ "$others" -eq 0 ]
