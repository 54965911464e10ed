#!/bin/sh
# Writes the recordings of crates/scanlist_cases that come from seeds, those that are several windows long, and what is to be printed for all of them:
# the oracle's generator makes the recordings, its lister the listings. The others in data/ were made by hand. Run from anywhere.
set -eu
cd "$(dirname "$0")/.."
make -s -C oracle
crate=crates/scanlist_cases
cp examples/p1 examples/hall "$crate/data/"
for seed in $(seq 1 300); do
    oracle/build/generate "$seed" >"$crate/data/seed_$(printf %03d "$seed")"
done
# The hall's scans over and over: a dozen windows of them, of which the lines are longer than the room for a window's; and two and a half, with a scan
# that is cut and with one that is badly formed before more.
scans=$(mktemp)
trap 'rm -f "$scans"' EXIT
tail -c +90 examples/hall >"$scans"
long() { for _ in $(seq "$1"); do cat "$scans"; done; }
{ cat examples/hall; long 607; } >"$crate/data/long"
{ cat examples/hall; long 120; head -c 20 "$scans"; } >"$crate/data/long_cut"
{ cat examples/hall; long 120; printf '\200\000'; long 1; } >"$crate/data/long_bad"
LC_ALL=C ls "$crate/data" >"$crate/args"
while read -r name; do
    echo "== $name"
    oracle/build/scanlist <"$crate/data/$name"
done <"$crate/args" >"$crate/stdout"
