#!/bin/sh
# Compares bin/scanlist with the oracle over recordings made from seeds, each given as a file and again in pieces of 1 to 50 bytes:
# tests/compare.sh FIRST LAST. Those stored are seeds 1 to 300.
# Prints each seed that differs, and at the end how many were compared; its status is 1 if any differs.
set -eu
cd "$(dirname "$0")/.."
make -s -C oracle
room=$(mktemp -d)
trap 'rm -rf "$room"' EXIT
bin/scanlist <examples/p1 >/dev/null
differ=0
for seed in $(seq "$1" "$2"); do
    oracle/build/generate "$seed" >"$room/recording"
    oracle/build/scanlist <"$room/recording" >"$room/oracle"
    bin/scanlist <"$room/recording" >"$room/scanlist"
    dd bs=$((seed % 50 + 1)) <"$room/recording" 2>/dev/null | bin/scanlist >"$room/pieces"
    { cmp -s "$room/oracle" "$room/scanlist" && cmp -s "$room/oracle" "$room/pieces"; } || { echo "seed $seed differs"; differ=$((differ + 1)); }
done
echo "$(($2 - $1 + 1)) recordings compared, $differ differ"
[ "$differ" = 0 ]
