#!/usr/bin/env bash
# Lets each allocation of a run of the proved program fail in turn, and tells how many ended with status 5 and no output.
# Ends with 1 where one ended otherwise. Linux alone, with a C compiler as cc.
# Usage: bench/allocations.sh [SPEC]   (examples/add-column.spec where not given)
set -eu
cd "$(dirname "$0")/.."
program=$PWD/crates/al_live/out/al_live spec=${1:-examples/add-column.spec}
[ -x "$program" ] || { echo "no $program: run bin/alterlive once" >&2; exit 1; }
room=$(mktemp -d)
trap 'rm -r "$room"' EXIT
cc -shared -fPIC -O1 -o "$room/fail.so" bench/fail_allocation.c
run() { LD_PRELOAD=$room/fail.so "$program" run <"$spec" >"$room/report"; }

COUNT_TO=$room/count run || true
count=$(cat "$room/count")
[ "$count" -gt 0 ] || { echo "no allocation was counted" >&2; exit 1; }
wrong=0
for number in $(seq "$count"); do
  status=0
  FAIL_AT=$number run || status=$?
  if [ "$status" != 5 ] || [ -s "$room/report" ]; then
    echo "allocation $number: status $status, $(wc -c <"$room/report") bytes"
    wrong=$((wrong + 1))
  fi
done
echo "$spec: $count allocations, $((count - wrong)) ended with status 5 and no output"
[ "$wrong" = 0 ]
