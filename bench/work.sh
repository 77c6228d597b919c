#!/usr/bin/env bash
# Runs the proved program on spec files of the greatest work, 1,000,000, and prints the seconds, the peak of memory, and the
# bytes of the report of each. 'steps': 1,000 permutations that name a step of one statement 999 times, behind a setup block. 'marks': one
# permutation of blocks that are all `;`. 'begins': one permutation of blocks full of BEGIN, whose places in the journal are
# reserved when a block is given.
# Usage: bench/work.sh
set -eu
cd "$(dirname "$0")/.."
program=crates/al_live/out/al_live
[ -x "$program" ] || { echo "no $program: run bin/alterlive once" >&2; exit 1; }
[ -x /usr/bin/time ] || { echo "no /usr/bin/time" >&2; exit 1; }
room=$(mktemp -d)
trap 'rm -r "$room"' EXIT

steps() {
  awk 'BEGIN {
    print "setup { CREATE TABLE t (a integer) }\nsession s\nstep n { SELECT * FROM t }"
    for (i = 0; i < 999; i++) line = line " n"
    for (p = 0; p < 1000; p++) print "permutation" line
  }'
}

# blocks TEXT COUNT TIMES: a step whose block is so many of the text, and a permutation that names it so often.
blocks() {
  awk -v text="$1" -v count="$2" -v times="$3" 'BEGIN {
    printf "session s\nstep n { "
    for (i = 0; i < count; i++) printf "%s", text
    printf " }\npermutation"
    for (i = 0; i < times; i++) printf " n"
    print ""
  }'
}

steps >"$room/steps"
blocks ';' 65500 15 >"$room/marks"
blocks 'BEGIN;' 10900 91 >"$room/begins"
printf '%-8s %10s %8s %10s %12s\n' kind bytes s 'peak MB' 'report bytes'
for kind in steps marks begins; do
  /usr/bin/time -f '%e %M' -o "$room/time" "$program" run <"$room/$kind" >"$room/report" || {
    echo "$kind: status $?" >&2
    head -c 200 "$room/report" >&2
    exit 1
  }
  read -r seconds peak <"$room/time"
  printf '%-8s %10d %8s %10d %12d\n' "$kind" "$(wc -c <"$room/$kind")" "$seconds" $((peak / 1024)) "$(wc -c <"$room/report")"
done
