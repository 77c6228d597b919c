#!/usr/bin/env bash
# Times the evaluation of a CHECK of ten nodes, a + b > 0 AND NOT a < 0, over up to 100,000 rows of two integers, which all
# but one pass. Prints nanoseconds for each row and for each node, as the difference of runs that evaluate it and one that
# only makes the rows, and how many times as much a row takes as among fewer rows.
# Usage: bench/eval.sh [RUNS]   (how often each is timed; 7 where not given)
set -eu
cd "$(dirname "$0")/.."
runs=${1:-7}
. bench/timing.sh
nodes=10

printf '%10s %10s %10s %8s\n' rows 'ns a row' 'ns a node' growth
before=
for rows in 1000 10000 100000; do
  times=$((2000000 / rows))
  ns=$(per "$(least eval "$rows" "$times")" "$(least eval "$rows" 0)" $((rows * times)))
  printf '%10d %10s %10s %8s\n' "$rows" "$ns" "$(awk -v ns="$ns" -v nodes="$nodes" 'BEGIN { printf "%.1f", ns / nodes }')" \
    "$(growth "$before" "$ns")"
  before=$ns
done
