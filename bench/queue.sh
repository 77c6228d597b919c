#!/usr/bin/env bash
# Times `ask` and `release` of a lock table on one table, by the sessions that use it. Each round has a new lock table: every
# session asks once, and then every session releases. In the rounds that are shared all ask for ACCESS SHARE and are
# granted; in those that are queued all ask for ACCESS EXCLUSIVE, so that all but the first wait, and each release grants
# the next. Prints nanoseconds for each call, with growth from line to line. An ask's time has in it that of getting its
# room, and the test that the session doesn't wait.
# Usage: bench/queue.sh [RUNS]   (how often each is timed; 7 where not given)
set -eu
cd "$(dirname "$0")/.."
runs=${1:-7}
. bench/timing.sh

# The asks of a run, all rounds together.
asks=2000000

printf '%8s  %10s %8s  %10s %8s  %10s %8s  %10s %8s\n' sessions 'shared ask' growth release growth 'queued ask' growth \
  release growth
declare -A before
for sessions in 1 2 4 8 16 32 62; do
  times=$((asks / sessions)) line=
  for kind in shared queued; do
    none=$(least queue "$kind" "$sessions" 0)
    half=$(least queue "$kind-asks" "$sessions" "$times")
    whole=$(least queue "$kind" "$sessions" "$times")
    ask=$(per "$half" "$none" $((sessions * times)))
    release=$(per "$whole" "$half" $((sessions * times)))
    line+=$(printf '  %10s %8s  %10s %8s' "$ask" "$(growth "${before[$kind-ask]:-}" "$ask")" \
      "$release" "$(growth "${before[$kind-release]:-}" "$release")")
    before[$kind-ask]=$ask before[$kind-release]=$release
  done
  printf '%8d%s\n' "$sessions" "$line"
done
