#!/usr/bin/env bash
# Times a `give` and the turns that run its statement, by the entries of the journal: INSERT of one row, SELECT of an empty
# table, and ALTER TABLE that is refused, none of which has more to do in a longer history. Prints nanoseconds for each
# step of the second half of a journal, as the difference of runs with whole and with half journals, and how many times
# as much it is as in a journal of a tenth of the entries: a step that walked the journal would take 10 times as long. So
# that each line takes as much memory, as many journals are kept side by side as have a million entries together; and glibc
# is told to keep it for the next ones, since pages that are new to a process take longer than a turn. Where valgrind is
# there, the instructions of such a step follow, of one journal alone; then those of a step beside 1 and 500 tables, and of a SELECT
# by the rows and columns of its table.
# Usage: bench/turn.sh [RUNS]   (how often each is timed; 15 where not given)
set -eu
cd "$(dirname "$0")/.."
runs=${1:-15}
. bench/timing.sh
export MALLOC_MMAP_MAX_=0 MALLOC_TRIM_THRESHOLD_=4294967296

# The entries of the journals that are kept side by side, and how often these are made.
entries=1000000
times=10

printf '%10s %10s %10s %10s %8s %13s %8s\n' statement entries steps 'ns a step' growth instructions growth
# A step of INSERT or SELECT makes eight entries with its Give, a refused one seven.
for kind in insert:8 select:8 refused:7; do
  word=${kind%:*} before= fewer=
  for length in 10000 100000 1000000; do
    turns=$((length / ${kind#*:})) half=$((length / ${kind#*:} / 2)) beside=$((entries / length))
    ns=$(per "$(least turn "$word" "$turns" "$beside" "$times")" "$(least turn "$word" "$half" "$beside" "$times")" \
      $(((turns - half) * beside * times)))
    count=$(per "$(instructions turn "$word" "$turns" 1 1)" "$(instructions turn "$word" "$half" 1 1)" $((turns - half)))
    printf '%10s %10d %10d %10s %8s %13s %8s\n' "$word" "$length" "$turns" "$ns" "$(growth "$before" "$ns")" \
      "$count" "$(growth "$fewer" "$count")"
    before=$ns fewer=$count
  done
done

# Instructions of a step beside so many tables, in journals of as many entries, and of a SELECT for each row of its table.
command -v valgrind >/dev/null || exit 0
printf '\n%10s %8s' statement tables
printf ' %12s' 'at 10,000' 'at 100,000' 'at 1,000,000'
printf '\n'
for kind in insert:8 select:8 refused:7; do
  for tables in 1 500; do
    printf '%10s %8d' "${kind%:*}" "$tables"
    for length in 10000 100000 1000000; do
      turns=$((length / ${kind#*:})) half=$((length / ${kind#*:} / 2))
      more=$(instructions among "${kind%:*}" "$tables" "$turns" 1) less=$(instructions among "${kind%:*}" "$tables" "$half" 1)
      printf ' %12s' "$(per "$more" "$less" $((turns - half)))"
    done
    printf '\n'
  done
done

printf '\n%10s' 'a SELECT'
printf ' %14s' 'of 100 rows' 'of 10,000' 'of 100,000'
printf '\n'
for columns in 2 20; do
  printf '%2d columns' "$columns"
  for rows in 100 10000 100000; do
    printf ' %14s' "$(per "$(instructions read "$rows" "$columns" 3)" "$(instructions read "$rows" "$columns" 1)" 2)"
  done
  printf '\n'
done
