#!/usr/bin/env bash
# Counts the instructions of single calls of the crates that keep transactions, rows, keys and tables, over 100, 10,000 and
# 1,000,000 versions: 10, 1,000 and 10,000 transactions were committed, each with as many versions, marks or keys, there are
# 5, 50 and 500 tables, and 62 transactions are open. Prints instructions for each call, as the difference of a run that
# makes it and one that makes none, and how many times as many they are as over the fewest. `finish` has a start in it, and a
# table's change in al_catalogue; `take_out` a put_back, `unlink` and `unlink_root` a link. `link` makes a table a child of one
# that has three ancestors at most, `link_above` a parent of the table from which all descend, `unlink_root` a child of that. It needs
# valgrind, and takes minutes.
# Usage: bench/parts.sh [CRATE..]   (xacts heap keys tree catalogue schema where none is given)
set -eu
cd "$(dirname "$0")/.."
runs=1
. bench/timing.sh
command -v valgrind >/dev/null || { echo "no valgrind" >&2; exit 1; }

# Without its bins for small blocks malloc puts what is freed together at once, and not at some later call.
export GLIBC_TUNABLES=glibc.malloc.mxfast=0

# The calls of a run, few enough that no table doubles its room amid them.
times=10

calls_of() {
  case $1 in
    xacts) echo start finish fate snapshot sees mark in_the_way ;;
    heap) echo put change at newest visible take_out ;;
    keys) echo seek gives enter leave ;;
    tree) echo children family whole_family link link_above unlink unlink_root ;;
    catalogue) echo find claim entry tree set finish ;;
    schema) echo columns row_of ;;
    *) echo "no crate $1" >&2; exit 1 ;;
  esac
}

printf '%-10s %-13s %10s %10s %10s %8s\n' crate call 100 10000 1000000 growth
for crate in ${*:-xacts heap keys tree catalogue schema}; do
  declare -A without=()
  for call in $(calls_of "$crate"); do
    counts=()
    for size in '10 10 5' '1000 10 50' '10000 100 500'; do
      read -r transactions each tables <<<"$size"
      [ -n "${without[$size]:-}" ] ||
        without[$size]=$(instructions part "$crate" nothing "$transactions" "$each" "$tables" "$times")
      with=$(instructions part "$crate" "$call" "$transactions" "$each" "$tables" "$times")
      counts+=("$(per "$with" "${without[$size]}" "$times")")
    done
    printf '%-10s %-13s %10s %10s %10s %8s\n' "$crate" "$call" "${counts[@]}" "$(growth "${counts[0]}" "${counts[2]}")"
  done
done
