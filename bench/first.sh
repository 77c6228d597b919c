#!/usr/bin/env bash
# Times the proved program on spec files of one permutation that it makes: about 1, 8 and 64 KB, many steps of INSERT and
# SELECT, of which the permutation names up to 90. Prints a table of sizes, medians, and growth from line to line. The first
# line is an empty input, which is refused: the time of starting the program.
# Usage: bench/first.sh [RUNS]   (how often each is timed; 15 where not given)
set -eu
cd "$(dirname "$0")/.."
program=crates/al_live/out/al_live runs=${1:-15}
[ -x "$program" ] || { echo "no $program: run bin/alterlive once" >&2; exit 1; }
room=$(mktemp -d)
trap 'rm -r "$room"' EXIT

# spec BYTES: a spec file of no more bytes than that. Two setup blocks; steps of INSERT with 10 values, and each tenth step
# a SELECT; the permutation names the first 90 steps.
spec() {
  awk -v most="$1" 'BEGIN {
    head = "setup { CREATE TABLE t (a integer, b integer, c integer, d integer, e integer) }\n"
    head = head "setup { ALTER TABLE t ADD COLUMN f integer DEFAULT 7; }\nsession s\n"
    size = length(head) + length("permutation\n")
    for (i = 0; ; i++) {
      name = "step" i
      if (i % 10 == 9) text = "SELECT * FROM t;"
      else text = "INSERT INTO t VALUES (" i ", " 2 * i ", " 3 * i ", " 100000000 + i ", NULL);"
      line = "step " name " { " text " }\n"
      more = length(line) + (i < 90 ? length(name) + 1 : 0)
      if (size + more > most) break
      size += more
      steps = steps line
      if (i < 90) names = names " " name
    }
    printf "%s%spermutation%s\n", head, steps, names
  }'
}

# The milliseconds of a run, as the median of some.
median() {
  for _ in $(seq "$runs"); do
    from=$(date +%s%N)
    "$program" run <"$1" >"$room/report" || [ ! -s "$1" ] || exit 1
    echo $((($(date +%s%N) - from) / 1000))
  done | sort -n | awk '{ a[NR] = $1 } END { printf "%.2f", a[int((NR + 1) / 2)] / 1000 }'
}

printf '%10s %8s %8s %10s %8s %8s\n' 'spec bytes' steps given report 'ms' growth
before=
for most in 0 1024 8192 65536; do
  if [ "$most" = 0 ]; then : >"$room/spec"; else spec "$most" >"$room/spec"; fi
  ms=$(median "$room/spec")
  growth=$(awk -v a="${before:-0}" -v b="$ms" 'BEGIN { if (a > 0) printf "%.2f", b / a; else printf "-" }')
  printf '%10d %8d %8d %10d %8s %8s\n' "$(wc -c <"$room/spec")" "$(grep -c '^step' "$room/spec" || true)" \
    "$(awk '/^permutation/ { n = NF - 1 } END { print n + 0 }' "$room/spec")" "$(wc -c <"$room/report")" "$ms" "$growth"
  before=$ms
done
