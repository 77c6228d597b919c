#!/usr/bin/env bash
# Times the reader of spec files on files that it makes: 64 KB, 512 KB and 4 MB. 'steps' are 60 sessions with as many steps as
# fit and a permutation; 'names' are up to 1,000 permutations of 990 steps each. Prints how many sessions, blocks and
# permutations a file has, the milliseconds of a read, MB/s, and how many times as long a read is as that of the size before,
# whose file has an eighth of the bytes. Last comes the whole program on the 4 MB of 'steps', of which it runs three.
# Usage: bench/spec.sh [RUNS]   (how often each is timed; 7 where not given)
set -eu
cd "$(dirname "$0")/.."
runs=${1:-7}
. bench/timing.sh
room=$(mktemp -d)
trap 'rm -r "$room"' EXIT
input=$room/spec

# steps BYTES: a spec file of no more bytes than that, with a setup block and one permutation.
steps() {
  awk -v most="$1" 'BEGIN {
    head = "setup { CREATE TABLE t (a integer) }\n"
    tail = "permutation s0 s1 s2\n"
    size = length(head) + length(tail)
    each = int(most / 60)
    printf "%s", head
    for (s = 1; s <= 60; s++) {
      line = "session \"session " s "\"\n"
      size += length(line)
      printf "%s", line
      for (own = 0; own == 0 || own < each - 200; ) {
        line = "step s" i++ " { INSERT INTO t VALUES (" i ", 100000000); SELECT * FROM t; }  # a comment\n"
        if (size + length(line) > most) break
        size += length(line)
        own += length(line)
        printf "%s", line
      }
    }
    printf "%s", tail
  }'
}

# names BYTES: a spec file of no more bytes than that, of 990 steps without a statement.
names() {
  awk -v most="$1" 'BEGIN {
    for (i = 0; i < 990; i++) text = text "step n" i " {}\n"
    text = "session s\n" text
    size = length(text)
    printf "%s", text
    for (p = 0; p < 1000; p++) {
      line = "permutation"
      for (i = 0; i < 990; i++) line = line " n" (i * 7 + p) % 990
      if (size + length(line) + 1 > most) break
      size += length(line) + 1
      print line
    }
  }'
}

printf '%-8s %10s %8s %10s %8s %8s\n' kind bytes parts ms MB/s growth
for kind in steps names; do sizes spec "$kind" 32; done
whole=crates/al_live/out/al_live
[ -x "$whole" ] || { echo "no $whole: run bin/alterlive once" >&2; exit 1; }
steps 4194304 >"$input"
program=$whole
printf '%-8s %10d %8s %10s\n' run "$(wc -c <"$input")" - "$(least run | awk '{ printf "%.3f", $1 / 1000000 }')"
