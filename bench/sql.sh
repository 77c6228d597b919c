#!/usr/bin/env bash
# Counts the instructions of reading mixed statements of SQL, as blocks of 1, 8 and 64 KB: for each byte, of the tokens alone and
# of the whole reader, and how many times as many they are as for the size before. Then of a condition of ten nodes,
# a + b > 0 AND NOT a < 0, for each node of each of 100,000 rows: with its columns named, and bound to their places once. It needs
# valgrind.
# Usage: bench/sql.sh
set -eu
cd "$(dirname "$0")/.."
runs=1
. bench/timing.sh
command -v valgrind >/dev/null || { echo "no valgrind" >&2; exit 1; }
room=$(mktemp -d)
trap 'rm -r "$room"' EXIT
input=$room/text

# statements BYTES: mixed statements, again and again, as long as they fit into so many bytes.
statements() {
  awk -v most="$1" '
    BEGIN {
      lines[0] = "SELECT a, b + 1 AS c FROM t WHERE a BETWEEN 1 AND 100 AND NOT b IS NULL ORDER BY a DESC FOR UPDATE;"
      lines[1] = "INSERT INTO t (a, b) VALUES (1, \x27it\x27\x27s\x27), (2 * (3 - 1), DEFAULT);"
      lines[2] = "ALTER TABLE t ADD COLUMN c varchar(20) DEFAULT \x27none\x27 NOT NULL, ADD CHECK (a > 0) NOT VALID;"
      lines[3] = "CREATE TABLE u (a integer PRIMARY KEY, b text, CHECK (a + 1 < 100));"
      lines[4] = "UPDATE t SET b = upper || \x27x\x27 WHERE a IN (1, 2, 3) OR coalesce(a, 0) = 4; -- some rows"
      for (line = size = 0; size + length(lines[line % 5]) < most; line++) {
        print lines[line % 5]
        size += length(lines[line % 5]) + 1
      }
    }'
}

# counted TASK: the instructions of one reading of the input.
counted() {
  per "$(counted_times "$1" 11)" "$(counted_times "$1" 1)" 10
}

counted_times() {
  valgrind --tool=callgrind --callgrind-out-file=/dev/null "$program" "$1" "$2" <"$input" 2>&1 >/dev/null |
    awk '/Collected/ { count = $NF } END { print count + 0 }'
}

printf '%10s %10s %14s %14s %8s\n' bytes statements 'tokens a byte' 'reader a byte' growth
before=
for most in 1024 8192 65536; do
  statements "$most" >"$input"
  bytes=$(wc -c <"$input") count=$("$program" sql 1 <"$input")
  [ "$count" -gt 0 ] || { echo "statements of $bytes bytes are refused" >&2; exit 1; }
  tokens=$(per "$(counted tokens)" 0 "$bytes") reader=$(per "$(counted sql)" 0 "$bytes")
  printf '%10d %10d %14s %14s %8s\n' "$bytes" "$count" "$tokens" "$reader" "$(growth "$before" "$reader")"
  before=$reader
done

rows=100000 nodes=10
printf '\n%-10s %16s\n' condition 'instr. a node'
for form in eval bound; do
  printf '%-10s %16s\n' "$form" "$(per "$(instructions "$form" "$rows" 2)" "$(instructions "$form" "$rows" 1)" $((rows * nodes)))"
done
