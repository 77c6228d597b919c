#!/usr/bin/env bash
# Times the reader of tokens on texts of SQL that it makes: 64 KB, 512 KB and 4 MB. 'mixed' are statements with tokens of
# every kind; 'quoted' are long texts in quotes and long comments. Prints how many tokens a text has, the milliseconds of a
# read, MB/s, and how many times as long a read is as that of the size before, which has an eighth of the bytes.
# Usage: bench/tokens.sh [RUNS]   (how often each is timed; 7 where not given)
set -eu
cd "$(dirname "$0")/.."
runs=${1:-7}
. bench/timing.sh
room=$(mktemp -d)
trap 'rm -r "$room"' EXIT
input=$room/text

# repeated BYTES LINE: the line as often as it fits into so many bytes.
repeated() {
  awk -v most="$1" -v line="$2" 'BEGIN { for (size = 0; size + length(line) < most; size += length(line) + 1) print line }'
}

mixed() {
  repeated "$1" "SELECT a_1, \"b \"\"2\"\"\", 'it''s' || c FROM t WHERE a_1 >= 100 AND d <> -1.5 OR t.e::bigint % 7 = 0; -- all rows"
}

quoted() {
  repeated "$1" "SELECT '$(printf 'many words %.0s' {1..40})'; -- $(printf 'more words %.0s' {1..40})"
}

printf '%-8s %10s %8s %10s %8s %8s\n' kind bytes tokens ms MB/s growth
sizes tokens mixed 128
sizes tokens quoted 2048
