# What the scripts that time al_bench have in common. They source this file at the top of the repository, with `runs` set:
# how often each run is timed. The times are the processor's, which programs that run beside it change least.
set -o pipefail
program=crates/al_bench/out/al_bench
[[ $runs =~ ^[1-9][0-9]*$ ]] || { echo "how often? a number from 1 on" >&2; exit 1; }
if [ ! -x "$program" ]; then
  echo "no $program: run 'rt run -- queue queued 4 10' in crates/al_bench once" >&2
  exit 1
fi

# The nanoseconds of a run of al_bench on these words, as the least of some: what else runs on the machine only adds to a run.
# It reads the file `input`, where that is set.
least() {
  local TIMEFORMAT='%3U %3S'
  for _ in $(seq "$runs"); do
    { time "$program" "$@" <"${input:-/dev/null}" >/dev/null || exit 1; } 2>&1
  done | awk '{ printf "%.0f\n", ($1 + $2) * 1000000000 }' | sort -n | head -n 1
}

# The instructions of a run of al_bench on these words, which don't depend on what else the machine does; 0 without valgrind.
instructions() {
  command -v valgrind >/dev/null || { echo 0; return; }
  valgrind --tool=callgrind --callgrind-out-file=/dev/null "$program" "$@" 2>&1 >/dev/null |
    awk '/Collected/ { count = $NF } END { print count == "" ? 0 : count }'
}

# per MORE LESS COUNT: the nanoseconds for each of so many, as the difference of two runs.
per() { awk -v more="$1" -v less="$2" -v count="$3" 'BEGIN { printf "%.1f", (more - less) / count }'; }

# growth BEFORE AFTER: how many times as much; - where nothing stands before.
growth() { awk -v a="${1:-0}" -v b="$2" 'BEGIN { if (a > 0) printf "%.2f", b / a; else printf "-" }'; }

# sizes TASK KIND MEGABYTES: a table's lines for inputs of 64 KB, 512 KB and 4 MB that `KIND BYTES` makes and `al_bench TASK`
# reads, in each run so often that it makes so many megabytes in all. The time of reading the input alone is taken off.
sizes() {
  local most times count bytes ns before=
  for most in 65536 524288 4194304; do
    "$2" "$most" >"$input"
    times=$(($3 * 1048576 / most)) bytes=$(wc -c <"$input") count=$("$program" "$1" 1 <"$input")
    [ "$count" -gt 0 ] || { echo "$2 of $bytes bytes is refused" >&2; exit 1; }
    ns=$(per "$(least "$1" "$times")" "$(least "$1" 0)" "$times")
    printf '%-8s %10d %8d %10s %8s %8s\n' "$2" "$bytes" "$count" "$(awk -v ns="$ns" 'BEGIN { printf "%.3f", ns / 1000000 }')" \
      "$(awk -v bytes="$bytes" -v ns="$ns" 'BEGIN { printf "%.1f", bytes * 1000 / ns }')" "$(growth "$before" "$ns")"
    before=$ns
  done
}
