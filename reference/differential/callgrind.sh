#!/usr/bin/env bash
# Counts instructions with valgrind's callgrind, which a busy machine does not disturb. Times nothing.
#   callgrind.sh [ROW ...]                   a table: instructions of one run, by proved and by fast, for these rows or all
#   callgrind.sh functions ROW [ENGINE [N]]  the functions that N runs of a row spend most in
# A figure is the difference between N and 2 N runs, so that starting up drops out. ROW is a number of `bench rows`.
set -euo pipefail
cd "$(dirname "$0")"
cargo build --release --offline --quiet --example bench
bench=../../target/release/examples/bench
out=$(mktemp)
trap 'rm -f "$out"' EXIT

collected() {
    valgrind --tool=callgrind --callgrind-out-file=/dev/null "$bench" one "$@" 2>&1 | sed -n 's/.*Collected : //p'
}

per_run() {
    local row=$1 engine=$2 times=$3
    local once twice
    once=$(collected "$row" "$engine" "$times")
    twice=$(collected "$row" "$engine" $((2 * times)))
    echo $(((twice - once) / times))
}

if [ "${1:-}" = functions ]; then
    valgrind --tool=callgrind --callgrind-out-file="$out" "$bench" one "$2" "${3:-proved}" "${4:-20}" > /dev/null 2>&1
    callgrind_annotate --threshold=99 "$out" | grep -v '^--\|^$' | sed -n '/Ir/,$p' | head -40
    exit
fi

rows=("$@")
if [ $# -eq 0 ]; then
    mapfile -t rows < <("$bench" rows | cut -f 1)
fi
printf '%-30s%7s%14s%14s%10s\n' row fuel proved fast ratio
for row in "${rows[@]}"; do
    IFS=$'\t' read -r _ fuel name < <("$bench" rows | sed -n "$((row + 1))p")
    times=$((fuel > 200 ? 1 : 10))
    proved=$(per_run "$row" proved "$times")
    fast=$(per_run "$row" fast "$times")
    printf '%-30s%7d%14d%14d%10s\n' "$name" "$fuel" "$proved" "$fast" "$(awk "BEGIN { printf \"%.2f\", $proved / $fast }")"
done
