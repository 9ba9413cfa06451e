#!/usr/bin/env bash
# Measures the proved code beside the second program, and prints the tables of docs/BENCHMARKS.md.
set -eu
cd "$(dirname "$0")/.."

(cd crates/rehearse && rt run -- 1 </dev/null >/dev/null 2>&1)
(cd crates/exports && rt lib >/dev/null 2>&1)
(cd crates/measures && rt lib >/dev/null 2>&1)
(cd peer && cargo build --release --offline --quiet && cargo build --release --offline --quiet --features measures --bin bench)
bench=peer/target/release/bench
"$bench"

command -v valgrind >/dev/null || {
    echo "valgrind is not there: no instructions are counted" >&2
    exit 0
}

# How many instructions a command takes.
count() {
    valgrind --tool=callgrind --callgrind-out-file=/dev/null "$@" 2>&1 >/dev/null | sed -nE 's/.*Collected : ([0-9]+).*/\1/p'
}

# How many it takes to do a row once, less what comes before.
once() {
    local row=$1 side=$2 times=$3
    echo $((($(count "$bench" "$row" "$side" "$times") - $(count "$bench" "$row" "$side" 0)) / times))
}

print_row() {
    printf '| %s | %s | %s | %s |\n' "$1" "$2" "$3" "$(awk "BEGIN { printf \"%.2f\", $2 / $3 }")"
}

printf '\n| instructions | Rattle | second program | ratio |\n|---|---|---|---|\n'
"$bench" names | while read -r row times; do
    print_row "$row" "$(once "$row" rattle "$times")" "$(once "$row" peer "$times")"
done
script=$(mktemp)
trap 'rm -f "$script"' EXIT
"$bench" script >"$script"
print_row "rehearse" "$(count crates/rehearse/out/rehearse 4 <"$script")" "$(count peer/target/release/peer-rehearse 4 <"$script")"
