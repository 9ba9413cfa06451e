#!/usr/bin/env bash
# Lists the places in src/ that docs/DESIGN-PASS.md counts, point by point: `tools/places.sh [FOLDER]`. What is listed is to be read: not every line is a place.
set -u
cd "${1:-$(dirname "$0")/..}" || exit 1
mapfile -t sources < <(ls crates/*/src/*.rt | grep -v _tests)

# The lines of one search; comments are none.
list() {
    local title=$1
    shift
    local found
    found=$("$@" "${sources[@]}" | grep -vE '^[^:]*:[0-9]+:\s*//')
    printf '%s: %s\n' "$title" "$(printf '%s' "$found" | grep -c .)"
    printf '%s\n' "$found"
}

code() { grep -nE "$@" | grep -vE 'ensures|requires|ghost'; }

list "1a enums" grep -nE '^\s*(pub )?enum '
list "1b sentinels and numbers of kinds" grep -nE '=> [0-9]+,|\{ 1 \} else \{ 0 \}|refusal: 0|^    [a-z]+\.len\(\)$|\{ &\[\] \}'
list "3 loops" grep -nE "^\s*('[a-z]+: )?(while|loop)\b|\bfor \w+ in [^{]*\.\."
list "4a comparisons of a number inside" code '\.0 (==|!=|<|<=|>|>=) |(==|!=|<|<=|>|>=) \w+(\.\w+)*\.0\b'
list "4b conversions" grep -nE ' as (u8|u16|u32|u64|usize|char)\b'
list "6 lengths, columns and halves" grep -nE 'len: usize|count: u8|let middle|: &.a mut \[u32\]|: \[u32; 2048\]|-> usize'
list "7 switches" grep -nE '^\s*match (call|command|message|sent|self|text::|node::goes_to)'
