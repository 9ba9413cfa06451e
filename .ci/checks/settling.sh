# Rings and their tails: scripts of .ci/settling, with what must be left written beside them after '='. Messages are not compared.

settles() {
    local script=$1 houses out
    houses=$(sed -n 's/^houses //p' "$script")
    out=$(set -o pipefail && grep -v '^\(houses \|=\)' "$script" | "$REHEARSE" "$houses" | grep -v '^[0-9]') || return 1
    [ "$out" = "$(sed -n 's/^= //p' "$script")" ] || {
        diff <(sed -n 's/^= //p' "$script") <(printf '%s\n' "$out")
        return 1
    }
}

for script in .ci/settling/*.txt; do
    try "settling: $(basename "$script" .txt | tr _ ' ')" settles "$script"
done
