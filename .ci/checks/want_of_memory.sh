# Programs with a limit on their memory: each prints what it prints without one, up to where memory is wanting; there it says so, and ends with status 1.

SCRATCH=$(mktemp -d)

# A rehearsal of two houses that sends more and more: words, rounds of ever new censuses, and their answers.
awk 'BEGIN { for (c = 1; c <= 60000; c++) printf "0 word 1\n0 join %d\n0 round\n1 word 0\ndeliver %d\nshow\n", c, 5 * c - 3 }' >"$SCRATCH/rehearsal"
"$REHEARSE" 2 <"$SCRATCH/rehearsal" >"$SCRATCH/rehearsed"

# A message of some megabytes, in digits, between two calls.
{ echo 'make 1'; printf 'got '; head -c 6000000 /dev/zero | tr '\0' '0'; printf '\nmake 1\n'; } >"$SCRATCH/orders"
"$HOUSE" 0 2 <"$SCRATCH/orders" >"$SCRATCH/ordered"

# The limit in KiB, the input, the output without a limit, and the program.
breaks_off() {
    local limit=$1 input=$2 whole=$3 status
    shift 3
    (ulimit -v "$limit" && exec "$@") <"$SCRATCH/$input" >"$SCRATCH/out" 2>"$SCRATCH/err"
    status=$?
    [ "$status" -eq 1 ] && grep -qxE 'Error: (out of memory|memory allocation failed)' "$SCRATCH/err" &&
        [ "$(wc -c <"$SCRATCH/out")" -lt "$(wc -c <"$SCRATCH/$whole")" ] &&
        cmp -s -n "$(wc -c <"$SCRATCH/out")" "$SCRATCH/out" "$SCRATCH/$whole"
}

# A round comes to a house with 7,168 references in use, which it answers without a list of them; then it is to name them all in a word, and no other
# line wants as much memory: the long line before them takes what a program gets when it starts.
{
    printf '#'
    head -c 60000 /dev/zero | tr '\0' '.'
    awk 'BEGIN {
        for (own = 1; own <= 1024; own++) {
            printf "\nmake %d\nlink %d %d\ndrop %d", own, own * 16, own * 16 - 16, own * 16 - 16
            for (far = own * 7 - 6; far <= own * 7; far++) {
                printf "\ngot 02%08x00%08x", far * 16 + 1, far
                printf "\nlink %d %d\ndrop %d", own * 16, far * 16 + 1, far * 16 + 1
            }
        }
        print "\ngot 060000000100000001\nword 1\nmake 1"
    }'
} >"$SCRATCH/word"
"$HOUSE" 0 2 <"$SCRATCH/word" >"$SCRATCH/answered"
head -n -2 "$SCRATCH/answered" >"$SCRATCH/before"

# From the least limit on with which a house sends a word of one reference: this one is sent too, or the program breaks off, and at least once just there,
# with the round answered.
breaks_off_at_a_word() {
    local least=1000 limit hits=0
    [ "$(tail -n 1 "$SCRATCH/before")" = 070000000100000001000000000000 ] || return 1
    until (ulimit -v "$least" && exec "$HOUSE" 0 2) <<<$'got 02000000110000000001\nword 1' >/dev/null 2>&1; do
        least=$((least + 32))
        [ "$least" -le 16000 ] || return 1
    done
    for ((limit = least + 16; limit <= least + 400; limit += 32)); do
        if breaks_off "$limit" word answered "$HOUSE" 0 2; then
            cmp -s "$SCRATCH/out" "$SCRATCH/before" && hits=$((hits + 1))
        elif [ -s "$SCRATCH/err" ] || ! cmp -s "$SCRATCH/out" "$SCRATCH/answered"; then
            return 1
        fi
    done
    [ "$hits" -gt 0 ]
}

for limit in 3000 4000 8000 16000; do
    try "rehearse with $limit KiB of memory" breaks_off "$limit" rehearsal rehearsed "$REHEARSE" 2
done
for limit in 4000 8000; do
    try "house with $limit KiB of memory" breaks_off "$limit" orders ordered "$HOUSE" 0 2
done
try "house lacks memory for a word, and for no round" breaks_off_at_a_word
rm -rf "$SCRATCH"
