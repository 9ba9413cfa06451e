# The demonstration: every line of demo.txt is played, the house refuses none, and the first is played within a minute. With proofs it is the same.

demonstrates() {
    local count
    count=$(grep -c '^[^#]' demo.txt)
    ./demo >"$SCRATCH/demo" || return 1
    grep '^Ready after' "$SCRATCH/demo" | sed 's/^/    /'
    ! grep -q '^  no ' "$SCRATCH/demo" && [ "$(grep -c '^> ' "$SCRATCH/demo")" -eq "$count" ] && [ "$(grep -c '^  house ' "$SCRATCH/demo")" -eq 10 ] &&
        [ "$(tail -n 5 "$SCRATCH/demo")" = $'> show\n  house 0 census 2\n  house 1 census 2\n\n'"$count lines played." ]
}

within_a_minute() {
    [ "$(sed -nE 's/^Ready after ([0-9]+) s.*/\1/p' "$SCRATCH/demo")" -lt 60 ]
}

demonstrates_proved() {
    ./demo --proved >"$SCRATCH/proved" && [ "$(sed '1,/^Ready/d' "$SCRATCH/proved")" = "$(sed '1,/^Ready/d' "$SCRATCH/demo")" ]
}

refuses_other_words() {
    local out
    out=$(./demo "$@" 2>/dev/null)
    [ $? -eq 1 ] && [ -z "$out" ]
}

SCRATCH=$(mktemp -d)
try "the demonstration" demonstrates
try "the demonstration begins within a minute" within_a_minute
try "the demonstration with proofs" demonstrates_proved
try "the demonstration takes no other word" refuses_other_words --prove
try "the demonstration takes one word" refuses_other_words --proved --proved
rm -rf "$SCRATCH"
