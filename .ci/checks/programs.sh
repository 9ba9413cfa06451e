# What the run of a program within 'rt ci' can't show: a status other than 0, and very large or garbled input.

HOUSE=crates/house/out/house
REHEARSE=crates/rehearse/out/rehearse

# A program as 'rt ci' left it in its crate's folder, if no source is newer, or else as a run there builds it.
builds_program() {
    local name=$1 log status
    shift
    if [ -x "crates/$name/out/$name" ] && [ -z "$(find crates -name '*.rt' -newer "crates/$name/out/$name" -print -quit)" ]; then
        return 0
    fi
    log=$(mktemp)
    (cd "crates/$name" && rt run -- "$@") >"$log" 2>&1 </dev/null
    status=$?
    [ "$status" -eq 0 ] || cat "$log"
    rm -f "$log"
    return "$status"
}

# Wrong arguments: a line on standard error, nothing on standard output, status 1.
refuses_arguments() {
    local out err status
    err=$(mktemp)
    out=$("$@" 2>"$err" </dev/null)
    status=$?
    [ "$status" -eq 1 ] && [ -z "$out" ] && grep -q '^usage: ' "$err" && [ "$(wc -l <"$err")" -eq 1 ]
    local result=$?
    rm -f "$err"
    return "$result"
}

# The output for what comes on standard input, which ends with status 0.
prints() {
    local expected=$1
    shift
    local out
    out=$("$@") && [ "$out" = "$expected" ]
}

megabyte_of_digits() {
    { printf 'make '; head -c 1000000 /dev/zero | tr '\0' '9'; printf ' 1\ngot '; head -c 1000001 /dev/zero | tr '\0' 'a'; printf '\n'; } | prints $'no 1\nno 1' "$HOUSE" 0 1
}

garbled_bytes() {
    printf '\377\376\0make 1\nm\200ke 1\ngot 0g\n' | prints $'no 1\nno 1\nno 1' "$HOUSE" 0 1
}

no_last_newline() {
    printf 'house' | prints 'no 1' "$REHEARSE" 2
}

# A call, a message and bytes for a house that there is not: each is refused, and no house is changed.
no_such_house() {
    printf '0 make 1\n0 ask 16 1\n2 make 1\n2 deliver 1\n3 got 02000000100100000001\nshow\n' |
        prints $'1 01000000100001\nno 1\nno 1\nno 1\nhouse 0 census 0\nobject 16\nroot 16\nhouse 1 census 0' "$REHEARSE" 2
}

# More lines than 16 bits count: each of them is answered.
many_lines() {
    [ "$(yes house | head -n 70000 | "$REHEARSE" 1 | grep -c '^no 1$')" -eq 70000 ]
}

# A line is answered before the next one comes: a person may wait for it.
answers_at_once() {
    local line result=0
    coproc PLAYED { exec "$1" 0 1; }
    local program=$PLAYED_PID
    # the descriptor outlives the program, the array does not
    exec 9>&"${PLAYED[1]}" 8<&"${PLAYED[0]}"
    # shellcheck disable=SC1083,SC2093
    exec {PLAYED[1]}>&-
    for _ in 1 2 3; do
        echo 'make 0' >&9
        if ! read -r -t 20 line <&8 || [ "$line" != 'no 1' ]; then
            result=1
            break
        fi
    done
    exec 9>&-
    wait "$program" || result=1
    exec 8<&-
    return "$result"
}

# What can't be read or written is no end of the input: one line on standard error, and a status other than 0.
fails_to_read() {
    local err
    err=$("$@" 2>&1 >/dev/null <crates) && return 1
    [ "$(printf '%s\n' "$err" | grep -c '^Error: ')" -eq 1 ]
}

fails_to_write() {
    local err
    err=$(echo 'make 0' | "$@" 2>&1 >/dev/full) && return 1
    [ "$(printf '%s\n' "$err" | grep -c '^Error: ')" -eq 1 ]
}

# Four houses with 1,024 objects each, whose eight fields name the object itself: one answer of a quarter of a megabyte.
full_houses() {
    local house number name script expected
    script=$(
        for house in 0 1 2 3; do
            for number in $(seq 1024); do
                name=$((number * 16 + house))
                echo "$house make $number"
                printf "$house link $name %s\n" $name $name $name $name $name $name $name $name
                echo "$house drop $name"
            done
        done
        echo show
    )
    expected=$(
        for house in 0 1 2 3; do
            echo "house $house census 0"
            for number in $(seq 1024); do
                name=$((number * 16 + house))
                echo "object $name $name $name $name $name $name $name $name $name"
            done
        done
    )
    printf '%s\n' "$script" | prints "$expected" "$REHEARSE" 4
}

# House 0 takes 600 references of house 1 and puts them into the fields of 75 objects: it tells each, and a word of 2,409 bytes names them all.
house_with_many_references() {
    local own far script expected
    script=$(
        for own in $(seq 75); do
            echo "make $own"
            for far in $(seq $((own * 8 - 7)) $((own * 8))); do
                printf 'got 02%08x00%08x\n' $((far * 16 + 1)) "$far"
                echo "link $((own * 16)) $((far * 16 + 1))"
                echo "drop $((far * 16 + 1))"
            done
        done
        printf 'tell\nword 1\n'
    )
    expected=$(
        for far in $(seq 600); do
            printf '0400000000%08x00\n' $((far * 16 + 1))
        done
        printf '030001000002580258'
        for far in $(seq 600); do
            printf '%08x' $((far * 16 + 1))
        done
    )
    printf '%s\n' "$script" | prints "$expected" "$HOUSE" 0 2
}

# 320 references of house 1 in the fields of 40 objects of house 0: each is told, a word names them all, and a round is answered while they are in use.
# Then all of it is settled: the messages are numbered from 1 to 1,613, each once.
many_references() {
    local own far sent=0 script out
    script=$(
        for own in $(seq 40); do
            echo "0 make $own"
            for far in $(seq $((own * 8 - 7)) $((own * 8))); do
                echo "1 make $far"
                echo "1 ask $((far * 16 + 1)) 0"
                echo "deliver $((sent + 1))"
                echo "deliver $((sent + 2))"
                echo "0 link $((own * 16)) $((far * 16 + 1))"
                echo "0 drop $((far * 16 + 1))"
                echo "1 drop $((far * 16 + 1))"
                sent=$((sent + 2))
            done
        done
        echo "0 tell"
        echo "0 word 1"
        echo "deliver $((sent + 321))"
        echo "0 round"
        echo "deliver $((sent + 322))"
        echo "settle"
        echo "0 got $(printf 'ff%.0s' $(seq 2000))"
    )
    out=$(printf '%s\n' "$script" | "$REHEARSE" 2) || return 1
    [ "$(printf '%s\n' "$out" | grep -c '^[0-9]* 0400000000')" -eq 320 ] &&
        [ "$(printf '%s\n' "$out" | sed -n 's/^961 //p' | cut -c1-18)" = "030001000001400140" ] &&
        [ "$(printf '%s\n' "$out" | sed -n 's/^961 //p' | tr -d '\n' | wc -c)" -eq $((2 * (9 + 4 * 320))) ] &&
        [ "$(printf '%s\n' "$out" | sed -n 's/^96[34] //p')" = $'070000000000000001000000000000\n070000000000000001010100000000' ] &&
        [ "$(printf '%s\n' "$out" | grep -c '^[0-9]* 0400000001')" -eq 320 ] &&
        [ "$(printf '%s\n' "$out" | sed -n 's/^1609 //p')" = "070000000100000001010100000140" ] &&
        [ "$(printf '%s\n' "$out" | sed -n 's/^1613 //p')" = "0800000001" ] &&
        [ "$(printf '%s\n' "$out" | sed '$d' | cut -d' ' -f1)" = "$(seq 1613)" ] &&
        [ "$(printf '%s\n' "$out" | tail -n 1)" = "no 1" ]
}

try "house is built" builds_program house 0 1
try "rehearse is built" builds_program rehearse 1
for arguments in '' '0' '0 0' '1 1' '0 17' 'a 2' '0 1 2' '-1 2' '0 x 1' '256 1' '0 257' '--names=x 0 2' '--bogus 0 2' '-- 0 2' '-h' '--names' '--framed 0 2 1' '--Framed 0 2'; do
    # the words of the arguments are meant to be split
    # shellcheck disable=SC2086
    try "house refuses '$arguments'" refuses_arguments "$HOUSE" $arguments
done
for arguments in '' '0' '5' 'x' '2 2' 'x 2' '2 x' '257' '--names=x 1' '--framed 1' '--framed --names 1' '-h' '--names'; do
    # shellcheck disable=SC2086
    try "rehearse refuses '$arguments'" refuses_arguments "$REHEARSE" $arguments
done
try "house refuses an argument that is no text" refuses_arguments "$HOUSE" $'\377' 2 --help
try "rehearse refuses an argument that is no text" refuses_arguments "$REHEARSE" $'2\200'
try "lines of a megabyte" megabyte_of_digits
try "bytes that are no text" garbled_bytes
try "a last line without a newline" no_last_newline
try "a house that there is not" no_such_house
try "70,000 lines" many_lines
try "house answers each line before the next comes" answers_at_once "$HOUSE"
try "house can't read its input" fails_to_read "$HOUSE" 0 1
try "rehearse can't read its input" fails_to_read "$REHEARSE" 1
try "house can't write its output" fails_to_write "$HOUSE" 0 1
try "rehearse can't write its output" fails_to_write "$REHEARSE" 1
try "four full houses are shown" full_houses
try "house with 600 references in use: a telling of each, and a word of all" house_with_many_references
try "320 references in use: a telling of each, a word of all, a round and the settling" many_references
