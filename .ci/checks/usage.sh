# What a person or a script meets first: help, version, names of refusals, the form for programs, the prompt, a driver in Python, and the README's session and drawing.

PEER=peer/target/release

# A text of a page: the lines that are set in by four spaces after this line, and before the next that is not.
block() {
    awk -v start="$2" '
        $0 == start { on = 1; next }
        on && /^    / { printf "%s%s\n", blank, substr($0, 5); blank = ""; seen = 1; next }
        on && /^$/ { if (seen) blank = blank "\n"; next }
        on { exit }' "$1"
}

# The help as the rules page has it, by the option and by the line of that name.
helps() {
    local name=$1 expected
    shift
    expected=$(block docs/RULES.md "The help of \`$name\`:")
    [ -n "$expected" ] && [ "$("$1" --help)" = "$expected" ] && [ "$("$1" 9 --help --bogus)" = "$expected" ] &&
        [ "$(echo help | "$@")" = "$expected" ]
}

# Each line of a help has an example, in the last column, and each example is a line of the right form.
has_examples() {
    local examples out
    examples=$("$1" --help | awk '/^lines, / || /^calls, / { on = 1; next } /^[^ ]/ { on = 0 } on && NF { sub(/.*  /, ""); print }')
    out=$(printf '%s\n' "$examples" | sed '/^help$/d' | "$@") || return 1
    [ "$(printf '%s\n' "$examples" | wc -l)" -ge 16 ] && ! grep '^no 1$' <<<"$out"
}

# The proved programs name the kit that is on the path.
names_the_kit() {
    [ "$("$2" --version)" = "$1 of Rillwyfan"$'\n'"$(rt version)" ] && [ "$("$2" 0 x --version)" = "$("$2" --version)" ]
}

# The names of refusals as the rules page has them, as lines of sed that put each after its number.
names() {
    sed -nE 's/^\| ([0-9]+) \| `([^`]*)` \|$/s|^no \1$|no \1 \2|/p' docs/RULES.md
}

# What a crate's own run prints, with the name after each number: each of the eleven is met.
says_names() {
    local crate=$1 expected
    shift
    expected=$(sed -f <(names) "crates/$crate/stdout")
    [ "$(names | wc -l)" -eq 11 ] && [ "$("$@" <"crates/$crate/stdin")" = "$expected" ] && ! grep -qE '^no [0-9]+$' <<<"$expected" &&
        [ "$(grep -oE '^no [0-9]+' <<<"$expected" | sort -u | wc -l)" -eq 11 ]
}

# The same in the form for programs: as many last lines as lines came in; without these, and with what is for every house once, it is the same text.
frames() {
    local framed
    framed=$("$@" --framed 0 3 <crates/house/stdin) || return 1
    [ "$(grep -cE '^(ok$|no )' <<<"$framed")" -eq "$(wc -l <crates/house/stdin)" ] &&
        [ "$(sed -E '/^ok$/d; /^send [12] 0[68]/d; s/^send [0-9]+ //' <<<"$framed")" = "$("$@" --names 0 3 <crates/house/stdin)" ]
}

# Each message stands after the house that it is for, by its kind; a line is answered to its last line, an empty one and a remark too.
sends() {
    printf 'make 1\n\n# x\nask 16 2\ngot 01000000100002\ngot 02000000110000000001\ntell\nround\ngot 060000000000000001\nshow 1\n' |
        prints $'ok\nok\nok\nsend 0 01000000100002\nok\nsend 2 02000000100200000001\nok\nok\nsend 1 04000000000000001100\nok
send 0 060000000000000001\nsend 1 060000000000000001\nsend 2 060000000000000001\nok\nsend 0 070000000000000001000000000000\nok
no 1 not of the right form' "$1" --framed 0 3
}

# At a terminal there is a prompt before each line, and a newline at the end; what comes by a pipe gets none.
prompts() {
    local wanted=$1
    shift
    [ "$(python3 - "$@" <<'EOF'
import os, pty, subprocess, sys
ours, theirs = pty.openpty()
program = subprocess.Popen(sys.argv[1:], stdin=theirs, stdout=theirs, close_fds=True)
os.close(theirs)
os.write(ours, b"0 make 1\nstatus 1\n\x04")
out = b""
try:
    while more := os.read(ours, 4096):
        out += more
except OSError:
    pass
print(out.count(b"> "), b"no 1" in out, program.wait())
EOF
    )" = "$wanted True 0" ] && printf 'x\n' | prints 'no 1' "$@"
}

# Two houses, driven by the script of the docs: a ring is kept by the lists, and gone after a census.
drives() {
    prints 'house 0 census 0
object 16 17
line 16 1 1 0
house 1 census 0
object 17 16
line 17 0 1 0
house 0 census 1
house 1 census 1
house 0 census 1 tally 0 round 2 objects 0 roots 0 lines 0
house 1 census 1 tally 0 round 0 objects 0 roots 0 lines 0' timeout 60 python3 docs/driver.py "$1"
}

# The session of the README, line by line: what stands after '> ' is told, the lines after it must be printed.
plays_the_session() {
    local session
    session=$(awk '/^    > / { on = 1 } on && /^    / { print substr($0, 5); next } on { exit }' README.md)
    [ "$(grep -c '^> ' <<<"$session")" -eq 5 ] && sed -n 's/^> //p' <<<"$session" | prints "$(grep -v '^> ' <<<"$session")" "$@"
}

draws_the_ring() {
    tools/draw.py "$1" | cmp -s - docs/ring.svg
}

# What can't be written ends a program also where nobody reads any more, or where there is no output at all.
fails_unheard() {
    local err statuses result
    err=$(mktemp)
    yes 'make 0' | head -n 100000 | "$@" 2>"$err" | head -n 1 >/dev/null
    statuses=("${PIPESTATUS[@]}")
    echo 'make 0' | "$@" >&- 2>>"$err"
    statuses+=("${PIPESTATUS[@]}")
    # each of the two runs says so in one line
    [ "${statuses[2]} ${statuses[5]}" = '1 1' ] && [ "$(wc -l <"$err")" -eq 2 ] && [ "$(grep -c '^Error: ' "$err")" -eq 2 ]
    result=$?
    rm -f "$err"
    return "$result"
}

for side in crates peer; do
    if [ "$side" = crates ]; then
        house=$HOUSE rehearse=$REHEARSE of=
    else
        house=$PEER/peer-house rehearse=$PEER/peer-rehearse of=' of the second program'
    fi
    try "the help of house$of" helps house "$house" 0 2
    try "the help of rehearse$of" helps rehearse "$rehearse" 2
    try "house$of says names" says_names house "$house" --names 0 3
    try "house$of has a form for programs" frames "$house"
    try "house$of says whom a message is for" sends "$house"
    try "rehearse$of prompts at a terminal" prompts 3 "$rehearse" 1
    try "house$of prompts nobody" prompts 0 "$house" 0 1
    try "a driver in Python frees a ring by house$of" drives "$house"
    try "the README's session with rehearse$of" plays_the_session "$rehearse" 2
    try "house$of fails where nobody reads" fails_unheard "$house" 0 1
    try "rehearse$of fails where nobody reads" fails_unheard "$rehearse" 1
done
try "each line of house's help is one" has_examples "$HOUSE" 0 2
try "each line of rehearse's help is one" has_examples "$REHEARSE" 2
try "house names its kit" names_the_kit house "$HOUSE"
try "rehearse names its kit" names_the_kit rehearse "$REHEARSE"
try "the README's drawing is what is shown" draws_the_ring "$REHEARSE"
for arguments in '0 2 3' '--names=x 0 2' '-h' '--names 0' '-- 0 2' '--framed=1 0 2' '0 2 x' '--Names 0 2'; do
    # shellcheck disable=SC2086
    try "the second program's house refuses '$arguments'" refuses_arguments "$PEER/peer-house" $arguments
done
for arguments in '' '5' '--framed 1' '--names' '--names=x 1' '-h'; do
    # shellcheck disable=SC2086
    try "the second program's rehearse refuses '$arguments'" refuses_arguments "$PEER/peer-rehearse" $arguments
done
try "the second program's house refuses an argument that is no text" refuses_arguments "$PEER/peer-house" $'\377' 2 --help
try "the second program's rehearse refuses an argument that is no text" refuses_arguments "$PEER/peer-rehearse" $'2\200'
try "the second program's house can't read its input" fails_to_read "$PEER/peer-house" 0 1
try "the second program's rehearse can't read its input" fails_to_read "$PEER/peer-rehearse" 1
try "the second program's house can't write its output" fails_to_write "$PEER/peer-house" 0 1
try "the second program's rehearse can't write its output" fails_to_write "$PEER/peer-rehearse" 1
try "house can't write its help" fails_to_write "$HOUSE" --help
try "rehearse can't write its help" fails_to_write "$REHEARSE" --help
