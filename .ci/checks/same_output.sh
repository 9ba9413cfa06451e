# The programs and the second ones side by side: scripts from seeds played by both.

# Runs a command and says how long it took.
timed() {
    local begun=$SECONDS status
    "$@"
    status=$?
    say "    $1: $((SECONDS - begun)) s"
    return "$status"
}

# The first seed and how many, each with a program; a difference is printed with its seed and a script made small.
rehearses_alike() {
    peer/target/release/compare rehearse "$REHEARSE" 1 1000
}

houses_alike() {
    peer/target/release/compare house "$HOUSE" 1001 400
}

# What the second programs print is what was compared above.
peers_alike() {
    peer/target/release/compare rehearse peer/target/release/peer-rehearse 1 300 >/dev/null &&
        peer/target/release/compare house peer/target/release/peer-house 1001 300 >/dev/null
}

try "rehearse and the second program print the same" timed rehearses_alike
try "house and the second program print the same" timed houses_alike
try "the second programs print what was compared" timed peers_alike
