# The second program, in plain Rust: its own tests, and the promise of the rules on scripts made from seeds.

builds_peer() {
    (cd peer && cargo build --release --offline --quiet)
}

tests_peer() {
    (cd peer && cargo test --release --offline --quiet)
}

keeps_the_promise() {
    peer/target/release/check 1 500 | tail -n 3
    [ "${PIPESTATUS[0]}" -eq 0 ]
}

try "the second program is built" builds_peer
try "the second program's tests" tests_peer
try "what the rules promise, on scripts from seeds" keeps_the_promise
