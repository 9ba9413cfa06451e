# Byte strings read by the proved reader, from its static library, and by the second program's.

# The second program with the library of the proved reader.
builds_both() {
    local log status
    log=$(mktemp)
    (cd crates/exports && rt lib) >"$log" 2>&1
    status=$?
    [ "$status" -eq 0 ] || cat "$log"
    rm -f "$log"
    [ "$status" -eq 0 ] && (cd peer && cargo build --release --offline --quiet --features rattle --bin read-alike)
}

reads_alike() {
    peer/target/release/read-alike
}

try "the library of the proved reader, linked with the second program" builds_both
try "byte strings are read alike" reads_alike
