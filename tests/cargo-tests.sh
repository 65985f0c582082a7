# cargo_tests DIR: runs the tests of the Rust program in DIR and says how many passed. It fails if one fails or if none ran. Sourced by
# tests/second and tests/tools, from the root.
cargo_tests() {
    local dir=$1 log=target/$1-tests.log passed
    mkdir -p target
    if ! CARGO_TARGET_DIR=target/$dir cargo test --release --offline --quiet --manifest-path "$dir/Cargo.toml" > "$log" 2>&1; then
        cat "$log"
        echo "$dir: its tests FAILED"
        return 1
    fi
    passed=$(awk '/^test result: ok\./ { n += $4 } END { print n + 0 }' "$log")
    if [ "$passed" -eq 0 ]; then
        cat "$log"
        echo "$dir: no test ran"
        return 1
    fi
    echo "$dir: $passed tests"
}
