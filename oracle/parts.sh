# Sourced by `check` and `compare-proved`, which stand beside it: parts that
# are tried and counted, and the last line that counts them.
set -u
case "${ROSTER_RUST_SRC:-/}" in
    /*) ;;
    *) ROSTER_RUST_SRC=$PWD/$ROSTER_RUST_SRC ;;
esac
cd "$(dirname "$0")" || exit 1
# boards are made and dropped at every call: to give their memory back each time takes a quarter of a comparison
export MALLOC_TRIM_THRESHOLD_=67108864 MALLOC_TOP_PAD_=16777216
passed=0 failed=0 skipped=0
log=$(mktemp -d) || exit 1
trap 'rm -rf "$log"' EXIT

finish() {
    echo "$passed passed, $failed failed, $skipped skipped"
    [ "$failed" -eq 0 ]
    exit
}

# One part: its name, then its command; its output is shown.
try() {
    name=$1
    shift
    if "$@"; then
        echo "ok: $name"
        passed=$((passed + 1))
    else
        echo "FAILED: $name"
        failed=$((failed + 1))
    fi
}

# A part that can't be run here, and why; where CI is true it has failed.
lacking() {
    if [ "${CI:-}" = true ]; then
        echo "FAILED: $1"
        failed=$((failed + 1))
    else
        echo "skipped: $1"
        skipped=$((skipped + 1))
    fi
}

# Tests are counted from cargo's own lines; a build that fails counts as one.
tests() {
    if cargo --offline test --quiet --no-fail-fast -j1 "$@" >"$log/tests" 2>&1; then
        status=0
    else
        status=1
    fi
    sums=$(awk '/^test result:/ { p += $4; f += $6 } END { print p + 0, f + 0 }' "$log/tests")
    ran=${sums% *}
    wrong=${sums#* }
    if [ "$status" -ne 0 ] && [ "$wrong" -eq 0 ]; then
        wrong=1
    fi
    [ "$wrong" -eq 0 ] || cat "$log/tests"
    echo "tests ($*): $ran passed, $wrong failed"
    passed=$((passed + ran))
    failed=$((failed + wrong))
}

# Nothing here runs without cargo.
need_cargo() {
    if ! command -v cargo >/dev/null || ! command -v rustc >/dev/null; then
        lacking "all of it, as no rustc or cargo is installed"
        finish
    fi
}

# Whether the original's six files are at hand.
original_at_hand() {
    source=${ROSTER_RUST_SRC:-../../shared/docs/src}
    if [ -f "$source/crates/beacon/src/state/reshape.rs" ]; then
        ROSTER_RUST_SRC=$(cd "$source" && pwd) && export ROSTER_RUST_SRC
    else
        lacking "the live comparison; let ROSTER_RUST_SRC name the directory that holds the original's crates/beacon/src"
        return 1
    fi
}
