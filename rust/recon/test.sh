#!/usr/bin/env bash
# Tests of the crate recon that `cargo test` does not make: its features, that it does without std, and that documentation does without
# the library. What is built goes to build/recon. Stops at the first check that fails.
set -euo pipefail
cd "$(dirname "$0")/../.."
top=$PWD
export CARGO_TARGET_DIR=$top/build/recon/cargo
export RUSTFLAGS='-D warnings' RUSTDOCFLAGS='-D warnings'
mkdir -p build/recon
log=$top/build/recon/log
passed=0

# Runs a command, whose output is shown only where it fails: NAME COMMAND..
check() {
    local name=$1
    shift
    if ! "$@" >"$log" 2>&1; then
        cat "$log" >&2
        echo "FAILED: $name" >&2
        exit 1
    fi
    passed=$((passed + 1))
}

# cargo for the crate, without a network: SUBCOMMAND ARGUMENT..
in_crate() { (cd rust/recon && cargo "$@" --offline); }

# A command that fails, and says why: TEXT COMMAND..
fails_by() {
    local text=$1
    shift
    if "$@" >"$log.told" 2>&1; then
        echo "it does not fail: $*"
        return 1
    fi
    cat "$log.told"
    grep -q "$text" "$log.told"
}

# The features. Tests of what a feature brings are left out without it.
check 'tests without features' in_crate test --no-default-features
check 'tests with alloc alone' in_crate test --no-default-features --features alloc

# A crate without std, compiled with recon as it is with some features: FEATURES
without_std() {
    in_crate build --no-default-features --features "$1" &&
        rustc --edition 2021 --crate-type lib --emit metadata --extern "recon=$CARGO_TARGET_DIR/debug/librecon.rlib" \
            rust/recon/tests/no_std/user.rs -o build/recon/user.rmeta
}
check 'no std without features' without_std ''
check 'no std with alloc' without_std alloc
check 'std is noticed' fails_by 'duplicate lang item' without_std std

# Without the library there is documentation, and the crate can be checked. What would link it is told what to do.
mkdir -p build/recon/empty
without_library() { RECON_LIB_DIR=$top/build/recon/empty in_crate "$@" --target-dir "$CARGO_TARGET_DIR/no-library"; }
check 'documentation without the library' without_library doc --no-deps
check 'documentation without features' without_library doc --no-deps --no-default-features
check 'a check without the library' without_library check --all-targets
missing='no librecon.a and no libcapi.a in .*/empty. Run .make library., or set RECON_LIB_DIR'
check 'nothing is linked without the library' fails_by "$missing" without_library build --example session

echo "ok: $passed checks of the crate recon"
