# Builds the program of tests/evidence; to be sourced by bash after scripts/host.sh, in the tree's root.
#
#   want_evidence FOLDER   builds in FOLDER and sets EVIDENCE, the words before a command of the program

want_evidence() {
    mkdir -p "$1"
    want_callers "$1" || return
    [ -f "$LIBRARY/libmelvorash_c.a" ] || { echo 'scripts/build library has to come first'; return 1; }
    export MELVORASH_LIB=$LIBRARY RUSTFLAGS='-D warnings' CARGO_TARGET_DIR=${CARGO_TARGET_DIR:-$1}
    quietly in_cargo tests/evidence build --release || return
    EVIDENCE=("${RUN[@]}" "$CARGO_TARGET_DIR/$RUST_TARGET/release/evidence")
}
