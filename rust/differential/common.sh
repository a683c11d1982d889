# Sourced by the scripts beside it: where the original and the static library are.
here=$(cd "$(dirname "${BASH_SOURCE[0]}")" && pwd)
root=$(cd "$here/../.." && pwd)
export RAGE_FORMATS=${RAGE_FORMATS:-$root/../shared/docs/src}
export CALICOFERN_LIB=${CALICOFERN_LIB:-$root/target/staticlib}
export CARGO_TARGET_DIR=${CARGO_TARGET_DIR:-$here/target}

# The static library, proved and built where it is not there yet.
need_library() {
    if [ ! -f "$CALICOFERN_LIB/libexports.a" ]; then
        "$root/tools/library" | tail -n 1
    fi
}

original_at_hand() {
    [ -f "$RAGE_FORMATS/src/ydd.rs.txt" ]
}

need_original() {
    original_at_hand || { echo "the original Rust is not at hand: no $RAGE_FORMATS/src; RAGE_FORMATS names another place" >&2; exit 2; }
}

build() { # PROFILE, then words for cargo
    local profile=$1
    shift
    (cd "$here" && cargo build --quiet --offline --profile "$profile" "$@")
}
