#!/usr/bin/env bash
# Times the calls of this crate beside std::path, beside camino where Debian's package of it is there, and beside the
# Rust crate where TYPED_PATH_CRATE names a folder with its source, by turns: nanoseconds a call, the least of SWEEPS
# sweeps (100) over a thousand paths of a sort, which a seed makes. It stops where answers differ, and prints tables.
#
# bench/run.sh DIR [SWEEPS [WORD]]: DIR has what bindings/c/build.sh laid out. A word picks the calls that have it.
set -euo pipefail
[[ $# -ge 1 && -d $1/lib ]] || { echo "run.sh: it takes the folder that build.sh laid out" >&2 && exit 2; }
here=$(cd "$(dirname "$0")/.." && pwd) dir=$(cd "$1" && pwd) room=$(mktemp -d)
trap 'rm -rf "$room"' EXIT
# shellcheck source=../common.sh
. "$here/common.sh"
lay_out
cd "$crate/bench"
features=()
add() {
    sed -i "s|^\[dependencies\]$|&\n$2|" Cargo.toml
    features+=(--features "$1")
}
[[ -z ${TYPED_PATH_CRATE:-} ]] ||
    add beside_crate "original = { package = \"typed-path\", path = \"$TYPED_PATH_CRATE\" }"
! has_package camino || add beside_camino 'camino = "1"'
export TYPED_PATH_DIR=$dir RUSTFLAGS="-C target-cpu=x86-64-v2"
cargo build --quiet --release "${features[@]}" 2> "$room/said" || { cat "$room/said" >&2 && exit 1; }
"$room/target/release/bench" "${2:-100}" "${@:3}"
