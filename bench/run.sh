#!/usr/bin/env bash
# Times the calls of the library beside those of Rust's std::path: builds the static library of
# crates/typed_path_bench, links bench/main.rs with it in a folder of its own, and runs it on one core.
# Prints Markdown tables, for bench/RESULTS.md.
#
# bench/run.sh [SWEEPS [WORD]]: how often all calls are timed, and what the labels of these have.
# Where TYPED_PATH_CRATE names a folder with the source of the Rust crate, that is built and linked
# in too, and more tables have the calls beside its own.
#
# Where BENCH_ORDER is a number, the functions are linked in an order that it picks: the same machine
# code takes a third more or less of a few nanoseconds by where it stands.
set -euo pipefail
top=$(cd "$(dirname "$0")/.." && pwd)
kit=$(cd "$(dirname "$(readlink -f "$(command -v rt)")")/.." && pwd)
folder=$(mktemp -d)
trap 'rm -rf "$folder"' EXIT

(cd "$top/crates/typed_path_bench" && rt lib > "$folder/proved")
flags=(-C opt-level=3 -C target-cpu=x86-64-v2)
order=()
[ -z "${BENCH_ORDER:-}" ] || order=(-C "link-arg=-Wl,--shuffle-sections=*=$BENCH_ORDER")
beside=(--check-cfg 'cfg(beside_crate)')
if [ -n "${TYPED_PATH_CRATE:-}" ]; then
    # By the edition that its Cargo.toml names, or else 2021.
    edition=$(sed -n 's/^edition *= *"\(.*\)"/\1/p' "$TYPED_PATH_CRATE/Cargo.toml" 2> "$folder/refused" || true)
    rustc --crate-name typed_path --crate-type rlib --edition "${edition:-2021}" --cfg 'feature="std"' \
        "${flags[@]}" --cap-lints allow --out-dir "$folder" "$TYPED_PATH_CRATE/src/lib.rs"
    beside+=(--cfg beside_crate --extern "typed_path=$folder/libtyped_path.rlib")
fi
rustc --edition 2024 "${flags[@]}" "${beside[@]}" "${order[@]}" -o "$folder/bench" "$top/bench/main.rs" \
    -L "native=$top/crates/typed_path_bench/out" -l static=typed_path_bench \
    -L "native=$kit/c" -l static=libc_c

# Ahead of other work, where that is allowed.
ahead=(nice -n -5)
"${ahead[@]}" true 2> "$folder/refused" && [ ! -s "$folder/refused" ] || ahead=()
"${ahead[@]}" taskset -c "$(($(nproc) - 1))" "$folder/bench" "$@"
