#!/usr/bin/env bash
# Tests the crate of Rust over what bindings/c/build.sh lays out: its layout and lints, what it declares of the header,
# its own tests, and programs over it. Where TYPED_PATH_CRATE names a folder with the source of the Rust crate
# typed-path 0.13.0, it shows too that this one is in the shape of that: by the public surface, by the tests of the
# crate, by random answers, and by the programs over both. It says what it leaves out where a tool or a package is
# missing, and ends in `N passed, M failed`. Nothing is fetched: other crates are Debian's packages.
#
# bindings/rust/test.sh [DIR [ANSWERS]]: DIR has what build.sh laid out; without it, it is built. ANSWERS says how many
# random answers are compared, ten million if it is not there.
# bindings/rust/test.sh declared: what needs no archive alone.
set -uo pipefail
here=$(cd "$(dirname "$0")" && pwd) room=$(mktemp -d)
trap 'rm -rf "$room"' EXIT
export LC_ALL=C.UTF-8 PYTHONDONTWRITEBYTECODE=1
passed=0 failed=0

# shellcheck source=common.sh
. "$here/common.sh"

# Counts a part, and shows what it said where it failed. What it tells in its last line is shown too.
part() {
    local name=$1
    shift
    if "$@" > "$room/said" 2>&1; then
        passed=$((passed + 1))
        echo "$name: passed$(sed -n '$ s/^\(.*\), 0 wrong$/, \1/p' "$room/said")"
    else
        failed=$((failed + 1))
        echo "$name: FAILED"
        tail -n 40 "$room/said"
    fi
}
left_out() {
    echo "left out: $1, since there is no $2"
}
is_there() {
    command -v "$1" > /dev/null
}
end() {
    echo "$passed passed, $failed failed"
    [[ $failed -eq 0 ]]
    exit
}

# What needs no archive.
is_formatted() {
    find "$here" -name target -prune -o -name '*.rs' -print0 |
        xargs -0 rustfmt --check --color never --edition "$(sed -n 's/^edition = "\(.*\)"/\1/p' "$here/Cargo.toml")"
}
is_declared() {
    "$here/checks/declares.py" "$here/../c/include/typed_path.h" "$here/src/ffi.rs"
}
declared() {
    if is_there rustfmt; then
        part "the code is laid out" is_formatted
    else
        left_out "whether the code is laid out" rustfmt
    fi
    if is_there python3; then
        part "ffi.rs declares what the header does" is_declared
    else
        left_out "whether ffi.rs declares what the header does" python3
    fi
}
if [[ "$*" == declared ]]; then
    declared
    end
fi

is_there cargo || { echo "test.sh: there is no cargo" && failed=1 && end; }
if [[ $# -gt 0 ]]; then
    dir=$(cd "$1" && pwd) || exit 2
else
    dir=$room/dir
    part "the library is proved and laid out" "$here/../c/build.sh" "$dir"
    [[ $failed -eq 0 ]] || end
fi
export TYPED_PATH_DIR=$dir
declared
lay_out
sorts=("" --no-default-features)
if has_package serde && has_package serde_json; then
    sorts+=("--features serde")
else
    left_out "the feature serde" "librust-serde-dev and librust-serde-json-dev"
fi

# Runs cargo in a folder, and where it tests something says how much that was. It fails where nothing was tested.
in_folder() {
    (cd "$1" && cargo "${@:2}") || return 1
    [[ $2 != test ]] || sed -n 's/^test result: ok. \([0-9]*\) passed.*/\1/p' "$room/said" |
        awk '{ sum += $1 } END { print sum " tests, 0 wrong"; exit sum == 0 }'
}
# The same for each sort of features.
each_sort() {
    local sort
    for sort in "${sorts[@]}"; do
        # shellcheck disable=SC2086
        part "$1${sort:+, ${sort#--}}" in_folder "$2" "$3" $sort "${@:4}"
    done
}
if is_there cargo-clippy; then
    each_sort "no lint" "$crate" clippy --all-targets -- -D warnings
    for folder in programs/unpack programs/serve bench; do
        part "no lint, $folder" in_folder "$crate/$folder" clippy --all-targets -- -D warnings
    done
else
    left_out "lints" clippy
fi
each_sort "its own tests" "$crate" test --lib --tests
# The examples are programs of their own, and so run for the most features alone.
# shellcheck disable=SC2086
part "the examples of its documents" in_folder "$crate" test --doc ${sorts[-1]#--no-default-features}
documents_stand() {
    RUSTDOCFLAGS="-D warnings" in_folder "$crate" doc --no-deps --lib
}
part "its documents stand without a warning" documents_stand

# The programs of its tests, in valgrind.
in_valgrind() {
    local program count=0
    for program in $(cd "$crate" && cargo test --no-run --message-format=json 2> "$room/told" |
        sed -n 's/.*"executable":"\([^"]*\)".*/\1/p'); do
        (cd "$crate" && valgrind -q --error-exitcode=9 --leak-check=full --errors-for-leak-kinds=definite \
            "$program" --test-threads=1) || return 1
        count=$((count + 1))
    done
    echo "$count programs, 0 wrong"
    [[ $count -gt 0 ]]
}
if is_there valgrind; then
    part "its own tests in valgrind" in_valgrind
else
    left_out "its own tests in valgrind" valgrind
fi

# The programs: each stands over this crate, and over the Rust crate by another line of its Cargo.toml. Over what has
# the name of that one a program stands by a patch, as those do that take it through another crate.
runs_over() {
    local folder=$room/$1_$2
    cp -R "$crate/programs/$1" "$folder"
    sed -i "s|^typed-path = .*|typed-path = $3|" "$folder/Cargo.toml"
    [[ $(diff "$crate/programs/$1/Cargo.toml" "$folder/Cargo.toml" | grep -c '^>') -eq 1 ]] || return 1
    [[ $# -eq 3 ]] || printf '%s\n' "${@:4}" >> "$folder/Cargo.toml"
    in_folder "$folder" test
}
for program in unpack serve; do
    part "$program over this crate" \
        runs_over $program this "{ package = \"typed-path-proved\", path = \"$crate\" }"
    part "$program by a patch" \
        runs_over $program patched '"0.13"' '[patch.crates-io]' "typed-path = { path = \"$crate/patch\" }"
    if [[ ${TYPED_PATH_CRATE:-} ]]; then
        part "$program over the Rust crate" runs_over $program original "{ path = \"$TYPED_PATH_CRATE\" }"
    fi
done
part "the times are taken" "$here/bench/run.sh" "$dir" 1

if [[ -z ${TYPED_PATH_CRATE:-} ]]; then
    left_out "surface, tests and answers of the Rust crate" "folder with its source, which TYPED_PATH_CRATE would name"
    end
fi

# The public surface, as rustdoc tells it for other programs, which it does for testers alone.
json=(-Z unstable-options --output-format json --cap-lints allow)
tells_surfaces() {
    RUSTC_BOOTSTRAP=1 rustdoc --crate-name typed_path --edition 2021 --cfg 'feature="std"' "${json[@]}" \
        -o "$room/theirs" "$TYPED_PATH_CRATE/src/lib.rs" &&
        RUSTC_BOOTSTRAP=1 in_folder "$crate" rustdoc --lib -- "${json[@]}"
}
has_surface() {
    "$here/checks/surface.py" "$room/theirs/typed_path.json" "$room/target/doc/typed_path.json"
}
# Its own tests, with their text.
put_tests() {
    ! has_package serde_json || grep -q '^serde_json = ' "$crate/Cargo.toml" ||
        printf '\n[dev-dependencies]\nserde_json = "1"\n' >> "$crate/Cargo.toml"
    "$here/checks/original_tests.py" "$crate" "$TYPED_PATH_CRATE" "$room/tests"
}
if is_there python3; then
    if tells_surfaces > "$room/said" 2>&1; then
        part "the surface is that of the Rust crate" has_surface
        grep -c '^has beside: ' "$room/said" | sed 's/$/ lines stand beside those of the Rust crate/'
    else
        left_out "the surface beside that of the Rust crate" "rustdoc that tells both as JSON"
    fi
    part "the tests of the Rust crate are put into a copy" put_tests
    sed -n '/^left out: /p' "$room/said"
    each_sort "the tests of the Rust crate" "$room/tests" test --lib original_
    part "the documents of the Rust crate" in_folder "$room/tests" test --doc original_
else
    left_out "surface and tests of the Rust crate" python3
fi

# Random answers.
answers_alike() {
    "$here/beside/mend.sh" "$TYPED_PATH_CRATE" "$room/mended" &&
        sed -i "s|\"mended\"|\"$room/mended\"|" "$crate/beside/Cargo.toml" &&
        in_folder "$crate/beside" build --release && "$room/target/release/beside" "$1"
}
part "answers beside the Rust crate" answers_alike "${2:-10000000}"
end
