#!/usr/bin/env bash
# Packs the crate of bindings/rust, with the archive and the licences in it.
#
# crate.sh LAID OUT
set -euo pipefail
# shellcheck source=common.sh
. "$(dirname "$0")/common.sh"
[[ $# -eq 2 ]] || misused "it takes the folder that was laid out, and the one to write"
# What the crate may take of a registry, as serde, cargo looks for among Debian's crates.
registry=/usr/share/cargo/registry missing=''
command -v cargo > /dev/null || missing=cargo
[[ -d $registry ]] || missing="$registry, which librust-serde-dev brings"
[[ -f $top/bindings/rust/Cargo.toml ]] || missing=bindings/rust
if [[ $missing ]]; then
    echo "crate.sh: left out: the crate, since there is no $missing" >&2
    exit
fi
room=$(mktemp -d)
trap 'rm -rf "$room"' EXIT
crate=$room/rust
tar -C "$top/bindings" --exclude=rust/native --exclude=rust/target -cf - rust | tar -x -C "$room"
install -D -m 644 "$1/lib/libtyped_path.a" "$crate/native/x86_64-unknown-linux-gnu/libtyped_path.a"
cp "$top"/LICENSE-{MIT,APACHE} "$crate/"
"$release/linked.py" licences > "$crate/LICENSES-LINKED"
# What is packed beside the code is named in Cargo.toml.
sed -i 's/^include = \[/&"LICENSE-MIT", "LICENSE-APACHE", "LICENSES-LINKED", /' "$crate/Cargo.toml"
settle "$crate"
(cd "$crate" && cargo package --offline --no-verify --quiet --target-dir "$room/target" \
    --config 'source.crates-io.replace-with="debian"' --config "source.debian.directory=\"$registry\"")
cp "$room"/target/package/*.crate "$2/"
