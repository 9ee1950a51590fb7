# shellcheck shell=bash
# What the scripts of this folder share. It is sourced, where `here` is this folder and `room` a new one.
: "${here:?}" "${room:?}"
if [[ ${TYPED_PATH_CRATE:-} ]]; then
    TYPED_PATH_CRATE=$(cd "$TYPED_PATH_CRATE" && pwd) || exit 2
fi

# The packages of Debian stand for a registry, and nothing is fetched.
packages=/usr/share/cargo/registry
has_package() {
    compgen -G "$packages/$1-[0-9]*" > "$room/found"
}

# Copies this folder into the room, beside what lies beside it, where all is built: `crate` is the copy. Cargo asks for
# packages that no one turned on too, so without those of serde the copy does not name them.
lay_out() {
    local beside
    mkdir -p "$room/bindings" "$room/.cargo"
    for beside in "$here"/../*; do
        [[ $beside -ef $here ]] || ln -s "$beside" "$room/bindings/"
    done
    cp -R "$here" "$room/bindings/rust"
    crate=$room/bindings/rust
    find "$crate" \( -name target -o -name Cargo.lock \) -prune -exec rm -r {} +
    printf '[net]\noffline = true\n[build]\ntarget-dir = "%s"\n' "$room/target" > "$room/.cargo/config.toml"
    if [[ -d $packages ]]; then
        printf '[source.crates-io]\nreplace-with = "debian"\n[source.debian]\ndirectory = "%s"\n' "$packages" \
            >> "$room/.cargo/config.toml"
    fi
    if ! has_package serde || ! has_package serde_json; then
        sed -i 's/^serde = \[.*/serde = []/; /^serde = {/d; /^serde_json = /d' "$crate/Cargo.toml"
    fi
}
