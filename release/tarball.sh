#!/usr/bin/env bash
# Packs what was laid out, with the manual, the pages, the licences and what says what is in it.
#
# tarball.sh LAID OUT
set -euo pipefail
# shellcheck source=common.sh
. "$(dirname "$0")/common.sh"
[[ $# -eq 2 ]] || misused "it takes the folder that was laid out, and the one to write"
name=typed-path-$number-x86_64-linux room=$(mktemp -d)
trap 'rm -rf "$room"' EXIT
tree=$room/$name

DESTDIR=$tree "$top/bindings/c/install.sh" --from "$1" / > /dev/null
rm -r "$tree/share/typed_path" "$tree"/share/doc/typed_path/LICENSE-*
mkdir "$tree/docs"
cp "$top"/docs/*.{md,svg} "$tree/docs/"
cp "$top"/{CHANGELOG,CONTRIBUTING,SECURITY}.md "$top"/LICENSE-{MIT,APACHE} "$tree/"
"$release/linked.py" licences > "$tree/LICENSES-LINKED"
built=$(built_of "$1")
"$release/linked.py" sbom "$built" "$tree" "$tree"/lib/libtyped_path.{a,so.*} "$tree/bin/typath" > "$tree/sbom.spdx.json"
sed -e "s/@NUMBER@/$number/g; s/@KEPT@/$(kept_of "$number")/g; s/@BUILT@/$built/g" \
    -e "s/@LIBC_OF_PROGRAM@/$(libc_of "$tree/bin/typath")/g" "$release/README.in" > "$tree/README.md"
settle "$tree"
packed "$tree" "$2/$name.tar.gz"
