#!/usr/bin/env bash
# Makes the packages of Debian, of what was laid out and of the wheel that is there. debian/control has a paragraph for
# each.
#
# packages.sh LAID OUT
set -euo pipefail
# shellcheck source=common.sh
. "$(dirname "$0")/common.sh"
[[ $# -eq 2 ]] || misused "it takes the folder that was laid out, and the one to write, which has the wheel"
laid=$1 out=$2 room=$(mktemp -d)
trap 'rm -rf "$room"' EXIT
version=$number-1 kept=$(kept_of "$number") stage=$room/stage libdir=usr/lib/x86_64-linux-gnu
maintainer='Cardufa maintainers <maintainers@users.noreply.cardufa.example>'
modules=usr/lib/python3/dist-packages

# All that is installed, from where each package takes its own.
DESTDIR=$stage "$top/bindings/c/install.sh" --from "$laid" --libdir "${libdir#usr/}" /usr > /dev/null
rm -r "$stage/usr/share/typed_path" "$stage"/usr/share/doc/typed_path/LICENSE-*
mkdir -p "$stage/$modules" "$stage/usr/share/doc/libtyped-path-dev"
mv "$stage/usr/share/doc/typed_path/examples" "$stage/usr/share/doc/libtyped-path-dev/"
cp "$top"/docs/*.{md,svg} "$stage/usr/share/doc/libtyped-path-dev/"
mkdir -p "$stage/usr/share/doc/python3-typed-path"
cp -r "$top"/bindings/python/{README.md,examples} "$stage/usr/share/doc/python3-typed-path/"
find "$stage/usr/share/doc/python3-typed-path" -name __pycache__ -prune -exec rm -r {} +
find "$stage/usr/share/man" -type f -exec gzip -9n {} +
python3 -m zipfile -e "$out"/typed_path-*.whl "$stage/$modules"
rm -f "$stage/$modules"/typed_path-*/{RECORD,LICENSE*}
# The package of Python has a module of C with the archive in it, or takes the shared object of its package.
python='python3 (>= 3.8~), libc6'
if rm "$stage/$modules"/typed_path/libtyped_path.so.* 2> /dev/null; then
    python="python3 (>= 3.8~), libtyped-path$kept (= $version)"
fi
"$release/linked.py" sbom "$(built_of "$laid")" "$stage" "$stage/$libdir"/libtyped_path.{a,so.*} "$stage/usr/bin/typath" > "$room/sbom"

{
    echo "The paths of Unix and of Windows of typed_path are handed out under the licence of MIT or under that of Apache,"
    echo "version 2.0, at your choice. The latter is in /usr/share/common-licenses/Apache-2.0, and the former is:"
    echo
    cat "$top/LICENSE-MIT"
    echo
    "$release/linked.py" licences debian
} > "$room/copyright"
printf 'typed-path (%s) stable; urgency=medium\n\n  * The release %s.\n\n -- %s  %s\n' \
    "$version" "$number" "$maintainer" "$(date -R -d "@$SOURCE_DATE_EPOCH")" > "$room/changelog"

libc=$(libc_of "$stage/$libdir/libtyped_path.so.$kept") || libc=2.2.5
libc_of_program=$(libc_of "$stage/usr/bin/typath")
control_of() {
    echo "Version: $version"
    echo "Architecture: amd64"
    echo "Maintainer: $maintainer"
    echo "Priority: optional"
    echo "Source: typed-path"
    echo "Installed-Size: $(du -sk --apparent-size "$room/$1/usr" | cut -f1)"
    awk -v RS= -v name="Package: $1" '{ split($0, lines, "\n"); if (lines[1] == name) print }' "$room/control"
}

# A package of these parts of what is installed.
package() {
    local name=$1 tree=$room/$1 part documents
    shift
    for part in "$@"; do
        mkdir -p "$tree/$(dirname "$part")"
        mv "$stage/$part" "$tree/$(dirname "$part")/"
    done
    documents=$tree/usr/share/doc/$name
    mkdir -p "$documents" "$tree/DEBIAN"
    cp "$room/copyright" "$documents/"
    gzip -9nc "$room/changelog" > "$documents/changelog.Debian.gz"
    gzip -9nc "$top/CHANGELOG.md" > "$documents/changelog.gz"
    case $name in
        libtyped-path"$kept")
            echo 'activate-noawait ldconfig' > "$tree/DEBIAN/triggers"
            echo "libtyped_path $kept $name (>= $number)" > "$tree/DEBIAN/shlibs"
            ;;
        libtyped-path-dev) gzip -9nc "$room/sbom" > "$documents/sbom.spdx.json.gz" ;;
        python3-*)
            printf '#!/bin/sh\nset -e\n%s\n' "py3compile -p $name" > "$tree/DEBIAN/postinst"
            printf '#!/bin/sh\nset -e\n%s\n' "py3clean -p $name" > "$tree/DEBIAN/prerm"
            ;;
    esac
    control_of "$name" > "$tree/DEBIAN/control"
    (cd "$tree" && find usr -type f -print0 | sort -z | xargs -0 md5sum) > "$tree/DEBIAN/md5sums"
    settle "$tree"
    chmod -f 755 "$tree"/DEBIAN/{postinst,prerm} || true
    dpkg-deb --root-owner-group --uniform-compression -Zxz --build "$tree" "$out" > /dev/null
}
sed -e "s/@KEPT@/$kept/g; s/@VERSION@/$version/g; s/@PYTHON@/$python/g; s/@LIBC@/$libc/g" \
    -e "s/@LIBC_OF_PROGRAM@/$libc_of_program/g" "$release/debian/control" > "$room/control"
package "libtyped-path$kept" "$libdir/libtyped_path.so.$kept"
package libtyped-path-dev usr/include "$libdir" usr/share/man/man3 usr/share/doc/libtyped-path-dev
package typath usr/bin usr/share/man/man1 usr/share/bash-completion
package python3-typed-path usr/lib/python3 usr/share/doc/python3-typed-path
find "$stage" -type f | sed "s|^$stage|packages.sh: no package has |" >&2
