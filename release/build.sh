#!/usr/bin/env bash
# Makes in an empty folder what people have who don't have the kit:
#   typed-path-NUMBER-x86_64-linux.tar.gz   headers, archive, shared object, program, manual, pages and licences
#   libtyped-path0.2, libtyped-path-dev, typath and python3-typed-path, packages of Debian
#   the wheel of bindings/python, and the crate of bindings/rust
#   SHA256SUMS
# The same commit makes the same bytes in each folder.
#
# release/build.sh [--from DIR] [--program FILE] OUT
#
# The calls and the program are proved and built by bindings/c/build.sh, of a checkout without changes. With --from it is
# not run: DIR has what it laid out, and FILE is the program, if that is not DIR/bin/typath. The release then says of
# what DIR notes that it was built, which may be another commit.
set -euo pipefail
# shellcheck source=common.sh
. "$(dirname "$0")/common.sh"
from='' program='' words=()
while [[ $# -gt 0 ]]; do
    case $1 in
        --from | --program)
            [[ ${2-} ]] || misused "$1 wants a place"
            printf -v "${1#--}" %s "$2"
            shift
            ;;
        -*) misused "it takes --from and --program, and was given $1" ;;
        *) words+=("$1") ;;
    esac
    shift
done
[[ ${#words[@]} -eq 1 && ${words[0]} ]] || misused "it takes the folder to write, and was given ${#words[@]} words"
[[ ! $program || $from ]] || misused "--program goes with --from"
for needed in rt python3 tar gzip dpkg-deb strip sha256sum; do
    command -v "$needed" > /dev/null || misused "there is no $needed"
done
mkdir -p -- "${words[0]}"
out=$(cd -- "${words[0]}" && pwd)
[[ ! $(ls -A "$out") ]] || misused "$out is not empty"
room=$(mktemp -d)
trap 'rm -rf "$room"' EXIT
laid=$room/laid

if [[ $from ]]; then
    [[ -f $from/include/typed_path.h ]] || misused "there is no $from/include/typed_path.h"
    cmp "$from/include/typed_path.h" "$top/bindings/c/include/typed_path.h" || stopped "$from has another header"
    cp -a -- "$from" "$laid"
    [[ ! $program ]] || install -D -m 755 -- "$program" "$laid/bin/typath"
    echo "build.sh: what $from has is taken as it is" >&2
else
    [[ ! $(git -C "$top" status --porcelain) ]] || stopped "the checkout has changes"
    "$top/bindings/c/build.sh" "$laid"
fi
[[ -x $laid/bin/typath ]] || misused "there is no program: name it by --program"
strip --strip-unneeded "$laid"/lib/libtyped_path.so.* "$laid/bin/typath"
settle "$laid"

for part in tarball.sh wheel.py packages.sh crate.sh; do
    "$release/$part" "$laid" "$out"
done
(cd "$out" && sha256sum -- * > "$room/sums" && mv "$room/sums" SHA256SUMS && cat SHA256SUMS)
