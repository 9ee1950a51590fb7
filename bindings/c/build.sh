#!/usr/bin/env bash
# Proves the calls for C and the program, builds them, and lays out in a folder what a program links with:
#   include/typed_path.h   include/typed_path.hpp   lib/libtyped_path.a   lib/libtyped_path.so   bin/typath
#   lib/pkgconfig/typed_path.pc   lib/cmake/typed_path/typed_path-config.cmake   built, a line that says of what
#
# bindings/c/build.sh [DIR]: without it, in bindings/c/out, from where install.sh takes it.
set -euo pipefail
here=$(cd "$(dirname "$0")" && pwd)
# shellcheck source=common.sh
. "$here/common.sh"
[[ $# -le 1 && ${1-.} && ${1-.} != -* ]] || misused "it takes the folder to lay out in, if any"
for needed in rt cc ld objcopy; do
    command -v "$needed" > /dev/null || misused "there is no $needed"
done

# Writes what is known of a field over the text that `typath --version` prints of it, in as many bytes.
note() {
    local blank known
    printf -v blank '%s:%54s' "$2" 'not noted'
    printf -v known '%s:%54s' "$2" "$3"
    [[ ${#known} -eq ${#blank} ]] || stopped "$1 has no room for its $2: $3"
    LC_ALL=C sed -i "s/$blank/$known/" "$1"
    [[ $("$1" --version) == *"$known"* ]] || stopped "$1 does not say its $2"
}

mkdir -p -- "${1:-$here/out}"
dir=$(cd -- "${1:-$here/out}" && pwd)
crates=$(cd "$here/../../crates" && pwd)
# What a Global asks the C library for memory by lies in the kit, whose folder bin has rt.
memory=$(dirname "$(readlink -f "$(command -v rt)")")/../c/liblibc_c.a
[[ -f $memory ]] || misused "the kit of $(command -v rt) has no c/liblibc_c.a"

(cd "$crates/typed_path_c" && rt lib)
"$here/layout.sh" "$dir" "$crates/typed_path_c/out/libtyped_path_c.a" "$memory"
(cd "$crates/typath" && rt run < stdin)
mkdir -p "$dir/bin"
cp "$crates/typath/out/typath" "$dir/bin/"
commit=$(git -C "$here" describe --always --abbrev=40 --exclude='*' --dirty=' with changes' 2> /dev/null) || commit='not noted'
kit=$(rt --version)
echo "the commit $commit, by the kit $kit" > "$dir/built"
note "$dir/bin/typath" commit "$commit"
note "$dir/bin/typath" kit "$kit"
