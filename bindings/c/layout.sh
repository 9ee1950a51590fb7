#!/usr/bin/env bash
# Lays out in a folder what a program links with, of built archives: that of the calls, and that of the
# kit by which they ask for memory. The call that tells of the processor is compiled here. build.sh runs it. The folder
# may be moved.
#
# bindings/c/layout.sh DIR ARCHIVE..
set -euo pipefail
here=$(cd "$(dirname "$0")" && pwd)
# shellcheck source=common.sh
. "$here/common.sh"
[[ $# -ge 2 && $1 ]] || misused "it takes the folder to lay out in, and archives"
for archive in "${@:2}"; do
    [[ -f $archive ]] || misused "there is no archive $archive"
done
mkdir -p -- "$1"
dir=$(cd -- "$1" && pwd)
shift
mkdir -p "$dir/include" "$dir/lib/pkgconfig" "$dir/lib/cmake/typed_path"
cp "$here"/include/typed_path.{h,hpp} "$dir/include/"
number=$(number_of "$here/include/typed_path.h")
shared=libtyped_path.so.$(kept_of "$number")
room=$(mktemp -d)
trap 'rm -rf "$room"' EXIT

# One object, in which the names of the header alone can be seen, is the archive. Where LLVM copies by memcpy,
# memmove serves.
cc -O2 -fPIC -ffunction-sections -march=x86-64 -mtune=generic -Wall -Wextra -Werror "-I$here/include" \
    -c "$here/runs_here.c" -o "$room/runs_here.o"
ld -r --whole-archive "$@" "$room/runs_here.o" -o "$room/all.o"
objcopy --redefine-sym memcpy=memmove --wildcard --keep-global-symbol 'typed_path_*' "$room/all.o" "$room/typed_path.o"
rm -f "$dir"/lib/libtyped_path.*
ar rcs "$dir/lib/libtyped_path.a" "$room/typed_path.o"

echo '{ global: typed_path_*; local: *; };' > "$room/exports"
cc -shared -o "$dir/lib/$shared" "$room/typed_path.o" -Wl,--gc-sections \
    -Wl,-soname,"$shared" -Wl,--version-script,"$room/exports" -Wl,-z,defs,-z,relro,-z,now
ln -s "$shared" "$dir/lib/libtyped_path.so"

write_found "$room" "$number" .. "$dir/lib" "$dir"
cp "$room/typed_path.pc" "$dir/lib/pkgconfig/"
cp "$room"/typed_path-config*.cmake "$dir/lib/cmake/typed_path/"
