#!/usr/bin/env bash
# Lays out in a folder a library that answers each call of the header by its number: it is installed and found as the
# real one is.
#
# stub.sh DIR
set -euo pipefail
here=$(cd "$(dirname "$0")" && pwd)
include=$here/../include room=$(mktemp -d)
trap 'rm -rf "$room"' EXIT
"$here/stubbed.sh" "$include/typed_path.h" > "$room/stub.c"
cc -O1 -fPIC "-I$include" -c "$room/stub.c" -o "$room/stub.o"
ar rcs "$room/stub.a" "$room/stub.o"
"$here/../layout.sh" "$1" "$room/stub.a"
