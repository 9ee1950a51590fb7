#!/usr/bin/env bash
# Prints a program of C in which each call of a header answers by its number.
#
# stubbed.sh HEADER
set -euo pipefail
echo '#include <typed_path.h>'
cc -E -P -x c "$1" | tr '\n' ' ' | sed 's/;/;\n/g' |
    sed -n 's/.*\(uint32_t typed_path_[a-z_]*(.*)\);$/\1 { return TYPED_PATH_VERSION; }/p'
