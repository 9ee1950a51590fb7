# shellcheck shell=bash
# What the scripts of this folder share. It is sourced.
release=$(cd "$(dirname "${BASH_SOURCE[0]}")" && pwd)
top=$(cd "$release/.." && pwd)
# shellcheck source=../bindings/c/common.sh
. "$top/bindings/c/common.sh"

# The number of the release, which is that of the header.
number=$(number_of "$top/bindings/c/include/typed_path.h")

# What would make other bytes of the same commit in another folder, by someone else or at another time.
umask 022
export LC_ALL=C.UTF-8 TZ=UTC PYTHONDONTWRITEBYTECODE=1
SOURCE_DATE_EPOCH=${SOURCE_DATE_EPOCH:-$(git -C "$top" log -1 --format=%ct)}
export SOURCE_DATE_EPOCH

# Of what a folder was built that was laid out, as bindings/c/build.sh notes it there.
built_of() {
    cat "$1/built" 2> /dev/null || echo "a commit and by a kit that were not noted"
}

# The least number of the C library whose names a file asks for.
libc_of() {
    readelf -V "$1" | grep -o 'GLIBC_[0-9.]*' | sort -V | sed -n '$s/GLIBC_//p'
}

# Gives all below a folder the modes of what is handed out, and the time of the commit.
settle() {
    chmod -R u=rwX,go=rX "$1"
    find "$1" -exec touch -h -d "@$SOURCE_DATE_EPOCH" {} +
}

# A folder packed into a file, as text is packed that has to be the same each time.
packed() {
    tar --sort=name --format=gnu --owner=0 --group=0 --numeric-owner -C "$(dirname "$1")" -cf - "$(basename "$1")" |
        gzip -9n > "$2"
}
