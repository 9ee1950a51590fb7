# shellcheck shell=bash
# What the scripts of this folder share. It is sourced.

# Ends a script that was called wrongly, and says why.
misused() {
    echo "${0##*/}: $*" >&2
    exit 2
}

# Ends a script that can't go on, and says why.
stopped() {
    echo "${0##*/}: $*" >&2
    exit 1
}

# The number of a header, as 0.1.0.
number_of() {
    local part parts=()
    for part in MAJOR MINOR PATCH; do
        parts+=("$(sed -n "s/^#define TYPED_PATH_VERSION_$part \([0-9][0-9]*\)$/\1/p" "$1")")
    done
    (IFS=. && echo "${parts[*]}")
}

# How much of a number stays while a program that was built goes on: two parts while it begins with 0, then one.
kept_of() {
    case $1 in
        0.*) echo "${1%.*}" ;;
        *) echo "${1%%.*}" ;;
    esac
}

# Writes into a folder what pkg-config and cmake find the library by, from found/. Both tell where they lie, and UP
# leads from LIBDIR to PREFIX; where no UP does, since a link stands between, the places are written out.
#
# write_found FOLDER NUMBER UP LIBDIR PREFIX
write_found() {
    local file text number=$2 kept libdir="\${pcfiledir}/.." prefix="\${libdir}/$3" lib_of_cmake=../.. prefix_of_cmake=$3
    kept=$(kept_of "$number")
    if [[ ! $3 ]]; then
        libdir=${4// /\\ } prefix=${5// /\\ } lib_of_cmake=$4 prefix_of_cmake=$5
    fi
    for file in typed_path.pc typed_path-config.cmake typed_path-config-version.cmake; do
        [[ $file != *.cmake ]] || libdir=$lib_of_cmake prefix=$prefix_of_cmake
        text=$(< "$(dirname "${BASH_SOURCE[0]}")/found/$file.in")
        text=${text//@NUMBER@/"$number"}
        text=${text//@KEPT@/"$kept"}
        text=${text//@LIBDIR@/"$libdir"}
        text=${text//@PREFIX@/"$prefix"}
        printf '%s\n' "$text" > "$1/$file"
    done
}

# Sets `root` and `prefix`, of DESTDIR and a word: what is installed in `prefix` is written to `$root$prefix`. Each is
# empty if it is /. The list of what was installed is `$root$prefix/$LISTED`.
# shellcheck disable=SC2034
LISTED=share/typed_path/installed
find_places() {
    root=
    [[ $1 ]] || misused "PREFIX is empty"
    if [[ ${DESTDIR:-} ]]; then
        [[ $1 == /* ]] || misused "with DESTDIR, PREFIX has to begin with /, and it is $1"
        root=$(realpath -ms -- "$DESTDIR")
        root=${root%/}
    fi
    prefix=$(realpath -ms -- "$1")
    prefix=${prefix%/}
}

# What stands at a path, as a line of the list begins: nothing, or its kind, a tab, and where a link leads or the sum of
# a file.
state_of() {
    local target
    if [[ -L $1 ]]; then
        target=$(readlink -- "$1")
        printf 'link\t%s' "${target//$'\n'/?}"
    elif [[ -f $1 ]]; then
        printf 'file\t%s' "$(sum_of "$1")"
    elif [[ -e $1 ]]; then
        printf 'other\t-'
    fi
}
sum_of() {
    sha256sum < "$1" | sed 's/ .*//'
}

# The place of a path that the list names: those below PREFIX stand there without it, and PREFIX is a dot.
place_of() {
    case $1 in
        /*) echo "$root$1" ;;
        .) echo "$root$prefix" ;;
        *) echo "$root$prefix/$1" ;;
    esac
}
