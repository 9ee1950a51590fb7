#!/usr/bin/env bash
# Installs below PREFIX what build.sh laid out: headers, archive and shared object, what pkg-config and cmake find them
# by, the program with its completion for bash, and with these the pages of the manual, the examples and the licences.
#
# [DESTDIR=FOLDER] bindings/c/install.sh [--libdir LIBDIR] [--from DIR] PREFIX
#
# LIBDIR is a folder below PREFIX or begins with /, and is lib if none is named; DIR is what build.sh was given.
# DESTDIR stands before all places that are written to, and in none of the files. Each file is put in one step. If one
# is there that this script did not put there, or that was changed since, it is named and nothing is put.
# PREFIX/share/typed_path/installed lists what was put, for uninstall.sh.
set -euo pipefail
here=$(cd "$(dirname "$0")" && pwd)
# shellcheck source=common.sh
. "$here/common.sh"
libdir=lib from=$here/out words=()
while [[ $# -gt 0 ]]; do
    case $1 in
        --libdir | --from)
            [[ $# -ge 2 ]] || misused "$1 wants a folder"
            printf -v "${1#--}" %s "$2"
            shift
            ;;
        --libdir=*) libdir=${1#*=} ;;
        --from=*) from=${1#*=} ;;
        --)
            words+=("${@:2}")
            break
            ;;
        -*) misused "it takes --libdir and --from, and was given $1" ;;
        *) words+=("$1") ;;
    esac
    shift
done
[[ ${#words[@]} -eq 1 ]] || misused "it takes one PREFIX, and was given ${#words[@]} words"
[[ $libdir && $from ]] || misused "LIBDIR or DIR is empty"
find_places "${words[0]}"
installed=$root$prefix/$LISTED
[[ $libdir == /* ]] || libdir=$prefix/$libdir
libdir=$(realpath -ms -- "$libdir")
libdir=${libdir%/}
[[ $prefix$libdir != *[$'\t\n']* ]] || misused "PREFIX or LIBDIR has a tab or a line feed in it"
[[ -d $from ]] || misused "there is no $from: run build.sh, or name by --from what it laid out in"
from=$(cd -- "$from" && pwd)
room=$(mktemp -d) half=
trap 'rm -rf -- "$room" ${half:+"$half"}' EXIT

# What is put where: the mode of a file, or that it is a link, and the file, or where the link leads.
modes=() sources=() targets=()
put() {
    modes+=("$1") sources+=("$2") targets+=("$3")
}
[[ -f $from/include/typed_path.h ]] || misused "there is no $from/include/typed_path.h: run build.sh"
number=$(number_of "$from/include/typed_path.h")
shared=libtyped_path.so.$(kept_of "$number")
manual=$prefix/share/man documents=$prefix/share/doc/typed_path
for file in typed_path.h typed_path.hpp; do
    put 644 "$from/include/$file" "$prefix/include/$file"
done
put 644 "$from/lib/libtyped_path.a" "$libdir/libtyped_path.a"
put 644 "$from/lib/$shared" "$libdir/$shared"
put link "$shared" "$libdir/libtyped_path.so"
put 644 "$room/typed_path.pc" "$libdir/pkgconfig/typed_path.pc"
for file in typed_path-config.cmake typed_path-config-version.cmake; do
    put 644 "$room/$file" "$libdir/cmake/typed_path/$file"
done
put 644 "$here/man/typed_path.3" "$manual/man3/typed_path.3"
for file in check_names.c extract.c normalize.cpp serve.cpp; do
    put 644 "$here/examples/$file" "$documents/examples/$file"
done
for file in LICENSE-APACHE LICENSE-MIT; do
    put 644 "$here/../../$file" "$documents/$file"
done
if [[ -f $from/bin/typath ]]; then
    put 755 "$from/bin/typath" "$prefix/bin/typath"
    put 644 "$here/man/typath.1" "$manual/man1/typath.1"
    put 644 "$here/typath.bash" "$prefix/share/bash-completion/completions/typath"
else
    echo "install.sh: left out: typath, its page and its completion, since there is no $from/bin/typath" >&2
fi

for at in "${!sources[@]}"; do
    [[ ${modes[at]} == link || ${sources[at]} == "$room"/* || -f ${sources[at]} ]] ||
        misused "there is no ${sources[at]}: run build.sh"
done

# A path as the list names it.
named() {
    if [[ $1 == "$prefix" ]]; then echo .; else echo "${1#"$prefix"/}"; fi
}
is_listed() {
    [[ -f $installed ]] && grep -qxF -- "$1" "$installed"
}
foreign=0
for target in "${targets[@]}"; do
    state=$(state_of "$root$target")
    if [[ $state ]] && ! is_listed "$state"$'\t'"$(named "$target")"; then
        echo "install.sh: $root$target is there, and is not what install.sh put" >&2
        foreign=$((foreign + 1))
    fi
done
[[ $foreign -eq 0 ]] || stopped "nothing was installed"

# The folders, each noted if it was not there. DESTDIR itself is the caller's.
made=()
make_folder() {
    [[ ! -d $root$1 ]] || return 0
    make_folder "$(dirname "$1")"
    mkdir -m 755 -- "$root$1"
    made+=("$(printf 'folder\t-\t%s' "$(named "$1")")")
}
[[ ! $root ]] || mkdir -p -- "$root"
for target in "${targets[@]}" "$prefix/$LISTED"; do
    make_folder "$(dirname "$target")"
done

# From where what is found lies, PREFIX lies at `up`, unless a link stands between, or LIBDIR is no folder below it.
up=
if [[ $libdir/ == "$prefix"/* ]]; then
    up=$(realpath -ms --relative-to="${libdir:-/}" -- "${prefix:-/}")
    below=$root$libdir/
    [[ $below/$up -ef $root$prefix/ && $below/pkgconfig/.. -ef $below && $below/cmake/typed_path/../.. -ef $below ]] || up=
fi
write_found "$room" "$number" "$up" "$libdir" "$prefix"

# The list of what is put. Until all is put it has what was put before too.
list() {
    local at target
    for at in "${!targets[@]}"; do
        target=$(named "${targets[at]}")
        if [[ ${modes[at]} == link ]]; then
            printf 'link\t%s\t%s\n' "${sources[at]}" "$target"
        else
            printf 'file\t%s\t%s\n' "$(sum_of "${sources[at]}")" "$target"
        fi
    done
}
list > "$room/new"
{
    [[ ! -f $installed ]] || cat -- "$installed"
    [[ ${#made[@]} -eq 0 ]] || printf '%s\n' "${made[@]}"
} > "$room/before"
# What was put before and is not put again, as the shared object of an older number, stays and is listed.
awk -F '\t' 'NR == FNR { again[$3]; next } $1 == "folder" || !($3 in again)' "$room/new" "$room/before" > "$room/all"
cat "$room/new" >> "$room/all"

# Puts a file in one step: it is written beside its place, and then takes it.
put_in_one_step() {
    half=$3.new.$$
    if [[ $1 == link ]]; then
        ln -s -- "$2" "$half"
    else
        install -m "$1" -- "$2" "$half"
    fi
    mv -fT -- "$half" "$3"
    half=
}
cat "$room/before" "$room/new" > "$room/both"
put_in_one_step 644 "$room/both" "$installed"
for at in "${!targets[@]}"; do
    put_in_one_step "${modes[at]}" "${sources[at]}" "$root${targets[at]}"
done
put_in_one_step 644 "$room/all" "$installed"
echo "install.sh: ${#targets[@]} files are below $root${prefix:-/}"
