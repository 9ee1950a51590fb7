#!/usr/bin/env bash
# Tries a release where no root of Debian is to be had: in a root that has nothing but the C library of this machine, and
# no network. What this machine links with the tarball is run there, and the programs of the tarball and of the packages.
# The last line is `N passed, M failed`.
#
# bare.sh OUT: OUT is what build.sh wrote
set -uo pipefail
# shellcheck source=common.sh
. "$(dirname "$0")/common.sh"
[[ $# -eq 1 ]] || misused "it takes the folder that build.sh wrote"
room=$(mktemp -d) passed=0 failed=0
trap 'rm -rf "$room"' EXIT
root=$room/root tree=$room/root/typed-path
mkdir -p "$tree"

part() {
    local name=$1
    shift
    if "$@" > "$room/said" 2>&1; then
        passed=$((passed + 1))
        echo "$name: passed"
    else
        failed=$((failed + 1))
        echo "$name: FAILED"
        tail -n 30 "$room/said"
    fi
}
# Lends the root what a program of this machine is linked with, but for what is to be tried.
lend() {
    ldd "$1" | grep -o '/[^ ]*' | grep -v libtyped_path | xargs -I{} cp -n --parents -L {} "$root/"
}
within() {
    unshare --net chroot "$root" "$@"
}
program_answers() {
    lend "$root/$1"
    printf 'join_checked\tunix\t/srv\t%s\n' a/b ../x | within "/$1" |
        diff - <(printf '%s\t%s\n' ok /srv/a/b err PathTraversalAttack)
}
# A program that this machine links, and the root runs.
answers() {
    "$@" -o "$root/app" && { lend "$root/app" || true; } && app_answers
}
app_answers() {
    diff <(within /app a/b ../x) <(printf '%s\n' /srv/a/b refused)
}
packages_are_unpacked() {
    local package
    for package in "$1"/{libtyped-path0,typath_}*.deb; do
        dpkg-deb -x "$package" "$root" || return 1
    done
}
# A root that has nothing of it runs the program no more.
is_taken_away() {
    rm -r "$1" && ! app_answers
}

part "the tarball is unpacked" tar -xzf "$1/typed-path-$number-x86_64-linux.tar.gz" -C "$tree" --strip-components=1
part "its program" program_answers typed-path/bin/typath
plain=("-I$tree/include" "-L$tree/lib" '-Wl,-rpath,/typed-path/lib')
part "a program of C, with the archive" answers cc -static "${plain[@]}" "$release/app/app.c" -ltyped_path
part "a program of C++" answers c++ -std=c++17 "${plain[@]}" "$release/app/app.cpp" -ltyped_path
part "a program of C" answers cc "${plain[@]}" "$release/app/app.c" -ltyped_path
part "it is taken away" is_taken_away "$tree"
part "the packages are unpacked" packages_are_unpacked "$1"
part "their program" program_answers usr/bin/typath
part "the program of C, with their shared object" app_answers
part "they are taken away" is_taken_away "$root/usr"
echo "left out: apt, man, Python and Rust, since there is no root of Debian"
echo "$passed passed, $failed failed"
[[ $failed -eq 0 ]]
