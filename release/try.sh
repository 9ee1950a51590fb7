#!/usr/bin/env bash
# Tries what build.sh made where there is no kit and no network: in a clean root of Debian each package is installed by
# the lines of the README, its programs are built and run, and all is taken away again (inside.sh). lintian, if it is
# there, names no error of them first. The last line is `N passed, M failed`.
#
# release/try.sh [--root DIR] OUT
#
# It is run as root. The root is made by debootstrap of a mirror of Debian, in some minutes, and kept in DIR if one is
# named; what is tried there changes nothing in it. Where no mirror answers, a bare root of the C library of this machine
# serves (bare.sh), in which what is linked already is run alone.
set -euo pipefail
# shellcheck source=common.sh
. "$(dirname "$0")/common.sh"
base='' words=()
while [[ $# -gt 0 ]]; do
    case $1 in
        --root)
            [[ ${2-} ]] || misused "--root wants a folder"
            base=$2
            shift
            ;;
        -*) misused "it takes --root, and was given $1" ;;
        *) words+=("$1") ;;
    esac
    shift
done
[[ ${#words[@]} -eq 1 && -f ${words[0]}/SHA256SUMS ]] || misused "it takes the folder that build.sh wrote"
[[ $(id -u) -eq 0 ]] || misused "it is run as root"
out=$(cd "${words[0]}" && pwd)
(cd "$out" && sha256sum --quiet -c SHA256SUMS) || stopped "$out is not what build.sh wrote"
if command -v lintian > /dev/null; then
    lintian --allow-root --fail-on error -- "$out"/*.deb || stopped "lintian names an error"
else
    echo "try.sh: left out: lintian, which is not there"
fi
mirror=${MIRROR:-http://deb.debian.org/debian}
packages=bash-completion,ca-certificates,cmake,g++,libc6-dev,librust-serde-dev,make,man-db,pkg-config
packages+=,python3,python3-pip,python3-venv
room=$(mktemp -d)
trap 'rm -rf "$room"' EXIT
base=$(realpath -m -- "${base:-$room/base}")

if [[ ! -f $base/etc/debian_version ]]; then
    if ! command -v debootstrap > /dev/null || ! debootstrap --variant=minbase "--include=$packages" \
        bookworm "$base" "$mirror" > "$room/said" 2>&1; then
        echo "try.sh: no root of Debian could be made, so a bare one serves" >&2
        rm -rf "$base"
        "$release/bare.sh" "$out"
        exit
    fi
fi

# What is tried: the release, and the lines of the README by which it is installed and the program is asked.
mkdir -p "$room"/{upper/try,work,root}
cp -r "$out"/* "$release"/{inside.sh,app} "$room/upper/try/"
cp -r "$top/bindings/c/tests/app" "$room/upper/try/cmake"
awk -v into="$room/upper/try/lines." '
    /^## / { here = $0 == "## To have it" }
    here && /^```/ { open = /^```sh/; block += open; next }
    here && open { print > (into block) }' "$top/README.md"
# A toolchain of Rust is lent, if this machine has one.
rust=$(rustc --print sysroot 2> /dev/null) || rust=''

# Mounts and the missing network are those of a name space of its own, which ends with what is tried.
unshare --mount --net --pid --fork --kill-child -- bash -euo pipefail -s "$base" "$room" "$rust" << 'END'
base=$1 room=$2 rust=$3 root=$2/root
if ! mount -t overlay overlay -o "lowerdir=$base,upperdir=$room/upper,workdir=$room/work" "$root"; then
    cp -a "$base/." "$room/upper/." "$root/"
fi
mount -t proc proc "$root/proc"
mount --bind /dev "$root/dev"
if [[ $rust ]]; then
    mkdir -p "$root/opt/rust"
    mount --bind "$rust" "$root/opt/rust"
    mount -o remount,ro,bind "$root/opt/rust"
fi
env -i HOME=/root LC_ALL=C.UTF-8 PATH=/opt/rust/bin:/usr/local/sbin:/usr/local/bin:/usr/sbin:/usr/bin:/sbin:/bin \
    chroot "$root" /bin/bash /try/inside.sh < /dev/null
END
