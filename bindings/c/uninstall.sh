#!/usr/bin/env bash
# Takes away what install.sh put below PREFIX, and the folders that it made and that are empty then. A file that was
# changed since stays and is named, and the status is 1.
#
# [DESTDIR=FOLDER] bindings/c/uninstall.sh PREFIX
set -euo pipefail
here=$(cd "$(dirname "$0")" && pwd)
# shellcheck source=common.sh
. "$here/common.sh"
[[ ${1-} != -- ]] || shift
[[ $# -eq 1 ]] || misused "it takes one PREFIX, and was given $# words"
[[ $1 != -* ]] || misused "it takes no $1"
find_places "$1"
installed=$root$prefix/$LISTED
[[ -f $installed ]] || stopped "nothing was installed there: there is no $installed"

# A file may be listed with each content that it had, if an installation was cut off.
taken=0 changed=() folders=()
while IFS=$'\t' read -r kind _ path; do
    [[ $kind != folder ]] || folders+=("$path")
done < "$installed"
while IFS= read -r path; do
    place=$(place_of "$path")
    state=$(state_of "$place")
    if [[ ! $state ]]; then
        continue
    elif grep -qxF -- "$state"$'\t'"$path" "$installed"; then
        rm -f -- "$place"
        taken=$((taken + 1))
    else
        changed+=("$place")
        echo "uninstall.sh: $place was changed, and stays" >&2
    fi
done < <(awk -F '\t' '$1 != "folder" && !met[$3]++ { print $3 }' "$installed")
[[ ${#changed[@]} -eq 0 ]] || stopped "$taken files were taken away, ${#changed[@]} stay, and $installed lists them"

rm -f -- "$installed"
for ((at = ${#folders[@]} - 1; at >= 0; at--)); do
    place=$(place_of "${folders[at]}")
    if [[ -d $place && ! -L $place ]]; then
        rmdir --ignore-fail-on-non-empty -- "$place"
    fi
done
echo "uninstall.sh: $taken files were taken away from $root${prefix:-/}"
