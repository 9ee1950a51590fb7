#!/usr/bin/env bash
# Makes the release twice, of copies of this checkout in two folders, under another mask, zone and language, and compares
# the bytes. diffoscope, if it is there, says what differs. The last line is `N passed, M failed`, a file each.
#
# release/same.sh [--from DIR] [--program FILE]: as build.sh takes them; without --from both copies prove all.
set -euo pipefail
# shellcheck source=common.sh
. "$(dirname "$0")/common.sh"
room=$(mktemp -d)
trap 'rm -rf "$room"' EXIT
words=()
for word in "$@"; do
    [[ $word == -* ]] || word=$(realpath -- "$word")
    words+=("$word")
done

# The commit, with the files of the working tree over it.
copied() {
    git clone -q --no-hardlinks -- "$top" "$1"
    git -C "$top" ls-files -z --cached --others --exclude-standard |
        (cd "$top" && tar --null --ignore-failed-read -T - -cf - 2> /dev/null) | tar -x -C "$1"
}
# build.sh of such a copy, under a mask, a zone and a language.
built() {
    (umask "$3" && copied "$1" && TZ=$4 LC_ALL=$5 "$1/release/build.sh" "${words[@]}" "$2") > "$room/said" 2>&1 ||
        { cat "$room/said" && stopped "there is no release to compare"; }
}
mkdir -p "$room/another folder/deeper"
built "$room/one" "$room/first" 022 UTC C.UTF-8
built "$room/another folder/deeper/two" "$room/second" 077 Asia/Tokyo C

passed=0 failed=0
while IFS= read -r file; do
    if cmp -s "$room/first/$file" "$room/second/$file"; then
        echo "$file: the same"
        passed=$((passed + 1))
    else
        echo "$file: FAILED"
        failed=$((failed + 1))
        if [[ $file != SHA256SUMS ]] && command -v diffoscope > "$room/said"; then
            diffoscope "$room/first/$file" "$room/second/$file" || true
        fi
    fi
done < <((cd "$room/first" && ls && cd "$room/second" && ls) | sort -u)
echo "$passed passed, $failed failed"
[[ $failed -eq 0 && $passed -gt 0 ]]
