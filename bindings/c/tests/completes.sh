#!/usr/bin/env bash
# Calls the completion of typath as bash does, and compares what it offers with the words that the program says it takes.
#
# completes.sh TYPATH.BASH WORDS: WORDS is the file of the program that has its usage.
set -uo pipefail
# shellcheck source=../typath.bash
. "$1" || exit 1
wrong=0
# What is offered behind these words, of which the last is being written.
offered() {
    COMP_WORDS=("$@") COMP_CWORD=$(($# - 1)) COMPREPLY=(stale)
    _typath
    printf '%s\n' "${COMPREPLY[@]}" | sort | sed '/^$/d'
}
expect() {
    local wanted=$1
    shift
    diff <(tr ' ' '\n' <<< "$wanted" | sed '/^$/d' | sort) <(offered "$@") || { echo "behind: $*" && wrong=1; }
}
words=$(sed -n 's/.*"usage: typath \[\(.*\)\],.*/\1/p' "$2" | tr -d '|' | tr -s ' ')
[[ $words ]] || { echo "no usage stands in $2" && exit 1; }
expect "$words" typath ''
expect "--help --version --" typath --
expect --version typath --v
expect -h typath -h
expect '' typath x
expect '' typath --help ''
complete -p typath | grep -qx 'complete -F _typath typath' || wrong=1
exit "$wrong"
