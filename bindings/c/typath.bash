# shellcheck shell=bash
# Completion of typath for bash. It takes one word, and no file: what it answers it reads.
_typath() {
    COMPREPLY=()
    [[ $COMP_CWORD -ne 1 ]] || mapfile -t COMPREPLY < <(compgen -W '-h --help --version --' -- "${COMP_WORDS[1]}")
}
complete -F _typath typath
