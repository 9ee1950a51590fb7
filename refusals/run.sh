#!/usr/bin/env bash
# Runs the built programs where memory is refused and where reads and writes fail or move few bytes.
# It ends in `N passed, M failed`, where each sweep over such runs counts once.
set -uo pipefail
cd "$(dirname "$0")" || exit 2
export LC_ALL=C

if ! command -v cc > /dev/null; then
    echo "refusals/run.sh: there is no cc, which it needs for refuse.c and fault.c"
    echo "0 passed, 1 failed"
    exit 1
fi

all=$(mktemp -d)
trap 'rm -rf "$all"' EXIT
for library in refuse fault; do
    cc -O2 -Wall -Wextra -shared -fPIC -o "$all/$library.so" "$library.c" || exit 2
done

# Starts a sweep beside others, one for each processor, in a room of its own. What it says comes later.
rooms=()
start() {
    while [[ $(jobs -rp | wc -l) -ge $(nproc) ]]; do
        wait -n
    done
    room=$(mktemp -d -p "$all")
    rooms+=("$room")
    : > "$room/wrong"
    "$@" > "$room/said" &
}

# Counts a sweep of so many runs: it passed where no line says what was wrong.
judge() {
    if [[ $2 -gt 0 && ! -s $room/wrong ]]; then
        touch "$room/passed"
        echo "$1: $2 runs"
    else
        echo "$1: WRONG in $2 runs"
        head -n 5 "$room/wrong"
    fi
}

# Runs a program with refuse.c before it, under the settings that are given, and adds its status.
refused() {
    local program=$1
    shift
    env LD_PRELOAD="$all/refuse.so $all/fault.so" REFUSE_COUNT="$room/count" "$@" "$program"
    echo "status $?"
}

# Refuses a program of calls each of its requests, or each from there on: all lines say that it was
# done, or refused. Where none is refused it makes as many as are noted.
sweep_calls() {
    local program=$1 way=$2 total at
    refused "$program" > "$room/log"
    total=$(< "$room/count")
    { cat ../crates/typed_path_refusals/stdout; echo "status 0"; } | cmp - "$room/log" >> "$room/wrong" 2>&1
    [[ $total -eq $(< requests) ]] || echo "$total requests for memory, where $(< requests) are noted in requests" >> "$room/wrong"
    for ((at = 1; at <= total; at++)); do
        refused "$program" "$way=$at"
    done > "$room/log" 2>&1
    grep -nvE '(: .* (done|refused)|^status 0)$' "$room/log" >> "$room/wrong"
    judge "${program##*/} $way" "$total"
}

# Whether what was written begins the replies, and is as many bytes of them.
is_beginning() {
    local size
    size=$(stat -c %s "$room/out")
    head -c "$size" replies | cmp -s - "$room/out"
}

# Whether that ends with a whole reply.
is_whole() {
    is_beginning && [[ -z $(tail -c 1 "$room/out") ]]
}

# Runs the program of lines under the settings that are given; its status is `ended`.
answer() {
    local program=$1
    shift
    env LD_PRELOAD="$all/refuse.so $all/fault.so" REFUSE_COUNT="$room/count" "$@" \
        "$program" < lines > "$room/out" 2> "$room/err"
    ended=$?
}

# Whether it said on standard error why it stopped, and that alone; or nothing, where no reason is given.
says() {
    { [[ -z $1 ]] || echo "typath: $1"; } | cmp - "$room/err"
}

# Refuses the program of lines each of its requests, or each from there on, over transfers of so many
# bytes: the status is 2, or 0 where it went on, and all replies are whole.
sweep_requests() {
    local program=$1 way=$2 transfer=$3 at=1
    answer "$program" "TRANSFER=$transfer" "$way=$at"
    while [[ $(< "$room/count") -ge $at ]]; do
        case $ended in
            0) cmp "$room/out" replies; says '' ;;
            2) is_whole || echo "request $at: half a reply, or a wrong one"; says 'out of memory' ;;
            *) echo "request $at: status $ended" ;;
        esac >> "$room/wrong" 2>&1
        at=$((at + 1))
        answer "$program" "TRANSFER=$transfer" "$way=$at"
    done
    judge "${program##*/} $way, transfers of $transfer" $((at - 1))
}

# The replies to the complete lines of a beginning of the input.
replies_to() {
    head -n "$(head -c "$1" lines | wc -l)" replies
}

# Fails each read of the program of lines, of so many bytes: it answers the complete lines before.
sweep_reads() {
    local program=$1 transfer=$2 at=1
    answer "$program" "TRANSFER=$transfer" FAIL_READ=1
    while [[ $ended -ne 0 ]]; do
        replies_to $(((at - 1) * transfer)) | cmp - "$room/out" >> "$room/wrong" 2>&1
        [[ $ended -eq 1 ]] || echo "read $at: status $ended" >> "$room/wrong"
        says 'standard input: a read failed' >> "$room/wrong" 2>&1
        at=$((at + 1))
        answer "$program" "TRANSFER=$transfer" "FAIL_READ=$at"
    done
    cmp "$room/out" replies >> "$room/wrong" 2>&1
    judge "${program##*/} FAIL_READ, transfers of $transfer" $((at - 1))
}

# Fails each write of the program of lines, of so many bytes: what it wrote begins the replies.
sweep_writes() {
    local program=$1 transfer=$2 at=1
    answer "$program" "TRANSFER=$transfer" FAIL_WRITE=1
    while [[ $ended -ne 0 ]]; do
        is_beginning || echo "write $at: no beginning of the replies" >> "$room/wrong"
        [[ $ended -eq 1 ]] || echo "write $at: status $ended" >> "$room/wrong"
        says 'standard output: a write failed' >> "$room/wrong" 2>&1
        at=$((at + 1))
        answer "$program" "TRANSFER=$transfer" "FAIL_WRITE=$at"
    done
    cmp "$room/out" replies >> "$room/wrong" 2>&1
    judge "${program##*/} FAIL_WRITE, transfers of $transfer" $((at - 1))
}

# Cuts each transfer, and lets none fail: the replies are the same.
sweep_transfers() {
    local program=$1 transfer
    for transfer in 1 7 100; do
        answer "$program" "TRANSFER=$transfer"
        cmp "$room/out" replies >> "$room/wrong" 2>&1
        [[ $ended -eq 0 ]] || echo "transfers of $transfer: status $ended" >> "$room/wrong"
    done
    judge "${program##*/} TRANSFER" 3
}

# Has the program of lines print a text, and refuses it each of its requests, or each from there on: it
# prints the text, or nothing and its status is 2. By any other word that is what it does, too. Where the
# text is not written its status is 1.
sweep_words() {
    local program=$1 word way at runs=0
    for word in help version else; do
        for way in REFUSE_AT REFUSE_FROM; do
            at=0
            while [[ $at -eq 0 || $(< "$room/count") -ge $at ]]; do
                at=$((at + 1)) runs=$((runs + 1))
                env LD_PRELOAD="$all/refuse.so" REFUSE_COUNT="$room/count" "$way=$at" \
                    "$program" "--$word" < lines > "$room/out" 2> "$room/err"
                case $?$word in
                    0help | 0version) cmp "$room/out" "$word"; says '' ;;
                    2else) [[ ! -s $room/out && -s $room/err ]] || echo "--else, request $at: another text" ;;
                    2*) [[ ! -s $room/out ]] || echo "--$word, request $at: it printed something"; says 'out of memory' ;;
                    *) echo "--$word, request $at: another status" ;;
                esac >> "$room/wrong" 2>&1
            done
        done
        [[ $word == else ]] || cmp "$room/out" "$word" >> "$room/wrong" 2>&1
    done
    for word in -h --help --version; do
        runs=$((runs + 1))
        env LD_PRELOAD="$all/fault.so" FAIL_WRITE=1 "$program" "$word" < lines > "$room/out" 2> "$room/err"
        [[ $? -eq 1 && ! -s $room/out ]] || echo "$word, a write that fails: another status" >> "$room/wrong"
        says 'standard output: a write failed' >> "$room/wrong" 2>&1
    done
    judge "${program##*/} --help, --version, --else" "$runs"
}

# Says that a program is not there.
is_missing() {
    echo "rt ci builds it, or rt run in crates/$1" > "$room/wrong"
    judge "$1 is not built" 0
}

# All sweeps of a build of the program of calls, or of lines.
sweep() {
    local program=$1 way transfer
    if [[ $program == *typath* ]]; then
        start sweep_transfers "$program"
        start sweep_words "$program"
        for transfer in 1 7 100 100000; do
            start sweep_requests "$program" REFUSE_AT "$transfer"
            start sweep_requests "$program" REFUSE_FROM "$transfer"
            start sweep_reads "$program" "$transfer"
            start sweep_writes "$program" "$transfer"
        done
        return
    fi
    for way in REFUSE_AT REFUSE_FROM; do
        start sweep_calls "$program" "$way"
    done
}

# The programs as LLVM builds them and, where `rt ci` was the last to build, as Rattle's own compiler.
for name in typed_path_refusals typath; do
    program=../crates/$name/out/$name
    if [[ ! -x $program ]]; then
        start is_missing "$name"
        continue
    fi
    sweep "$program"
    if [[ $program.by-rattle -nt $program ]]; then
        sweep "$program.by-rattle"
    fi
done
wait

# A sweep that stopped before its end has not passed.
passed=0 failed=0
for room in "${rooms[@]}"; do
    cat "$room/said"
    if [[ -e $room/passed ]]; then
        passed=$((passed + 1))
    else
        failed=$((failed + 1))
    fi
done
echo "$passed passed, $failed failed"
[[ $failed -eq 0 ]]
