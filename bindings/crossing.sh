#!/usr/bin/env bash
# Times what it costs to cross to the library: each call for C that allocates nothing beside the same call of the library,
# which crates/typed_path_bench exports; by turns, nanoseconds a call, the least of SWEEPS sweeps (400) over a thousand
# paths that a seed makes. Either step is handed the numbers of a reading in memory, as no compiler knows them there.
# The same machine code takes some nanoseconds more or less by where it stands, so where the linker of rustc is there,
# all is linked in eight orders that seeds pick, and each side has the least of these.
# Prints a row for each call, and last the calls that cost more than 3 ns; it fails if there are any.
# bindings/crossing.sh DIR ARCHIVE [SWEEPS]: DIR has what bindings/c/build.sh laid out, ARCHIVE is the proved
# libtyped_path_bench.a.
set -euo pipefail
[[ $# -ge 2 ]] || { echo "crossing.sh: it takes the folder that build.sh laid out, and libtyped_path_bench.a" >&2 && exit 2; }
room=$(mktemp -d)
trap 'rm -rf "$room"' EXIT

cc -std=gnu11 -O2 "-I$1/include" -c -o "$room/crossing.o" -x c - << 'END'
#include <stdio.h>
#include <stdlib.h>
#include <string.h>
#include <time.h>
#include <typed_path.h>
enum { COUNT = 1000, ROOM = 200 };
struct path { size_t len; char text[ROOM]; };
static struct path paths[2][COUNT], others[2][COUNT];
static uint64_t seed = 0x9E3779B97F4A7C15;
static uint64_t random_below(uint64_t bound) {
    seed ^= seed << 13, seed ^= seed >> 7, seed ^= seed << 17;
    return seed % bound;
}
static double now(void) {
    struct timespec at;
    clock_gettime(CLOCK_MONOTONIC, &at);
    return at.tv_sec * 1e9 + at.tv_nsec;
}
static void put(struct path *path, const char *text) {
    memcpy(path->text + path->len, text, strlen(text) + 1);
    path->len += strlen(text);
}
static void make(int d) {
    static const char *const names[] = {"usr", "share", "x", "Documents", "lib.rs", "report-2026.tar.gz", "a", "node_modules"};
    for (int i = 0; i < COUNT; i++) {
        struct path *path = &paths[d][i], *other = &others[d][i];
        put(path, d ? "C:\\" : "/");
        for (uint64_t n = 1 + random_below(6); n > 0; n--) {
            put(path, names[random_below(8)]);
            if (n > 1) put(path, d ? "\\" : "/");
            if (n == 3) *other = *path;
        }
        if (other->len == 0) *other = *path;
    }
}
#define ONE(call) extern size_t bench_##call(const char *, size_t), bench_windows_##call(const char *, size_t)
#define TWO(call) \
    extern size_t bench_##call(const char *, size_t, const char *, size_t), \
        bench_windows_##call(const char *, size_t, const char *, size_t)
#define STEP(call) \
    extern size_t bench_##call(const char *, size_t, typed_path_reading *), \
        bench_windows_##call(const char *, size_t, typed_path_reading *)
ONE(parent); ONE(file_name); ONE(extension); ONE(is_valid); ONE(is_portable); ONE(may_be_device);
ONE(keeps_prefix); ONE(simplified);
TWO(starts_with); TWO(is_within); TWO(strip_prefix); TWO(ends_with); TWO(common_ancestor); TWO(push_place); TWO(eq);
TWO(eq_ignore_case); TWO(starts_with_ignore_case);
STEP(step_front_at); STEP(step_back_at);

// No call that is timed asks for memory.
#define NEVER(call) void call(void) { abort(); }
NEVER(rattle_alloc) NEVER(rattle_dealloc) NEVER(rattle_realloc)

#define PATH paths[d][i].text, paths[d][i].len
#define OTHER others[d][i].text, others[d][i].len
#define LENGTH(call) (typed_path_##call == TYPED_PATH_STATUS_DONE ? span.length : 1)
#define ANSWER(call) (typed_path_##call == TYPED_PATH_STATUS_DONE ? answer : 2)
#define ROW(name, dialect, theirs, ours) { \
    const int d = dialect; \
    double least[2] = {1e18, 1e18}; \
    size_t sums[2]; \
    for (int sweep = 0; sweep < sweeps; sweep++) { \
        double begun = now(); \
        sums[0] = 0; \
        for (int i = 0; i < COUNT; i++) { \
            typed_path_reading reading = TYPED_PATH_READING(paths[d][i].len); \
            (void)reading; \
            sums[0] += theirs; \
        } \
        double between = now(); \
        sums[1] = 0; \
        for (int i = 0; i < COUNT; i++) { \
            typed_path_span span; typed_path_place place; typed_path_component component; bool answer; \
            (void)span, (void)place, (void)component, (void)answer; \
            typed_path_reading reading = TYPED_PATH_READING(paths[d][i].len); \
            (void)reading; \
            sums[1] += ours; \
        } \
        double ended = now(); \
        if (between - begun < least[0]) least[0] = between - begun; \
        if (ended - between < least[1]) least[1] = ended - between; \
    } \
    if (sums[0] != sums[1]) { printf("%s: other answers\n", name); return 1; } \
    printf("%s|%s|%.2f|%.2f\n", name, d ? "Windows" : "Unix", least[0] / COUNT, least[1] / COUNT); \
}
#define UNIX TYPED_PATH_UNIX, PATH
#define WINDOWS TYPED_PATH_WINDOWS, PATH
#define STEPPED(call) \
    (typed_path_##call == TYPED_PATH_STATUS_DONE \
        ? component.start + component.length + (component.kind == TYPED_PATH_KIND_NAME) : 1)
int main(int argc, char **argv) {
    int sweeps = argc > 1 ? atoi(argv[1]) : 400;
    make(0), make(1);
    ROW("parent", 0, bench_parent(PATH), LENGTH(parent(UNIX, &span)));
    ROW("parent", 1, bench_windows_parent(PATH), LENGTH(parent(WINDOWS, &span)));
    ROW("file_name", 0, bench_file_name(PATH), LENGTH(file_name(UNIX, &span)));
    ROW("file_name", 1, bench_windows_file_name(PATH), LENGTH(file_name(WINDOWS, &span)));
    ROW("extension", 0, bench_extension(PATH), LENGTH(extension(UNIX, &span)));
    ROW("extension", 1, bench_windows_extension(PATH), LENGTH(extension(WINDOWS, &span)));
    ROW("strip_prefix", 0, bench_strip_prefix(PATH, OTHER), LENGTH(strip_prefix(UNIX, OTHER, &span)));
    ROW("strip_prefix", 1, bench_windows_strip_prefix(PATH, OTHER), LENGTH(strip_prefix(WINDOWS, OTHER, &span)));
    ROW("common_ancestor", 0, bench_common_ancestor(PATH, OTHER), LENGTH(common_ancestor(UNIX, OTHER, &span)));
    ROW("simplified", 1, bench_windows_simplified(PATH), LENGTH(simplified(WINDOWS, &span)));
    ROW("starts_with", 0, bench_starts_with(PATH, OTHER), ANSWER(starts_with(UNIX, OTHER, &answer)));
    ROW("starts_with", 1, bench_windows_starts_with(PATH, OTHER), ANSWER(starts_with(WINDOWS, OTHER, &answer)));
    ROW("ends_with", 0, bench_ends_with(PATH, OTHER), ANSWER(ends_with(UNIX, OTHER, &answer)));
    ROW("is_within", 0, bench_is_within(PATH, OTHER), ANSWER(is_within(UNIX, OTHER, &answer)));
    ROW("is_within", 1, bench_windows_is_within(PATH, OTHER), ANSWER(is_within(WINDOWS, OTHER, &answer)));
    ROW("keeps_prefix", 1, bench_windows_keeps_prefix(PATH), ANSWER(keeps_prefix(WINDOWS, &answer)));
    ROW("is_valid", 0, bench_is_valid(PATH), ANSWER(is_valid(UNIX, &answer)));
    ROW("is_valid", 1, bench_windows_is_valid(PATH), ANSWER(is_valid(WINDOWS, &answer)));
    ROW("is_portable", 0, bench_is_portable(PATH), ANSWER(is_portable(UNIX, &answer)));
    ROW("is_portable", 1, bench_windows_is_portable(PATH), ANSWER(is_portable(WINDOWS, &answer)));
    ROW("may_be_device", 0, bench_may_be_device(PATH), ANSWER(may_be_device(UNIX, &answer)));
    ROW("may_be_device", 1, bench_windows_may_be_device(PATH), ANSWER(may_be_device(WINDOWS, &answer)));
    ROW("equal", 0, bench_eq(PATH, OTHER), ANSWER(equal(UNIX, OTHER, &answer)));
    ROW("equal", 1, bench_windows_eq(PATH, OTHER), ANSWER(equal(WINDOWS, OTHER, &answer)));
    ROW("equal_ignore_ascii_case", 0, bench_eq_ignore_case(PATH, OTHER),
        ANSWER(equal_ignore_ascii_case(UNIX, OTHER, &answer)));
    ROW("starts_with_ignore_ascii_case", 0, bench_starts_with_ignore_case(PATH, OTHER),
        ANSWER(starts_with_ignore_ascii_case(UNIX, OTHER, &answer)));
    ROW("push_place", 0, bench_push_place(PATH, OTHER),
        typed_path_push_place(UNIX, OTHER, &place) == TYPED_PATH_STATUS_DONE ? place.kept + (place.separator != 0) : 1);
    ROW("next, the first", 0, bench_step_front_at(PATH, &reading), STEPPED(next(UNIX, &reading, &component)));
    ROW("next, the first", 1, bench_windows_step_front_at(PATH, &reading), STEPPED(next(WINDOWS, &reading, &component)));
    ROW("next_back, the first", 0, bench_step_back_at(PATH, &reading), STEPPED(next_back(UNIX, &reading, &component)));
    ROW("next_back, the first", 1, bench_windows_step_back_at(PATH, &reading),
        STEPPED(next_back(WINDOWS, &reading, &component)));
    return 0;
}
END
linked() { cc "$@" -o "$room/crossing" "$room/crossing.o" "$dir/lib/libtyped_path.a" "$archive"; }
dir=$1 archive=$2
shift 2
linker=$(rustc --print sysroot 2> /dev/null || true)/lib/rustlib/x86_64-unknown-linux-gnu/bin/gcc-ld
if [[ -x $linker/ld.lld ]]; then
    for order in {1..8}; do
        linked "-B$linker" -fuse-ld=lld "-Wl,--shuffle-sections=*=$order"
        "$room/crossing" "$@" >> "$room/rows"
    done
else
    linked
    "$room/crossing" "$@" > "$room/rows"
fi
awk -F'|' '
    NF != 4 { print; wrong = 1; next }
    { call = $1 "|" $2 }
    !(call in ours) { calls[++count] = call; theirs[call] = $3; ours[call] = $4 }
    $3 < theirs[call] { theirs[call] = $3 }
    $4 < ours[call] { ours[call] = $4 }
    END {
        print "| Call | Dialect | In the library | From C | More |\n|---|---|---|---|---|"
        for (at = 1; at <= count; at++) {
            call = calls[at]
            split(call, name, "|")
            cost = ours[call] - theirs[call]
            printf "| %s | %s | %.1f | %.1f | %+.1f |\n", name[1], name[2], theirs[call], ours[call], cost
            dear += cost > 3
        }
        printf "%d calls cost more than 3 ns\n", dear
        exit wrong || dear > 0
    }' "$room/rows"
