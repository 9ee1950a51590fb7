/* Calls the library as a C caller does, and checks for what it must not do: a line that begins with WRONG
   says what it did. Each part uses the rows, or paths from a seed.

   boundary ROWS PART */
#include "rows.h"

#include <limits.h>
#include <pthread.h>
#include <stdio.h>
#include <stdlib.h>
#include <string.h>
#include <sys/mman.h>
#include <unistd.h>

#define PATTERN 0x5a
#define BAD_DIALECTS 3

static const uint32_t BAD[BAD_DIALECTS] = {2, 7, UINT32_MAX};
static const Text NOTHING = {"", 0};
static size_t looks, wrong;

static void look(bool holds, const char *what, const char *call, Text path, Text other) {
    looks++;
    if (!holds && wrong++ < 20)
        printf("WRONG %s: %s of [%.*s] and [%.*s]\n", what, call, (int)path.length, path.bytes,
               (int)other.length, other.bytes);
}

/* Some whole pages between two that cannot be accessed. */
typedef struct Block {
    char *first;
    size_t size;
} Block;

static Block block_of(size_t size) {
    size_t page = (size_t)sysconf(_SC_PAGESIZE), whole = (size + page - 1) / page * page;
    char *all = mmap(NULL, whole + 2 * page, PROT_NONE, MAP_PRIVATE | MAP_ANONYMOUS, -1, 0);
    if (all == MAP_FAILED || mprotect(all + page, whole, PROT_READ | PROT_WRITE) != 0)
        exit(2);
    return (Block){all + page, whole};
}

/* Returns the start of the first `size` bytes of a block, or of the last. */
static char *place(Block block, size_t size, bool last) {
    return last ? block.first + block.size - size : block.first;
}

static bool is_pattern(const char *bytes, size_t size) {
    static char pattern[1 << 14];
    if (pattern[0] != PATTERN)
        memset(pattern, PATTERN, sizeof pattern);
    return size <= sizeof pattern && (size == 0 || memcmp(bytes, pattern, size) == 0);
}

/* Returns a read-only copy of a text at the front of a block, or at its end; for an empty one NULL, or the end. */
static Text laid(Block block, Text text, bool last) {
    mprotect(block.first, block.size, PROT_READ | PROT_WRITE);
    char *to = place(block, text.length, last);
    if (text.length > 0)
        memcpy(to, text.bytes, text.length);
    mprotect(block.first, block.size, PROT_READ);
    return (Text){text.length == 0 && !last ? NULL : to, text.length};
}

static Block texts[2], answers, structs;

/* Checks what a call puts into a buffer of this size, between pages that cannot be accessed, and what it returns. */
static void look_at_size(
    const Call *call, uint32_t dialect, Text path, Text other, uint32_t status, Text answer, size_t size, bool last) {
    memset(answers.first, PATTERN, answers.size);
    size_t len = 12345, told = status == TYPED_PATH_STATUS_DONE ? answer.length : 12345;
    char *out = place(answers, size, last);
    uint32_t got = put_by(call, dialect, path, other, size ? out : last ? out : NULL, size, &len);
    size_t written = 0;
    if (status != TYPED_PATH_STATUS_DONE) {
        look(got == status, "status", call->name, path, other);
    } else if (size < answer.length) {
        look(got == TYPED_PATH_STATUS_TOO_SMALL, "status where it is too small", call->name, path, other);
    } else {
        look(got == TYPED_PATH_STATUS_DONE, "status where it fits", call->name, path, other);
        look(answer.length == 0 || memcmp(out, answer.bytes, answer.length) == 0, "answer", call->name, path, other);
        look(size == answer.length || out[answer.length] == '\0', "NUL", call->name, path, other);
        written = answer.length + (size > answer.length);
    }
    look(len == told, "length", call->name, path, other);
    size_t before = (size_t)(out - answers.first);
    look(is_pattern(answers.first, before) && is_pattern(out + written, answers.size - before - written),
         "bytes that are no answer", call->name, path, other);
}

/* Checks a call with each size from 0 to the bound, at the front of a block and at its end. */
static void look_at_sizes(const Call *call, uint32_t dialect, Text path, Text other, uint32_t status, Text answer) {
    size_t bound = bound_of(call, path, other);
    look(status || answer.length < bound, "bound", call->name, path, other);
    for (int last = 0; last < 2; last++) {
        Text one = laid(texts[0], path, last), two = laid(texts[1], other, last);
        for (size_t size = 0; size <= bound; size++)
            look_at_size(call, dialect, one, two, status, answer, size, last);
        for (size_t at = 0; at < BAD_DIALECTS; at++)
            look_at_size(call, BAD[at], one, two, TYPED_PATH_STATUS_BAD_DIALECT, answer, bound, last);
    }
}

/* Whether a call that puts nothing leaves what it would set if the dialect is bad; a question answers false. */
static bool is_kept(const Row *bad, Text one, Text two) {
    const Call *call = bad->call;
    typed_path_component list[200], component = {5, 6, 7};
    typed_path_span span = {1, 2}, names[2] = {{1, 2}, {3, 4}};
    typed_path_place place = {1, 2};
    typed_path_reading reading = {0, one.length, 0};
    bool answer = true;
    int32_t order = 3;
    uint64_t hash = 4;
    size_t len, count = 8;
    char out[1000];
    if (call->ask || call->ask_of)
        return told_by(bad, one, two, &answer, list, out, &len) == TYPED_PATH_STATUS_BAD_DIALECT && !answer;
    if (call->judge)
        return call->judge(bad->dialect, one.bytes, one.length) == TYPED_PATH_STATUS_BAD_DIALECT;
    if (call->part || call->part_of)
        return told_by(bad, one, two, &span, list, out, &len) == TYPED_PATH_STATUS_BAD_DIALECT && span.start == 1
            && span.length == 2;
    if (strcmp(call->name, "compare") == 0)
        return told_by(bad, one, two, &order, list, out, &len) == TYPED_PATH_STATUS_BAD_DIALECT && order == 3
            && typed_path_hash(bad->dialect, one.bytes, one.length, &hash) == TYPED_PATH_STATUS_BAD_DIALECT
            && typed_path_hash_keyed(bad->dialect, 1, 2, one.bytes, one.length, &hash) == TYPED_PATH_STATUS_BAD_DIALECT
            && hash == 4;
    if (strcmp(call->name, "compare_ignore_ascii_case") == 0)
        return told_by(bad, one, two, &order, list, out, &len) == TYPED_PATH_STATUS_BAD_DIALECT && order == 3;
    if (strcmp(call->name, "components") == 0)
        return typed_path_components(bad->dialect, one.bytes, one.length, &component, 1, &count) == TYPED_PATH_STATUS_BAD_DIALECT
            && typed_path_component_at(bad->dialect, one.bytes, one.length, 0, &component) == TYPED_PATH_STATUS_BAD_DIALECT
            && typed_path_next(bad->dialect, one.bytes, one.length, &reading, &component) == TYPED_PATH_STATUS_BAD_DIALECT
            && typed_path_next_back(bad->dialect, one.bytes, one.length, &reading, &component) == TYPED_PATH_STATUS_BAD_DIALECT
            && count == 8 && component.start == 5 && component.length == 6 && component.kind == 7
            && reading.from == 0 && reading.to == one.length && reading.stage == 0;
    if (strcmp(call->name, "prefix_names") == 0)
        return told_by(bad, one, two, names, list, out, &len) == TYPED_PATH_STATUS_BAD_DIALECT && names[0].start == 1
            && names[0].length == 2 && names[1].start == 3 && names[1].length == 4;
    if (strcmp(call->name, "push_place") == 0)
        return told_by(bad, one, two, &place, list, out, &len) == TYPED_PATH_STATUS_BAD_DIALECT && place.kept == 1
            && place.separator == 2;
    return true;
}

/* Returns how many bytes a call that puts nothing sets. */
static size_t size_told(const Call *call) {
    if (call->judge)
        return 0;
    if (call->ask || call->ask_of)
        return sizeof(bool);
    if (call->part || call->part_of)
        return sizeof(typed_path_span);
    if (strcmp(call->name, "prefix_names") == 0)
        return 2 * sizeof(typed_path_span);
    return strcmp(call->name, "push_place") == 0 ? sizeof(typed_path_place) : sizeof(int32_t);
}

/* Checks a call that puts nothing, with all that it is handed between pages that cannot be accessed. */
static void look_at_told(const Row *row) {
    const Call *call = row->call;
    size_t size = size_told(call);
    char out[1000];
    for (int last = 0; last < 2; last++) {
        Text one = laid(texts[0], row->path, last), two = laid(texts[1], row->other, last);
        memset(structs.first, PATTERN, structs.size);
        void *told = place(structs, size, last);
        void *list = place(answers, one.length * sizeof(typed_path_component), last);
        if (call->ask || call->ask_of)
            *(bool *)told = true;
        size_t len;
        uint32_t status = told_by(row, one, two, told, list, out, &len);
        look(is_answered(row, status, out, len), "answer", call->name, one, two);
        size_t written = status == TYPED_PATH_STATUS_NONE ? 0 : size;
        look(is_pattern(last ? structs.first : structs.first + written, structs.size - written),
             "bytes that are told", call->name, one, two);
        Row bad = *row;
        for (size_t at = 0; at < BAD_DIALECTS; at++) {
            bad.dialect = BAD[at];
            look(is_kept(&bad, one, two), "bad dialect", call->name, one, two);
        }
    }
}

/* Checks the list of components with arrays of each size. */
static void look_at_lists(uint32_t dialect, Text path) {
    typed_path_component all[200], some[200];
    size_t there = 0, count;
    uint32_t status = typed_path_components(dialect, path.bytes, path.length, all, path.length, &there);
    look(status == TYPED_PATH_STATUS_DONE, "status", "components", path, NOTHING);
    for (size_t size = 0; size <= there; size++) {
        memset(answers.first, PATTERN, answers.size);
        void *list = place(answers, size * sizeof *some, true);
        status = typed_path_components(dialect, path.bytes, path.length, size ? list : NULL, size, &count);
        look(status == (size < there ? TYPED_PATH_STATUS_TOO_SMALL : TYPED_PATH_STATUS_DONE), "status", "components", path, NOTHING);
        look(count == there, "count", "components", path, NOTHING);
        memcpy(some, list, size * sizeof *some);
        for (size_t at = 0; at < size; at++)
            look(some[at].start == all[at].start && some[at].length == all[at].length && some[at].kind == all[at].kind,
                 "component", "components", path, NOTHING);
        look(is_pattern(answers.first, answers.size - size * sizeof *some), "bytes before", "components", path, NOTHING);
    }
}

static void part_rows(void) {
    for (size_t at = 0; at < row_count; at++) {
        Row *row = &rows[at];
        if (puts_answer(row->call))
            look_at_sizes(row->call, row->dialect, row->path, row->other, row->status, row->answer);
        else
            look_at_told(row);
        look_at_lists(row->dialect, row->path);
    }
}

/* The state of random texts, which mostly begin with something of Windows. */
static uint64_t state = 0x9e3779b97f4a7c15u;

static size_t drawn(size_t below) {
    state = state * 6364136223846793005u + 1442695040888963407u;
    return (size_t)(state >> 33) % below;
}

static Text random_text(char *to) {
    static const char *const PIECES[] = {
        "", "/", "\\", "\\\\", "//", "\\\\?\\", "//?/", "\\\\.\\", "UNC\\", "UNC/", "C:", "c:", "s\\h", "..", ".",
        "a", "b.c", "\xe6\x97\xa5", "con", ":", "?", "a/", "../", "./", "\xff", "\xe9:",
    };
    size_t count = drawn(7), length = 0;
    for (size_t at = 0; at < count; at++) {
        const char *piece = PIECES[drawn(sizeof PIECES / sizeof *PIECES)];
        memcpy(to + length, piece, strlen(piece));
        length += strlen(piece);
    }
    return (Text){to, length};
}

/* Checks that buffers of all sizes get what one of the bound gets. */
static void part_random(void) {
    char one[100], two[100], out[300];
    for (size_t round = 0; round < 2000; round++) {
        Text path = random_text(one), other = random_text(two);
        uint32_t dialect = (uint32_t)drawn(2);
        look_at_lists(dialect, path);
        for (size_t at = 0; at < CALL_COUNT; at++) {
            const Call *call = &CALLS[at];
            size_t len = 0;
            Text with = call->put_in ? (Text){drawn(2) ? "\1" : "\0", 1} : other;
            if (!puts_answer(call))
                continue;
            uint32_t status = put_by(call, dialect, path, with, out, bound_of(call, path, with), &len);
            look(status < TYPED_PATH_STATUS_OUT_OF_MEMORY || status == TYPED_PATH_STATUS_NONE || status == TYPED_PATH_STATUS_AMBIGUOUS
                 || status >= TYPED_PATH_STATUS_HAS_PREFIX, "status", call->name, path, with);
            look_at_sizes(call, dialect, path, with, status, (Text){out, len});
        }
    }
}

/* Checks that steps from either end take the components of the list, and leave the slice between them. */
static void look_at_steps(uint32_t dialect, Text path) {
    typed_path_component list[200], one = {0, 0, 99};
    typed_path_reading left = TYPED_PATH_READING(path.length);
    size_t count = 0, front = 0, back = 0;
    look(typed_path_components(dialect, path.bytes, path.length, list, path.length, &count) == TYPED_PATH_STATUS_DONE,
         "status", "components", path, NOTHING);
    for (;;) {
        bool last = drawn(2);
        uint32_t status = (last ? typed_path_next_back : typed_path_next)(dialect, path.bytes, path.length, &left, &one);
        if (front + back == count) {
            look(status == TYPED_PATH_STATUS_NONE, "status where none is left", "next", path, NOTHING);
            return;
        }
        const typed_path_component *wanted = &list[last ? count - 1 - back++ : front++];
        look(status == TYPED_PATH_STATUS_DONE && one.start == wanted->start && one.length == wanted->length
             && one.kind == wanted->kind, "component", "next", path, NOTHING);
        if (front + back == count)
            look(left.from == left.to, "slice where none is left", "next", path, NOTHING);
        else
            look(left.from == (front ? list[front].start : 0)
                 && left.to == (back ? list[count - 1 - back].start + list[count - 1 - back].length : path.length),
                 "slice left", "next", path, NOTHING);
    }
}

/* Checks that a step with any numbers takes a component within the path, or leaves all unchanged. */
static void look_at_any_numbers(uint32_t dialect, Text path) {
    typed_path_reading left = {
        drawn(4) ? drawn(path.length + 3) : SIZE_MAX - drawn(9), drawn(4) ? drawn(path.length + 3) : SIZE_MAX - drawn(9),
        (uint32_t)(drawn(5) ? drawn(4) : state),
    };
    for (size_t steps = 0;; steps++) {
        typed_path_reading before = left;
        typed_path_component one = {777, 777, 777};
        uint32_t status = (drawn(2) ? typed_path_next_back : typed_path_next)(
            dialect, path.bytes, path.length, &left, &one);
        if (status != TYPED_PATH_STATUS_DONE) {
            look(one.start == 777 && one.length == 777 && one.kind == 777, "component that is none", "next", path, NOTHING);
            look(status == TYPED_PATH_STATUS_NONE || (status == TYPED_PATH_STATUS_BAD_READING && left.from == before.from
                 && left.to == before.to && left.stage == before.stage), "numbers that are refused", "next", path, NOTHING);
            return;
        }
        look(one.start <= path.length && one.length <= path.length - one.start && steps <= path.length,
             "component of any numbers", "next", path, NOTHING);
        if (steps > path.length)
            return;
    }
}

static void part_steps(void) {
    char one[100], two[100], out[1000];
    size_t refused = 0;
    for (size_t round = 0; round < 100000; round++) {
        Text path = random_text(one), other = random_text(two);
        uint32_t dialect = (uint32_t)drawn(2);
        look_at_steps(dialect, path);
        look_at_any_numbers(dialect, path);
        typed_path_place place = {0, 0};
        for (size_t at = 0; at < CALL_COUNT; at++) {
            Row row = {.call = &CALLS[at], .dialect = dialect, .path = path, .other = other};
            if (strcmp(CALLS[at].name, "push_place") != 0)
                continue;
            size_t len;
            uint32_t status = told_by(&row, path, other, &place, NULL, out, &len);
            look(status == TYPED_PATH_STATUS_DONE || (status == TYPED_PATH_STATUS_NONE && dialect && other.length), "place of a push",
                 "push_place", path, other);
            refused += status == TYPED_PATH_STATUS_NONE;
        }
    }
    look(refused > 100, "no push was merged", "push_place", NOTHING, NOTHING);
}

/* A batch: what it is handed, and what it sets. */
typedef struct Batch {
    const Call *call;
    uint32_t dialect;
    Text base, names;
    size_t ends[12], count;
    size_t size, places, out_ends[12], done;
    uint32_t statuses[12];
} Batch;

static uint32_t done_by(Batch *batch, char *out) {
    batch->done = 999;
    memset(batch->out_ends, PATTERN, sizeof batch->out_ends);
    memset(batch->statuses, PATTERN, sizeof batch->statuses);
    memset(answers.first, PATTERN, answers.size);
    return batch->call->batch(
        batch->dialect, batch->base.bytes, batch->base.length, batch->names.bytes, batch->names.length, batch->ends,
        batch->count, out, batch->size, batch->out_ends, batch->places, batch->statuses, batch->places, &batch->done);
}

/* Compares each name with the call for one, as far as the batch had room and the ends were in order. */
static void look_at_batch(Batch *batch) {
    char *out = place(answers, batch->size, true), one[400];
    uint32_t status = done_by(batch, out), wanted = TYPED_PATH_STATUS_DONE;
    size_t from = 0, at = 0, room = 0, len = 0;
    for (; at < batch->count; at++) {
        size_t end = batch->ends[at];
        if (end < from || end > batch->names.length) {
            wanted = TYPED_PATH_STATUS_BAD_ENDS;
            break;
        }
        len = 0;
        uint32_t each = batch->call->put_of(
            batch->dialect, batch->base.bytes, batch->base.length, batch->names.bytes + from, end - from,
            one, sizeof one, &len);
        if (at >= batch->places || (each == TYPED_PATH_STATUS_DONE && len > batch->size - room)) {
            wanted = TYPED_PATH_STATUS_TOO_SMALL;
            break;
        }
        if (each != TYPED_PATH_STATUS_DONE)
            len = 0;
        look(batch->statuses[at] == each, "status of a name", "batch", batch->base, batch->names);
        look(batch->out_ends[at] == room + len, "end of a name", "batch", batch->base, batch->names);
        look(len == 0 || memcmp(out + room, one, len) == 0, "answer of a name", "batch", batch->base, batch->names);
        room += len;
        from = end;
    }
    look(status == wanted, "status", "batch", batch->base, batch->names);
    look(batch->done == at, "how many were done", "batch", batch->base, batch->names);
    look(is_pattern(answers.first, answers.size - batch->size) && is_pattern(out + room, batch->size - room),
         "bytes behind the answers", "batch", batch->base, batch->names);
    look(is_pattern((char *)&batch->out_ends[at], (12 - at) * sizeof(size_t))
         && is_pattern((char *)&batch->statuses[at], (12 - at) * sizeof(uint32_t)),
         "items behind the names that are done", "batch", batch->base, batch->names);
}

static void part_batch(void) {
    char base[100], names[1000];
    for (size_t round = 0; round < 3000; round++) {
        Batch batch = {.names = {names, 0}};
        do
            batch.call = &CALLS[drawn(CALL_COUNT)];
        while (!batch.call->batch);
        batch.dialect = (uint32_t)drawn(2);
        batch.base = random_text(base);
        batch.count = drawn(9);
        for (size_t at = 0; at < batch.count; at++)
            batch.ends[at] = batch.names.length += random_text(names + batch.names.length).length;
        size_t bound = TYPED_PATH_BATCH_BOUND(batch.base.length, batch.names.length, batch.count);
        batch.places = batch.count;
        batch.size = bound;
        look_at_batch(&batch);
        look(done_by(&batch, place(answers, bound, true)) == TYPED_PATH_STATUS_DONE, "bound", "batch", batch.base, batch.names);
        batch.size = drawn(bound + 1);
        look_at_batch(&batch);
        batch.size = bound;
        batch.places = drawn(batch.count + 1);
        look_at_batch(&batch);
        batch.places = batch.count;
        if (batch.count > 0)
            batch.ends[drawn(batch.count)] = drawn(4) ? drawn(batch.names.length + 3) : SIZE_MAX;
        look_at_batch(&batch);
        for (size_t at = 0; at < BAD_DIALECTS; at++) {
            batch.dialect = BAD[at];
            look(done_by(&batch, answers.first) == TYPED_PATH_STATUS_BAD_DIALECT && batch.done == 0
                 && is_pattern(answers.first, answers.size) && is_pattern((char *)batch.out_ends, sizeof batch.out_ends)
                 && is_pattern((char *)batch.statuses, sizeof batch.statuses),
                 "bad dialect", "batch", batch.base, batch.names);
        }
    }
}

/* A word with a separator after each letter whose bit is set, except the last: paths that differ, although
   their names make one text. */
#define CUTS 12

static Text cut(char *to, size_t number) {
    size_t length = 0;
    for (size_t at = 0; at <= CUTS; at++) {
        to[length++] = (char)('a' + at);
        if (number >> at & 1)
            to[length++] = '/';
    }
    return (Text){to, length};
}

static int by_number(const void *one, const void *two) {
    uint64_t a = *(const uint64_t *)one, b = *(const uint64_t *)two;
    return (a > b) - (a < b);
}

/* Checks that no two of these paths have the same hash, and none has the same with two keys. */
static void part_hashes(void) {
    static const uint64_t KEYS[][2] = {{0, 0}, {1, 0}, {0, 1}, {0x0123456789abcdefu, UINT64_MAX}};
    enum { COUNT = sizeof KEYS / sizeof *KEYS, PATHS = 1 << CUTS };
    static uint64_t hashes[COUNT * PATHS];
    char path[2 * CUTS + 1];
    for (uint32_t dialect = 0; dialect < 2; dialect++) {
        for (size_t number = 0; number < PATHS; number++) {
            Text text = cut(path, number);
            uint64_t bare = 0, *each = hashes + COUNT * number;
            for (size_t at = 0; at < COUNT; at++)
                look(typed_path_hash_keyed(dialect, KEYS[at][0], KEYS[at][1], text.bytes, text.length, &each[at])
                     == TYPED_PATH_STATUS_DONE, "status", "hash_keyed", text, NOTHING);
            look(typed_path_hash(dialect, text.bytes, text.length, &bare) == TYPED_PATH_STATUS_DONE && bare == each[0],
                 "hash under a key of zeros", "hash", text, NOTHING);
        }
        qsort(hashes, COUNT * PATHS, sizeof *hashes, by_number);
        for (size_t at = 1; at < COUNT * PATHS; at++)
            look(hashes[at - 1] != hashes[at], "hash of two paths, or under two keys", "hash_keyed", NOTHING, NOTHING);
    }
}

typedef uint32_t SaidBy(uint32_t, char *, size_t, size_t *);

/* Checks that each of the first numbers has a text of its own, put like any answer, and other numbers have none. */
static void look_at_texts(const char *name, SaidBy *said_by, uint32_t count) {
    static const uint32_t NO_NUMBERS[] = {99, UINT32_MAX};
    char texts_of[32][TYPED_PATH_TEXT_BOUND] = {""};
    for (uint32_t number = 0; number < count; number++) {
        size_t length = 0;
        look(said_by(number, texts_of[number], TYPED_PATH_TEXT_BOUND, &length) == TYPED_PATH_STATUS_DONE && length > 0
             && strlen(texts_of[number]) == length, "text", name, NOTHING, NOTHING);
        for (uint32_t before = 0; before < number; before++)
            look(strcmp(texts_of[before], texts_of[number]) != 0, "text of another number", name, NOTHING, NOTHING);
        for (size_t size = 0; size <= TYPED_PATH_TEXT_BOUND; size++) {
            memset(answers.first, PATTERN, answers.size);
            char *out = place(answers, size, true);
            size_t len = 0, written = size < length ? 0 : length + (size > length);
            uint32_t status = said_by(number, out, size, &len);
            look(status == (size < length ? TYPED_PATH_STATUS_TOO_SMALL : TYPED_PATH_STATUS_DONE) && len == length
                 && memcmp(out, texts_of[number], written) == 0 && is_pattern(out + written, size - written)
                 && is_pattern(answers.first, answers.size - size), "text in a buffer", name, NOTHING, NOTHING);
        }
    }
    for (size_t at = 0; at <= sizeof NO_NUMBERS / sizeof *NO_NUMBERS; at++) {
        size_t len = 12345;
        uint32_t number = at ? NO_NUMBERS[at - 1] : count;
        memset(answers.first, PATTERN, answers.size);
        look(said_by(number, answers.first, answers.size, &len) == TYPED_PATH_STATUS_NONE && len == 12345
             && is_pattern(answers.first, answers.size), "text of no number", name, NOTHING, NOTHING);
    }
}

static void part_texts(void) {
    look_at_texts("status_text", typed_path_status_text, TYPED_PATH_STATUS_NOT_TEXT + 1);
    look_at_texts("kind_text", typed_path_kind_text, TYPED_PATH_KIND_PREFIX_DISK + 1);
}

/* If the linker wraps malloc and realloc, requests are counted, and refused by their number. */
static size_t requests, refuse_at, refuse_from, held;

#ifdef REFUSES
void *__real_malloc(size_t size);
void *__real_realloc(void *block, size_t size);
void __real_free(void *block);
void *__wrap_malloc(size_t size);
void *__wrap_realloc(void *block, size_t size);
void __wrap_free(void *block);

static bool is_refused(void) {
    requests++;
    return requests == refuse_at || (refuse_from > 0 && requests >= refuse_from);
}

void *__wrap_malloc(size_t size) {
    void *block = is_refused() ? NULL : __real_malloc(size);
    held += block != NULL;
    return block;
}

void *__wrap_realloc(void *block, size_t size) {
    void *grown = is_refused() ? NULL : __real_realloc(block, size);
    held += grown != NULL && block == NULL;
    return grown;
}

void __wrap_free(void *block) {
    held -= block != NULL;
    __real_free(block);
}
#endif

/* Checks that a call with a request refused, or all from there on, says so and changes nothing, or succeeds. */
static void look_refused(const Row *row, const char *wanted, size_t length, size_t bound, bool batch) {
    static char out[3000];
    size_t len = 12345, ends[1] = {row->other.length}, out_ends[1] = {12345}, before = held;
    uint32_t statuses[1] = {12345}, status;
    memset(out, PATTERN, sizeof out);
    requests = 0;
    if (batch)
        status = row->call->batch(
            row->dialect, row->path.bytes, row->path.length, row->other.bytes, row->other.length, ends, 1, out, bound,
            out_ends, 1, statuses, 1, &len);
    else
        status = put_by(row->call, row->dialect, row->path, row->other, out, bound, &len);
    refuse_at = refuse_from = 0;
    look(held == before, "memory that is not freed", row->call->name, row->path, row->other);
    if (status == TYPED_PATH_STATUS_OUT_OF_MEMORY) {
        look(is_pattern(out, sizeof out), "buffer where memory is refused", row->call->name, row->path, row->other);
        look(batch ? len == 0 && out_ends[0] == 12345 && statuses[0] == 12345 : len == 12345,
             "what is told where memory is refused", row->call->name, row->path, row->other);
    } else if (batch) {
        look(status == TYPED_PATH_STATUS_DONE && statuses[0] == row->status && out_ends[0] == length
             && memcmp(out, wanted, length) == 0, "answer where memory is refused", "batch", row->path, row->other);
    } else {
        look(status == row->status && (status || (len == length && memcmp(out, wanted, length) == 0)),
             "answer where memory is refused", row->call->name, row->path, row->other);
    }
}

static void part_refused(void) {
    char out[3000];
    size_t all = 0;
    for (size_t at = 0; at < row_count; at++) {
        Row row = rows[at];
        if (!puts_answer(row.call)) {
            typed_path_component list[200];
            uint64_t told[4] = {0};
            size_t len;
            /* The answer of push_place is compared with a join, which allocates. So it is called alone here. */
            typed_path_place place = {0, 0};
            requests = 0;
            if (strcmp(row.call->name, "push_place") == 0)
                look(typed_path_push_place(row.dialect, row.path.bytes, row.path.length, row.other.bytes,
                     row.other.length, &place) == row.status, "status", row.call->name, row.path, row.other);
            else
                told_by(&row, row.path, row.other, told, list, out, &len);
            look(requests == 0, "request for memory", row.call->name, row.path, row.other);
            continue;
        }
        bool batch = row.call->batch != NULL;
        bool free_of = batch || row.call->put_of == typed_path_resolve_checked
            || row.call->put_of == typed_path_relative_to;
        size_t bound = bound_of(row.call, row.path, row.other), total;
        for (int way = 0; way < (batch ? 4 : 2); way++) {
            requests = 0;
            look_refused(&row, row.answer.bytes, row.status ? 0 : row.answer.length, bound, way > 1);
            total = requests;
            look(total == 0 || row.status == TYPED_PATH_STATUS_DONE || !free_of, "memory for what is refused",
                 row.call->name, row.path, row.other);
            for (size_t number = 1; number <= total; number++) {
                refuse_at = way % 2 ? 0 : number;
                refuse_from = way % 2 ? number : 0;
                look_refused(&row, row.answer.bytes, row.status ? 0 : row.answer.length, bound, way > 1);
                all++;
            }
        }
    }
    look(all > 0, "none was refused", "refused", NOTHING, NOTHING);
}

/* Makes each call with a megabyte of each piece, on a stack of 64 kB. */
static void *each_long(void *wrong_texts) {
    static const char *const PIECES[] = {"a", "a/", "/", "./", "../", "a/../", "日", "\\", "a\\", "con/", "a.b"};
    static const Text BESIDE = {"C:\\x", 4};
    size_t size = 1 << 20, len, count;
    char *path = malloc(size + 20), *out = malloc(2 * size + 100), *again = malloc(2 * size + 100);
    typed_path_component *list = malloc(size * sizeof *list);
    if (!path || !out || !again || !list)
        exit(2);
    for (size_t at = 0; at < sizeof PIECES / sizeof *PIECES; at++) {
        size_t length = 0;
        for (; length + strlen(PIECES[at]) <= size; length += strlen(PIECES[at]))
            memcpy(path + length, PIECES[at], strlen(PIECES[at]));
        Text text = {path, length};
        for (uint32_t dialect = 0; dialect < 2; dialect++) {
            for (size_t number = 0; number < CALL_COUNT; number++) {
                const Call *call = &CALLS[number];
                if (!puts_answer(call))
                    continue;
                Text with = call->put_in ? (Text){dialect ? "\0" : "\1", 1} : BESIDE;
                len = 0;
                uint32_t status = put_by(call, dialect, text, with, out, bound_of(call, text, with), &len);
                if (status == TYPED_PATH_STATUS_OUT_OF_MEMORY || status == TYPED_PATH_STATUS_TOO_SMALL || (!status && out[len]))
                    *(size_t *)wrong_texts += 1;
            }
            len = count = 0;
            if (typed_path_normalize(dialect, path, length, out, 2 * size, &len)
                || typed_path_normalize(dialect, out, len, again, 2 * size, &count)
                || count != len || memcmp(out, again, len) != 0
                || typed_path_components(dialect, path, length, list, size, &count))
                *(size_t *)wrong_texts += 1;
        }
    }
    free(path);
    free(out);
    free(again);
    free(list);
    return NULL;
}

static void part_long(void) {
    size_t wrong_texts = 0, stack = 65536;
    pthread_attr_t small;
    pthread_t thread;
    pthread_attr_init(&small);
    if (stack < (size_t)PTHREAD_STACK_MIN)
        stack = (size_t)PTHREAD_STACK_MIN;
    pthread_attr_setstacksize(&small, stack);
    if (pthread_create(&thread, &small, each_long, &wrong_texts) != 0 || pthread_join(thread, NULL) != 0)
        exit(2);
    look(wrong_texts == 0, "a long text", "each call", NOTHING, NOTHING);
}

/* Checks all rows, again and again. */
static void *each_row(void *wrong_rows) {
    typed_path_component list[200];
    uint64_t told[4];
    char out[1000];
    for (size_t round = 0; round < 300; round++) {
        for (size_t at = 0; at < row_count; at++) {
            const Row *row = &rows[at];
            size_t len = 0;
            memset(told, 0, sizeof told);
            uint32_t status = puts_answer(row->call)
                ? put_by(row->call, row->dialect, row->path, row->other, out, sizeof out, &len)
                : told_by(row, row->path, row->other, told, list, out, &len);
            if (!is_answered(row, status, out, len))
                *(size_t *)wrong_rows += 1;
        }
    }
    return NULL;
}

static void part_threads(void) {
    pthread_t threads[8];
    size_t wrong_rows[8] = {0};
    for (size_t at = 0; at < 8; at++)
        if (pthread_create(&threads[at], NULL, each_row, &wrong_rows[at]) != 0)
            exit(2);
    for (size_t at = 0; at < 8; at++) {
        pthread_join(threads[at], NULL);
        look(wrong_rows[at] == 0, "rows of a thread", "each call", NOTHING, NOTHING);
    }
}

int main(int count, char **words) {
    static const struct {
        const char *name;
        void (*run)(void);
    } PARTS[] = {
        {"rows", part_rows}, {"random", part_random}, {"steps", part_steps}, {"batch", part_batch}, {"hashes", part_hashes},
        {"texts", part_texts}, {"refused", part_refused}, {"long", part_long}, {"threads", part_threads},
    };
    if (count != 3)
        return 2;
    read_rows(words[1]);
    texts[0] = block_of(1000);
    texts[1] = block_of(1000);
    answers = block_of(200 * sizeof(typed_path_component));
    structs = block_of(1000);
    for (size_t at = 0; at < sizeof PARTS / sizeof *PARTS; at++)
        if (strcmp(words[2], PARTS[at].name) == 0)
            PARTS[at].run();
    printf("%s: %zu looks, %zu wrong\n", words[2], looks, wrong);
    return looks == 0 || wrong > 0;
}
