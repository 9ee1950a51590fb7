/* The rows of ../../rows.tsv, and each call by its name. */
#include "rows.h"

#include <stdio.h>
#include <stdlib.h>
#include <string.h>

/* typed_path_absolutize_from with a directory of each dialect, as calls with names of their own. */
static uint32_t absolutize_from_unix(
    uint32_t dialect, const char *path, size_t path_len, const char *directory, size_t directory_len,
    char *out, size_t out_size, size_t *len) {
    return typed_path_absolutize_from(
        dialect, path, path_len, TYPED_PATH_UNIX, directory, directory_len, out, out_size, len);
}

static uint32_t absolutize_from_windows(
    uint32_t dialect, const char *path, size_t path_len, const char *directory, size_t directory_len,
    char *out, size_t out_size, size_t *len) {
    return typed_path_absolutize_from(
        dialect, path, path_len, TYPED_PATH_WINDOWS, directory, directory_len, out, out_size, len);
}

const Call CALLS[] = {
    {.name = "join", .put_of = typed_path_join},
    {.name = "join_checked", .put_of = typed_path_join_checked, .batch = typed_path_join_checked_batch},
    {.name = "join_portable", .put_of = typed_path_join_portable, .batch = typed_path_join_portable_batch},
    {.name = "resolve_checked", .put_of = typed_path_resolve_checked},
    {.name = "with_file_name", .put_of = typed_path_with_file_name},
    {.name = "with_extension", .put_of = typed_path_with_extension},
    {.name = "with_added_extension", .put_of = typed_path_with_added_extension},
    {.name = "normalize", .put = typed_path_normalize},
    {.name = "clean", .put = typed_path_clean},
    {.name = "relative_to", .put_of = typed_path_relative_to},
    {.name = "key_words", .put = typed_path_key_words},
    {.name = "convert", .put_in = typed_path_convert},
    {.name = "convert_checked", .put_in = typed_path_convert_checked},
    {.name = "absolutize", .put_of = typed_path_absolutize},
    {.name = "absolutize_from_unix", .put_of = absolutize_from_unix},
    {.name = "absolutize_from_windows", .put_of = absolutize_from_windows},
    {.name = "to_ascii_lowercase", .put = typed_path_to_ascii_lowercase},
    {.name = "parent", .part = typed_path_parent},
    {.name = "file_name", .part = typed_path_file_name},
    {.name = "file_stem", .part = typed_path_file_stem},
    {.name = "file_prefix", .part = typed_path_file_prefix},
    {.name = "extension", .part = typed_path_extension},
    {.name = "strip_prefix", .part_of = typed_path_strip_prefix},
    {.name = "common_ancestor", .part_of = typed_path_common_ancestor},
    {.name = "simplified", .part = typed_path_simplified},
    {.name = "check", .judge = typed_path_check},
    {.name = "check_portable", .judge = typed_path_check_portable},
    {.name = "is_absolute", .ask = typed_path_is_absolute},
    {.name = "has_root", .ask = typed_path_has_root},
    {.name = "is_valid", .ask = typed_path_is_valid},
    {.name = "is_valid_name", .ask = typed_path_is_valid_name},
    {.name = "is_portable", .ask = typed_path_is_portable},
    {.name = "may_be_device", .ask = typed_path_may_be_device},
    {.name = "keeps_prefix", .ask = typed_path_keeps_prefix},
    {.name = "starts_with", .ask_of = typed_path_starts_with},
    {.name = "ends_with", .ask_of = typed_path_ends_with},
    {.name = "is_within", .ask_of = typed_path_is_within},
    {.name = "equal", .ask_of = typed_path_equal},
    {.name = "starts_with_ignore_ascii_case", .ask_of = typed_path_starts_with_ignore_ascii_case},
    {.name = "equal_ignore_ascii_case", .ask_of = typed_path_equal_ignore_ascii_case},
    {.name = "derive"},
    {.name = "compare"},
    {.name = "compare_ignore_ascii_case"},
    {.name = "components"},
    {.name = "prefix_names"},
    {.name = "push_place"},
};
const size_t CALL_COUNT = sizeof CALLS / sizeof *CALLS;

Row *rows;
size_t row_count;

static const char *const STATUSES[] = {
    "DONE", "INVALID_FILENAME", "PATH_TRAVERSAL_ATTACK", "UNEXPECTED_PREFIX", "UNEXPECTED_ROOT", "OUT_OF_MEMORY",
    "TOO_SMALL", "BAD_DIALECT", "NONE", "AMBIGUOUS", "BAD_ENDS", "BAD_READING", "HAS_PREFIX", "FORBIDDEN", "DEVICE",
    "ENDING", "TOO_LONG", "NOT_TEXT",
};
static const char *const KINDS[] = {
    "root", "current", "parent", "normal", "Verbatim", "VerbatimUNC", "VerbatimDisk", "DeviceNS", "UNC", "Disk",
};

static void fail(const char *what, const char *of) {
    fprintf(stderr, "%s: %s\n", what, of);
    exit(2);
}

static uint32_t found(const char *word, const char *const *words, size_t count) {
    for (size_t at = 0; at < count; at++)
        if (strcmp(word, words[at]) == 0)
            return (uint32_t)at;
    fail("unknown word", word);
    return 0;
}

static const Call *call_of(const char *name) {
    for (size_t at = 0; at < CALL_COUNT; at++)
        if (strcmp(name, CALLS[at].name) == 0)
            return &CALLS[at];
    fail("unknown call", name);
    return NULL;
}

static uint32_t dialect_of(const char *word) {
    static const char *const WORDS[] = {"unix", "windows"};
    return found(*word ? word : "unix", WORDS, 2);
}

/* Returns the text of a field, decoded in place. */
static Text text_of(char *field) {
    char *to = field;
    for (const char *from = field; *from; to++) {
        unsigned byte;
        if (*from == '%' && sscanf(from + 1, "%2x", &byte) == 1) {
            *to = (char)byte;
            from += 3;
        } else {
            *to = *from++;
        }
    }
    return (Text){field, (size_t)(to - field)};
}

static Row row_of(char *line) {
    char *fields[5];
    for (size_t at = 0; at < 5; at++) {
        fields[at] = line;
        line += strcspn(line, at < 4 ? "\t" : "\n");
        *line++ = '\0';
    }
    bool done = fields[4][0] == '=';
    Row row = {
        .call = call_of(fields[0]), .dialect = dialect_of(fields[1]), .path = text_of(fields[2]),
        .other = text_of(fields[3]), .status = done ? TYPED_PATH_STATUS_DONE : found(fields[4], STATUSES, sizeof STATUSES / sizeof *STATUSES),
        .answer = text_of(fields[4] + (done ? 1 : 0)),
    };
    if (row.call->put_in)
        row.other = (Text){dialect_of(fields[3]) ? "\1" : "\0", 1};
    return row;
}

void read_rows(const char *file) {
    FILE *from = fopen(file, "rb");
    static char line[1000];
    if (!from)
        fail("can't be read", file);
    while (fgets(line, sizeof line, from)) {
        char *copy = strdup(line);
        Row *more = realloc(rows, (row_count + 1) * sizeof *rows);
        if (!copy || !more)
            fail("out of memory", file);
        rows = more;
        if (*copy == '#')
            free(copy);
        else
            rows[row_count++] = row_of(copy);
    }
    fclose(from);
}

bool puts_answer(const Call *call) {
    return call->put || call->put_of || call->put_in;
}

uint32_t put_by(const Call *call, uint32_t dialect, Text path, Text other, char *out, size_t size, size_t *len) {
    if (call->put)
        return call->put(dialect, path.bytes, path.length, out, size, len);
    if (call->put_in)
        return call->put_in(dialect, path.bytes, path.length, (unsigned char)*other.bytes, out, size, len);
    return call->put_of(dialect, path.bytes, path.length, other.bytes, other.length, out, size, len);
}

size_t bound_of(const Call *call, Text path, Text other) {
    if (call->put == typed_path_clean)
        return TYPED_PATH_CLEAN_BOUND(path.length);
    if (call->put == typed_path_key_words)
        return TYPED_PATH_KEY_BOUND(path.length);
    if (call->put)
        return TYPED_PATH_NORMALIZE_BOUND(path.length);
    if (call->put_in)
        return TYPED_PATH_CONVERT_BOUND(path.length);
    if (call->put_of == typed_path_resolve_checked)
        return TYPED_PATH_RESOLVE_BOUND(path.length, other.length);
    if (call->put_of == typed_path_with_extension || call->put_of == typed_path_with_added_extension)
        return TYPED_PATH_EXTENSION_BOUND(path.length, other.length);
    if (call->put_of == typed_path_relative_to)
        return TYPED_PATH_RELATIVE_BOUND(path.length, other.length);
    return TYPED_PATH_JOIN_BOUND(path.length, other.length);
}

/* Whether steps from the front, or from the back, take the components of a list. */
static bool is_stepped(const Row *row, Text path, const typed_path_component *list, size_t count, bool last) {
    typed_path_reading reading = TYPED_PATH_READING(path.length);
    typed_path_component one = {0, 0, 99};
    for (size_t at = 0; at <= count; at++) {
        const typed_path_component *wanted = &list[last ? count - 1 - at : at];
        uint32_t status = (last ? typed_path_next_back : typed_path_next)(
            row->dialect, path.bytes, path.length, &reading, &one);
        if (at == count)
            return status == TYPED_PATH_STATUS_NONE;
        if (status || one.start != wanted->start || one.length != wanted->length || one.kind != wanted->kind)
            return false;
    }
    return false;
}

static uint32_t listed(const Row *row, Text path, typed_path_component *list, char *out, size_t *len) {
    size_t count = 0;
    uint32_t status = typed_path_components(
        row->dialect, path.bytes, path.length, list, TYPED_PATH_COMPONENTS_BOUND(path.length), &count);
    for (size_t at = 0; status == TYPED_PATH_STATUS_DONE && at < count; at++) {
        typed_path_component one = {0, 0, 99};
        uint32_t again = typed_path_component_at(row->dialect, path.bytes, path.length, at, &one);
        if (again || one.start != list[at].start || one.length != list[at].length || one.kind != list[at].kind)
            return 98;
        *len += (size_t)sprintf(out + *len, "%s%s=", at ? "|" : "", KINDS[one.kind]);
        memcpy(out + *len, path.bytes + one.start, one.length);
        *len += one.length;
    }
    if (typed_path_component_at(row->dialect, path.bytes, path.length, count, list) != TYPED_PATH_STATUS_NONE)
        return 99;
    if (status == TYPED_PATH_STATUS_DONE && !(is_stepped(row, path, list, count, false) && is_stepped(row, path, list, count, true)))
        return 93;
    return status;
}

/* Writes the names of a prefix, with `|` between them. */
static uint32_t named(const Row *row, Text path, typed_path_span names[2], char *out, size_t *len) {
    uint32_t status = typed_path_prefix_names(row->dialect, path.bytes, path.length, &names[0], &names[1]);
    for (size_t at = 0; status == TYPED_PATH_STATUS_DONE && at < 2; at++) {
        if (names[at].start > path.length || names[at].length > path.length - names[at].start)
            return 92;
        memcpy(out + *len, path.bytes + names[at].start, names[at].length);
        *len += names[at].length;
        if (at == 0)
            out[(*len)++] = '|';
    }
    return status;
}

/* Whether a join puts a path at its place. It allocates. */
static bool is_joined_at(const Row *row, Text path, Text other, const typed_path_place *place) {
    char joined[1000];
    size_t length = 0, between = place->kept + (place->separator != 0);
    if (typed_path_join(
            row->dialect, path.bytes, path.length, other.bytes, other.length, joined, sizeof joined, &length))
        return false;
    return length == between + other.length && (!place->kept || memcmp(joined, path.bytes, place->kept) == 0)
        && (!place->separator || joined[place->kept] == (char)place->separator)
        && (!other.length || memcmp(joined + between, other.bytes, other.length) == 0);
}

/* Writes how many bytes of a path are kept, and the separator after them. Checks that a join agrees, unless
   requests for memory are counted. */
static uint32_t placed(const Row *row, Text path, Text other, typed_path_place *place, char *out, size_t *len) {
#ifdef REFUSES
    const bool joins = false;
#else
    const bool joins = true;
#endif
    uint32_t status = typed_path_push_place(
        row->dialect, path.bytes, path.length, other.bytes, other.length, place);
    if (status != TYPED_PATH_STATUS_DONE)
        return status;
    if (place->kept > path.length || place->separator > 255)
        return 91;
    if (joins && !is_joined_at(row, path, other, place))
        return 90;
    *len = (size_t)sprintf(out, "%zu|", place->kept);
    if (place->separator)
        out[(*len)++] = (char)place->separator;
    return status;
}

/* Sets the hash of a path with a key of zeros, and that with another key. */
static uint32_t hashed(uint32_t dialect, Text path, uint64_t hashes[2]) {
    uint32_t status = typed_path_hash(dialect, path.bytes, path.length, &hashes[0]);
    uint32_t other = typed_path_hash_keyed(dialect, 5, 6, path.bytes, path.length, &hashes[1]);
    return status == other ? status : 94;
}

static uint32_t compared(const Row *row, Text path, Text other, void *told, char *out, size_t *len) {
    int32_t *order = told;
    uint64_t one[2] = {1, 2}, two[2] = {3, 4};
    uint32_t status = typed_path_compare(row->dialect, path.bytes, path.length, other.bytes, other.length, order);
    *len = (size_t)sprintf(out, "%d", (int)*order);
    if (hashed(row->dialect, path, one) != status || hashed(row->dialect, other, two) != status)
        return 97;
    for (int at = 0; status == TYPED_PATH_STATUS_DONE && at < 2; at++)
        if ((one[at] == two[at]) != (*order == 0))
            return 95;
    return status;
}

uint32_t told_by(
    const Row *row, Text path, Text other, void *told, typed_path_component *list, char *out, size_t *len) {
    const Call *call = row->call;
    uint32_t status;
    *len = 0;
    if (call->part || call->part_of) {
        typed_path_span *span = told;
        status = call->part ? call->part(row->dialect, path.bytes, path.length, span)
            : call->part_of(row->dialect, path.bytes, path.length, other.bytes, other.length, span);
        if (status == TYPED_PATH_STATUS_DONE && (span->start > path.length || span->length > path.length - span->start))
            return 96;
        if (status == TYPED_PATH_STATUS_DONE && span->length > 0)
            memcpy(out, path.bytes + span->start, *len = span->length);
    } else if (call->ask || call->ask_of) {
        bool *answer = told;
        status = call->ask ? call->ask(row->dialect, path.bytes, path.length, answer)
            : call->ask_of(row->dialect, path.bytes, path.length, other.bytes, other.length, answer);
        *len = (size_t)sprintf(out, "%s", *answer ? "true" : "false");
    } else if (call->judge) {
        status = call->judge(row->dialect, path.bytes, path.length);
    } else if (strcmp(call->name, "derive") == 0) {
        status = TYPED_PATH_STATUS_DONE;
        *len = (size_t)sprintf(out, "%s", typed_path_derive(path.bytes, path.length) ? "windows" : "unix");
    } else if (strcmp(call->name, "compare") == 0) {
        status = compared(row, path, other, told, out, len);
    } else if (strcmp(call->name, "compare_ignore_ascii_case") == 0) {
        int32_t *order = told;
        status = typed_path_compare_ignore_ascii_case(
            row->dialect, path.bytes, path.length, other.bytes, other.length, order);
        *len = (size_t)sprintf(out, "%d", (int)*order);
    } else if (strcmp(call->name, "prefix_names") == 0) {
        status = named(row, path, told, out, len);
    } else if (strcmp(call->name, "push_place") == 0) {
        status = placed(row, path, other, told, out, len);
    } else {
        status = listed(row, path, list, out, len);
    }
    return status;
}

bool is_answered(const Row *row, uint32_t status, const char *out, size_t len) {
    if (status != row->status || status != TYPED_PATH_STATUS_DONE)
        return status == row->status;
    return len == row->answer.length && (len == 0 || memcmp(out, row->answer.bytes, len) == 0);
}
