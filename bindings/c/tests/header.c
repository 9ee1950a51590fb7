/* Includes the header as any C or C++ file does, makes calls of each sort, and exits with 0 if these are right. */
#include "typed_path.h"

#include <string.h>

static int is_put(const char *base, const char *name, const char *wanted) {
    char out[TYPED_PATH_JOIN_BOUND(100, 100)];
    size_t len = 0;
    return typed_path_join_checked(TYPED_PATH_UNIX, base, strlen(base), name, strlen(name), out, sizeof out, &len)
        == TYPED_PATH_STATUS_DONE && len == strlen(wanted) && strcmp(out, wanted) == 0;
}

int main(void) {
    typed_path_span span = {0, 0};
    typed_path_component first = {0, 0, 0};
    typed_path_reading reading = TYPED_PATH_READING(4);
    typed_path_place place = {0, 0};
    bool answer = false;
    uint64_t hashes[2] = {0, 0};
    char text[TYPED_PATH_TEXT_BOUND];
    if (!typed_path_runs_here() || typed_path_version() != TYPED_PATH_VERSION || !is_put("/srv", "a/b", "/srv/a/b"))
        return 1;
    if (typed_path_file_name(TYPED_PATH_UNIX, "/a/b", 4, &span) != TYPED_PATH_STATUS_DONE || span.start != 3)
        return 2;
    if (typed_path_component_at(TYPED_PATH_WINDOWS, "c:\\a", 4, 0, &first) != TYPED_PATH_STATUS_DONE
        || first.kind != TYPED_PATH_KIND_PREFIX_DISK)
        return 3;
    if (typed_path_is_within(TYPED_PATH_UNIX, "a/../b", 6, "a", 1, &answer) != TYPED_PATH_STATUS_DONE || answer)
        return 4;
    if (typed_path_next_back(TYPED_PATH_WINDOWS, "c:\\a", 4, &reading, &first) != TYPED_PATH_STATUS_DONE || first.start != 3
        || typed_path_next(TYPED_PATH_WINDOWS, "c:\\a", 4, &reading, &first) != TYPED_PATH_STATUS_DONE || reading.from != 2)
        return 7;
    if (typed_path_push_place(TYPED_PATH_UNIX, "a", 1, "b", 1, &place) != TYPED_PATH_STATUS_DONE || place.kept != 1
        || place.separator != '/')
        return 8;
    if (typed_path_check(TYPED_PATH_UNIX, "a/../..", 7) != TYPED_PATH_STATUS_PATH_TRAVERSAL_ATTACK)
        return 9;
    if (typed_path_status_text(TYPED_PATH_STATUS_DEVICE, text, sizeof text, &span.length) != TYPED_PATH_STATUS_DONE
        || span.length != strlen(text))
        return 10;
    if (typed_path_hash(TYPED_PATH_UNIX, "a", 1, &hashes[0]) != TYPED_PATH_STATUS_DONE
        || typed_path_hash_keyed(TYPED_PATH_UNIX, 1, 2, "a", 1, &hashes[1]) != TYPED_PATH_STATUS_DONE
        || hashes[0] == hashes[1])
        return 6;
    return typed_path_join(TYPED_PATH_UNIX, NULL, 0, NULL, 0, NULL, 0, &span.length) == TYPED_PATH_STATUS_DONE ? 0 : 5;
}
