/* What an extractor asks before it writes: where each name of an archive goes below a folder, or why it is
   refused. A link on a disk is not looked at and may lead elsewhere, so the folder should hold none.

   check_names unix|windows FOLDER < NAMES, one a line
   cc check_names.c $(pkg-config --cflags --libs typed_path) -o check_names

   It writes `ok`, a tab and the target, or the name of the refusal, a tab and the name. The status is 0 if all
   were accepted, 1 if some were refused, 2 if it could not go on. */
#include <stdio.h>
#include <stdlib.h>
#include <string.h>
#include <typed_path.h>

static const char *name_of(uint32_t status) {
    switch (status) {
        case TYPED_PATH_STATUS_DONE: return "ok";
        case TYPED_PATH_STATUS_INVALID_FILENAME: return "InvalidFilename";
        case TYPED_PATH_STATUS_PATH_TRAVERSAL_ATTACK: return "PathTraversalAttack";
        case TYPED_PATH_STATUS_UNEXPECTED_PREFIX: return "UnexpectedPrefix";
        case TYPED_PATH_STATUS_UNEXPECTED_ROOT: return "UnexpectedRoot";
        default: return NULL;
    }
}

int main(int count, char **words) {
    static char name[4096];
    bool keeps = false;
    int refused = 0;
    if (count != 3 || (strcmp(words[1], "unix") != 0 && strcmp(words[1], "windows") != 0)) {
        fprintf(stderr, "usage: %s unix|windows FOLDER < NAMES\n", words[0]);
        return 2;
    }
    uint32_t dialect = strcmp(words[1], "windows") == 0 ? TYPED_PATH_WINDOWS : TYPED_PATH_UNIX;
    const char *folder = words[2];
    size_t folder_len = strlen(folder), size = TYPED_PATH_JOIN_BOUND(folder_len, sizeof name), len;
    char *target = malloc(size);
    uint32_t asked = typed_path_keeps_prefix(dialect, folder, folder_len, &keeps);
    if (!target || asked != TYPED_PATH_STATUS_DONE || !keeps) {
        fprintf(stderr, "%s: %s\n", folder, target ? "it does not keep its prefix" : "out of memory");
        free(target);
        return 2;
    }
    while (fgets(name, sizeof name, stdin)) {
        size_t name_len = strcspn(name, "\n");
        if (name[name_len] != '\n' && !feof(stdin)) {
            fprintf(stderr, "%s: a name is too long, or holds a NUL\n", words[0]);
            free(target);
            return 2;
        }
        uint32_t status = typed_path_join_checked(dialect, folder, folder_len, name, name_len, target, size, &len);
        if (!name_of(status)) {
            fprintf(stderr, "%.*s: status %u\n", (int)name_len, name, (unsigned)status);
            free(target);
            return 2;
        }
        refused += status != TYPED_PATH_STATUS_DONE;
        if (status == TYPED_PATH_STATUS_DONE)
            printf("ok\t%s\n", target);
        else
            printf("%s\t%.*s\n", name_of(status), (int)name_len, name);
    }
    free(target);
    return refused > 0;
}
