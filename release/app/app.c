#include <stdio.h>
#include <string.h>
#include <typed_path.h>

int main(int count, char **words) {
    char out[100];
    size_t len;
    for (int at = 1; at < count; at++) {
        uint32_t status = typed_path_join_checked(
            TYPED_PATH_UNIX, "/srv", 4, words[at], strlen(words[at]), out, sizeof out, &len);
        puts(status == TYPED_PATH_STATUS_DONE ? out : "refused");
    }
    return typed_path_version() != TYPED_PATH_VERSION || !typed_path_runs_here();
}
