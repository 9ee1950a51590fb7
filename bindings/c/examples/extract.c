/* Extracts a tar or zip archive below a folder, and nothing anywhere else.

   extract ARCHIVE FOLDER
   cc extract.c $(pkg-config --cflags --libs typed_path libarchive) -o extract

   A name is accepted if it is portable and stays below the folder (typed_path_join_portable), and is written as
   its clean path. The folders on the way are opened one below the other, and no link is followed, so what is
   written lies below FOLDER whatever is there. Files, folders, and links that lead down are written, and nothing
   is overwritten. Run it in a locale of UTF-8, or libarchive has no name for some entries, which are refused.
   It writes `ok`, a tab and the path for each entry, or the reason, a tab and the name. The status is 0 if all
   were accepted, 1 if some were refused, 2 if it could not go on. */
#define _XOPEN_SOURCE 700
#include <archive.h>
#include <archive_entry.h>
#include <errno.h>
#include <fcntl.h>
#include <locale.h>
#include <stdio.h>
#include <stdlib.h>
#include <string.h>
#include <sys/stat.h>
#include <typed_path.h>
#include <unistd.h>

/* Reasons for a refusal, beside the errors of the system and the statuses. */
static const char *const LINK_LEADS_UP = "link leads up", *const NO_FILE = "neither file, folder nor link";
static const char *const NO_FOLDER = "a link or a file stands in the way";
static char reason[TYPED_PATH_TEXT_BOUND];

/* Returns the text of a status that refuses, NULL if it does not. */
static const char *refusal(uint32_t status) {
    size_t len;
    if (status == TYPED_PATH_STATUS_DONE)
        return NULL;
    return typed_path_status_text(status, reason, sizeof reason, &len) == TYPED_PATH_STATUS_DONE ? reason : "unknown";
}

/* Sets `*path` to the clean path of a name, read from the folder: `a/b`, or `.` for the folder itself. Returns
   NULL, or why the name is refused. */
static const char *judge(const char *name, char **path, size_t *len) {
    size_t name_len = strlen(name), size = TYPED_PATH_CLEAN_BOUND(TYPED_PATH_JOIN_BOUND(1, name_len));
    char *joined = malloc(size);
    const char *refused = "out of memory";
    *path = malloc(size);
    if (joined && *path) {
        refused = refusal(typed_path_join_portable(TYPED_PATH_UNIX, ".", 1, name, name_len, joined, size, len));
        if (!refused)
            refused = refusal(typed_path_clean(TYPED_PATH_UNIX, joined, *len, *path, size, len));
    }
    free(joined);
    return refused;
}

/* Returns NULL if a link leads nowhere but down, or why it is refused: it is not portable, or has a `..`. A link
   that goes up may lead out by way of another, as `a/..` does if `a` is a link. */
static const char *judge_link(const char *target) {
    size_t len = strlen(target);
    typed_path_reading reading = TYPED_PATH_READING(len);
    typed_path_component one;
    const char *refused;
    char *path;
    refused = judge(target, &path, &len);
    free(path);
    if (refused)
        return refused;
    len = strlen(target);
    while (typed_path_next(TYPED_PATH_UNIX, target, len, &reading, &one) == TYPED_PATH_STATUS_DONE)
        if (one.kind == TYPED_PATH_KIND_PARENT)
            return LINK_LEADS_UP;
    return NULL;
}

/* Opens the folder of this name in another one, and makes it if it is missing. A link is not a folder. */
static int open_folder(int in, const char *name) {
    const int how = O_RDONLY | O_DIRECTORY | O_NOFOLLOW | O_CLOEXEC;
    int folder = openat(in, name, how);
    if (folder < 0 && errno == ENOENT && (mkdirat(in, name, 0777) == 0 || errno == EEXIST))
        folder = openat(in, name, how);
    return folder;
}

static const char *write_file(struct archive *from, struct archive_entry *entry, int in, const char *name) {
    mode_t mode = archive_entry_perm(entry) & 0777;
    int file = openat(in, name, O_WRONLY | O_CREAT | O_EXCL | O_NOFOLLOW | O_CLOEXEC, mode);
    const char *refused = NULL;
    if (file < 0)
        return strerror(errno);
    if (archive_read_data_into_fd(from, file) != ARCHIVE_OK)
        refused = archive_error_string(from) ? archive_error_string(from) : "its bytes can't be read";
    if (close(file) != 0 && !refused)
        refused = strerror(errno);
    return refused;
}

/* Writes an entry, whose path is clean, below a folder. Returns NULL, or why it can't. */
static const char *write_entry(struct archive *from, struct archive_entry *entry, int below, char *path, size_t len) {
    const mode_t type = archive_entry_filetype(entry);
    const char *link = archive_entry_symlink(entry), *refused = NULL;
    typed_path_reading reading = TYPED_PATH_READING(len);
    typed_path_component one = {0, 0, TYPED_PATH_KIND_CURRENT};
    char *name = path;
    int in = openat(below, ".", O_RDONLY | O_DIRECTORY | O_CLOEXEC), next;
    if (archive_entry_hardlink(entry) || (type != AE_IFREG && type != AE_IFDIR && !(type == AE_IFLNK && link)))
        refused = NO_FILE;
    else if (type == AE_IFLNK)
        refused = judge_link(link);
    if (in < 0 && !refused)
        refused = strerror(errno);
    /* Each name but the last is that of a folder; if the entry is a folder, the last one too. */
    while (!refused && typed_path_next(TYPED_PATH_UNIX, path, len, &reading, &one) == TYPED_PATH_STATUS_DONE) {
        name = path + one.start;
        if (one.kind != TYPED_PATH_KIND_NAME)
            continue;
        if (one.start + one.length == len && type != AE_IFDIR)
            break;
        name[one.length] = '\0';
        next = open_folder(in, name);
        if (next < 0)
            refused = errno == ENOTDIR || errno == ELOOP ? NO_FOLDER : strerror(errno);
        if (one.start + one.length < len)
            name[one.length] = '/';
        close(in);
        in = next;
    }
    if (!refused && type != AE_IFDIR && one.kind != TYPED_PATH_KIND_NAME)
        refused = strerror(EISDIR);
    if (!refused && type == AE_IFREG)
        refused = write_file(from, entry, in, name);
    else if (!refused && type == AE_IFLNK && symlinkat(link, in, name) != 0)
        refused = strerror(errno);
    if (in >= 0)
        close(in);
    return refused;
}

/* Prints the first bytes of a name, and as numbers those that no screen should get. */
static void print_name(const char *name) {
    for (size_t at = 0; at < 60 && name[at]; at++)
        printf(name[at] >= ' ' && name[at] < 127 && name[at] != '%' ? "%c" : "%%%02X", (unsigned char)name[at]);
    puts(strlen(name) > 60 ? ".." : "");
}

int main(int count, char **words) {
    struct archive *from;
    struct archive_entry *entry;
    int below, found, refusals = 0;
    if (count != 3) {
        fprintf(stderr, "usage: %s ARCHIVE FOLDER\n", words[0]);
        return 2;
    }
    if (!typed_path_runs_here()) {
        fprintf(stderr, "%s: this processor is too old\n", words[0]);
        return 2;
    }
    below = open(words[2], O_RDONLY | O_DIRECTORY | O_CLOEXEC);
    from = below < 0 ? NULL : archive_read_new();
    if (!from) {
        fprintf(stderr, "%s: %s: %s\n", words[0], words[2], strerror(errno));
        return 2;
    }
    setlocale(LC_CTYPE, "");
    archive_read_support_filter_all(from);
    archive_read_support_format_tar(from);
    archive_read_support_format_zip(from);
    found = archive_read_open_filename(from, words[1], 1 << 16);
    while (found == ARCHIVE_OK || found == ARCHIVE_WARN) {
        const char *name, *refused = "it has no name that can be read";
        char *path = NULL;
        size_t len = 0;
        found = archive_read_next_header(from, &entry);
        if (found != ARCHIVE_OK && found != ARCHIVE_WARN)
            break;
        name = archive_entry_pathname(entry);
        if (!name)
            name = archive_entry_pathname_utf8(entry);
        if (name)
            refused = judge(name, &path, &len);
        if (!refused)
            refused = write_entry(from, entry, below, path, len);
        refusals += refused != NULL;
        printf("%s\t", refused ? refused : "ok");
        print_name(refused ? (name ? name : "") : path);
        free(path);
    }
    if (found != ARCHIVE_EOF)
        fprintf(stderr, "%s: %s: %s\n", words[0], words[1], archive_error_string(from));
    archive_read_free(from);
    return found != ARCHIVE_EOF ? 2 : refusals > 0;
}
