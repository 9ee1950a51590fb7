/* Put before a program by LD_PRELOAD: refuses requests for memory by their number, counted from the
   program's start. REFUSE_AT=N refuses the Nth, REFUSE_FROM=N each from the Nth on, and REFUSE_COUNT
   names the file that is told how many there were. */
#include <errno.h>
#include <fcntl.h>
#include <stdlib.h>
#include <unistd.h>

extern void *__libc_malloc(size_t size);
extern void *__libc_realloc(void *block, size_t size);

static unsigned long at, from, count;
static int has_started;

static unsigned long number(const char *name) {
    const char *text = getenv(name);
    return text ? strtoul(text, NULL, 10) : 0;
}

static int is_refused(void) {
    if (!has_started)
        return 0;
    count++;
    if (count != at && (from == 0 || count < from))
        return 0;
    errno = ENOMEM;
    return 1;
}

void *malloc(size_t size) {
    return is_refused() ? NULL : __libc_malloc(size);
}

void *realloc(void *block, size_t size) {
    return is_refused() ? NULL : __libc_realloc(block, size);
}

__attribute__((constructor)) static void start(void) {
    at = number("REFUSE_AT");
    from = number("REFUSE_FROM");
    has_started = 1;
}

__attribute__((destructor)) static void end(void) {
    const char *file = getenv("REFUSE_COUNT");
    int to = file ? open(file, O_WRONLY | O_CREAT | O_TRUNC, 0600) : -1;
    char text[24], *first = text + sizeof text;
    *--first = '\n';
    for (unsigned long left = count; left || first[0] == '\n'; left /= 10)
        *--first = (char)('0' + left % 10);
    if (to >= 0 && write(to, first, (size_t)(text + sizeof text - first)) < 0)
        _exit(3);
}
