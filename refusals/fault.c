/* Put before a program by LD_PRELOAD: FAIL_READ=N fails the Nth read of standard input, FAIL_WRITE=N
   the Nth write to standard output, and TRANSFER=K lets each of them move K bytes at most. */
#define _GNU_SOURCE
#include <errno.h>
#include <stdlib.h>
#include <sys/syscall.h>
#include <unistd.h>

static unsigned long fail_read, fail_write, transfer, reads, writes;

static unsigned long number(const char *name) {
    const char *text = getenv(name);
    return text ? strtoul(text, NULL, 10) : 0;
}

__attribute__((constructor)) static void start(void) {
    fail_read = number("FAIL_READ");
    fail_write = number("FAIL_WRITE");
    transfer = number("TRANSFER");
}

static size_t cut(size_t count) {
    return transfer && transfer < count ? transfer : count;
}

ssize_t read(int file, void *bytes, size_t count) {
    if (file == 0 && ++reads == fail_read) {
        errno = EIO;
        return -1;
    }
    return syscall(SYS_read, file, bytes, file == 0 ? cut(count) : count);
}

ssize_t write(int file, const void *bytes, size_t count) {
    if (file == 1 && ++writes == fail_write) {
        errno = EIO;
        return -1;
    }
    return syscall(SYS_write, file, bytes, file == 1 ? cut(count) : count);
}
