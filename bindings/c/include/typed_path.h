/* Paths of Unix and of Windows, read and written alike on every machine.

   A path, a name or an extension is handed in as a pointer and a number of bytes. These are any bytes, and no
   NUL has to follow them; with 0 bytes the pointer may be NULL. A dialect is TYPED_PATH_UNIX or
   TYPED_PATH_WINDOWS. The calls that return `uint32_t`, except typed_path_derive and typed_path_version, return
   a status, and each comment says which. Every call with a dialect returns TYPED_PATH_STATUS_BAD_DIALECT for a
   number that names none. Check the status before anything else: a call that fails leaves what an earlier one
   put. Compilers warn if it is ignored (TYPED_PATH_MUST_USE).

   A call that *puts* an answer is handed a buffer `out` of `out_size` bytes, and `len`:
   - TYPED_PATH_STATUS_DONE: the answer is at the front of the buffer, its length is in `*len`, and a NUL
     follows it if there is room for one. The bytes after that are unchanged.
   - TYPED_PATH_STATUS_TOO_SMALL: the answer has more than `out_size` bytes. `*len` is its length, and the
     buffer is unchanged. A buffer of the bound that the comment names is large enough, and has room for the
     NUL. To ask for the length first costs the call twice.
   - Any other status: the buffer and `*len` are unchanged.
   If all that is handed in is UTF-8, so is a path that is put. Calls that make a path allocate, by malloc,
   realloc and free, and free all of it before they return; if an allocation fails they return
   TYPED_PATH_STATUS_OUT_OF_MEMORY. No other call allocates, and none keeps a state: several threads may call at
   once.

   The caller owes that each pointer is valid for its number of bytes or items, that no pointer is NULL except
   one to 0 bytes or items, that no other thread writes to what is handed in, and that what a call writes
   (`out`, `len` ..) overlaps nothing else that it is handed. So no path is changed in place.

   The library is built for x86-64-v2, that is for a processor with SSE4.2 and POPCNT. An older one ends the
   program by an illegal instruction; typed_path_runs_here tells so before. */
#ifndef TYPED_PATH_H
#define TYPED_PATH_H

#include <stddef.h>
#include <stdint.h>
#ifndef __cplusplus
#include <stdbool.h>
#endif

#ifdef __cplusplus
extern "C" {
#endif

/* The version of this header: its parts, and one number with two digits for each of them: 0.2.1 is 201. */
#define TYPED_PATH_VERSION_MAJOR 0
#define TYPED_PATH_VERSION_MINOR 2
#define TYPED_PATH_VERSION_PATCH 1
#define TYPED_PATH_VERSION \
    (UINT32_C(10000) * TYPED_PATH_VERSION_MAJOR + UINT32_C(100) * TYPED_PATH_VERSION_MINOR + TYPED_PATH_VERSION_PATCH)

/* Marks each call that returns a status: compilers warn if that is ignored. */
#if defined(__cplusplus) && __cplusplus >= 201703L
#define TYPED_PATH_MUST_USE [[nodiscard]]
#elif !defined(__cplusplus) && defined(__STDC_VERSION__) && __STDC_VERSION__ > 201710L
#define TYPED_PATH_MUST_USE [[nodiscard]]
#elif defined(__GNUC__)
#define TYPED_PATH_MUST_USE __attribute__((warn_unused_result))
#else
#define TYPED_PATH_MUST_USE
#endif

/* The dialects. */
#define TYPED_PATH_UNIX UINT32_C(0)
#define TYPED_PATH_WINDOWS UINT32_C(1)

/* The statuses. Those from 1 to 4 say why a checked call refuses the first component that offends, and those
   from 12 to 17 why that component is not portable. */
#define TYPED_PATH_STATUS_DONE UINT32_C(0)
#define TYPED_PATH_STATUS_INVALID_FILENAME UINT32_C(1)      /* a name that is not allowed (typed_path_is_valid) */
#define TYPED_PATH_STATUS_PATH_TRAVERSAL_ATTACK UINT32_C(2) /* a `..` that no earlier name makes up for */
#define TYPED_PATH_STATUS_UNEXPECTED_PREFIX UINT32_C(3)     /* a prefix; never on Unix */
#define TYPED_PATH_STATUS_UNEXPECTED_ROOT UINT32_C(4)       /* a root */
#define TYPED_PATH_STATUS_OUT_OF_MEMORY UINT32_C(5)         /* an allocation failed */
#define TYPED_PATH_STATUS_TOO_SMALL UINT32_C(6)             /* the answer does not fit */
#define TYPED_PATH_STATUS_BAD_DIALECT UINT32_C(7)           /* a number names no dialect */
#define TYPED_PATH_STATUS_NONE UINT32_C(8)                  /* there is no such part, path or text */
#define TYPED_PATH_STATUS_AMBIGUOUS UINT32_C(9)             /* absolute neither alone nor after the directory */
#define TYPED_PATH_STATUS_BAD_ENDS UINT32_C(10)             /* an end lies before the last one, or beyond the names */
#define TYPED_PATH_STATUS_BAD_READING UINT32_C(11)          /* no reading of the path may stand at these numbers */
#define TYPED_PATH_STATUS_HAS_PREFIX UINT32_C(12)           /* a prefix; never on Unix */
#define TYPED_PATH_STATUS_FORBIDDEN UINT32_C(13)            /* a byte that no Windows name may have, or a control byte */
#define TYPED_PATH_STATUS_DEVICE UINT32_C(14)               /* a name that may be a device (typed_path_may_be_device) */
#define TYPED_PATH_STATUS_ENDING UINT32_C(15)               /* a name that ends in a dot or a space */
#define TYPED_PATH_STATUS_TOO_LONG UINT32_C(16)             /* a name of more than 255 bytes */
#define TYPED_PATH_STATUS_NOT_TEXT UINT32_C(17)             /* a name that is not UTF-8 */

/* The kinds of components. TYPED_PATH_KIND_PREFIX_VERBATIM and those after it are prefixes, which only
   Windows has. A `.` is a component where it comes first in a path or right after a drive, as in `C:.`, and
   anywhere behind `\\?\`; others are skipped. */
#define TYPED_PATH_KIND_ROOT UINT32_C(0)
#define TYPED_PATH_KIND_CURRENT UINT32_C(1)
#define TYPED_PATH_KIND_PARENT UINT32_C(2)
#define TYPED_PATH_KIND_NAME UINT32_C(3)
#define TYPED_PATH_KIND_PREFIX_VERBATIM UINT32_C(4)      /* \\?\name */
#define TYPED_PATH_KIND_PREFIX_VERBATIM_UNC UINT32_C(5)  /* \\?\UNC\server\share */
#define TYPED_PATH_KIND_PREFIX_VERBATIM_DISK UINT32_C(6) /* \\?\C: */
#define TYPED_PATH_KIND_PREFIX_DEVICE_NS UINT32_C(7)     /* \\.\name */
#define TYPED_PATH_KIND_PREFIX_UNC UINT32_C(8)           /* \\server\share */
#define TYPED_PATH_KIND_PREFIX_DISK UINT32_C(9)          /* C: */

/* Bounds of answers in bytes, with the NUL; that of the batch, which puts no NUL, without. All are proved,
   if the number does not wrap; that of the batch, if the ends and the statuses have room for each name. */
#define TYPED_PATH_JOIN_BOUND(path_len, other_len) ((size_t)(path_len) + (size_t)(other_len) + 4)
#define TYPED_PATH_RESOLVE_BOUND(path_len, other_len) ((size_t)(path_len) + (size_t)(other_len) + 5)
#define TYPED_PATH_EXTENSION_BOUND(path_len, extension_len) \
    ((size_t)(path_len) + (size_t)(extension_len) + 2)
#define TYPED_PATH_NORMALIZE_BOUND(path_len) ((size_t)(path_len) + 2)
#define TYPED_PATH_CLEAN_BOUND(path_len) ((size_t)(path_len) + 2)
#define TYPED_PATH_RELATIVE_BOUND(path_len, base_len) ((size_t)(path_len) + 2 * (size_t)(base_len) + 4)
#define TYPED_PATH_CONVERT_BOUND(path_len) ((size_t)(path_len) + 2)
#define TYPED_PATH_BATCH_BOUND(base_len, names_len, count) \
    ((size_t)(names_len) + (size_t)(count) * ((size_t)(base_len) + 3))
#define TYPED_PATH_KEY_BOUND(path_len) (2 * (size_t)(path_len) + 2)
#define TYPED_PATH_TEXT_BOUND ((size_t)64)
/* The bound of the number of components. */
#define TYPED_PATH_COMPONENTS_BOUND(path_len) ((size_t)(path_len))

/* A part of the caller's path: the index of its first byte, and its length in bytes. */
typedef struct typed_path_span {
    size_t start;
    size_t length;
} typed_path_span;

/* A component of the caller's path: the index of its first byte, its length in bytes, and its kind. */
typedef struct typed_path_component {
    size_t start;
    size_t length;
    uint32_t kind;
} typed_path_component;

/* What a reading has left of a path: the bytes from index `from` on and before index `to` are left to be
   read. `stage` is for the library. */
typedef struct typed_path_reading {
    size_t from;
    size_t to;
    uint32_t stage;
} typed_path_reading;
/* A reading of which nothing was taken yet: typed_path_reading reading = TYPED_PATH_READING(path_len); */
#define TYPED_PATH_READING(path_len) {0, (size_t)(path_len), 0}

/* Where a path goes that is pushed onto another: after the first `kept` bytes of that one and the byte
   `separator`, 0 for none. */
typedef struct typed_path_place {
    size_t kept;
    uint32_t separator;
} typed_path_place;

/* Returns the version of the library, in the form of TYPED_PATH_VERSION. */
uint32_t typed_path_version(void);

/* Whether this processor can run the library. It is the one call that any x86-64 runs, and the one that is
   not proved. It asks the processor each time, so call it once, before the others. */
bool typed_path_runs_here(void);

/* Returns the dialect that a path looks like: Windows if it begins with `\` or with a prefix of Windows,
   else Unix. */
uint32_t typed_path_derive(const char *path, size_t path_len);

/* Calls that make a path. Each puts an answer, with the statuses from above and those that its comment
   names. */

/* Puts the path with `other` pushed onto it: an absolute one replaces it, an empty one makes a copy. On
   Windows one with a prefix replaces it too, as `D:x`, and one with a root replaces all but the prefix, as
   `\x`. TYPED_PATH_JOIN_BOUND. */
TYPED_PATH_MUST_USE uint32_t typed_path_join(
    uint32_t dialect, const char *path, size_t path_len, const char *other, size_t other_len,
    char *out, size_t out_size, size_t *len);

/* Puts the path with `other` pushed onto it, unless a component of `other` offends: then the status, from 1
   to 4, says why the first one is refused, however little memory there is. What is put lies within `path`,
   if that keeps its prefix (typed_path_keeps_prefix). The empty path, `.` and `a/..` are accepted, and name
   the base itself: what is put is then `path`, or leads there. TYPED_PATH_JOIN_BOUND. */
TYPED_PATH_MUST_USE uint32_t typed_path_join_checked(
    uint32_t dialect, const char *path, size_t path_len, const char *other, size_t other_len,
    char *out, size_t out_size, size_t *len);

/* Puts what typed_path_join_checked does, unless `other` is not portable (typed_path_check_portable): then
   the status, from 12 to 17, says why not. That is asked first, so TYPED_PATH_STATUS_INVALID_FILENAME and
   TYPED_PATH_STATUS_UNEXPECTED_PREFIX are never returned. The base need not be portable.
   TYPED_PATH_JOIN_BOUND. */
TYPED_PATH_MUST_USE uint32_t typed_path_join_portable(
    uint32_t dialect, const char *path, size_t path_len, const char *other, size_t other_len,
    char *out, size_t out_size, size_t *len);

/* Puts the clean path (typed_path_clean) of a checked join, refused as that is, and within `path` as that
   is: of `/srv` and `a/./../b` it is `/srv/b`, and of `/srv` and `.` it is `/srv`. It allocates for the
   join, and then for the clean path. TYPED_PATH_RESOLVE_BOUND. */
TYPED_PATH_MUST_USE uint32_t typed_path_resolve_checked(
    uint32_t dialect, const char *path, size_t path_len, const char *other, size_t other_len,
    char *out, size_t out_size, size_t *len);

/* Puts a copy of the path with another file name. If the path has no file name, the name is pushed onto it.
   The name is pushed as it is: `..` leads up, and an absolute path replaces all. TYPED_PATH_JOIN_BOUND. */
TYPED_PATH_MUST_USE uint32_t typed_path_with_file_name(
    uint32_t dialect, const char *path, size_t path_len, const char *name, size_t name_len,
    char *out, size_t out_size, size_t *len);

/* Puts a copy of the path whose file name has another extension, or none if `extension` is empty. Without a
   file name it is an unchanged copy. The extension is put as it is, with the separators in it: of
   `/srv/a.txt` and `x/../../../etc/passwd` it makes `/srv/a.x/../../../etc/passwd`.
   TYPED_PATH_EXTENSION_BOUND. */
TYPED_PATH_MUST_USE uint32_t typed_path_with_extension(
    uint32_t dialect, const char *path, size_t path_len, const char *extension, size_t extension_len,
    char *out, size_t out_size, size_t *len);

/* Puts a copy of the path with `extension` appended to its file name, after a dot. Without a file name, or
   with an empty extension, it is an unchanged copy. The extension is put as it is, as by
   typed_path_with_extension. TYPED_PATH_EXTENSION_BOUND. */
TYPED_PATH_MUST_USE uint32_t typed_path_with_added_extension(
    uint32_t dialect, const char *path, size_t path_len, const char *extension, size_t extension_len,
    char *out, size_t out_size, size_t *len);

/* Puts the path without `.`, and without `..` and the names that these cancel; a `..` that has no name to
   cancel vanishes. On Windows a name such as `D:x` may become the prefix: `C:\out\D:x` lies within `C:\out`,
   and its normal path is `D:x`, on another drive. typed_path_clean keeps the drive.
   TYPED_PATH_NORMALIZE_BOUND. */
TYPED_PATH_MUST_USE uint32_t typed_path_normalize(
    uint32_t dialect, const char *path, size_t path_len, char *out, size_t out_size, size_t *len);

/* Puts the path in lower case: each letter of ASCII, but on Windows for the `UNC` of `\\?\UNC\` before a server, read so
   only in capitals. TYPED_PATH_NORMALIZE_BOUND. */
TYPED_PATH_MUST_USE uint32_t typed_path_to_ascii_lowercase(
    uint32_t dialect, const char *path, size_t path_len, char *out, size_t out_size, size_t *len);

/* Puts the path without `.`, doubled separators, a last separator that is no root, and names that a `..` cancels; on
   Windows with `\` for each separator after the prefix. A relative path keeps the `..` that it needs, and if
   nothing is left, `.` is put. On Windows the drive stays. TYPED_PATH_CLEAN_BOUND. */
TYPED_PATH_MUST_USE uint32_t typed_path_clean(
    uint32_t dialect, const char *path, size_t path_len, char *out, size_t out_size, size_t *len);

/* Puts the path from the base to a path, by `..` and names; `.` where both lead alike. TYPED_PATH_STATUS_NONE where none is
   found: one begins with another prefix, or alone with a root; the base leads higher; or a name that is to be written
   holds a `/`, as one behind `\\?\` on Windows may. None is told even where memory is refused. Joined to the base it
   leads to the path; on Windows if the base keeps its prefix and, if that is of a verbatim kind, ends with at least
   as many names as there are `..`. TYPED_PATH_RELATIVE_BOUND. */
TYPED_PATH_MUST_USE uint32_t typed_path_relative_to(
    uint32_t dialect, const char *path, size_t path_len, const char *base, size_t base_len,
    char *out, size_t out_size, size_t *len);

/* Puts the path as it is written in the dialect `other`: a copy if that is its own. Else a prefix other than a
   drive `C:` becomes a root, and a root replaces what precedes it: `C:\a` and `\\s\h\a` of Windows are `/a` of
   Unix, and `C:a` is `C:/a`. So does a name that has a root or a prefix in that dialect: `a/x:y` of Unix is `x:y`.
   TYPED_PATH_CONVERT_BOUND. */
TYPED_PATH_MUST_USE uint32_t typed_path_convert(
    uint32_t dialect, const char *path, size_t path_len, uint32_t other,
    char *out, size_t out_size, size_t *len);

/* Puts the same if each name and each drive `C:` is pushed as typed_path_join_checked does, in its own dialect too: from
   Windows to Windows `C:\a` is refused. The status, from 1 to 4, names what the first that offends there is refused
   for: from Unix to Windows the name of `a/x:y` is a prefix and a name, TYPED_PATH_STATUS_UNEXPECTED_PREFIX, and
   `xy:z` is not allowed, TYPED_PATH_STATUS_INVALID_FILENAME. This is no check of where a path leads, since its own
   `..` and root are accepted: `../x` is `..\x`, `/x` is `\x`, and the one name `a\b` is two. A prefix other than
   a drive becomes a root: `\\s\h\x` of Windows is `/x` of Unix, and `\x` of Windows. For a name from outside use
   typed_path_join_checked. TYPED_PATH_CONVERT_BOUND. */
TYPED_PATH_MUST_USE uint32_t typed_path_convert_checked(
    uint32_t dialect, const char *path, size_t path_len, uint32_t other,
    char *out, size_t out_size, size_t *len);

/* Puts the normal path of the path if it is absolute, else that of the Unix path `directory`, written in the
   dialect of the path, with the path pushed onto it. TYPED_PATH_STATUS_AMBIGUOUS if the path is absolute
   neither alone nor after the directory. That is asked before the path is normalized, so on Windows what is
   put may be on another drive, and not absolute: of `C:\a\D:` it is `D:`. A Windows path that is not absolute
   is ambiguous after `/srv`, as that names no drive: use typed_path_absolutize_from with a directory of Windows.
   TYPED_PATH_JOIN_BOUND. */
TYPED_PATH_MUST_USE uint32_t typed_path_absolutize(
    uint32_t dialect, const char *path, size_t path_len, const char *directory, size_t directory_len,
    char *out, size_t out_size, size_t *len);

/* Puts what typed_path_absolutize does, with a directory of the dialect `other`: of `a\..\b` and `C:\work`,
   both of Windows, it is `C:\work\b`, and `D:a` is ambiguous there. TYPED_PATH_JOIN_BOUND. */
TYPED_PATH_MUST_USE uint32_t typed_path_absolutize_from(
    uint32_t dialect, const char *path, size_t path_len, uint32_t other, const char *directory, size_t directory_len,
    char *out, size_t out_size, size_t *len);

/* Puts checked joins of many names onto one base. The names follow one another in `names`: each begins where
   the one before it ends, the first at 0, and `ends` has the index at which each ends. The answers are put one
   after the other into `out`, without a NUL, so print each by its length: `out_ends` takes the index at which
   each ends, and `statuses` takes TYPED_PATH_STATUS_DONE, or from 1 to 4 why the name is refused, whose answer
   is empty. `*done` is set to how many names were answered, and the call returns
   - TYPED_PATH_STATUS_DONE: all were.
   - TYPED_PATH_STATUS_TOO_SMALL: the answer to the next name does not fit, or its end, or its status.
   - TYPED_PATH_STATUS_OUT_OF_MEMORY: an allocation failed for the next name.
   - TYPED_PATH_STATUS_BAD_ENDS: the next end lies before the one before it, or beyond the names.
   - TYPED_PATH_STATUS_BAD_DIALECT: none was.
   The bytes after the answers and the items from `*done` on are unchanged. TYPED_PATH_BATCH_BOUND. */
TYPED_PATH_MUST_USE uint32_t typed_path_join_checked_batch(
    uint32_t dialect, const char *base, size_t base_len, const char *names, size_t names_len,
    const size_t *ends, size_t ends_count, char *out, size_t out_size,
    size_t *out_ends, size_t out_ends_count, uint32_t *statuses, size_t statuses_count, size_t *done);

/* Does what typed_path_join_checked_batch does, by typed_path_join_portable, whose statuses the names take.
   TYPED_PATH_BATCH_BOUND. */
TYPED_PATH_MUST_USE uint32_t typed_path_join_portable_batch(
    uint32_t dialect, const char *base, size_t base_len, const char *names, size_t names_len,
    const size_t *ends, size_t ends_count, char *out, size_t out_size,
    size_t *out_ends, size_t out_ends_count, uint32_t *statuses, size_t statuses_count, size_t *done);

/* Parts of a path. Each call sets `*span` to where the part is, or returns TYPED_PATH_STATUS_NONE if there
   is no such part. Then, and for a bad dialect, `*span` is unchanged. */

/* The path without its last component: of `\\s\h\a` it is `\\s\h\`, and of `a` and `C:` it is empty. None for an
   empty path, one whose last component is the root, as `/`, `C:\` or `\\s\h\`, and a prefix alone but `C:`. */
TYPED_PATH_MUST_USE uint32_t typed_path_parent(
    uint32_t dialect, const char *path, size_t path_len, typed_path_span *span);

/* The last component, if it is a name. */
TYPED_PATH_MUST_USE uint32_t typed_path_file_name(
    uint32_t dialect, const char *path, size_t path_len, typed_path_span *span);

/* The file name up to its last dot, or the whole file name if it has no dot but one at its start. */
TYPED_PATH_MUST_USE uint32_t typed_path_file_stem(
    uint32_t dialect, const char *path, size_t path_len, typed_path_span *span);

/* The file name up to its first dot that is not at its start, or the whole file name if it has none. */
TYPED_PATH_MUST_USE uint32_t typed_path_file_prefix(
    uint32_t dialect, const char *path, size_t path_len, typed_path_span *span);

/* What follows the last dot of the file name, which may be empty, as of `a.`. None if that has no dot but one at
   its start. */
TYPED_PATH_MUST_USE uint32_t typed_path_extension(
    uint32_t dialect, const char *path, size_t path_len, typed_path_span *span);

/* What is left of the path after the base. None if the path does not begin with the components of the base,
   compared as they are written. */
TYPED_PATH_MUST_USE uint32_t typed_path_strip_prefix(
    uint32_t dialect, const char *path, size_t path_len, const char *base, size_t base_len,
    typed_path_span *span);

/* The leading components that both paths share, compared as they are written, as the front of `path` up to
   the end of the last one. None if they share none. */
TYPED_PATH_MUST_USE uint32_t typed_path_common_ancestor(
    uint32_t dialect, const char *path, size_t path_len, const char *other, size_t other_len,
    typed_path_span *span);

/* A path of a verbatim drive of Windows without its `\\?\`, if that means the same to Windows; else, as of
   every Unix path, the path itself. */
TYPED_PATH_MUST_USE uint32_t typed_path_simplified(
    uint32_t dialect, const char *path, size_t path_len, typed_path_span *span);

/* Puts the components of a path into an array, as many as fit, and sets `*count` to how many there are.
   TYPED_PATH_STATUS_TOO_SMALL if that is more than `out_count`. For a bad dialect both are unchanged.
   TYPED_PATH_COMPONENTS_BOUND. */
TYPED_PATH_MUST_USE uint32_t typed_path_components(
    uint32_t dialect, const char *path, size_t path_len,
    typed_path_component *out, size_t out_count, size_t *count);

/* Sets `*component` to the component at `index`, counted from 0. TYPED_PATH_STATUS_NONE if there are no more
   than `index`. Then, and for a bad dialect, `*component` is unchanged. It is found by reading from the
   front. */
TYPED_PATH_MUST_USE uint32_t typed_path_component_at(
    uint32_t dialect, const char *path, size_t path_len, size_t index, typed_path_component *component);

/* Takes the first component that is left of a reading, or the last, and moves `*reading` past it. The path
   is handed in anew each time, and nothing else is kept. TYPED_PATH_STATUS_NONE if none is left; then
   `*component` is unchanged. TYPED_PATH_STATUS_BAD_READING if no reading of this path may stand at the
   numbers, as may be if they are those of another path; then, and for a bad dialect, they and `*component`
   are unchanged. Numbers at which one may stand are taken for right: whatever they are, the component lies
   within the path, and each step leaves one less. */
TYPED_PATH_MUST_USE uint32_t typed_path_next(
    uint32_t dialect, const char *path, size_t path_len,
    typed_path_reading *reading, typed_path_component *component);
TYPED_PATH_MUST_USE uint32_t typed_path_next_back(
    uint32_t dialect, const char *path, size_t path_len,
    typed_path_reading *reading, typed_path_component *component);

/* Sets `*first` and `*second` to where the names of the prefix are: the server and the share; or a name or
   the letter of a drive alone, and then `*second` is empty. TYPED_PATH_STATUS_NONE without a prefix, as on
   Unix. Then, and for a bad dialect, both are unchanged. */
TYPED_PATH_MUST_USE uint32_t typed_path_prefix_names(
    uint32_t dialect, const char *path, size_t path_len, typed_path_span *first, typed_path_span *second);

/* Sets `*place` to where `other` goes if typed_path_join pushes it onto the path: after the first `kept`
   bytes of the path, and `separator` if that is not 0. TYPED_PATH_STATUS_NONE if it is merged into a base
   with a verbatim prefix, as `\\?\C:\a`, and typed_path_join makes it. Then, and for a bad dialect, `*place`
   is unchanged. */
TYPED_PATH_MUST_USE uint32_t typed_path_push_place(
    uint32_t dialect, const char *path, size_t path_len, const char *other, size_t other_len,
    typed_path_place *place);

/* Checks of a path. The status tells all. */

/* Returns the status, from 1 to 4, of the first component for which typed_path_join_checked refuses a path,
   whatever it is joined to, or TYPED_PATH_STATUS_DONE if there is none. The empty path, `.` and `a/..` are
   accepted, and name the base itself. */
TYPED_PATH_MUST_USE uint32_t typed_path_check(uint32_t dialect, const char *path, size_t path_len);

/* Returns the status, from 12 to 17, of the first component that some system does not take as it is written,
   or TYPED_PATH_STATUS_DONE if there is none. Of several faults of that component it is the lowest status.
   Roots, `.` and `..` are accepted, so for a name from outside use typed_path_join_portable. */
TYPED_PATH_MUST_USE uint32_t typed_path_check_portable(uint32_t dialect, const char *path, size_t path_len);

/* Questions. Each sets `*answer` and returns TYPED_PATH_STATUS_DONE, or TYPED_PATH_STATUS_BAD_DIALECT, and
   then the answer is false. */

/* Whether a path is absolute: on Unix it begins with a root; on Windows with a server and a share, as `\\s\h`, or with
   a prefix of another kind and a root right after that, as `C:\`. So `C:a`, `\a`, `\\s` and `\\.\COM1` are not. */
TYPED_PATH_MUST_USE uint32_t typed_path_is_absolute(
    uint32_t dialect, const char *path, size_t path_len, bool *answer);

/* Whether it has a root: one written first or right after the prefix, as in `C:\a`, or one implied by a prefix other
   than `C:` and `\\?\C:`, as by `\\s\h`, which is not among the components. */
TYPED_PATH_MUST_USE uint32_t typed_path_has_root(
    uint32_t dialect, const char *path, size_t path_len, bool *answer);

/* Whether the dialect allows every name of the path. On Unix a name with a NUL is not allowed. On Windows
   one with a NUL or one of `\/:?*"<>|` is not, nor a device: CON, PRN, AUX, NUL, COM0 to COM9 and LPT0 to
   LPT9, in any case, alone or followed by a dot. Versions of Windows take more names for devices, and these
   are allowed: followed by spaces, as `nul ` and `con .txt`; `CONIN$` and `conout$.txt`; with a superscript
   digit, as "COM\xC2\xB9" and "lpt\xC2\xB2.x". */
TYPED_PATH_MUST_USE uint32_t typed_path_is_valid(
    uint32_t dialect, const char *path, size_t path_len, bool *answer);

/* Whether the dialect allows the name, by the rule of typed_path_is_valid. One with a separator is not
   allowed; `.`, `..` and an empty one are. */
TYPED_PATH_MUST_USE uint32_t typed_path_is_valid_name(
    uint32_t dialect, const char *name, size_t name_len, bool *answer);

/* Whether a path has no prefix and every system takes each of its names as it is written
   (typed_path_check_portable). */
TYPED_PATH_MUST_USE uint32_t typed_path_is_portable(
    uint32_t dialect, const char *path, size_t path_len, bool *answer);

/* Whether some version of Windows may take a name of the path for a device. Only what precedes the first `:`
   of a name counts, of that only what precedes the first dot, without spaces at its end and in any case;
   `CONIN$`, `CONOUT$` and superscript digits count too. The names are those of the path's own dialect: on
   Unix `a\nul` is one name, and no device. If it is not known on which system a path will be used, ask in
   both dialects. */
TYPED_PATH_MUST_USE uint32_t typed_path_may_be_device(
    uint32_t dialect, const char *path, size_t path_len, bool *answer);

/* Whether the path begins with the components of the base, compared as they are written. This is no check of
   containment. */
TYPED_PATH_MUST_USE uint32_t typed_path_starts_with(
    uint32_t dialect, const char *path, size_t path_len, const char *base, size_t base_len, bool *answer);

/* Whether the path ends with the components of another, compared as they are written. */
TYPED_PATH_MUST_USE uint32_t typed_path_ends_with(
    uint32_t dialect, const char *path, size_t path_len, const char *end, size_t end_len, bool *answer);

/* Whether the path lies at the base or below it, from whatever directory both are read. Names that no file
   has are judged too, so ask typed_path_is_valid as well: "/srv/..\0/a" lies within `/srv`, and as a string
   of C it ends at the NUL, as `/srv/..`; on Windows `C:\srv\con` lies within `C:\srv`. */
TYPED_PATH_MUST_USE uint32_t typed_path_is_within(
    uint32_t dialect, const char *path, size_t path_len, const char *base, size_t base_len, bool *answer);

/* Whether each path that a checked join makes of this one is known to have the prefix of this one, or none
   if this one has none. It is true of every Unix path, and on Windows of `C:\a`, `\\s\h` and `a`. False
   leaves it open: it is false of `\\s` and `/`, which may lose it, and of some that keep it, as `//a/`,
   `\\s\\x` and `\\?\UNC\s\`. */
TYPED_PATH_MUST_USE uint32_t typed_path_keeps_prefix(
    uint32_t dialect, const char *path, size_t path_len, bool *answer);

/* Whether the path has the same components as the other: separators, doubled or not, a `.` that is skipped
   and the case of a drive do not count; the case of names does. */
TYPED_PATH_MUST_USE uint32_t typed_path_equal(
    uint32_t dialect, const char *path, size_t path_len, const char *other, size_t other_len, bool *answer);

/* Sets `*order` to the order of two paths by components: -1, 0 or 1. For a bad dialect `*order` is
   unchanged. */
TYPED_PATH_MUST_USE uint32_t typed_path_compare(
    uint32_t dialect, const char *path, size_t path_len, const char *other, size_t other_len,
    int32_t *order);

/* What typed_path_starts_with, typed_path_equal and typed_path_compare tell of the paths in lower case
   (typed_path_to_ascii_lowercase), so a map without regard to case hashes and compares these. A volume of Windows
   ignores the case of more letters than those of ASCII. */
TYPED_PATH_MUST_USE uint32_t typed_path_starts_with_ignore_ascii_case(
    uint32_t dialect, const char *path, size_t path_len, const char *base, size_t base_len, bool *answer);
TYPED_PATH_MUST_USE uint32_t typed_path_equal_ignore_ascii_case(
    uint32_t dialect, const char *path, size_t path_len, const char *other, size_t other_len, bool *answer);
TYPED_PATH_MUST_USE uint32_t typed_path_compare_ignore_ascii_case(
    uint32_t dialect, const char *path, size_t path_len, const char *other, size_t other_len,
    int32_t *order);

/* Puts the words of the path's key, for a hasher of the caller's own: of a name its length and its bytes; of
   any other component a byte for its kind, and after that of a prefix its names in the same way, or the
   letter of its drive; and last a byte with which no component begins. Equal paths have the same bytes and
   others do not, and the bytes of no path begin with those of one that is not equal. TYPED_PATH_KEY_BOUND. */
TYPED_PATH_MUST_USE uint32_t typed_path_key_words(
    uint32_t dialect, const char *path, size_t path_len, char *out, size_t out_size, size_t *len);

/* Sets `*hash` to a hash that equal paths share: SipHash 1-3, with a key of zeros, of the words of the
   path's key (typed_path_key_words). Paths that are not equal share one by chance alone. But whoever knows
   the key can look for such paths, so for names that strangers choose use typed_path_hash_keyed. For a bad
   dialect `*hash` is unchanged. */
TYPED_PATH_MUST_USE uint32_t typed_path_hash(
    uint32_t dialect, const char *path, size_t path_len, uint64_t *hash);

/* Does what typed_path_hash does, with a key of 128 bits, `key0` the first 64. Draw one at random, as for a
   map or a process, and show neither it nor the hashes. */
TYPED_PATH_MUST_USE uint32_t typed_path_hash_keyed(
    uint32_t dialect, uint64_t key0, uint64_t key1, const char *path, size_t path_len, uint64_t *hash);

/* Puts the text of a status, or of a kind of component, in English; the texts may change.
   TYPED_PATH_STATUS_NONE if the number is none; then the buffer and `*len` are unchanged. TYPED_PATH_TEXT_BOUND. */
TYPED_PATH_MUST_USE uint32_t typed_path_status_text(uint32_t status, char *out, size_t out_size, size_t *len);
TYPED_PATH_MUST_USE uint32_t typed_path_kind_text(uint32_t kind, char *out, size_t out_size, size_t *len);

#ifdef __cplusplus
}
#endif

#endif
