/* The module typed_path._native: the types TypedPath, UnixPath and WindowsPath as types of C, over the archive.

   `_library.py` describes each call, and has it over ctypes; wheel_of.py makes `docs.h` of its docstrings. `__init__.py`
   puts into the types what is written in Python. They are the classes of the package themselves, since each object of a
   class that is written in Python is looked at by the garbage collector, and these hold nothing that could hold them.

   The module is compiled for the limited API of Python 3.8, so one file serves each later Python. It has no state but
   what is the same in each interpreter of a process: a key for hashes, what the text of paths is encoded by, and the texts
   of roots. So interpreters may have a lock each. A type is known by the function that makes its objects, since a module for 3.8
   can't be asked by what a type was made. */
#define PY_SSIZE_T_CLEAN
#ifndef Py_LIMITED_API
#define Py_LIMITED_API 0x03080000
#endif
#include <Python.h>
#include <pthread.h>
#include <stdatomic.h>
#include <string.h>
#include <typed_path.h>
#include <unistd.h>

#include "docs.h"

/* What each CPython from 3.8 on has alike, and the limited API names only from 3.10 and 3.11 on. */
#ifndef METH_FASTCALL
#define METH_FASTCALL 0x0080
#endif
#if Py_LIMITED_API + 0 < 0x030a0000
PyAPI_FUNC(const char *) PyUnicode_AsUTF8AndSize(PyObject *text, Py_ssize_t *len);
#endif
#if Py_LIMITED_API + 0 < 0x030b0000
typedef struct {
    void *buf;
    PyObject *obj;
    Py_ssize_t len, itemsize;
    int readonly, ndim;
    char *format;
    Py_ssize_t *shape, *strides, *suboffsets;
    void *internal;
} Py_buffer;
PyAPI_FUNC(int) PyObject_GetBuffer(PyObject *from, Py_buffer *buffer, int flags);
PyAPI_FUNC(void) PyBuffer_Release(Py_buffer *buffer);
#define PyBUF_WRITABLE 1
#endif

#define ROOM 1024          /* what an answer has on the stack; a longer one is put into memory of its own */
#define PIECES 64          /* how many components are read on the stack */
#define NAMES_RECENT 256   /* how many names a thread keeps that it has met in parts */
#define NAMES_AT_ONCE 65536 /* how many names of a batch are joined while the lock of Python is let go */
#define TEXTS_AT_ONCE 128  /* how many of their targets are cut from one text */
#define WORD sizeof(uint64_t)

/* What the text of a path is encoded by in each dialect, as _errors.py says; and the key of all hashes. */
static char encodings[2][64], errors[64];
static bool is_utf8[2];
static uint64_t key[2];
static bool has_key;
static pthread_once_t key_once = PTHREAD_ONCE_INIT;

static const char *const separators[2] = {"/", "\\"};

/* The text of no root and of a root, in each dialect. Python has one object of each in a process, which never ends where
   interpreters have a lock each; 3.10 has one in each interpreter. They are shared while all that were met have the same. */
static PyObject *roots[2][2];
static atomic_bool are_roots_shared;

/* What a path was asked, and keeps: a bit of `asked`, and of `answers`. The answer to the last one is whether a root stands
   behind the prefix. */
enum {
    IS_ABSOLUTE = 1, HAS_ROOT = 2, IS_VALID = 4, IS_PORTABLE = 8, MAY_BE_DEVICE = 16, KEEPS_PREFIX = 32, ANCHOR = 64
};

/* A path: where its bytes stand, which are those of an object, or of its text where it was made of a str in UTF-8. What it
   was asked is kept from then on. */
typedef struct {
    PyObject_HEAD
    PyObject *bytes; /* NULL where they are those of the text, until they were asked for */
    const char *at; /* NULL until __init__ was called */
    size_t len;
    PyObject *text, *parts; /* NULL where they were not asked for */
    Py_hash_t hash; /* 0 where it was not asked for */
    PyObject *name; /* NULL where it was not asked for */
    uint32_t prefix; /* its length */
    uint8_t dialect, asked, answers;
    bool hands_on; /* whether its class has a with_segments of its own */
} Path;

/* Paths lie behind each other as they were made, and are mostly asked in that order. So what is kept is asked for while a
   path some places on is fetched from memory; if none is there, nothing is. */
static inline void fetch_later(const Path *path)
{
    __builtin_prefetch((const void *)((uintptr_t)path + 8 * sizeof *path));
}

/* Bytes that are read, and what holds them. */
typedef struct {
    const char *at;
    size_t len;
    PyObject *held;
    bool is_bytes;
} Text;

/* What an answer is made: a path of the class of one; or else a text as another was, a str or bytes. */
typedef struct {
    Path *like;
    bool is_bytes;
} Made;

static PyObject *unix_new(PyTypeObject *type, PyObject *args, PyObject *named);
static PyObject *windows_new(PyTypeObject *type, PyObject *args, PyObject *named);

/* Errors. */

/* Raises the error that a function of _errors.py makes of these words, and returns NULL. */
static PyObject *raised(const char *function, const char *format, ...)
{
    PyObject *module = PyImport_ImportModule("typed_path._errors");
    PyObject *call = module ? PyObject_GetAttrString(module, function) : NULL;
    va_list words;
    va_start(words, format);
    PyObject *args = call ? Py_VaBuildValue(format, words) : NULL;
    va_end(words);
    PyObject *error = args ? PyObject_CallObject(call, args) : NULL;
    if (error)
        PyErr_SetObject((PyObject *)Py_TYPE(error), error);
    Py_XDECREF(error);
    Py_XDECREF(args);
    Py_XDECREF(call);
    Py_XDECREF(module);
    return NULL;
}

/* Raises what a status names. `told` is what a refusal tells of, `judged` the text that was judged. */
static PyObject *failed(uint32_t status, PyObject *told, uint32_t dialect, const Text *judged, PyObject *base)
{
    if (status == TYPED_PATH_STATUS_OUT_OF_MEMORY)
        return PyErr_NoMemory();
    return raised(
        "failed", "(kOky#OO)", (unsigned long)status, told, (unsigned long)dialect, judged->at ? judged->at : "",
        (Py_ssize_t)judged->len, Py_None, base ? base : Py_None);
}

/* Text. */

/* The function of this module that makes the objects of a class, or NULL if they are no paths. A class below may have
   a __new__ of its own. */
static newfunc maker_of(PyTypeObject *type)
{
    for (; PyType_GetFlags(type) & Py_TPFLAGS_HEAPTYPE; type = PyType_GetSlot(type, Py_tp_base)) {
        newfunc make = (newfunc)PyType_GetSlot(type, Py_tp_new);
        if (make == unix_new || make == windows_new)
            return make;
    }
    return NULL;
}

/* The path that an object is, or NULL. */
static Path *as_path(PyObject *from)
{
    return maker_of(Py_TYPE(from)) ? (Path *)from : NULL;
}

/* The bytes of a path. Raises AttributeError for one whose __init__ was never called. */
static inline bool read_path(Path *path, Text *text)
{
    *text = (Text){path->at, path->len, NULL, false};
    if (path->at)
        return true;
    PyErr_SetString(PyExc_AttributeError, "__init__ of this path was not called");
    return false;
}

static bool read_bytes(PyObject *from, Text *text)
{
    char *at;
    Py_ssize_t len;
    if (PyBytes_AsStringAndSize(from, &at, &len) < 0)
        return false;
    *text = (Text){at, (size_t)len, NULL, true};
    return true;
}

static bool read_held(PyObject *held, Text *text)
{
    if (!held || !read_bytes(held, text)) {
        Py_XDECREF(held);
        return false;
    }
    text->held = held;
    text->is_bytes = false;
    return true;
}

static inline bool read_str(uint32_t dialect, PyObject *from, Text *text)
{
    if (is_utf8[dialect]) {
        Py_ssize_t len;
        const char *at = PyUnicode_AsUTF8AndSize(from, &len);
        if (at) {
            *text = (Text){at, (size_t)len, NULL, false};
            return true;
        }
        if (!PyErr_ExceptionMatches(PyExc_UnicodeEncodeError))
            return false;
        PyErr_Clear();
    }
    return read_held(PyUnicode_AsEncodedString(from, encodings[dialect], errors), text);
}

static bool read_other(uint32_t dialect, PyObject *from, Text *text)
{
    Path *path = as_path(from);
    if (path && path->dialect != dialect) {
        raised("of_other_dialect", "(O)", from);
        return false;
    }
    if (path)
        return read_path(path, text);
    PyObject *named = PyOS_FSPath(from);
    if (!named)
        return false;
    bool is_read = PyUnicode_Check(named) ? read_str(dialect, named, text) : read_bytes(named, text);
    if (!is_read || text->held) {
        Py_DECREF(named);
        return is_read;
    }
    text->held = named;
    return true;
}

/* Whether an object is a str. Most are one and no more. */
static inline bool is_str(PyObject *from)
{
    return PyUnicode_CheckExact(from) || PyUnicode_Check(from);
}

/* The bytes that a str, bytes, a path of this dialect or what os.fspath takes stands for. */
static inline bool read_text(uint32_t dialect, PyObject *from, Text *text)
{
    if (is_str(from))
        return read_str(dialect, from, text);
    if (PyBytes_Check(from))
        return read_bytes(from, text);
    return read_other(dialect, from, text);
}

/* The same of a call that refuses a str which no bytes stand for as a name of this status. */
static bool read_checked(uint32_t dialect, PyObject *from, Text *text, uint32_t unwritten)
{
    if (read_text(dialect, from, text))
        return true;
    if (PyErr_ExceptionMatches(PyExc_UnicodeEncodeError)) {
        PyErr_Clear();
        raised("unwritten", "(kO)", (unsigned long)unwritten, from);
    }
    return false;
}

static PyObject *decoded(uint32_t dialect, const char *at, size_t len)
{
    if (is_utf8[dialect])
        return PyUnicode_DecodeUTF8(at, (Py_ssize_t)len, errors);
    return PyUnicode_Decode(at ? at : "", (Py_ssize_t)len, encodings[dialect], errors);
}

static PyObject *decoded_span(const Path *path, typed_path_span span)
{
    return decoded(path->dialect, path->at + span.start, span.length);
}

/* What is made. */

/* Keeps what was made, whose reference it takes; while a codec made it, another thread may have kept its own. */
static PyObject *kept(PyObject **place, PyObject *made)
{
    if (!made)
        return NULL;
    if (*place)
        Py_DECREF(made);
    else
        *place = made;
    Py_INCREF(*place);
    return *place;
}

/* A reference more. */
static PyObject *again(PyObject *kept)
{
    Py_INCREF(kept);
    return kept;
}

/* Gives a path the bytes of an object, whose reference it takes. */
static bool holds(Path *path, PyObject *bytes)
{
    Text text;
    if (!bytes || !read_bytes(bytes, &text)) {
        Py_XDECREF(bytes);
        return false;
    }
    path->bytes = bytes;
    path->at = text.at;
    path->len = text.len;
    return true;
}

/* A new path with its bytes. It takes both references. */
static PyObject *filled(Path *path, PyObject *bytes)
{
    if (path && holds(path, bytes))
        return (PyObject *)path;
    if (!path)
        Py_XDECREF(bytes);
    Py_XDECREF(path);
    return NULL;
}

/* A path without bytes, of the class of another. */
static Path *blank(const Path *like)
{
    Path *path = (Path *)PyType_GenericAlloc(Py_TYPE((PyObject *)like), 0);
    if (path)
        path->dialect = like->dialect;
    return path;
}

/* The path of these bytes, by with_segments where the class has its own. It takes the reference. */
static PyObject *like_of(Path *like, PyObject *bytes)
{
    if (!bytes)
        return NULL;
    if (!like->hands_on)
        return filled(blank(like), bytes);
    PyObject *path = PyObject_CallMethod((PyObject *)like, "with_segments", "(O)", bytes);
    Py_DECREF(bytes);
    return path;
}

static PyObject *made_of(Made made, uint32_t dialect, const char *at, size_t len)
{
    if (made.like)
        return like_of(made.like, PyBytes_FromStringAndSize(at, (Py_ssize_t)len));
    return made.is_bytes ? PyBytes_FromStringAndSize(at, (Py_ssize_t)len) : decoded(dialect, at, len);
}

/* Calls of the archive. Each engine is given its call as a constant, so that the compiler calls that. */

typedef uint32_t Puts(uint32_t, const char *, size_t, char *, size_t, size_t *);
typedef uint32_t PutsOther(uint32_t, const char *, size_t, const char *, size_t, char *, size_t, size_t *);
typedef uint32_t Spans(uint32_t, const char *, size_t, typed_path_span *);
typedef uint32_t Asks(uint32_t, const char *, size_t, bool *);
typedef uint32_t AsksOther(uint32_t, const char *, size_t, const char *, size_t, bool *);

/* Memory for an answer of so many bytes: the room on the stack, or memory of its own. */
static inline char *room_of(char *room, size_t size)
{
    if (size <= ROOM)
        return room;
    char *out = PyMem_Malloc(size);
    if (!out)
        PyErr_NoMemory();
    return out;
}

static inline void freed(char *out, const char *room)
{
    if (out != room)
        PyMem_Free(out);
}

static inline PyObject *put(Puts *call, uint32_t dialect, const Text *path, Made made)
{
    char room[ROOM];
    size_t size = TYPED_PATH_CLEAN_BOUND(path->len), len;
    char *out = room_of(room, size);
    if (!out)
        return NULL;
    uint32_t status = call(dialect, path->at, path->len, out, size, &len);
    PyObject *answer = status == TYPED_PATH_STATUS_DONE
                           ? made_of(made, dialect, out, len)
                           : failed(status, Py_None, dialect, path, NULL);
    freed(out, room);
    return answer;
}

/* `told` is what a refusal tells of, and the other text was judged then. */
static inline PyObject *put_other(
    PutsOther *call, uint32_t dialect, const Text *path, const Text *other, Made made, PyObject *told)
{
    char room[ROOM];
    size_t size = TYPED_PATH_RESOLVE_BOUND(path->len, other->len), len;
    char *out = room_of(room, size);
    if (!out)
        return NULL;
    uint32_t status = call(dialect, path->at, path->len, other->at, other->len, out, size, &len);
    PyObject *answer = status == TYPED_PATH_STATUS_DONE ? made_of(made, dialect, out, len)
                                                        : failed(status, told, dialect, other, NULL);
    freed(out, room);
    return answer;
}

/* Whether an answer of typed_path_relative_to leads up. */
static bool leads_up(uint32_t dialect, const char *out, size_t len)
{
    return len > 1 && memcmp(out, "..", 2) == 0 && (len == 2 || out[2] == *separators[dialect]);
}

/* `told` and `told_base` are what a refusal tells of. */
static PyObject *put_relative(
    uint32_t dialect, const Text *path, const Text *base, Made made, PyObject *told, PyObject *told_base, bool walks_up)
{
    char room[ROOM];
    size_t size = TYPED_PATH_RELATIVE_BOUND(path->len, base->len), len;
    char *out = room_of(room, size);
    if (!out)
        return NULL;
    uint32_t status =
        typed_path_relative_to(dialect, path->at, path->len, base->at, base->len, out, size, &len);
    PyObject *answer;
    if (status != TYPED_PATH_STATUS_DONE)
        answer = failed(status, told, dialect, path, told_base);
    else if (!walks_up && leads_up(dialect, out, len))
        answer = raised("not_below", "(OO)", told, told_base);
    else
        answer = made_of(made, dialect, out, len);
    freed(out, room);
    return answer;
}

static inline PyObject *asked(Asks *call, uint32_t dialect, const Text *path)
{
    bool answer = false;
    uint32_t status = call(dialect, path->at, path->len, &answer);
    return status == TYPED_PATH_STATUS_DONE ? PyBool_FromLong(answer) : failed(status, Py_None, dialect, path, NULL);
}

static inline PyObject *asked_other(AsksOther *call, uint32_t dialect, const Text *path, const Text *other)
{
    bool answer = false;
    uint32_t status = call(dialect, path->at, path->len, other->at, other->len, &answer);
    return status == TYPED_PATH_STATUS_DONE ? PyBool_FromLong(answer) : failed(status, Py_None, dialect, path, NULL);
}

/* Whether there is such a part of a path. */
static inline bool is_part(uint32_t status)
{
    return status == TYPED_PATH_STATUS_DONE;
}

/* The parts of a path. */

static typed_path_reading reading_of(const Text *path)
{
    return (typed_path_reading)TYPED_PATH_READING(path->len);
}

static bool is_next(uint32_t dialect, const Text *path, typed_path_reading *reading, typed_path_component *piece)
{
    return is_part(typed_path_next(dialect, path->at, path->len, reading, piece));
}

/* The length of the prefix, and whether a root stands behind it. */
static size_t anchor_of(uint32_t dialect, const Text *path, bool *has_root)
{
    typed_path_reading reading = reading_of(path);
    typed_path_component piece;
    size_t len = 0;
    *has_root = is_next(dialect, path, &reading, &piece);
    if (*has_root && piece.kind >= TYPED_PATH_KIND_PREFIX_VERBATIM) {
        len = piece.length;
        *has_root = is_next(dialect, path, &reading, &piece);
    }
    *has_root = *has_root && piece.kind == TYPED_PATH_KIND_ROOT;
    return len;
}

/* The text of a root, or of none. */
static PyObject *root_of(uint32_t dialect, bool has_root)
{
    return PyUnicode_FromStringAndSize(separators[dialect], has_root);
}

/* The bytes of a prefix with the root behind it, as text. */
static PyObject *anchored(uint32_t dialect, const char *at, size_t len, bool has_root)
{
    if (!len)
        return root_of(dialect, has_root);
    if (!has_root)
        return decoded(dialect, at, len);
    char room[ROOM], *both = room_of(room, len + 1);
    if (!both)
        return NULL;
    memcpy(both, at, len);
    both[len] = *separators[dialect];
    PyObject *text = decoded(dialect, both, len + 1);
    freed(both, room);
    return text;
}

/* Puts an item behind a list, and takes its reference. */
static bool is_put_behind(PyObject *list, PyObject *item)
{
    bool is_put = item && PyList_Append(list, item) == 0;
    Py_XDECREF(item);
    return is_put;
}

/* Puts an item into a new tuple, and takes its reference. */
static bool is_item(PyObject *tuple, Py_ssize_t at, PyObject *item)
{
    return item && PyTuple_SetItem(tuple, at, item) == 0;
}

static PyObject *tuple_of(PyObject *list, bool is_whole)
{
    PyObject *tuple = is_whole ? PyList_AsTuple(list) : NULL;
    Py_XDECREF(list);
    return tuple;
}

/* A short name of ASCII: words of its first and of its last bytes, which are all that it has, and its text. */
typedef struct {
    uint64_t words[4];
    size_t len;
    PyObject *text;
} Name;

static void forget_names(PyObject *held)
{
    Name *names = PyCapsule_GetPointer(held, NULL);
    for (size_t at = 0; at < NAMES_RECENT; ++at)
        Py_XDECREF(names[at].text);
    PyMem_Free(names);
}

/* The names that this thread has met last in parts, or NULL. They lie with what Python keeps of a thread, under the type
   that all paths have, so no lock is needed, and no interpreter meets an object of another. */
static Name *recent_names(PyTypeObject *type)
{
    PyTypeObject *top = type;
    while (type != &PyBaseObject_Type) {
        top = type;
        type = PyType_GetSlot(type, Py_tp_base);
    }
    PyObject *kept_here = PyThreadState_GetDict();
    PyObject *held = kept_here ? PyDict_GetItem(kept_here, (PyObject *)top) : NULL;
    if (!kept_here || held)
        return held ? PyCapsule_GetPointer(held, NULL) : NULL;
    Name *names = PyMem_Calloc(NAMES_RECENT, sizeof *names);
    held = names ? PyCapsule_New(names, NULL, forget_names) : NULL;
    if (!held)
        PyMem_Free(names);
    bool is_kept = held && PyDict_SetItem(kept_here, (PyObject *)top, held) == 0;
    Py_XDECREF(held);
    PyErr_Clear();
    return is_kept ? names : NULL;
}

/* Reads a name of 2 to 32 bytes, if it is ASCII. */
static inline bool read_short(const char *at, size_t len, Name *name)
{
    uint64_t *words = name->words;
    *name = (Name){{0, 0, 0, 0}, len, NULL};
    if (len < 2 || len > 32)
        return false;
    if (len >= 16) {
        memcpy(&words[2], at + 8, 8);
        memcpy(&words[3], at + len - 16, 8);
    }
    if (len >= 8) {
        memcpy(&words[0], at, 8);
        memcpy(&words[1], at + len - 8, 8);
    } else if (len >= 4) {
        memcpy(&words[0], at, 4);
        memcpy(&words[1], at + len - 4, 4);
    } else {
        memcpy(&words[0], at, 2);
        memcpy(&words[1], at + len - 2, 2);
    }
    return !((words[0] | words[1] | words[2] | words[3]) & UINT64_C(0x8080808080808080));
}

/* The text of a name. A short one is one object in all paths that it is met in, until another takes its place. */
static PyObject *text_of_name(Name *names, uint32_t dialect, const char *at, size_t len)
{
    Name name;
    if (!names || !is_utf8[dialect] || !read_short(at, len, &name))
        return decoded(dialect, at, len);
    uint64_t mixed = len;
    for (size_t word = 0; word < 4; ++word)
        mixed = (mixed ^ name.words[word]) * UINT64_C(0x9e3779b97f4a7c15);
    Name *place = &names[(mixed >> 32) % NAMES_RECENT];
    if (place->text && place->len == len && memcmp(place->words, name.words, sizeof name.words) == 0)
        return again(place->text);
    name.text = decoded(dialect, at, len);
    if (!name.text)
        return NULL;
    Py_XDECREF(place->text);
    *place = name;
    return again(name.text);
}

/* The texts of these components. A prefix and the root behind it are one. */
static PyObject *texts_of(
    Name *names, uint32_t dialect, const Text *path, const typed_path_component *pieces, size_t count)
{
    size_t prefix = count > 0 && pieces[0].kind >= TYPED_PATH_KIND_PREFIX_VERBATIM ? pieces[0].length : 0;
    size_t place = prefix > 0;
    bool has_root = place < count && pieces[place].kind == TYPED_PATH_KIND_ROOT;
    place += has_root;
    Py_ssize_t at = place > 0;
    PyObject *tuple = PyTuple_New((Py_ssize_t)(count - place) + at);
    bool is_whole = tuple;
    if (is_whole && at)
        is_whole = is_item(tuple, 0, anchored(dialect, path->at, prefix, has_root));
    for (; is_whole && place < count; ++place, ++at)
        is_whole = is_item(
            tuple, at, text_of_name(names, dialect, path->at + pieces[place].start, pieces[place].length));
    if (is_whole)
        return tuple;
    Py_XDECREF(tuple);
    return NULL;
}

static PyObject *parts_of(PyTypeObject *type, uint32_t dialect, const Text *path)
{
    typed_path_component room[PIECES], *pieces = room;
    size_t count = 0;
    uint32_t status = typed_path_components(dialect, path->at, path->len, pieces, PIECES, &count);
    if (status == TYPED_PATH_STATUS_TOO_SMALL) {
        pieces = PyMem_Malloc(count * sizeof *pieces);
        if (!pieces)
            return PyErr_NoMemory();
        status = typed_path_components(dialect, path->at, path->len, pieces, count, &count);
    }
    PyObject *texts = status == TYPED_PATH_STATUS_DONE ? texts_of(recent_names(type), dialect, path, pieces, count)
                                                       : failed(status, Py_None, dialect, path, NULL);
    if (pieces != room)
        PyMem_Free(pieces);
    return texts;
}

/* The methods of a path. */

#define READ_SELF(text) \
    Path *path = (Path *)self; \
    Text text; \
    (void)unused; \
    if (!read_path(path, &text)) \
        return NULL

/* A call of the path alone. */
#define OF_PATH(name, answer) \
    static PyObject *path_##name(PyObject *self, PyObject *unused) \
    { \
        READ_SELF(text); \
        return answer; \
    }
/* A question that is kept once it was asked. */
#define QUESTION(name, which) \
    static PyObject *path_##name(PyObject *self, PyObject *unused) \
    { \
        fetch_later((Path *)self); \
        if (!(((Path *)self)->asked & which)) { \
            READ_SELF(text); \
            bool answer = false; \
            uint32_t status = typed_path_##name(path->dialect, text.at, text.len, &answer); \
            if (status != TYPED_PATH_STATUS_DONE) \
                return failed(status, Py_None, path->dialect, &text, NULL); \
            path->asked |= which; \
            path->answers |= answer ? which : 0; \
        } \
        return PyBool_FromLong(((Path *)self)->answers & which); \
    }
/* A property that is kept once it was asked for. */
#define KEPT(name, answer) \
    static PyObject *path_get_##name(PyObject *self, void *unused) \
    { \
        PyObject **kept_at = &((Path *)self)->name; \
        fetch_later((Path *)self); \
        if (*kept_at) \
            return again(*kept_at); \
        READ_SELF(text); \
        return kept(kept_at, answer); \
    }
/* A call of the path and another one. */
#define OF_OTHER(name, answer) \
    static PyObject *path_##name(PyObject *self, PyObject *from) \
    { \
        PyObject *const unused = NULL; \
        READ_SELF(text); \
        Text other; \
        if (!read_text(path->dialect, from, &other)) \
            return NULL; \
        PyObject *answered = answer; \
        Py_XDECREF(other.held); \
        return answered; \
    }
/* The same of a checked call. A str that no bytes stand for is refused by it as a name of this status. */
#define CHECKED(name, unwritten) \
    static PyObject *path_##name(PyObject *self, PyObject *from) \
    { \
        PyObject *const unused = NULL; \
        READ_SELF(text); \
        Text other; \
        if (!read_checked(path->dialect, from, &other, unwritten)) \
            return NULL; \
        PyObject *answer = put_other(typed_path_##name, path->dialect, &text, &other, LIKE_SELF, from); \
        Py_XDECREF(other.held); \
        return answer; \
    }
#define LIKE_SELF ((Made){path, false})

KEPT(bytes, PyBytes_FromStringAndSize(text.at, (Py_ssize_t)text.len))
KEPT(text, decoded(path->dialect, text.at, text.len))
OF_PATH(normalize, put(typed_path_normalize, path->dialect, &text, LIKE_SELF))
OF_PATH(clean, put(typed_path_clean, path->dialect, &text, LIKE_SELF))
QUESTION(is_absolute, IS_ABSOLUTE)
QUESTION(has_root, HAS_ROOT)
QUESTION(is_valid, IS_VALID)
QUESTION(is_portable, IS_PORTABLE)
QUESTION(may_be_device, MAY_BE_DEVICE)
QUESTION(keeps_prefix, KEEPS_PREFIX)
OF_PATH(_check, PyLong_FromUnsignedLong(typed_path_check(path->dialect, text.at, text.len)))
OF_PATH(_check_portable, PyLong_FromUnsignedLong(typed_path_check_portable(path->dialect, text.at, text.len)))
CHECKED(join_checked, TYPED_PATH_STATUS_INVALID_FILENAME)
CHECKED(join_portable, TYPED_PATH_STATUS_NOT_TEXT)
CHECKED(resolve_checked, TYPED_PATH_STATUS_INVALID_FILENAME)
OF_OTHER(_with_file_name, put_other(typed_path_with_file_name, path->dialect, &text, &other, LIKE_SELF, from))
OF_OTHER(_absolutize, put_other(typed_path_absolutize, path->dialect, &text, &other, LIKE_SELF, self))

/* From a directory of Windows. */
static uint32_t absolutize_in_windows(
    uint32_t dialect, const char *path, size_t path_len, const char *directory, size_t directory_len, char *out,
    size_t out_size, size_t *len)
{
    return typed_path_absolutize_from(
        dialect, path, path_len, TYPED_PATH_WINDOWS, directory, directory_len, out, out_size, len);
}
OF_OTHER(
    _absolutize_in_windows, put_other(absolutize_in_windows, path->dialect, &text, &other, LIKE_SELF, self))
OF_OTHER(is_within, asked_other(typed_path_is_within, path->dialect, &text, &other))
OF_OTHER(starts_with, asked_other(typed_path_starts_with, path->dialect, &text, &other))
OF_OTHER(ends_with, asked_other(typed_path_ends_with, path->dialect, &text, &other))
OF_OTHER(eq_ignore_ascii_case, asked_other(typed_path_equal_ignore_ascii_case, path->dialect, &text, &other))
OF_OTHER(
    starts_with_ignore_ascii_case,
    asked_other(typed_path_starts_with_ignore_ascii_case, path->dialect, &text, &other))
OF_PATH(to_ascii_lowercase, put(typed_path_to_ascii_lowercase, path->dialect, &text, LIKE_SELF))

/* The path that a span is, of the class of this one. */
static PyObject *lent(Path *path, typed_path_span span)
{
    if (span.length < path->len)
        return like_of(path, PyBytes_FromStringAndSize(path->at + span.start, (Py_ssize_t)span.length));
    if (path->hands_on)
        return like_of(path, path_get_bytes((PyObject *)path, NULL));
    Path *same = blank(path);
    if (same) {
        Py_XINCREF(path->text);
        Py_XINCREF(path->bytes);
        same->at = path->at;
        same->len = path->len;
        same->text = path->text;
        same->bytes = path->bytes;
    }
    return (PyObject *)same;
}

static PyObject *spanned(Path *path, uint32_t status, typed_path_span span)
{
    if (!is_part(status))
        span = (typed_path_span){0, 0};
    return lent(path, span);
}

static PyObject *path_simplified(PyObject *self, PyObject *unused)
{
    READ_SELF(text);
    typed_path_span span = {0, 0};
    uint32_t status = typed_path_simplified(path->dialect, text.at, text.len, &span);
    return spanned(path, status, span);
}

static PyObject *common_with(Path *path, const Text *text, const Text *other)
{
    typed_path_span span = {0, 0};
    uint32_t status =
        typed_path_common_ancestor(path->dialect, text->at, text->len, other->at, other->len, &span);
    return spanned(path, status, span);
}
OF_OTHER(common_ancestor, common_with(path, &text, &other))

static PyObject *stripped(Path *path, const Text *text, const Text *other, PyObject *from)
{
    typed_path_span span;
    if (!is_part(typed_path_strip_prefix(path->dialect, text->at, text->len, other->at, other->len, &span)))
        return raised("not_a_beginning", "(OO)", path, from);
    return lent(path, span);
}
OF_OTHER(strip_prefix, stripped(path, &text, &other, from))
OF_OTHER(_read, PyBytes_FromStringAndSize(other.at, (Py_ssize_t)other.len))

static PyObject *path__text(PyObject *self, PyObject *from)
{
    Text text;
    return read_bytes(from, &text) ? decoded(((Path *)self)->dialect, text.at, text.len) : NULL;
}

static PyObject *path__like(PyObject *self, PyObject *from)
{
    Text text;
    if (!read_bytes(from, &text))
        return NULL;
    Py_INCREF(from);
    return like_of((Path *)self, from);
}

/* The path with others pushed onto it one by one. */
static PyObject *joined(Path *path, PyObject *const *others, Py_ssize_t count)
{
    PyObject *made = (PyObject *)path;
    Py_INCREF(made);
    for (Py_ssize_t at = 0; made && at < count; ++at) {
        Path *onto = as_path(made); /* with_segments may make what it likes */
        Text text, other;
        PyObject *next = NULL;
        if (!onto)
            PyErr_SetString(PyExc_TypeError, "with_segments has to make a path");
        else if (read_path(onto, &text) && read_text(onto->dialect, others[at], &other)) {
            next = put_other(typed_path_join, onto->dialect, &text, &other, (Made){onto, false}, others[at]);
            Py_XDECREF(other.held);
        }
        Py_DECREF(made);
        made = next;
    }
    return made;
}

static PyObject *path_join(PyObject *self, PyObject *const *others, Py_ssize_t count)
{
    return joined((Path *)self, others, count);
}

/* The one word of a call that may have `walk_up` behind it. */
static PyObject *base_of(PyObject *const *words, Py_ssize_t count, PyObject *names, bool *walks_up)
{
    Py_ssize_t named = names ? PyTuple_Size(names) : 0;
    *walks_up = false;
    if (count != 1 || named > 1 ||
        (named == 1 && PyUnicode_CompareWithASCIIString(PyTuple_GetItem(names, 0), "walk_up") != 0)) {
        PyErr_SetString(PyExc_TypeError, "it takes one base, and walk_up by its name");
        return NULL;
    }
    if (named == 1) {
        int walks = PyObject_IsTrue(words[1]);
        if (walks < 0)
            return NULL;
        *walks_up = walks;
    }
    return words[0];
}

static PyObject *path_relative_to(PyObject *self, PyObject *const *words, Py_ssize_t count, PyObject *names)
{
    PyObject *const unused = NULL;
    READ_SELF(text);
    bool walks_up;
    Text base;
    PyObject *from = base_of(words, count, names, &walks_up);
    if (!from || !read_text(path->dialect, from, &base))
        return NULL;
    PyObject *answer = put_relative(path->dialect, &text, &base, LIKE_SELF, self, from, walks_up);
    Py_XDECREF(base.held);
    return answer;
}

/* Whether a path of names alone, or of none, leads from the base to this path. */
static PyObject *below(Path *path, const Text *text, const Text *base)
{
    char room[ROOM];
    size_t size = TYPED_PATH_RELATIVE_BOUND(text->len, base->len), len;
    char *out = room_of(room, size);
    if (!out)
        return NULL;
    uint32_t status =
        typed_path_relative_to(path->dialect, text->at, text->len, base->at, base->len, out, size, &len);
    bool is_below = status == TYPED_PATH_STATUS_DONE && !leads_up(path->dialect, out, len);
    freed(out, room);
    if (status == TYPED_PATH_STATUS_OUT_OF_MEMORY)
        return PyErr_NoMemory();
    return PyBool_FromLong(is_below);
}
OF_OTHER(is_relative_to, below(path, &text, &other))

/* The bytes of the path as they are written in another dialect. */
static PyObject *path__convert(PyObject *self, PyObject *const *words, Py_ssize_t count)
{
    PyObject *const unused = NULL;
    READ_SELF(text);
    if (count != 2)
        return PyErr_Format(PyExc_TypeError, "it takes a dialect, and whether it checks");
    unsigned long to = PyLong_AsUnsignedLong(words[0]);
    int checks = PyObject_IsTrue(words[1]);
    if (checks < 0 || PyErr_Occurred())
        return NULL;
    char room[ROOM];
    size_t size = TYPED_PATH_CONVERT_BOUND(text.len), len;
    char *out = room_of(room, size);
    if (!out)
        return NULL;
    uint32_t status = (checks ? typed_path_convert_checked : typed_path_convert)(
        path->dialect, text.at, text.len, (uint32_t)to, out, size, &len);
    PyObject *answer = NULL;
    if (status == TYPED_PATH_STATUS_DONE)
        answer = PyBytes_FromStringAndSize(out, (Py_ssize_t)len);
    else if (status == TYPED_PATH_STATUS_OUT_OF_MEMORY)
        PyErr_NoMemory();
    else
        raised(
            "failed", "(kOky#kO)", (unsigned long)status, self, (unsigned long)path->dialect, text.at, (Py_ssize_t)text.len,
            to, Py_None);
    freed(out, room);
    return answer;
}

/* The kind, the first byte and the number of bytes of each component. */
static PyObject *path__pieces(PyObject *self, PyObject *unused)
{
    READ_SELF(text);
    typed_path_reading reading = reading_of(&text);
    typed_path_component piece;
    PyObject *list = PyList_New(0);
    bool is_whole = list;
    while (is_whole && is_next(path->dialect, &text, &reading, &piece))
        is_whole = is_put_behind(
            list, Py_BuildValue("(knn)", (unsigned long)piece.kind, (Py_ssize_t)piece.start, (Py_ssize_t)piece.length));
    if (is_whole)
        return list;
    Py_XDECREF(list);
    return NULL;
}

/* Whether bytes are read as one name, and are that. */
static bool is_name(uint32_t dialect, const Text *text)
{
    typed_path_reading reading = reading_of(text);
    typed_path_component piece;
    return is_next(dialect, text, &reading, &piece) && piece.kind == TYPED_PATH_KIND_NAME && piece.start == 0 &&
           piece.length == text->len;
}

static PyObject *path__is_name(PyObject *self, PyObject *from)
{
    Text text;
    return read_bytes(from, &text) ? PyBool_FromLong(is_name(((Path *)self)->dialect, &text)) : NULL;
}

/* Other extensions. */

/* Whether what was made of a path has the stem of that for its name, or there is neither. */
static bool is_stem_left(uint32_t dialect, const Text *path, const char *made, size_t made_len)
{
    typed_path_span name, stem;
    bool is_named = is_part(typed_path_file_name(dialect, made, made_len, &name));
    if (!is_part(typed_path_file_stem(dialect, path->at, path->len, &stem)))
        return !is_named;
    return is_named && name.length == stem.length && memcmp(made + name.start, path->at + stem.start, stem.length) == 0;
}

/* Raises the error that a function of _errors.py makes of a text and of what was handed in for it. */
static PyObject *raised_of(const char *function, uint32_t dialect, const char *at, size_t len, PyObject *from)
{
    PyObject *text = decoded(dialect, at, len);
    if (text)
        raised(function, "(OO)", text, from);
    Py_XDECREF(text);
    return NULL;
}

/* The path with another extension, or without one; `from` is what was handed in for it. */
static PyObject *extended(Path *path, const Text *text, const char *extension, size_t extension_len, PyObject *from)
{
    char room[ROOM];
    size_t size = TYPED_PATH_EXTENSION_BOUND(text->len, extension_len), len;
    char *out = room_of(room, size);
    if (!out)
        return NULL;
    memcpy(out, "a.", 2);
    if (extension_len)
        memcpy(out + 2, extension, extension_len);
    bool is_extension = is_name(path->dialect, &(Text){out, extension_len + 2, NULL, false});
    uint32_t status = typed_path_with_extension(
        path->dialect, text->at, text->len, extension, extension_len, out, size, &len);
    PyObject *answer;
    if (!is_extension)
        answer = raised_of("not_an_extension", path->dialect, extension, extension_len, from);
    else if (status != TYPED_PATH_STATUS_DONE)
        answer = failed(status, Py_None, path->dialect, text, NULL);
    else if (!extension_len && !is_stem_left(path->dialect, text, out, len))
        answer = raised("not_a_name_without", "(O)", path);
    else
        answer = made_of(LIKE_SELF, path->dialect, out, len);
    freed(out, room);
    return answer;
}

/* The one word of a call, which may be handed in by this name. */
static PyObject *word_of(PyObject *const *words, Py_ssize_t count, PyObject *names, const char *name)
{
    Py_ssize_t named = names ? PyTuple_Size(names) : 0;
    if (count + named == 1 && (!named || PyUnicode_CompareWithASCIIString(PyTuple_GetItem(names, 0), name) == 0))
        return words[0];
    return PyErr_Format(PyExc_TypeError, "it takes one text, the %s", name);
}

static PyObject *path_with_extension(PyObject *self, PyObject *const *words, Py_ssize_t count, PyObject *names)
{
    PyObject *const unused = NULL;
    READ_SELF(text);
    Text extension;
    PyObject *from = word_of(words, count, names, "extension");
    if (!from || !read_text(path->dialect, from, &extension))
        return NULL;
    PyObject *answer = extended(path, &text, extension.at, extension.len, from);
    Py_XDECREF(extension.held);
    return answer;
}

/* A suffix has its dot at the front, and more behind that, or is empty. */
static PyObject *path_with_suffix(PyObject *self, PyObject *const *words, Py_ssize_t count, PyObject *names)
{
    PyObject *const unused = NULL;
    READ_SELF(text);
    Text suffix;
    typed_path_span name;
    PyObject *answer, *from = word_of(words, count, names, "suffix");
    if (!from || !read_text(path->dialect, from, &suffix))
        return NULL;
    if (suffix.len == 1 || (suffix.len && *suffix.at != '.'))
        answer = raised_of("not_a_suffix", path->dialect, suffix.at, suffix.len, from);
    else if (!is_part(typed_path_file_name(path->dialect, text.at, text.len, &name)))
        answer = raised("no_name", "(O)", path);
    else
        answer = extended(path, &text, suffix.at + (suffix.len > 0), suffix.len - (suffix.len > 0), from);
    Py_XDECREF(suffix.held);
    return answer;
}

/* The text with each separator written `/`. */
static PyObject *path_as_posix(PyObject *self, PyObject *unused)
{
    READ_SELF(text);
    if (path->dialect == TYPED_PATH_UNIX || !memchr(text.at, '\\', text.len))
        return PyObject_Str(self);
    char room[ROOM];
    char *out = room_of(room, text.len);
    if (!out)
        return NULL;
    for (size_t at = 0; at < text.len; ++at)
        out[at] = text.at[at] == '\\' ? '/' : text.at[at];
    PyObject *answer = decoded(path->dialect, out, text.len);
    freed(out, room);
    return answer;
}

/* The properties of a path. */

#define PROPERTY(name, answer) \
    static PyObject *path_get_##name(PyObject *self, void *unused) \
    { \
        READ_SELF(text); \
        return answer; \
    }

static PyObject *part(Spans *call, Path *path, const Text *text, bool is_optional)
{
    typed_path_span span;
    if (is_part(call(path->dialect, text->at, text->len, &span)))
        return decoded_span(path, span);
    if (!is_optional)
        return PyUnicode_FromStringAndSize("", 0);
    Py_RETURN_NONE;
}
KEPT(name, part(typed_path_file_name, path, &text, false))
PROPERTY(stem, part(typed_path_file_stem, path, &text, false))
PROPERTY(extension, part(typed_path_extension, path, &text, true))

static PyObject *suffix(const Path *path, const Text *text)
{
    typed_path_span span;
    if (!is_part(typed_path_extension(path->dialect, text->at, text->len, &span)))
        return PyUnicode_FromStringAndSize("", 0);
    return decoded_span(path, (typed_path_span){span.start - 1, span.length + 1});
}
PROPERTY(suffix, suffix(path, &text))

static PyObject *suffixes(const Path *path, const Text *text)
{
    typed_path_span name;
    PyObject *list = PyList_New(0);
    if (!list || !is_part(typed_path_file_name(path->dialect, text->at, text->len, &name)))
        return list;
    const char *end = text->at + name.start + name.length;
    const char *dot = memchr(text->at + name.start + 1, '.', name.length - 1);
    while (dot) {
        const char *next = memchr(dot + 1, '.', (size_t)(end - dot - 1));
        if (!is_put_behind(list, decoded(path->dialect, dot, (size_t)((next ? next : end) - dot)))) {
            Py_DECREF(list);
            return NULL;
        }
        dot = next;
    }
    return list;
}
PROPERTY(suffixes, suffixes(path, &text))

/* Reads the prefix and the root behind it, unless they were read before. The length of a prefix is kept if it has room. */
static inline bool read_anchor(Path *path, size_t *prefix, bool *has_root)
{
    fetch_later(path);
    *prefix = path->prefix;
    *has_root = path->answers & ANCHOR;
    if (path->asked & ANCHOR)
        return true;
    Text text;
    if (!read_path(path, &text))
        return false;
    *prefix = anchor_of(path->dialect, &text, has_root);
    if (*prefix <= UINT32_MAX) {
        path->prefix = (uint32_t)*prefix;
        path->asked |= ANCHOR;
        path->answers |= *has_root ? ANCHOR : 0;
    }
    return true;
}

static PyObject *path_get_drive(PyObject *self, void *unused)
{
    Path *path = (Path *)self;
    size_t prefix;
    bool has_root;
    (void)unused;
    return read_anchor(path, &prefix, &has_root) ? anchored(path->dialect, path->at, prefix, false) : NULL;
}

/* Which paths have a root is in no order, so no branch hangs on it. */
static PyObject *path_get_root(PyObject *self, void *unused)
{
    Path *path = (Path *)self;
    size_t prefix;
    bool has_root;
    (void)unused;
    if (!read_anchor(path, &prefix, &has_root))
        return NULL;
    if (atomic_load_explicit(&are_roots_shared, memory_order_relaxed))
        return again(roots[path->dialect][has_root]);
    return root_of(path->dialect, has_root);
}

static PyObject *path_get_anchor(PyObject *self, void *unused)
{
    Path *path = (Path *)self;
    size_t prefix;
    bool has_root;
    (void)unused;
    return read_anchor(path, &prefix, &has_root) ? anchored(path->dialect, path->at, prefix, has_root) : NULL;
}

static PyObject *parent(Path *path, const Text *text)
{
    typed_path_span span;
    if (is_part(typed_path_parent(path->dialect, text->at, text->len, &span)))
        return lent(path, span);
    Py_INCREF(path);
    return (PyObject *)path;
}
PROPERTY(parent, parent(path, &text))

static PyObject *parents(Path *path, Text rest)
{
    typed_path_span span;
    PyObject *list = PyList_New(0);
    bool is_whole = list;
    while (is_whole && is_part(typed_path_parent(path->dialect, rest.at, rest.len, &span))) {
        rest = (Text){rest.at + span.start, span.length, NULL, false};
        is_whole = is_put_behind(list, like_of(path, PyBytes_FromStringAndSize(rest.at, (Py_ssize_t)rest.len)));
    }
    return tuple_of(list, is_whole);
}
PROPERTY(parents, parents(path, text))

KEPT(parts, parts_of(Py_TYPE(self), path->dialect, &text))

/* What Python asks of each object. */

static PyObject *path_str(PyObject *self)
{
    return path_get_text(self, NULL);
}

static PyObject *path___fspath__(PyObject *self, PyObject *unused)
{
    READ_SELF(text);
    return is_utf8[TYPED_PATH_UNIX] ? path_str(self) : PyUnicode_DecodeFSDefaultAndSize(text.at, (Py_ssize_t)text.len);
}

static PyObject *path___bytes__(PyObject *self, PyObject *unused)
{
    return path_get_bytes(self, unused);
}

static Py_hash_t path_hash(PyObject *self)
{
    Path *path = (Path *)self;
    Text text;
    uint64_t number;
    fetch_later(path);
    if (path->hash)
        return path->hash;
    if (!read_path(path, &text))
        return -1;
    if (typed_path_hash_keyed(path->dialect, key[0], key[1], text.at, text.len, &number) != TYPED_PATH_STATUS_DONE) {
        PyErr_SetString(PyExc_RuntimeError, "a path has no hash");
        return -1;
    }
    number ^= path->dialect * UINT64_C(0x9e3779b97f4a7c15);
    path->hash = (Py_hash_t)number;
    if (path->hash == 0 || path->hash == -1)
        path->hash = -2;
    return path->hash;
}

static PyObject *path_compared(PyObject *self, PyObject *from, int how)
{
    Path *path = (Path *)self, *other = Py_TYPE(self) == Py_TYPE(from) ? (Path *)from : as_path(from);
    Text text, others;
    if (!other || other->dialect != path->dialect)
        Py_RETURN_NOTIMPLEMENTED;
    if (!read_path(path, &text) || !read_path(other, &others))
        return NULL;
    if (how == Py_EQ || how == Py_NE) {
        bool are_equal = text.len == others.len && memcmp(text.at, others.at, text.len) == 0;
        uint32_t status = are_equal ? TYPED_PATH_STATUS_DONE
                                    : typed_path_equal(path->dialect, text.at, text.len, others.at, others.len, &are_equal);
        if (status != TYPED_PATH_STATUS_DONE)
            return failed(status, self, path->dialect, &text, NULL);
        return PyBool_FromLong(are_equal == (how == Py_EQ));
    }
    int32_t order = 0;
    uint32_t status = typed_path_compare(path->dialect, text.at, text.len, others.at, others.len, &order);
    if (status != TYPED_PATH_STATUS_DONE)
        return failed(status, self, path->dialect, &text, NULL);
    bool holds = how == Py_LT ? order < 0 : how == Py_LE ? order <= 0 : how == Py_GT ? order > 0 : order >= 0;
    return PyBool_FromLong(holds);
}

static bool is_text(PyObject *from)
{
    return is_str(from) || PyBytes_Check(from);
}

/* Whether an object has a text, as os.fspath takes it. */
static bool is_path_like(PyObject *from)
{
    return PyObject_HasAttrString((PyObject *)Py_TYPE(from), "__fspath__");
}

static PyObject *path_divided(PyObject *left, PyObject *right)
{
    Path *path = is_text(left) ? NULL : as_path(left);
    if (path) {
        if (!is_text(right) && !as_path(right) && !is_path_like(right))
            Py_RETURN_NOTIMPLEMENTED;
        return joined(path, &right, 1);
    }
    path = as_path(right);
    if (!path || (!is_text(left) && !is_path_like(left)))
        Py_RETURN_NOTIMPLEMENTED;
    Text text, base;
    if (!read_path(path, &text) || !read_text(path->dialect, left, &base))
        return NULL;
    PyObject *answer = put_other(typed_path_join, path->dialect, &base, &text, LIKE_SELF, right);
    Py_XDECREF(base.held);
    return answer;
}

/* How paths are made, and end. */

/* Whether a class has a with_segments of its own; less than 0 where that cannot be asked. The two types of this module
   whose objects are made have but one between themselves and `object`. */
static int hands_on(PyTypeObject *type)
{
    PyTypeObject *above = PyType_GetSlot(type, Py_tp_base), *next = PyType_GetSlot(above, Py_tp_base);
    if (next == &PyBaseObject_Type)
        return 0;
    while (next != &PyBaseObject_Type) {
        above = next;
        next = PyType_GetSlot(above, Py_tp_base);
    }
    PyObject *own = PyObject_GetAttrString((PyObject *)type, "with_segments");
    PyObject *ours = PyObject_GetAttrString((PyObject *)above, "with_segments");
    int is_own = own && ours ? own != ours : -1;
    Py_XDECREF(own);
    Py_XDECREF(ours);
    return is_own;
}

static PyObject *new_of(PyTypeObject *type, uint32_t dialect)
{
    int hands = hands_on(type);
    Path *path = hands < 0 ? NULL : (Path *)PyType_GenericAlloc(type, 0);
    if (path) {
        path->dialect = dialect;
        path->hands_on = hands;
    }
    return (PyObject *)path;
}

static PyObject *unix_new(PyTypeObject *type, PyObject *args, PyObject *named)
{
    (void)args;
    (void)named;
    return new_of(type, TYPED_PATH_UNIX);
}

static PyObject *windows_new(PyTypeObject *type, PyObject *args, PyObject *named)
{
    (void)args;
    (void)named;
    return new_of(type, TYPED_PATH_WINDOWS);
}

static PyObject *path_new(PyTypeObject *type, PyObject *args, PyObject *named)
{
    (void)type;
    (void)args;
    (void)named;
    return PyErr_Format(PyExc_TypeError, "a path is a UnixPath or a WindowsPath");
}

/* The bytes of a text with those behind it pushed onto it one by one. */
static PyObject *pushed(uint32_t dialect, Text text, PyObject *args)
{
    PyObject *bytes = NULL;
    for (Py_ssize_t at = 1; at < PyTuple_Size(args); ++at) {
        Text other;
        PyObject *next = NULL;
        if (read_text(dialect, PyTuple_GetItem(args, at), &other)) {
            next = put_other(typed_path_join, dialect, &text, &other, (Made){NULL, true}, Py_None);
            Py_XDECREF(other.held);
        }
        Py_XDECREF(bytes);
        bytes = next;
        if (!bytes || !read_bytes(bytes, &text))
            break;
    }
    return bytes;
}

/* Gives a path its bytes: those of the first text, with the others pushed onto it. */
static bool is_filled_from(Path *path, PyObject *args)
{
    Py_ssize_t count = PyTuple_Size(args);
    Text text = {"", 0, NULL, false};
    PyObject *from = count ? PyTuple_GetItem(args, 0) : NULL, *bytes = NULL;
    if (from && !read_text(path->dialect, from, &text))
        return false;
    bool is_of_str = count == 1 && PyUnicode_CheckExact(from) && !text.held, is_filled = true;
    if (count > 1)
        bytes = pushed(path->dialect, text, args);
    else if (!is_of_str)
        bytes = from && PyBytes_CheckExact(from) ? again(from) : PyBytes_FromStringAndSize(text.at, (Py_ssize_t)text.len);
    if (path->at) { /* while a text was read, __init__ was called */
        Py_XDECREF(bytes);
    } else if (is_of_str) {
        path->text = again(from);
        path->at = text.at;
        path->len = text.len;
    } else {
        is_filled = holds(path, bytes);
    }
    Py_XDECREF(text.held);
    return is_filled;
}

static int path_init(PyObject *self, PyObject *args, PyObject *named)
{
    Path *path = (Path *)self;
    if (path->at)
        return 0;
    if (named && PyDict_Size(named) > 0) {
        PyErr_SetString(PyExc_TypeError, "a path is made of texts alone, none by a name");
        return -1;
    }
    return is_filled_from(path, args) ? 0 : -1;
}

static PyObject *path_with_segments(PyObject *self, PyObject *args)
{
    Path *like = (Path *)self, *path = blank(like);
    if (path) {
        path->hands_on = like->hands_on;
        if (!is_filled_from(path, args))
            Py_CLEAR(path);
    }
    return (PyObject *)path;
}

static PyObject *path__of(PyObject *type, PyObject *from)
{
    newfunc make = maker_of((PyTypeObject *)type);
    Text text;
    if (!read_bytes(from, &text))
        return NULL;
    Path *path = (Path *)(make ? make : path_new)((PyTypeObject *)type, NULL, NULL);
    Py_INCREF(from);
    return filled(path, from);
}

static void path_dealloc(PyObject *self)
{
    Path *path = (Path *)self;
    PyTypeObject *type = Py_TYPE(self);
    Py_XDECREF(path->bytes);
    Py_XDECREF(path->text);
    Py_XDECREF(path->parts);
    Py_XDECREF(path->name);
    ((freefunc)PyType_GetSlot(type, Py_tp_free))(self);
    Py_DECREF(type);
}

/* A path never changes; a class below may have attributes. */
static int path_setattro(PyObject *self, PyObject *name, PyObject *value)
{
    if (PyUnicode_Check(name) && PyUnicode_CompareWithASCIIString(name, "__class__") == 0) {
        PyErr_Format(PyExc_AttributeError, "%R never changes", self);
        return -1;
    }
    return PyObject_GenericSetAttr(self, name, value);
}

/* Many joins at once. */

/* A name, which it holds; once that was joined, `at` and `len` are its target's. */
typedef struct {
    PyObject *name;
    const char *at;
    size_t len;
    uint32_t status;
} Item;

/* A batch, and the run of names that is joined at once. Its targets go into a list, as paths or as the names are, or
   into a buffer, each with an end behind it; what a name was refused for is noted by its place. */
typedef struct {
    Path *base;
    PutsOther *call;
    uint32_t unwritten; /* what a str without bytes is refused for */
    PyObject *targets;  /* a list, NULL for a buffer */
    PyObject *refused;
    bool as_paths;
    char *buffer;
    size_t buffer_size, used;
    Text end;
    Item *items;    /* the names of the run */
    PyObject *held; /* a list of what their bytes are read from besides; NULL where that is nothing */
    size_t count, room;
    size_t size;   /* the bytes that the targets of the run take at most */
    size_t before; /* how many names stand before the run */
    int are_bytes; /* whether the names are bytes; less than 0 before the first one */
    bool is_mixed; /* whether targets were met that are not ASCII */
} Batch;

/* Where a target stands in memory of the batch's own: at a word, as Python reads text fastest. */
static inline size_t aligned(size_t at)
{
    return (at + WORD - 1) / WORD * WORD;
}

/* Lets go of the names of the run. */
static void forget_run(Batch *batch)
{
    for (size_t at = 0; at < batch->count; ++at)
        Py_DECREF(batch->items[at].name);
    Py_CLEAR(batch->held);
    batch->before += batch->count;
    batch->count = batch->size = 0;
}

/* Makes room for so many names in the run. */
static bool has_room(Batch *batch, size_t count)
{
    if (count <= batch->room)
        return true;
    size_t room = count < 2 * batch->room ? 2 * batch->room : count < 64 ? 64 : count;
    Item *items = PyMem_Realloc(batch->items, room * sizeof *items);
    if (!items) {
        PyErr_NoMemory();
        return false;
    }
    batch->items = items;
    batch->room = room;
    return true;
}

/* Reads the bytes of a name, which is a str or bytes as the first one is. */
static bool read_name(Batch *batch, Item *item)
{
    PyObject *name = item->name;
    bool is_bytes = !is_str(name);
    if ((is_bytes && !PyBytes_Check(name)) || (batch->are_bytes >= 0 && batch->are_bytes != is_bytes)) {
        PyErr_SetString(PyExc_TypeError, "names have to be all str, or all bytes");
        return false;
    }
    batch->are_bytes = is_bytes;
    Text text = {"", 0, NULL, is_bytes};
    bool is_read = is_bytes ? read_bytes(name, &text) : read_str(batch->base->dialect, name, &text);
    *item = (Item){name, text.at, text.len, TYPED_PATH_STATUS_DONE};
    if (text.held && !batch->held) {
        batch->held = PyList_New(0);
        /* No one else finds it, as by `gc`, while the lock of Python is let go. */
        if (batch->held)
            PyObject_GC_UnTrack(batch->held);
    }
    if (text.held) {
        is_read = batch->held && PyList_Append(batch->held, text.held) == 0;
        Py_DECREF(text.held);
    }
    if (is_read)
        return true;
    if (!PyErr_ExceptionMatches(PyExc_UnicodeEncodeError))
        return false;
    PyErr_Clear();
    *item = (Item){name, "", 0, batch->unwritten};
    return true;
}

/* Reads a name that is held. Most are a str behind others. */
static inline bool is_taken(Batch *batch, Item *item)
{
    Py_ssize_t len;
    if (batch->are_bytes != 0 || !PyUnicode_CheckExact(item->name) || !is_utf8[batch->base->dialect])
        return read_name(batch, item);
    const char *at = PyUnicode_AsUTF8AndSize(item->name, &len);
    if (!at) {
        PyErr_Clear();
        return read_name(batch, item);
    }
    *item = (Item){item->name, at, (size_t)len, TYPED_PATH_STATUS_DONE};
    return true;
}

/* Takes a run of names from a list, a tuple or an iterator; less than 0 for an error, 0 if there are no more behind it. */
static int take_run(Batch *batch, PyObject *names)
{
    const bool is_list = PyList_CheckExact(names), is_tuple = PyTuple_CheckExact(names);
    const Py_ssize_t before = (Py_ssize_t)batch->before;
    size_t most = NAMES_AT_ONCE, count = 0, len = 0;
    if (is_list || is_tuple) {
        Py_ssize_t left = (is_list ? PyList_Size(names) : PyTuple_Size(names)) - before;
        most = left < 0 ? 0 : left < NAMES_AT_ONCE ? (size_t)left : NAMES_AT_ONCE;
        if (!has_room(batch, most))
            return -1;
    }
    while (count < most) {
        Py_ssize_t at = before + (Py_ssize_t)count;
        PyObject *name = is_list ? PyList_GetItem(names, at) : is_tuple ? PyTuple_GetItem(names, at) : PyIter_Next(names);
        if (is_list || is_tuple)
            Py_XINCREF(name);
        if (!name || !has_room(batch, count + 1)) {
            Py_XDECREF(name);
            break;
        }
        Item *item = &batch->items[count++];
        item->name = name;
        if (!is_taken(batch, item))
            break;
        len += item->len;
    }
    batch->count = count;
    batch->size = len + count * aligned(TYPED_PATH_RESOLVE_BOUND(batch->base->len, WORD) + batch->end.len);
    return PyErr_Occurred() ? -1 : count == NAMES_AT_ONCE;
}

/* Joins the names of the run. Their targets stand behind each other in `out`, from `used` on; those of a list at words,
   with zeros between, and a word of these behind. The place is that of the first name that has no room or no memory, whose
   status is returned. */
static inline uint32_t join_names(Batch *batch, char *out, size_t size, size_t *place, bool are_listed)
{
    const Path *base = batch->base;
    const Text end = batch->end;
    Item *const items = batch->items;
    const size_t count = batch->count;
    size_t used = batch->used, len = 0;
    uint32_t status = TYPED_PATH_STATUS_DONE;
    for (size_t at = 0; at < count; ++at) {
        Item *item = &items[at];
        size_t start = used;
        if (are_listed) {
            memset(out + used, 0, WORD);
            start = aligned(used);
        }
        status = item->status;
        if (status == TYPED_PATH_STATUS_DONE)
            status = batch->call(
                base->dialect, base->at, base->len, item->at, item->len, out + start, size - start, &len);
        if (status == TYPED_PATH_STATUS_DONE) {
            used = start + len;
            if (!are_listed && size - used < end.len)
                status = TYPED_PATH_STATUS_TOO_SMALL;
            else if (!are_listed) {
                memcpy(out + used, end.at, end.len);
                used += end.len;
            }
        }
        if (status == TYPED_PATH_STATUS_TOO_SMALL || status == TYPED_PATH_STATUS_OUT_OF_MEMORY) {
            *place = at;
            break;
        }
        item->at = out + start;
        item->len = len;
        item->status = status;
        status = TYPED_PATH_STATUS_DONE;
    }
    if (are_listed)
        memset(out + used, 0, WORD);
    batch->used = used;
    return status;
}

/* The same without the lock of Python. */
static uint32_t join_run(Batch *batch, char *out, size_t size, size_t *place)
{
    PyThreadState *lock = PyEval_SaveThread();
    uint32_t status = batch->targets ? join_names(batch, out, size, place, true) : join_names(batch, out, size, place, false);
    PyEval_RestoreThread(lock);
    return status;
}

/* Notes the status of each name of the run that was refused. */
static bool is_run_noted(const Batch *batch)
{
    bool is_noted = true;
    for (size_t at = 0; is_noted && at < batch->count; ++at)
        if (batch->items[at].status != TYPED_PATH_STATUS_DONE) {
            PyObject *place = PyLong_FromSize_t(batch->before + at);
            PyObject *status = PyLong_FromUnsignedLong(batch->items[at].status);
            is_noted = place && status && PyDict_SetItem(batch->refused, place, status) == 0;
            Py_XDECREF(place);
            Py_XDECREF(status);
        }
    return is_noted;
}

static bool are_ascii(const char *at, const char *end)
{
    uint64_t all = 0, word;
    for (; at < end; at += WORD) {
        memcpy(&word, at, WORD);
        all |= word;
    }
    return !(all & UINT64_C(0x8080808080808080));
}

/* The targets of some items as one text, with what stands between them, if they are ASCII. They are looked at before only
   if others were not. */
static PyObject *whole_text(Batch *batch, const char *begin, const char *end)
{
    if (batch->is_mixed && !are_ascii(begin, end))
        return NULL;
    PyObject *text = PyUnicode_DecodeASCII(begin, end - begin, "strict");
    if (!text && PyErr_ExceptionMatches(PyExc_UnicodeDecodeError)) {
        PyErr_Clear();
        batch->is_mixed = true;
    }
    return text;
}

/* Puts the targets of some items into a list: None for a name that was refused. Python cuts a text of ASCII without a look
   at its letters, in two thirds of the time that it takes to make one of bytes. */
static bool are_put(Batch *batch, size_t place, size_t behind, const char *end, PyObject *targets)
{
    const Item *const items = batch->items;
    const char *begin = items[place].at;
    Made made = {batch->as_paths ? batch->base : NULL, batch->are_bytes > 0};
    PyObject *whole = made.like || made.is_bytes || !is_utf8[batch->base->dialect] ? NULL : whole_text(batch, begin, end);
    bool are_whole = !PyErr_Occurred();
    for (size_t at = place; are_whole && at < behind; ++at) {
        const Item *item = &items[at];
        PyObject *target;
        if (item->status != TYPED_PATH_STATUS_DONE)
            target = again(Py_None);
        else if (whole)
            target = PyUnicode_Substring(whole, item->at - begin, item->at - begin + (Py_ssize_t)item->len);
        else
            target = made_of(made, batch->base->dialect, item->at, item->len);
        are_whole = target && PyList_SetItem(targets, (Py_ssize_t)at, target) == 0;
    }
    Py_XDECREF(whole);
    return are_whole;
}

/* The targets of the run. */
static PyObject *targets_of(Batch *batch, const char *out)
{
    PyObject *targets = PyList_New((Py_ssize_t)batch->count);
    for (size_t place = 0; targets && place < batch->count; place += TEXTS_AT_ONCE) {
        bool is_last = batch->count - place <= TEXTS_AT_ONCE;
        size_t behind = is_last ? batch->count : place + TEXTS_AT_ONCE;
        const char *end = is_last ? out + aligned(batch->used) : batch->items[behind].at;
        if (!are_put(batch, place, behind, end, targets))
            Py_CLEAR(targets);
    }
    return targets;
}

/* Puts the targets of the run behind those that are listed. */
static bool is_run_listed(Batch *batch, const char *out)
{
    PyObject *targets = targets_of(batch, out);
    if (!targets)
        return false;
    if (!batch->before) {
        Py_DECREF(batch->targets);
        batch->targets = targets;
        return true;
    }
    Py_ssize_t end = PyList_Size(batch->targets);
    bool is_listed = PyList_SetSlice(batch->targets, end, end, targets) == 0;
    Py_DECREF(targets);
    return is_listed;
}

/* Joins the run, and hands its targets on. */
static bool is_run_done(Batch *batch)
{
    size_t size = batch->size + WORD;
    char *own = batch->targets ? PyMem_Malloc(size) : NULL;
    if (batch->targets && !own) {
        PyErr_NoMemory();
        return false;
    }
    size_t place = 0;
    if (own)
        batch->used = 0;
    uint32_t status = own ? join_run(batch, own, size, &place)
                          : join_run(batch, batch->buffer, batch->buffer_size, &place);
    bool is_done = status == TYPED_PATH_STATUS_DONE && is_run_noted(batch) && (!own || is_run_listed(batch, own));
    if (status == TYPED_PATH_STATUS_OUT_OF_MEMORY)
        PyErr_NoMemory();
    else if (status == TYPED_PATH_STATUS_TOO_SMALL)
        raised("too_small", "(On)", batch->items[place].name, (Py_ssize_t)(batch->before + place));
    PyMem_Free(own);
    return is_done;
}

/* Joins all names, by a call of this number. */
static bool are_joined(Batch *batch, PyObject *number, PyObject *names)
{
    static PutsOther *const calls[] = {typed_path_join_checked, typed_path_join_portable, typed_path_resolve_checked};
    unsigned long which = PyLong_AsUnsignedLong(number);
    if (which >= sizeof calls / sizeof *calls) {
        if (!PyErr_Occurred())
            PyErr_SetString(PyExc_ValueError, "there is no such call");
        return false;
    }
    batch->call = calls[which];
    batch->unwritten = which == 1 ? TYPED_PATH_STATUS_NOT_TEXT : TYPED_PATH_STATUS_INVALID_FILENAME;
    batch->are_bytes = -1;
    bool are_listed = PyList_CheckExact(names) || PyTuple_CheckExact(names);
    PyObject *from = are_listed ? again(names) : PyObject_GetIter(names);
    int more = from ? 1 : -1;
    while (more > 0) {
        more = take_run(batch, from);
        if (more >= 0 && batch->count && !is_run_done(batch))
            more = -1;
        forget_run(batch);
    }
    PyMem_Free(batch->items);
    Py_XDECREF(from);
    return more == 0;
}

/* _batch(names, number, as_paths): the targets, and the statuses of those that were refused. */
static PyObject *path__batch(PyObject *self, PyObject *const *words, Py_ssize_t count)
{
    PyObject *const unused = NULL;
    READ_SELF(text);
    int as_paths = count == 3 ? PyObject_IsTrue(words[2]) : -1;
    if (as_paths < 0)
        return PyErr_Occurred() ? NULL : PyErr_Format(PyExc_TypeError, "it takes three words");
    Batch batch = {.base = path, .as_paths = as_paths, .end = {"", 0, NULL, false}};
    PyObject *answer = NULL;
    batch.targets = PyList_New(0);
    batch.refused = PyDict_New();
    if (batch.targets && batch.refused && are_joined(&batch, words[1], words[0]))
        answer = PyTuple_Pack(2, batch.targets, batch.refused);
    Py_XDECREF(batch.targets);
    Py_XDECREF(batch.refused);
    return answer;
}

/* _batch_into(names, number, buffer, end): how many bytes were written, and those statuses. */
static PyObject *path__batch_into(PyObject *self, PyObject *const *words, Py_ssize_t count)
{
    PyObject *const unused = NULL;
    READ_SELF(text);
    if (count != 4)
        return PyErr_Format(PyExc_TypeError, "it takes four words");
    Batch batch = {.base = path};
    Py_buffer into;
    if (!read_bytes(words[3], &batch.end) || PyObject_GetBuffer(words[2], &into, PyBUF_WRITABLE) < 0)
        return NULL;
    batch.buffer = into.buf;
    batch.buffer_size = (size_t)into.len;
    PyObject *answer = NULL;
    batch.refused = PyDict_New();
    if (batch.refused && are_joined(&batch, words[1], words[0]))
        answer = Py_BuildValue("(nO)", (Py_ssize_t)batch.used, batch.refused);
    Py_XDECREF(batch.refused);
    PyBuffer_Release(&into);
    return answer;
}

/* Calls of plain texts, which answer by a str or bytes as the first text is. */

static inline PyObject *text_put(Puts *call, uint32_t dialect, PyObject *from)
{
    Text text;
    if (!read_text(dialect, from, &text))
        return NULL;
    PyObject *answer = put(call, dialect, &text, (Made){NULL, text.is_bytes});
    Py_XDECREF(text.held);
    return answer;
}

static inline PyObject *text_asked(Asks *call, uint32_t dialect, PyObject *from)
{
    Text text;
    if (!read_text(dialect, from, &text))
        return NULL;
    PyObject *answer = asked(call, dialect, &text);
    Py_XDECREF(text.held);
    return answer;
}

/* Reads the two texts of a call. One that checks refuses a str without bytes by a status; that of another is 0. */
static inline bool read_both(
    uint32_t dialect, PyObject *const *words, Py_ssize_t count, Text *text, Text *other, uint32_t unwritten)
{
    if (count != 2) {
        PyErr_SetString(PyExc_TypeError, "it takes two texts");
        return false;
    }
    if (!read_text(dialect, words[0], text))
        return false;
    if (unwritten ? read_checked(dialect, words[1], other, unwritten) : read_text(dialect, words[1], other))
        return true;
    Py_XDECREF(text->held);
    return false;
}

static inline PyObject *text_put_other(
    PutsOther *call, uint32_t dialect, PyObject *const *words, Py_ssize_t count, uint32_t unwritten)
{
    Text text, other;
    if (!read_both(dialect, words, count, &text, &other, unwritten))
        return NULL;
    PyObject *answer = put_other(call, dialect, &text, &other, (Made){NULL, text.is_bytes}, words[1]);
    Py_XDECREF(text.held);
    Py_XDECREF(other.held);
    return answer;
}

static inline PyObject *text_asked_other(
    AsksOther *call, uint32_t dialect, PyObject *const *words, Py_ssize_t count, uint32_t unwritten)
{
    Text text, other;
    if (!read_both(dialect, words, count, &text, &other, unwritten))
        return NULL;
    PyObject *answer = asked_other(call, dialect, &text, &other);
    Py_XDECREF(text.held);
    Py_XDECREF(other.held);
    return answer;
}

#define OF_TEXT(sort, name) \
    static PyObject *unix_##name(PyObject *module, PyObject *from) \
    { \
        (void)module; \
        return text_##sort(typed_path_##name, TYPED_PATH_UNIX, from); \
    } \
    static PyObject *windows_##name(PyObject *module, PyObject *from) \
    { \
        (void)module; \
        return text_##sort(typed_path_##name, TYPED_PATH_WINDOWS, from); \
    }
#define OF_TEXTS(sort, name, unwritten) \
    static PyObject *unix_##name(PyObject *module, PyObject *const *words, Py_ssize_t count) \
    { \
        (void)module; \
        return text_##sort(typed_path_##name, TYPED_PATH_UNIX, words, count, unwritten); \
    } \
    static PyObject *windows_##name(PyObject *module, PyObject *const *words, Py_ssize_t count) \
    { \
        (void)module; \
        return text_##sort(typed_path_##name, TYPED_PATH_WINDOWS, words, count, unwritten); \
    }
OF_TEXT(put, normalize)
OF_TEXT(put, clean)
OF_TEXT(asked, is_absolute)
OF_TEXT(asked, is_valid)
OF_TEXT(asked, is_portable)
OF_TEXT(asked, may_be_device)
OF_TEXT(asked, keeps_prefix)
OF_TEXTS(put_other, join, 0)
OF_TEXTS(put_other, join_checked, TYPED_PATH_STATUS_INVALID_FILENAME)
OF_TEXTS(put_other, join_portable, TYPED_PATH_STATUS_NOT_TEXT)
OF_TEXTS(put_other, resolve_checked, TYPED_PATH_STATUS_INVALID_FILENAME)
OF_TEXTS(asked_other, is_within, 0)

/* What the module has. */

#define FAST(function) ((PyCFunction)(void (*)(void))(function))
#define ALONE(name, doc) {#name, path_##name, METH_NOARGS, doc}
#define WITH_ONE(name, doc) {#name, path_##name, METH_O, doc}
#define WITH_WORDS(name, doc) {#name, FAST(path_##name), METH_FASTCALL, doc}

static PyMethodDef path_methods[] = {
    {"with_segments", path_with_segments, METH_VARARGS, DOC_with_segments},
    {"_of", path__of, METH_O | METH_CLASS, NULL},
    ALONE(normalize, DOC_normalize),
    ALONE(clean, DOC_clean),
    ALONE(to_ascii_lowercase, DOC_to_ascii_lowercase),
    ALONE(simplified, DOC_simplified),
    ALONE(is_absolute, DOC_is_absolute),
    ALONE(has_root, DOC_has_root),
    ALONE(is_valid, DOC_is_valid),
    ALONE(is_portable, DOC_is_portable),
    ALONE(may_be_device, DOC_may_be_device),
    ALONE(keeps_prefix, DOC_keeps_prefix),
    ALONE(as_posix, DOC_as_posix),
    ALONE(_check, NULL),
    ALONE(_check_portable, NULL),
    ALONE(_pieces, NULL),
    ALONE(__bytes__, NULL),
    ALONE(__fspath__, NULL),
    WITH_ONE(join_checked, DOC_join_checked),
    WITH_ONE(join_portable, DOC_join_portable),
    WITH_ONE(resolve_checked, DOC_resolve_checked),
    WITH_ONE(is_within, DOC_is_within),
    WITH_ONE(starts_with, DOC_starts_with),
    WITH_ONE(ends_with, DOC_ends_with),
    WITH_ONE(eq_ignore_ascii_case, DOC_eq_ignore_ascii_case),
    WITH_ONE(starts_with_ignore_ascii_case, DOC_starts_with_ignore_ascii_case),
    WITH_ONE(is_relative_to, DOC_is_relative_to),
    WITH_ONE(common_ancestor, DOC_common_ancestor),
    WITH_ONE(strip_prefix, DOC_strip_prefix),
    WITH_ONE(_with_file_name, NULL),
    WITH_ONE(_absolutize, NULL),
    WITH_ONE(_absolutize_in_windows, NULL),
    WITH_ONE(_read, NULL),
    WITH_ONE(_is_name, NULL),
    WITH_ONE(_text, NULL),
    WITH_ONE(_like, NULL),
    WITH_WORDS(join, DOC_join),
    {"joinpath", FAST(path_join), METH_FASTCALL, DOC_joinpath},
    {"with_extension", FAST(path_with_extension), METH_FASTCALL | METH_KEYWORDS, DOC_with_extension},
    {"with_suffix", FAST(path_with_suffix), METH_FASTCALL | METH_KEYWORDS, DOC_with_suffix},
    {"relative_to", FAST(path_relative_to), METH_FASTCALL | METH_KEYWORDS, DOC_relative_to},
    WITH_WORDS(_convert, NULL),
    WITH_WORDS(_batch, NULL),
    WITH_WORDS(_batch_into, NULL),
    {NULL, NULL, 0, NULL},
};

#define GET(name, doc) {#name, path_get_##name, NULL, doc, NULL}

static PyGetSetDef path_properties[] = {
    GET(name, DOC_name),
    GET(stem, DOC_stem),
    GET(extension, DOC_extension),
    GET(suffix, DOC_suffix),
    GET(suffixes, DOC_suffixes),
    GET(drive, DOC_drive),
    GET(root, DOC_root),
    GET(anchor, DOC_anchor),
    GET(parent, DOC_parent),
    GET(parents, DOC_parents),
    GET(parts, DOC_parts),
    {"_bytes", path_get_bytes, NULL, NULL, NULL},
    {NULL, NULL, NULL, NULL, NULL},
};

static PyType_Slot path_slots[] = {
    {Py_tp_doc, DOC_TypedPath},
    {Py_tp_new, path_new},
    {Py_tp_init, path_init},
    {Py_tp_dealloc, path_dealloc},
    {Py_tp_setattro, path_setattro},
    {Py_tp_str, path_str},
    {Py_tp_hash, path_hash},
    {Py_tp_richcompare, path_compared},
    {Py_nb_true_divide, path_divided},
    {Py_tp_methods, path_methods},
    {Py_tp_getset, path_properties},
    {0, NULL},
};
/* What each of the two types has itself too, since Python calls what is of the very type of an object soonest: all but the
   first two, of which a class has its own or that above. */
#define OWN_METHODS (path_methods + 2)
static PyType_Slot unix_slots[] = {
    {Py_tp_doc, DOC_UnixPath}, {Py_tp_new, unix_new}, {Py_tp_dealloc, path_dealloc}, {Py_tp_methods, OWN_METHODS},
    {Py_tp_getset, path_properties}, {0, NULL}};
static PyType_Slot windows_slots[] = {
    {Py_tp_doc, DOC_WindowsPath}, {Py_tp_new, windows_new}, {Py_tp_dealloc, path_dealloc}, {Py_tp_methods, OWN_METHODS},
    {Py_tp_getset, path_properties}, {0, NULL}};

#define SPEC(name, slots) {"typed_path." name, sizeof(Path), 0, Py_TPFLAGS_DEFAULT | Py_TPFLAGS_BASETYPE, slots}

static PyType_Spec path_spec = SPEC("TypedPath", path_slots), unix_spec = SPEC("UnixPath", unix_slots),
                   windows_spec = SPEC("WindowsPath", windows_slots);

#define TEXT_CALLS(dialect) \
    { \
        {"normalize", dialect##_normalize, METH_O, DOC_TEXT_normalize}, \
        {"clean", dialect##_clean, METH_O, DOC_TEXT_clean}, \
        {"is_absolute", dialect##_is_absolute, METH_O, DOC_TEXT_is_absolute}, \
        {"is_valid", dialect##_is_valid, METH_O, DOC_TEXT_is_valid}, \
        {"is_portable", dialect##_is_portable, METH_O, DOC_TEXT_is_portable}, \
        {"may_be_device", dialect##_may_be_device, METH_O, DOC_TEXT_may_be_device}, \
        {"keeps_prefix", dialect##_keeps_prefix, METH_O, DOC_TEXT_keeps_prefix}, \
        {"join", FAST(dialect##_join), METH_FASTCALL, DOC_TEXT_join}, \
        {"join_checked", FAST(dialect##_join_checked), METH_FASTCALL, DOC_TEXT_join_checked}, \
        {"join_portable", FAST(dialect##_join_portable), METH_FASTCALL, DOC_TEXT_join_portable}, \
        {"resolve_checked", FAST(dialect##_resolve_checked), METH_FASTCALL, DOC_TEXT_resolve_checked}, \
        {"is_within", FAST(dialect##_is_within), METH_FASTCALL, DOC_TEXT_is_within}, \
        {NULL, NULL, 0, NULL}, \
    }

static PyMethodDef unix_calls[] = TEXT_CALLS(unix), windows_calls[] = TEXT_CALLS(windows);

/* derive(bytes): the number of the dialect. */
static PyObject *derive(PyObject *module, PyObject *from)
{
    Text text;
    (void)module;
    return read_bytes(from, &text) ? PyLong_FromUnsignedLong(typed_path_derive(text.at, text.len)) : NULL;
}

static PyMethodDef module_calls[] = {{"derive", derive, METH_O, NULL}, {NULL, NULL, 0, NULL}};

/* Hands a new object on to a module or a type, under a name. */
static bool is_added(PyObject *to, const char *name, PyObject *item)
{
    bool is_in = item && PyObject_SetAttrString(to, name, item) == 0;
    Py_XDECREF(item);
    return is_in;
}

static PyObject *calls_of(const char *name, PyMethodDef *calls)
{
    PyObject *module = PyModule_New(name);
    if (module && (PyModule_AddFunctions(module, calls) < 0 || PyModule_SetDocString(module, DOC_TEXT_Texts) < 0))
        Py_CLEAR(module);
    return module;
}

/* The type of a dialect. It tells its number and its separator to what is written in Python. */
static bool is_type_added(PyObject *module, const char *name, PyType_Spec *spec, PyObject *bases, uint32_t dialect)
{
    PyObject *type = PyType_FromSpecWithBases(spec, bases);
    bool is_whole = type && is_added(type, "_dialect", PyLong_FromUnsignedLong(dialect)) &&
                    is_added(type, "_separator", PyUnicode_FromString(separators[dialect]));
    if (is_whole)
        return is_added(module, name, type);
    Py_XDECREF(type);
    return false;
}

static bool are_types_added(PyObject *module)
{
    PyObject *path = PyType_FromSpec(&path_spec), *bases = path ? PyTuple_Pack(1, path) : NULL;
    bool are_added = bases && is_type_added(module, "UnixPath", &unix_spec, bases, TYPED_PATH_UNIX) &&
                     is_type_added(module, "WindowsPath", &windows_spec, bases, TYPED_PATH_WINDOWS);
    Py_XDECREF(bases);
    if (are_added)
        return is_added(module, "TypedPath", path);
    Py_XDECREF(path);
    return false;
}

/* Notes what text is encoded by, once, since it is one for each interpreter of a process. */
static bool are_noted_once(const char *unix_encoding, const char *windows_encoding, const char *how)
{
    static pthread_mutex_t lock = PTHREAD_MUTEX_INITIALIZER;
    size_t most = sizeof errors - 1;
    if (strlen(unix_encoding) > most || strlen(windows_encoding) > most || strlen(how) > most) {
        PyErr_SetString(PyExc_ImportError, "the encoding of names of files has too long a name");
        return false;
    }
    pthread_mutex_lock(&lock);
    if (!*errors) {
        strcpy(encodings[TYPED_PATH_UNIX], unix_encoding);
        strcpy(encodings[TYPED_PATH_WINDOWS], windows_encoding);
        for (size_t at = 0; at < 2; ++at)
            is_utf8[at] = strcmp(encodings[at], "utf-8") == 0;
        strcpy(errors, how);
    }
    pthread_mutex_unlock(&lock);
    return true;
}

static bool are_encodings_known(void)
{
    const char *names[2], *how;
    PyObject *module = PyImport_ImportModule("typed_path._errors");
    PyObject *encoded = module ? PyObject_CallMethod(module, "encoded_by", NULL) : NULL;
    bool are_known =
        encoded && PyArg_ParseTuple(encoded, "sss", &names[0], &names[1], &how) && are_noted_once(names[0], names[1], how);
    Py_XDECREF(encoded);
    Py_XDECREF(module);
    return are_known;
}

/* Notes the texts of roots where this is the first interpreter, or that this one has others. */
static bool are_roots_noted(void)
{
    static pthread_mutex_t lock = PTHREAD_MUTEX_INITIALIZER;
    PyObject *here[2][2];
    bool are_made = true, are_first = false;
    for (uint32_t at = 0; at < 4; ++at) {
        here[at / 2][at % 2] = root_of(at / 2, at % 2);
        are_made = are_made && here[at / 2][at % 2];
    }
    pthread_mutex_lock(&lock);
    if (are_made && !roots[0][0]) {
        are_first = true;
        memcpy(roots, here, sizeof roots);
        atomic_store(&are_roots_shared, true);
    } else if (memcmp(roots, here, sizeof roots) != 0) {
        atomic_store(&are_roots_shared, false);
    }
    pthread_mutex_unlock(&lock);
    for (uint32_t at = 0; at < 4 && !are_first; ++at)
        Py_XDECREF(here[at / 2][at % 2]);
    return are_made;
}

/* Each process draws a key of its own, so no one can choose paths that have one hash. */
static void draw_key(void)
{
    has_key = getentropy(key, sizeof key) == 0;
}

static int filled_module(PyObject *module)
{
    if (!typed_path_runs_here()) {
        PyErr_SetString(PyExc_ImportError, "typed_path needs a processor of x86-64-v2, which has SSE4.2 and POPCNT");
        return -1;
    }
    if (pthread_once(&key_once, draw_key) != 0 || !has_key) {
        PyErr_SetString(PyExc_ImportError, "the system gives no random bytes for a key");
        return -1;
    }
    bool is_whole = are_encodings_known() && are_roots_noted() && are_types_added(module) &&
                    is_added(module, "unix", calls_of("typed_path.unix", unix_calls)) &&
                    is_added(module, "windows", calls_of("typed_path.windows", windows_calls)) &&
                    PyModule_AddIntConstant(module, "VERSION", (long)typed_path_version()) == 0;
    return is_whole ? 0 : -1;
}

/* Python 3.12 and later ask whether interpreters may have a lock each, by a slot that earlier ones refuse. */
static PyModuleDef_Slot module_slots[] = {{Py_mod_exec, filled_module}, {0, NULL}, {0, NULL}};
static struct PyModuleDef module_def = {
    PyModuleDef_HEAD_INIT, "typed_path._native", "The paths of typed_path, as a module of C.", 0, module_calls,
    module_slots, NULL, NULL, NULL};

PyMODINIT_FUNC PyInit__native(void)
{
    const char *minor = strchr(Py_GetVersion(), '.');
    if (minor && strtol(minor + 1, NULL, 10) >= 12)
        module_slots[1] = (PyModuleDef_Slot){3, (void *)2};
    return PyModuleDef_Init(&module_def);
}
