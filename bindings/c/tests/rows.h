/* The rows of ../../rows.tsv, and each call by its name. */
#ifndef ROWS_H
#define ROWS_H

#include "typed_path.h"

typedef struct Text {
    const char *bytes;
    size_t length;
} Text;

typedef uint32_t Put(uint32_t, const char *, size_t, char *, size_t, size_t *);
typedef uint32_t PutOf(uint32_t, const char *, size_t, const char *, size_t, char *, size_t, size_t *);
typedef uint32_t PutIn(uint32_t, const char *, size_t, uint32_t, char *, size_t, size_t *);
typedef uint32_t Part(uint32_t, const char *, size_t, typed_path_span *);
typedef uint32_t PartOf(uint32_t, const char *, size_t, const char *, size_t, typed_path_span *);
typedef uint32_t Ask(uint32_t, const char *, size_t, bool *);
typedef uint32_t Judge(uint32_t, const char *, size_t);
typedef uint32_t BatchOf(
    uint32_t, const char *, size_t, const char *, size_t, const size_t *, size_t, char *, size_t, size_t *, size_t,
    uint32_t *, size_t, size_t *);
typedef uint32_t AskOf(uint32_t, const char *, size_t, const char *, size_t, bool *);

/* A call, as the one member that fits it, if any does, and its batch if it has one. */
typedef struct Call {
    const char *name;
    Put *put;
    PutOf *put_of;
    PutIn *put_in;
    Part *part;
    PartOf *part_of;
    Ask *ask;
    AskOf *ask_of;
    Judge *judge;
    BatchOf *batch;
} Call;

typedef struct Row {
    const Call *call;
    uint32_t dialect;
    Text path, other;
    uint32_t status;
    Text answer;
} Row;

extern const Call CALLS[];
extern const size_t CALL_COUNT;
extern Row *rows;
extern size_t row_count;

/* Reads the rows of a file; ends the program if that fails. */
void read_rows(const char *file);

/* Whether a call puts an answer. */
bool puts_answer(const Call *call);

/* Makes a call that puts an answer. If its other argument is a dialect, that is the first byte of `other`. */
uint32_t put_by(const Call *call, uint32_t dialect, Text path, Text other, char *out, size_t size, size_t *len);

/* Returns the bound of its answer. */
size_t bound_of(const Call *call, Text path, Text other);

/* Makes a call of any kind, and writes what it set as rows have it; `told` and `list` are what it sets. */
uint32_t told_by(
    const Row *row, Text path, Text other, void *told, typed_path_component *list, char *out, size_t *len);

/* Whether a call answered as its row says. */
bool is_answered(const Row *row, uint32_t status, const char *out, size_t len);

#endif
