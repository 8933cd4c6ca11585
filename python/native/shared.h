/* What the files of the extension module `bekstaudi._native` share.
 *
 * The module is compiled twice. One binary uses only the limited API of CPython 3.9 and works from 3.9
 * on. The other one, with BEKSTAUDI_ONE_VERSION, is for the version that compiles it, and reads the
 * characters of a str in place: see `text`. Nothing else differs.
 *
 * The module has no global or module state, so it works in subinterpreters: exceptions are looked up
 * when they are raised, and `is_set` recognises a set by its type's slots. */
#ifndef BEKSTAUDI_SHARED_H
#define BEKSTAUDI_SHARED_H

#define PY_SSIZE_T_CLEAN
#ifndef BEKSTAUDI_ONE_VERSION
#define Py_LIMITED_API 0x03090000
#endif
#include <Python.h>
#include <bekstaudi.h>

/* The calling convention is the same from 3.7 on, but the limited API names it only from 3.10 on. */
#ifndef METH_FASTCALL
#define METH_FASTCALL 0x0080
#endif

/* The GIL is released by calls over more numbers than this, which take more than 10 microseconds. */
#define LONG_CALL 8192

/* ---- Errors ---- */

/* Raises the exception `name` of bekstaudi._errors with one argument, or with none if it is NULL. */
void *raise_error(const char *name, PyObject *argument);

/* Raises it with a message, a new reference that it takes over, or NULL with an exception set. */
void *raise_message(const char *name, PyObject *message);

/* Raises the exception for an `enum bks_error`. */
void *raise_failure(int64_t error);

/* Raises TypeError: `name`: expected `expected`, found the type of `given`. */
void *raise_type(const char *name, const char *expected, PyObject *given);

/* ---- Arguments ---- */

/* A function's name, the names of its arguments, ended by NULL, and how many of these it needs. */
typedef struct {
    const char *function;
    const char *names[4];
    Py_ssize_t least;
} parameters;

/* Sorts the arguments of a METH_FASTCALL | METH_KEYWORDS call: found[i] is the one that names[i] names,
 * or NULL. Returns 0, or -1 with TypeError set. */
int sort_arguments(const parameters *wanted, PyObject *const *args, Py_ssize_t count, PyObject *keywords,
                   PyObject **found);

/* ---- Texts ---- */

/* A str that the caller keeps alive. With the limited API, each character is a call to the interpreter,
 * unless it is in a copy. */
typedef struct {
    PyObject *object;
    Py_ssize_t length;
#ifdef Py_LIMITED_API
    uint32_t *copy;         /* the characters from `copied` on, or NULL */
    Py_ssize_t copied;
#else
    int kind;               /* bytes per character */
    const void *data;
#endif
} text;

/* Returns 0, or -1 with an exception set: TypeError if `given` is not a str. */
int text_of(const char *name, PyObject *given, text *found);

/* Makes a part of the characters readable without the GIL, until text_close. Returns 0, or -1 with an
 * exception set. */
int text_open(text *from, Py_ssize_t start, Py_ssize_t stop);
void text_close(text *from);

/* Returns the character at an index below the length. */
static inline uint32_t text_at(const text *from, Py_ssize_t index) {
#ifdef Py_LIMITED_API
    return from->copy ? from->copy[index - from->copied] : PyUnicode_ReadChar(from->object, index);
#else
    return from->kind == 1   ? ((const Py_UCS1 *)from->data)[index]
           : from->kind == 2 ? ((const Py_UCS2 *)from->data)[index]
                             : ((const Py_UCS4 *)from->data)[index];
#endif
}

/* ---- Code points and positions ---- */

/* What `code_point` returns besides a number of 32 bits. */
enum { POINT_ERROR = -1, POINT_OUTSIDE = -2 };

/* Returns the code point that an int or a str of one character is; POINT_ERROR with an exception set
 * if it is neither; POINT_OUTSIDE, without an exception, if it is an int outside 0..=0xFFFFFFFF. */
int64_t code_point(PyObject *given);

/* As `code_point`, but raises ValueError for an int outside 0..=0xFFFFFFFF. */
int64_t checked_code_point(PyObject *given);

/* As `code_point`, but raises InvalidSet for an int outside 0..=0x10FFFF. */
int64_t code_point_of_set(PyObject *given);

/* Returns an index of a slice, as `text[index:]` means it, and `otherwise` if it is NULL or None. Returns
 * -1 with an exception set: TypeError if it is not an int. */
Py_ssize_t slice_index(const char *name, PyObject *index, Py_ssize_t length, Py_ssize_t otherwise);

/* ---- Borrowed bytes ---- */

/* The address and size of the bytes of a bytes object or of a contiguous memoryview, which the caller
 * keeps alive while it uses them. Return 0, or -1 with an exception set. */
int bytes_of(PyObject *owner, const void **bytes, Py_ssize_t *size);
int writable_bytes_of(PyObject *view, void **bytes, Py_ssize_t *size);

/* Returns the object to read: `data` itself if it is bytes, else a memoryview of it if its bytes are
 * read-only, else a copy as bytes. A memoryview locks its buffer: a mapped file cannot be closed and
 * an array cannot be resized while it exists. NULL with an exception set: TypeError if it has no bytes. */
PyObject *readable(const char *name, PyObject *data);

/* Returns a memoryview of an argument, or NULL with an exception set: TypeError if it has no buffer. */
PyObject *view_of(const char *name, const char *expected, PyObject *given);

/* An object over bytes: a Trie, or a UnitTrie, which leaves `trie` unused. */
typedef struct {
    PyObject_HEAD
    PyObject *owner;        /* a bytes object, or a memoryview that locks the buffer */
    const uint8_t *bytes;
    size_t size;
    Py_hash_t hash;         /* -1 if not computed yet */
    bool is_fixed;          /* whether nobody can change the bytes: the owner is a bytes object */
    int64_t entries;        /* how many a unit trie has, or BKS_INVALID_TRIE; BKS_NO_MEMORY if not counted yet */
    bks_trie trie;
} over_bytes;

/* Returns a new object of `type` over the bytes of the argument `data`, without a copy if they are
 * read-only. */
over_bytes *over_bytes_new(PyTypeObject *type, const char *name, PyObject *data);
void over_bytes_free(over_bytes *self);
int over_bytes_traverse(over_bytes *self, visitproc visit, void *arg);

/* Returns the first `size` bytes as a bytes object. */
PyObject *leading_bytes(over_bytes *self, size_t size);

/* Returns the hash of the first `size` bytes; it is computed once. */
Py_hash_t leading_hash(over_bytes *self, size_t size);

/* Whether `object` is an instance of the extension type that frees its objects by `release`. */
int is_freed_by(PyObject *object, void *release);

/* ---- Numbers in buffers ---- */

/* How an argument is read as numbers: how errors name it, and which code points it may have. */
typedef struct {
    const char *name, *expected;
    int64_t (*read)(PyObject *);    /* one code point; raises for those that are not allowed */
} reading;

/* Code points in memory. `owner` keeps them alive, or `copy` is memory to free. */
typedef struct {
    const reading *as;
    PyObject *owner;
    void *copy;
    const uint8_t *items;
    Py_ssize_t count;
    Py_ssize_t width;       /* bytes per item: 1, 2, 4 or 8 */
    int is_signed;
} numbers;

/* Returns the items of an iterable as a tuple, or NULL with an exception set. */
PyObject *items_of(const reading *as, PyObject *given);

/* Reads a str, a range, a one-dimensional buffer of integers, or any iterable of code points. It does not
 * test the numbers of a buffer. Returns 0, or -1 with an exception set. */
int numbers_of(const reading *as, PyObject *given, numbers *found);
void numbers_free(numbers *found);

/* Makes `copy` an array of uint32_t with all numbers, if it is not one. Returns 0, or -1 with an
 * exception set, for a number outside 0..=0xFFFFFFFF too. */
int numbers_own(numbers *found);

/* Copies items `from..from + count` as 32-bit numbers. Returns how many it copied: it stops before
 * the first that is outside 0..=0xFFFFFFFF. */
Py_ssize_t numbers_copy(const numbers *given, Py_ssize_t from, Py_ssize_t count, uint32_t *points);

/* Raises the exception of `as->read` for an item that is not allowed. */
void *raise_outside(const numbers *given, Py_ssize_t index);

/* Returns a memoryview of the first `count` items of a writable buffer of unsigned integers of
 * `width` bytes, and their address. */
PyObject *output_view(PyObject *out, Py_ssize_t count, Py_ssize_t width, void **address);

/* Returns a memoryview of `count` new items of `width` bytes, and their address. */
PyObject *new_view(Py_ssize_t count, Py_ssize_t width, void **address);

/* ---- Keys of unit tries ---- */

/* The units of a key. `units` is `few` or memory to free. */
typedef struct {
    uint16_t few[128];
    uint16_t *units;
    size_t count;
} key_units;

/* Reads a str or a list of units. Returns 0, or -1 with an exception set. */
int key_of(PyObject *given, key_units *key);
void key_free(key_units *key);

/* ---- Sets ---- */

typedef struct {
    PyObject_HEAD
    uint32_t *ends;
    size_t count;
    PyObject *words;        /* the table, a bytes object; NULL if there is none yet */
    const uint64_t *table;  /* its words, or NULL */
    bool is_frozen;         /* whether the table has to be there: of a FrozenCodePointSet */
    size_t tests;
    Py_hash_t hash;         /* -1 if not computed yet */
} code_point_set;

/* Whether `object` is a set of this module or of a subclass. */
bool is_set(PyObject *object);

/* Returns a new set that takes over `ends`, which PyMem_Malloc gave: of a type, or of the class of
 * another set. A count below 0 is an `enum bks_error`. */
code_point_set *set_owning(PyTypeObject *type, uint32_t *ends, size_t count);
PyObject *set_like(const code_point_set *like, uint32_t *ends, int64_t count);

/* Whether a set has a code point: 1, 0, or -1 with an exception set. */
int set_contains(code_point_set *self, PyObject *key);

Py_ssize_t set_length(code_point_set *self);

/* Boundaries of a set. `made` is memory to free, or NULL if they are borrowed. */
typedef struct {
    const uint32_t *ends;
    size_t count;
    uint32_t *made;
} boundaries;

/* Make the boundaries of a set: of code points, as `numbers_of` reads them, and of an iterable of pairs of
 * a first and a last code point. Return 0, or -1 with an exception set. */
int boundaries_of_points(PyObject *given, boundaries *found);
int boundaries_of_ranges(PyObject *pairs, boundaries *found);

/* Operations on two sets. */
PyObject *set_or(PyObject *a, PyObject *b);
PyObject *set_and(PyObject *a, PyObject *b);
PyObject *set_subtract(PyObject *a, PyObject *b);
PyObject *set_xor(PyObject *a, PyObject *b);
PyObject *set_is_disjoint(code_point_set *self, PyObject *other);
PyObject *set_compare(PyObject *left, PyObject *right, int how);

/* Says that so many code points are looked up: after many, the set makes its table. */
void set_count_tests(code_point_set *self, size_t tests);

/* Returns the index at which the span of `held` that starts at `at` ends, or -1 with an exception set. */
Py_ssize_t set_span_end(code_point_set *self, const text *from, Py_ssize_t at, bool held);

/* ---- Types ---- */

extern PyType_Spec trie_spec, set_spec, units_spec, cursor_spec, spans_spec;
PyObject *build_trie(PyObject *module, PyObject *args);
PyObject *build_units(PyObject *module, PyObject *args);

#define METHOD(function) ((PyCFunction)(void (*)(void))(function))

#endif
