/* The type bekstaudi._native.CodePointSet.
 *
 * A set stores its boundaries. After many look-ups it also stores its frozen form, a table of up to
 * 148 kB that takes three reads per look-up. Sets never change, so callers see no difference but time. */
#include "shared.h"
#include <string.h>

/* A set is not frozen if it has at most MANY_ENDS boundaries, as its binary search is short, or before
 * it has looked up MANY_TESTS code points, as the table would not pay off. A FrozenCodePointSet is frozen
 * from the start. */
#define MANY_ENDS 16
#define MANY_TESTS 512

static void set_free(code_point_set *self) {
    PyTypeObject *type = Py_TYPE(self);
    PyMem_Free(self->ends);
    Py_XDECREF(self->words);
    ((freefunc)PyType_GetSlot(type, Py_tp_free))(self);
    Py_DECREF(type);
}

bool is_set(PyObject *object) { return is_freed_by(object, set_free); }

code_point_set *set_owning(PyTypeObject *type, uint32_t *ends, size_t count) {
    code_point_set *self = (code_point_set *)PyType_GenericAlloc(type, 0);
    if (!self) {
        PyMem_Free(ends);
        return NULL;
    }
    self->ends = ends;
    self->count = count;
    self->hash = -1;
    return self;
}

/* Reads a boundary, which is above the one before it. Returns 0, or -1 with an exception set. */
static int read_end(PyObject *all, Py_ssize_t index, uint32_t *ends) {
    PyObject *given = PyTuple_GetItem(all, index);
    if (PyUnicode_Check(given)) {
        PyErr_SetString(PyExc_TypeError, "ends: expected ints, found a str: see from_chars");
        return -1;
    }
    int64_t number = code_point(given);
    if (number == POINT_ERROR) return -1;
    if (number == POINT_OUTSIDE || number > 0x110000)
        raise_message("InvalidSet", PyUnicode_FromFormat("ends[%zd]: expected a number from 0 to 0x110000, found %S", index,
                                                    given));
    else if (index && number <= ends[index - 1])
        raise_message("InvalidSet", PyUnicode_FromFormat("ends[%zd]: expected more than %u, found %S", index,
                                                    ends[index - 1], given));
    ends[index] = (uint32_t)number;
    return PyErr_Occurred() ? -1 : 0;
}

static PyObject *set_new(PyTypeObject *type, PyObject *args, PyObject *keywords) {
    static char *names[] = {"ends", NULL};
    static const reading as = {"ends", "an iterable of ints", code_point};
    PyObject *given = NULL;
    if (!PyArg_ParseTupleAndKeywords(args, keywords, "|O", names, &given)) return NULL;
    PyObject *all = given ? items_of(&as, given) : PyTuple_New(0);
    if (!all) return NULL;
    Py_ssize_t count = PyTuple_Size(all), read = 0;
    uint32_t *ends = PyMem_Malloc(((size_t)count + 1) * sizeof *ends);
    if (!ends) PyErr_NoMemory();
    while (ends && read < count && !read_end(all, read, ends)) read++;
    bool is_read = ends && read == count, is_set = is_read && bks_set_test(ends, (size_t)count);
    Py_DECREF(all);
    if (is_set) return (PyObject *)set_owning(type, ends, (size_t)count);
    PyMem_Free(ends);
    return is_read ? raise_message("InvalidSet", PyUnicode_FromFormat("ends: expected an even count, found %zd", count)) : NULL;
}

/* The set of boundaries that are packed as uint32_t. */
static PyObject *set_from_bytes(PyTypeObject *type, PyObject *args) {
    PyObject *packed;
    if (!PyArg_ParseTuple(args, "S", &packed)) return NULL;
    size_t count = (size_t)PyBytes_Size(packed) / sizeof(uint32_t);
    uint32_t *ends = PyMem_Malloc((count + 1) * sizeof *ends);
    if (!ends) return PyErr_NoMemory();
    memcpy(ends, PyBytes_AsString(packed), count * sizeof *ends);
    if (bks_set_test(ends, count)) return (PyObject *)set_owning(type, ends, count);
    PyMem_Free(ends);
    return raise_error("InvalidSet", NULL);
}

static PyObject *set_from_points(PyTypeObject *type, PyObject *given) {
    boundaries found;
    return boundaries_of_points(given, &found) ? NULL : (PyObject *)set_owning(type, found.made, found.count);
}

static PyObject *set_from_ranges(PyTypeObject *type, PyObject *pairs) {
    boundaries found;
    return boundaries_of_ranges(pairs, &found) ? NULL : (PyObject *)set_owning(type, found.made, found.count);
}

/* Makes the table, if there is none. Returns 0, or -1 with an exception set. */
static int freeze(code_point_set *self) {
    uint64_t nothing[1];
    if (self->table) return 0;
    int64_t count = bks_set_freeze(self->ends, self->count, nothing, 0);
    if (count < 0) return raise_failure(count), -1;
    PyObject *words = PyBytes_FromStringAndSize(NULL, (Py_ssize_t)(count * (int64_t)sizeof *self->table));
    uint64_t *table = words ? (uint64_t *)(void *)PyBytes_AsString(words) : NULL;
    int64_t written = table ? bks_set_freeze(self->ends, self->count, table, (size_t)count) : 0;
    if (!table || written != count) {
        Py_XDECREF(words);
        return written < 0 ? (raise_failure(written), -1) : -1;
    }
    self->words = words;
    self->table = table;
    return 0;
}

void set_count_tests(code_point_set *self, size_t tests) {
    if (self->table || self->count <= MANY_ENDS) return;
    self->tests += tests;
    if (self->tests < MANY_TESTS) return;
    self->tests = 0;
    /* If an allocation fails the set stays as it is, which only takes more time. */
    if (freeze(self)) PyErr_Clear();
}

/* Nobody changes the table, and bks_set_freeze wrote it, so the inline function may read it. */
static inline bool contains(const code_point_set *self, uint32_t c) {
    return self->table ? bks_frozen_has(self->table, c) : bks_set_contains(self->ends, self->count, c);
}

/* Returns another set, as an object of this class that has its table. */
static PyObject *set_frozen(PyTypeObject *type, PyObject *given) {
    code_point_set *self = (code_point_set *)given;
    if (!is_set(given)) return raise_type("set", "a CodePointSet", given);
    if (freeze(self)) return NULL;
    uint32_t *ends = PyMem_Malloc((self->count + 1) * sizeof *ends);
    if (!ends) return PyErr_NoMemory();
    memcpy(ends, self->ends, self->count * sizeof *ends);
    code_point_set *made = set_owning(type, ends, self->count);
    if (!made) return NULL;
    Py_INCREF(self->words);
    made->words = self->words;
    made->table = self->table;
    made->is_frozen = true;
    return (PyObject *)made;
}

static PyObject *set_words(code_point_set *self, void *none) {
    (void)none;
    if (freeze(self)) return NULL;
    Py_INCREF(self->words);
    return self->words;
}

int set_contains(code_point_set *self, PyObject *key) {
    int64_t c = code_point(key);
    if (c == POINT_ERROR) return -1;
    set_count_tests(self, 1);
    return c >= 0 && contains(self, (uint32_t)c);
}

Py_ssize_t set_length(code_point_set *self) {
    return (Py_ssize_t)bks_set_size(self->ends, self->count);
}

static PyObject *set_ends(code_point_set *self, void *none) {
    (void)none;
    PyObject *ends = PyTuple_New((Py_ssize_t)self->count);
    for (size_t i = 0; ends && i < self->count; i++) {
        PyObject *end = PyLong_FromUnsignedLong(self->ends[i]);
        if (!end || PyTuple_SetItem(ends, (Py_ssize_t)i, end)) Py_CLEAR(ends);
    }
    return ends;
}

/* ---- Spans of texts ---- */

static Py_ssize_t walk(const code_point_set *self, const text *from, Py_ssize_t at, Py_ssize_t stop, bool held) {
    while (at < stop && contains(self, text_at(from, at)) == held) at++;
    return at;
}

static Py_ssize_t walk_back(const code_point_set *self, const text *from, Py_ssize_t at, Py_ssize_t start, bool held) {
    while (at > start && contains(self, text_at(from, at - 1)) == held) at--;
    return at;
}

typedef Py_ssize_t walking(const code_point_set *, const text *, Py_ssize_t, Py_ssize_t, bool);

/* How many characters are walked at a time without the GIL. */
#define SPAN_PART 65536

/* Continues a walk without the GIL. Returns where it ends, or -1 with an exception set. */
static Py_ssize_t long_walk(const code_point_set *self, const text *from, Py_ssize_t at, Py_ssize_t stop, bool held,
                            walking *go) {
    /* A copy, as another thread may freeze the set meanwhile. */
    const code_point_set copy = *self;
    text part = *from;
    Py_ssize_t next = at;
    while (at == next && at != stop) {
        next = stop > at ? (stop - at < SPAN_PART ? stop : at + SPAN_PART)
                         : (at - stop < SPAN_PART ? stop : at - SPAN_PART);
        if (text_open(&part, at < next ? at : next, at < next ? next : at)) return -1;
        Py_BEGIN_ALLOW_THREADS
        at = go(&copy, &part, at, next, held);
        Py_END_ALLOW_THREADS
        text_close(&part);
    }
    return at;
}

Py_ssize_t set_span_end(code_point_set *self, const text *from, Py_ssize_t at, bool held) {
    Py_ssize_t near = from->length - at < MANY_TESTS ? from->length : at + MANY_TESTS;
    Py_ssize_t end = walk(self, from, at, near, held);
    set_count_tests(self, (size_t)(end - at) + 1);
    return end < near || near == from->length ? end : long_walk(self, from, end, from->length, held, walk);
}

/* Returns the index at which the span of `held` that ends at `at` starts, or -1 with an exception set. */
static Py_ssize_t span_start(code_point_set *self, const text *from, Py_ssize_t at, bool held) {
    Py_ssize_t near = at < MANY_TESTS ? 0 : at - MANY_TESTS;
    Py_ssize_t start = walk_back(self, from, at, near, held);
    set_count_tests(self, (size_t)(at - start) + 1);
    return start > near || near == 0 ? start : long_walk(self, from, start, 0, held, walk_back);
}

/* Reads the arguments of a span: a text, `held`, and the index of its start or end, which is returned. */
static Py_ssize_t span_arguments(const parameters *wanted, PyObject *const *args, Py_ssize_t count, PyObject *keywords,
                                 text *from, bool *held, bool is_back) {
    PyObject *found[3];
    if (sort_arguments(wanted, args, count, keywords, found) || text_of("text", found[0], from)) return -1;
    int is_held = found[1] ? PyObject_IsTrue(found[1]) : 1;
    *held = is_held;
    return is_held < 0 ? -1 : slice_index(wanted->names[2], found[2], from->length, is_back ? from->length : 0);
}

PyDoc_STRVAR(set_span_text,
    "span($self, /, text, held=True, start=0)\n--\n\n"
    "Return how many characters of `text[start:]`, from its first one on, are in the set; if `held`\n"
    "is false, how many are not.");

static PyObject *set_span(code_point_set *self, PyObject *const *args, Py_ssize_t count, PyObject *keywords) {
    static const parameters wanted = {"span", {"text", "held", "start", NULL}, 1};
    text from;
    bool held;
    Py_ssize_t at = span_arguments(&wanted, args, count, keywords, &from, &held, false);
    Py_ssize_t end = at < 0 ? -1 : set_span_end(self, &from, at, held);
    return end < 0 ? NULL : PyLong_FromSsize_t(end - at);
}

PyDoc_STRVAR(set_span_back_text,
    "span_back($self, /, text, held=True, end=None)\n--\n\n"
    "Return how many characters of `text[:end]`, from its last one back, are in the set; if `held`\n"
    "is false, how many are not.");

static PyObject *set_span_back(code_point_set *self, PyObject *const *args, Py_ssize_t count, PyObject *keywords) {
    static const parameters wanted = {"span_back", {"text", "held", "end", NULL}, 1};
    text from;
    bool held;
    Py_ssize_t at = span_arguments(&wanted, args, count, keywords, &from, &held, true);
    Py_ssize_t start = at < 0 ? -1 : span_start(self, &from, at, held);
    return start < 0 ? NULL : PyLong_FromSsize_t(at - start);
}

/* ---- Spans of bytes ---- */

typedef size_t byte_span(const uint64_t *, size_t, const char *, size_t, bool);

/* Reads the arguments text and held, and returns how many bytes the span has. It freezes the set. */
static PyObject *span_of_bytes(code_point_set *self, const parameters *wanted, PyObject *const *args,
                               Py_ssize_t count, PyObject *keywords, byte_span *find, bool is_back) {
    PyObject *found[2], *result = NULL;
    const void *bytes;
    Py_ssize_t size;
    if (sort_arguments(wanted, args, count, keywords, found)) return NULL;
    int held = found[1] ? PyObject_IsTrue(found[1]) : 1;
    if (held < 0 || freeze(self)) return NULL;
    PyObject *owner = readable("text", found[0]), *words = self->words;
    if (owner && !bytes_of(owner, &bytes, &size)) {
        size_t end = 0, many = (size_t)PyBytes_Size(words) / sizeof *self->table;
        const uint64_t *table = self->table;
        if (size > LONG_CALL) {
            Py_BEGIN_ALLOW_THREADS
            end = find(table, many, bytes, (size_t)size, held);
            Py_END_ALLOW_THREADS
        } else if (size) {
            end = find(table, many, bytes, (size_t)size, held);
        }
        result = PyLong_FromSize_t(is_back ? (size_t)size - end : end);
    }
    Py_XDECREF(owner);
    return result;
}

PyDoc_STRVAR(set_span_utf8_text,
    "span_utf8($self, /, text, held=True)\n--\n\n"
    "Return how many bytes of UTF-8 the characters in the set take at the start of `text`; if `held` is\n"
    "false, those outside it.\n\n"
    "An ill-formed sequence counts as U+FFFD.");

static PyObject *set_span_utf8(code_point_set *self, PyObject *const *args, Py_ssize_t count, PyObject *keywords) {
    static const parameters wanted = {"span_utf8", {"text", "held", NULL}, 1};
    return span_of_bytes(self, &wanted, args, count, keywords, bks_frozen_span_lossy, false);
}

PyDoc_STRVAR(set_span_back_utf8_text,
    "span_back_utf8($self, /, text, held=True)\n--\n\n"
    "Return how many bytes of UTF-8 the characters in the set take at the end of `text`; if `held` is\n"
    "false, those outside it.\n\n"
    "An ill-formed sequence counts as U+FFFD.");

static PyObject *set_span_back_utf8(code_point_set *self, PyObject *const *args, Py_ssize_t count, PyObject *keywords) {
    static const parameters wanted = {"span_back_utf8", {"text", "held", NULL}, 1};
    return span_of_bytes(self, &wanted, args, count, keywords, bks_frozen_span_back_lossy, true);
}

/* ---- Results, hash and size ---- */

PyObject *set_like(const code_point_set *like, uint32_t *ends, int64_t count) {
    if (count < 0) {
        PyMem_Free(ends);
        return raise_failure(count);
    }
    code_point_set *made = set_owning(Py_TYPE(like), ends, (size_t)count);
    if (!made || !like->is_frozen) return (PyObject *)made;
    made->is_frozen = true;
    if (!freeze(made)) return (PyObject *)made;
    Py_DECREF(made);
    return NULL;
}

static PyObject *set_invert(code_point_set *self) {
    size_t room = self->count + 2;
    uint32_t *ends = PyMem_Malloc(room * sizeof *ends);
    return set_like(self, ends, ends ? bks_set_complement(self->ends, self->count, ends, room) : BKS_NO_MEMORY);
}

/* A set equals a frozenset of the same ints, so it has the same hash: this is the algorithm of
 * frozenset, and of collections.abc.Set. The hash of such an int is the int. */
static Py_hash_t set_hash(code_point_set *self) {
    if (self->hash != -1) return self->hash;
    uint64_t hash = 1927868237u * ((uint64_t)set_length(self) + 1);
    for (size_t i = 0; i + 1 < self->count; i += 2)
        for (uint64_t c = self->ends[i]; c < self->ends[i + 1]; c++) hash ^= (c ^ c << 16 ^ 89869747u) * 3644798167u;
    hash ^= hash >> 11 ^ hash >> 25;
    hash = hash * 69069 + 907133923u;
    self->hash = hash == UINT64_MAX ? 590923713 : (Py_hash_t)hash;
    return self->hash;
}

static PyObject *set_size_in_memory(code_point_set *self, PyObject *none) {
    (void)none;
    size_t words = self->words ? (size_t)PyBytes_Size(self->words) : 0;
    return PyLong_FromSize_t(sizeof *self + self->count * sizeof *self->ends + words);
}

static PyMethodDef methods[] = {
    {"span", METHOD(set_span), METH_FASTCALL | METH_KEYWORDS, set_span_text},
    {"span_back", METHOD(set_span_back), METH_FASTCALL | METH_KEYWORDS, set_span_back_text},
    {"span_utf8", METHOD(set_span_utf8), METH_FASTCALL | METH_KEYWORDS, set_span_utf8_text},
    {"span_back_utf8", METHOD(set_span_back_utf8), METH_FASTCALL | METH_KEYWORDS, set_span_back_utf8_text},
    {"isdisjoint", METHOD(set_is_disjoint), METH_O,
     "isdisjoint($self, other, /)\n--\n\n"
     "Return whether the set has no code point in common with another set or iterable of code points."},
    {"_from_bytes", METHOD(set_from_bytes), METH_VARARGS | METH_CLASS, NULL},
    {"_from_points", METHOD(set_from_points), METH_O | METH_CLASS, NULL},
    {"_from_ranges", METHOD(set_from_ranges), METH_O | METH_CLASS, NULL},
    {"_frozen", METHOD(set_frozen), METH_O | METH_CLASS, NULL},
    {"__sizeof__", METHOD(set_size_in_memory), METH_NOARGS,
     "__sizeof__($self, /)\n--\n\nReturn the size in memory, in bytes."},
    {NULL, NULL, 0, NULL}};

static PyGetSetDef fields[] = {
    {"ends", (getter)set_ends, NULL, "The boundaries, in ascending order: a tuple of ints.", NULL},
    {"_words", (getter)set_words, NULL, NULL, NULL},
    {NULL, NULL, NULL, NULL, NULL}};

static PyType_Slot slots[] = {
    {Py_tp_new, set_new}, {Py_tp_dealloc, set_free}, {Py_tp_hash, set_hash},
    {Py_tp_richcompare, set_compare}, {Py_sq_contains, set_contains}, {Py_sq_length, set_length},
    {Py_nb_or, set_or}, {Py_nb_and, set_and}, {Py_nb_subtract, set_subtract}, {Py_nb_xor, set_xor},
    {Py_nb_invert, set_invert}, {Py_tp_methods, methods}, {Py_tp_getset, fields}, {0, NULL}};

PyType_Spec set_spec = {"bekstaudi._native.CodePointSet", sizeof(code_point_set), 0,
                        Py_TPFLAGS_DEFAULT | Py_TPFLAGS_BASETYPE, slots};
