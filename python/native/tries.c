/* The type bekstaudi._native.Trie.
 *
 * Only look-ups in a bytes object use the inline functions of bekstaudi.h. The bytes of other objects,
 * such as a mapped file, may change after the trie was opened: there the library checks each index, so
 * that nothing is read out of bounds. */
#include "shared.h"
#include <string.h>

#define LAST_POINT 0x10FFFF

static PyObject *trie_new(PyTypeObject *type, PyObject *args, PyObject *keywords) {
    static char *names[] = {"data", NULL};
    PyObject *data;
    if (!PyArg_ParseTupleAndKeywords(args, keywords, "O", names, &data)) return NULL;
    over_bytes *self = over_bytes_new(type, "data", data);
    if (!self) return NULL;
    uint32_t status = bks_open(&self->trie, self->bytes, self->size);
    if (status == BKS_OK) return (PyObject *)self;
    Py_DECREF(self);
    PyObject *number = PyLong_FromUnsignedLong(status);
    if (number) raise_error("InvalidTrie", number);
    Py_XDECREF(number);
    return NULL;
}

static uint32_t value_of(const over_bytes *self, uint32_t c) {
    const bks_trie *trie = &self->trie;
    if (self->is_fixed)
        return trie->width == 1 ? bks_get8(trie, c) : trie->width == 2 ? bks_get16(trie, c) : bks_get32(trie, c);
    return trie->width == 1   ? bks_trie8_get(trie, c)
           : trie->width == 2 ? bks_trie16_get(trie, c)
                              : bks_trie32_get(trie, c);
}

static size_t get_many(const bks_trie *trie, const uint32_t *points, size_t count, void *values) {
    return trie->width == 1   ? bks_trie8_get_many(trie, points, count, values, count)
           : trie->width == 2 ? bks_trie16_get_many(trie, points, count, values, count)
                              : bks_trie32_get_many(trie, points, count, values, count);
}

/* Writes the value of each code point. Returns how many it wrote: it stops before the first that is
 * not a number of 32 bits. Memory of other objects is copied in parts first, so that nobody can change
 * a number while the library reads it. */
static Py_ssize_t write_values(const bks_trie *trie, const numbers *points, void *values) {
    uint32_t part[1024];
    if (points->copy) return (Py_ssize_t)get_many(trie, points->copy, (size_t)points->count, values);
    for (Py_ssize_t from = 0; from < points->count; from += 1024) {
        Py_ssize_t wanted = points->count - from < 1024 ? points->count - from : 1024;
        Py_ssize_t copied = numbers_copy(points, from, wanted, part);
        get_many(trie, part, (size_t)copied, (uint8_t *)values + from * (Py_ssize_t)trie->width);
        if (copied < wanted) return from + copied;
    }
    return points->count;
}

/* Whether `write_values` would overwrite code points that it has not read yet. It reads each part before
 * it writes its values. */
static bool is_overwritten(const numbers *points, const void *values, Py_ssize_t width) {
    uintptr_t from = (uintptr_t)points->items, to = (uintptr_t)values;
    if (points->copy || from >= to + (uintptr_t)(points->count * width)) return false;
    return to < from + (uintptr_t)(points->count * points->width) && (to > from || width > points->width);
}

/* Returns the values of the code points, of which it may make a copy. */
static PyObject *values_of(over_bytes *self, numbers *points, PyObject *out) {
    void *values;
    Py_ssize_t width = (Py_ssize_t)self->trie.width, written;
    PyObject *view = out ? output_view(out, points->count, width, &values)
                         : new_view(points->count, width, &values);
    if (!view || points->count == 0) return view;
    if (is_overwritten(points, values, width) && numbers_own(points)) {
        Py_DECREF(view);
        return NULL;
    }
    if (points->count > LONG_CALL) {
        Py_BEGIN_ALLOW_THREADS
        written = write_values(&self->trie, points, values);
        Py_END_ALLOW_THREADS
    } else {
        written = write_values(&self->trie, points, values);
    }
    if (written == points->count) return view;
    Py_DECREF(view);
    return raise_outside(points, written);
}

PyDoc_STRVAR(trie_values_text,
    "values($self, /, code_points, out=None)\n--\n\n"
    "Return the values of many code points, as a memoryview of unsigned integers.\n\n"
    "`code_points` is a str, a one-dimensional buffer of integers such as a numpy array, which is\n"
    "read in place, or any iterable of code points.\n\n"
    "The values are written to the start of `out`, if it is given: a contiguous, aligned, writable buffer\n"
    "of unsigned integers of `value_bits` bits. ValueError if it has other items or is too short. It may\n"
    "overlap `code_points`: the result is the same as if it did not.");

static PyObject *trie_values(over_bytes *self, PyObject *const *args, Py_ssize_t count, PyObject *keywords) {
    static const parameters wanted = {"values", {"code_points", "out", NULL}, 1};
    static const reading as = {"code_points", "a str, integers in a buffer or an iterable", checked_code_point};
    PyObject *found[2];
    numbers points;
    if (sort_arguments(&wanted, args, count, keywords, found) || numbers_of(&as, found[0], &points)) return NULL;
    PyObject *view = values_of(self, &points, found[1] == Py_None ? NULL : found[1]);
    numbers_free(&points);
    return view;
}

/* Writes the values of the parts of bytes in UTF-8. Returns how many there are. */
static size_t copy_values(const bks_trie *trie, const char *bytes, size_t size, void *values) {
    size_t taken;
    return trie->width == 1   ? bks_trie8_copy_utf8(trie, bytes, size, values, size, &taken)
           : trie->width == 2 ? bks_trie16_copy_utf8(trie, bytes, size, values, size, &taken)
                              : bks_trie32_copy_utf8(trie, bytes, size, values, size, &taken);
}

PyDoc_STRVAR(trie_values_utf8_text,
    "values_utf8($self, text, /)\n--\n\n"
    "Return the values of the characters of bytes in UTF-8, as a memoryview of unsigned integers.\n\n"
    "An ill-formed part, for which `text.decode(errors='replace')` has one U+FFFD, has the error value.");

static PyObject *trie_values_utf8(over_bytes *self, PyObject *given) {
    const void *bytes;
    void *values;
    Py_ssize_t size;
    size_t count;
    PyObject *owner = readable("text", given), *view = NULL, *part = NULL;
    if (owner && !bytes_of(owner, &bytes, &size)) view = new_view(size, (Py_ssize_t)self->trie.width, &values);
    if (view) {
        if (size > LONG_CALL) {
            Py_BEGIN_ALLOW_THREADS
            count = copy_values(&self->trie, bytes, (size_t)size, values);
            Py_END_ALLOW_THREADS
        } else {
            count = size ? copy_values(&self->trie, bytes, (size_t)size, values) : 0;
        }
        part = PySequence_GetSlice(view, 0, (Py_ssize_t)count);
    }
    Py_XDECREF(view);
    Py_XDECREF(owner);
    return part;
}

/* Returns the values of a slice of all code points. */
static PyObject *trie_slice(over_bytes *self, PyObject *slice) {
    Py_ssize_t start, stop, step;
    if (PySlice_Unpack(slice, &start, &stop, &step)) return NULL;
    Py_ssize_t count = PySlice_AdjustIndices(LAST_POINT + 1, &start, &stop, step);
    uint32_t *points = PyMem_Malloc(((size_t)count + 1) * sizeof *points);
    if (!points) return PyErr_NoMemory();
    for (Py_ssize_t i = 0; i < count; i++) points[i] = (uint32_t)(start + i * step);
    numbers given = {.copy = points, .items = (uint8_t *)points, .count = count, .width = 4};
    PyObject *view = values_of(self, &given, NULL);
    numbers_free(&given);
    return view;
}

static PyObject *trie_item(over_bytes *self, PyObject *key) {
    if (PySlice_Check(key)) return trie_slice(self, key);
    int64_t c = checked_code_point(key);
    if (c < 0) return NULL;
    return PyLong_FromLong((long)value_of(self, (uint32_t)c));
}

/* Returns at most 256 ranges from a code point on: a list of first, last and value. */
static PyObject *trie_ranges_from(over_bytes *self, PyObject *start) {
    bks_range ranges[256];
    int64_t c = checked_code_point(start);
    if (c < 0) return NULL;
    size_t count = bks_trie_ranges(&self->trie, (uint32_t)c, ranges, 256);
    PyObject *list = PyList_New((Py_ssize_t)count);
    for (size_t i = 0; list && i < count; i++) {
        PyObject *it = Py_BuildValue("III", ranges[i].first, ranges[i].last, ranges[i].value);
        if (!it || PyList_SetItem(list, (Py_ssize_t)i, it)) Py_CLEAR(list);
    }
    return list;
}

/* Returns the boundaries of the set of a value, packed as uint32_t. */
static PyObject *trie_set_of(over_bytes *self, PyObject *given) {
    uint32_t value = (uint32_t)PyLong_AsUnsignedLong(given), nothing[1];
    if (PyErr_Occurred()) return NULL;
    int64_t count;
    Py_BEGIN_ALLOW_THREADS
    count = bks_trie_set(&self->trie, value, nothing, 0);
    Py_END_ALLOW_THREADS
    uint32_t *ends = count < 0 ? NULL : PyMem_Malloc(((size_t)count + 1) * sizeof *ends);
    int64_t written = ends ? bks_trie_set(&self->trie, value, ends, (size_t)count) : count < 0 ? count : BKS_NO_MEMORY;
    if (written == BKS_INVALID_TRIE) {
        PyMem_Free(ends);
        return raise_message("NotATrie", PyUnicode_FromString("the bytes of the trie have changed since it was opened"));
    }
    /* The set is another one if somebody changed the bytes between the two calls. */
    if (written > count) written = count;
    PyObject *packed = written < 0 ? raise_failure(written)
                                   : PyBytes_FromStringAndSize((char *)ends, written * (Py_ssize_t)sizeof *ends);
    PyMem_Free(ends);
    return packed;
}

static PyObject *trie_is_coherent(over_bytes *self, PyObject *none) {
    (void)none;
    return PyBool_FromLong(bks_trie_is_coherent(&self->trie));
}

static PyObject *trie_data(over_bytes *self, void *none) {
    (void)none;
    return leading_bytes(self, self->trie.size);
}

static PyObject *trie_size(over_bytes *self, void *none) {
    (void)none;
    return PyLong_FromSize_t(self->trie.size);
}

static PyObject *trie_value_bits(over_bytes *self, void *none) {
    (void)none;
    return PyLong_FromLong(8 * (long)self->trie.width);
}

static PyObject *trie_is_fast(over_bytes *self, void *none) {
    (void)none;
    return PyBool_FromLong(self->trie.fast_limit == 0x10000);
}

static Py_hash_t trie_hash(over_bytes *self) { return leading_hash(self, self->trie.size); }

static PyObject *trie_compare(over_bytes *self, PyObject *other, int how) {
    if ((how != Py_EQ && how != Py_NE) || !is_freed_by(other, over_bytes_free)
        || ((over_bytes *)other)->trie.size == 0) {
        Py_INCREF(Py_NotImplemented);
        return Py_NotImplemented;
    }
    const over_bytes *second = (over_bytes *)other;
    int same = self->trie.size == second->trie.size && !memcmp(self->bytes, second->bytes, self->trie.size);
    return PyBool_FromLong(same == (how == Py_EQ));
}

PyObject *build_trie(PyObject *module, PyObject *args) {
    (void)module;
    PyObject *packed, *built = NULL;
    unsigned missing, error, type, width;
    int64_t size = BKS_NO_MEMORY;
    if (!PyArg_ParseTuple(args, "SIIII", &packed, &missing, &error, &type, &width)) return NULL;
    size_t count = (size_t)PyBytes_Size(packed) / sizeof(bks_row), room = bks_trie_bound(count, type, width);
    const bks_row *rows = (const bks_row *)(void *)PyBytes_AsString(packed);
    uint8_t *bytes = PyMem_Malloc(room + 1);
    if (bytes) {
        Py_BEGIN_ALLOW_THREADS
        size = bks_trie_build(rows, count, missing, error, type, width, bytes, room);
        Py_END_ALLOW_THREADS
    }
    built = size < 0 ? raise_failure(size) : PyBytes_FromStringAndSize((char *)bytes, size);
    PyMem_Free(bytes);
    return built;
}

static PyMethodDef methods[] = {
    {"values", METHOD(trie_values), METH_FASTCALL | METH_KEYWORDS, trie_values_text},
    {"values_utf8", METHOD(trie_values_utf8), METH_O, trie_values_utf8_text},
    {"_ranges", METHOD(trie_ranges_from), METH_O, NULL},
    {"_set_of", METHOD(trie_set_of), METH_O, NULL},
    {"is_coherent", METHOD(trie_is_coherent), METH_NOARGS,
     "is_coherent($self, /)\n--\n\n"
     "Return whether `ranges` are the longest runs of equal values, as in every trie that ICU built."},
    {NULL, NULL, 0, NULL}};

static PyGetSetDef fields[] = {
    {"data", (getter)trie_data, NULL, "The bytes of the trie, in ICU's binary form.", NULL},
    {"size", (getter)trie_size, NULL, "The size of the trie in bytes.", NULL},
    {"value_bits", (getter)trie_value_bits, NULL, "The number of bits of a value: 8, 16 or 32.", NULL},
    {"is_fast", (getter)trie_is_fast, NULL,
     "Whether look-ups take two reads for all code points below 0x10000, not only below 0x1000.", NULL},
    {NULL, NULL, NULL, NULL, NULL}};

static PyType_Slot slots[] = {
    {Py_tp_new, trie_new}, {Py_tp_dealloc, over_bytes_free}, {Py_tp_traverse, over_bytes_traverse},
    {Py_tp_hash, trie_hash}, {Py_tp_richcompare, trie_compare}, {Py_mp_subscript, trie_item},
    {Py_tp_methods, methods}, {Py_tp_getset, fields}, {0, NULL}};

PyType_Spec trie_spec = {"bekstaudi._native.Trie", sizeof(over_bytes), 0,
                         Py_TPFLAGS_DEFAULT | Py_TPFLAGS_BASETYPE | Py_TPFLAGS_HAVE_GC, slots};
