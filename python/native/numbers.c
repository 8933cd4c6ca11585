/* Code points from texts, arrays and other iterables, and arrays of values. */
#include "shared.h"
#include <string.h>

/* Returns an int attribute of a memoryview, or -1 with an exception set. */
static Py_ssize_t view_number(PyObject *view, const char *name) {
    PyObject *value = PyObject_GetAttrString(view, name);
    Py_ssize_t number = value ? PyNumber_AsSsize_t(value, PyExc_OverflowError) : -1;
    Py_XDECREF(value);
    return number;
}

/* Returns 'u' if a memoryview has one dimension of unsigned integers in this machine's byte order,
 * 's' if they are signed, 'x' if it has anything else, and 0 with an exception set. */
static int view_kind(PyObject *view) {
    Py_ssize_t dimensions = view_number(view, "ndim");
    PyObject *format = dimensions < 0 ? NULL : PyObject_GetAttrString(view, "format");
    PyObject *ascii = format ? PyUnicode_AsASCIIString(format) : NULL;
    Py_XDECREF(format);
    if (!ascii) return 0;
    const char *code = PyBytes_AsString(ascii);
    if (*code == '@' || *code == '=' || *code == '<') code++;
    int known = dimensions == 1 && *code && !code[1];
    int kind = known && strchr("BHILQN", *code) ? 'u' : known && strchr("bhilqn", *code) ? 's' : 'x';
    Py_DECREF(ascii);
    return kind;
}

/* Reads the characters of a str, in place if that is possible. */
static int text_numbers(PyObject *given, numbers *found) {
    text characters;
    if (text_of(found->as->name, given, &characters)) return -1;
    found->count = characters.length;
#ifdef Py_LIMITED_API
    found->copy = PyMem_Malloc(((size_t)found->count + 1) * sizeof(uint32_t));
    if (!found->copy) return PyErr_NoMemory(), -1;
    found->items = found->copy;
    return PyUnicode_AsUCS4(given, found->copy, found->count + 1, 0) ? 0 : -1;
#else
    found->items = characters.data;
    found->width = characters.kind;
    return 0;
#endif
}

/* Reads integers in place, or from a copy if they are not contiguous. Returns 1 if the object has no
 * buffer of integers, 0 if it was read, -1 with an exception set. */
static int buffer_numbers(PyObject *given, numbers *found) {
    PyObject *view = PyMemoryView_FromObject(given);
    if (!view) {
        if (!PyErr_ExceptionMatches(PyExc_TypeError)) return -1;
        PyErr_Clear();
        return 1;
    }
    found->owner = view;
    int kind = view_kind(view);
    Py_ssize_t contiguous = kind > 'a' && kind != 'x' ? view_number(view, "c_contiguous") : 1;
    if (!kind || contiguous < 0) return -1;
    if (kind == 'x') {
        Py_CLEAR(found->owner);
        return 1;
    }
    found->is_signed = kind == 's';
    found->width = view_number(view, "itemsize");
    if (found->width < 0) return -1;
    if (!contiguous) {
        found->owner = PyObject_CallMethod(view, "tobytes", NULL);
        Py_DECREF(view);
        if (!found->owner) return -1;
    }
    const void *items;
    Py_ssize_t size;
    if (bytes_of(found->owner, &items, &size)) return -1;
    found->items = items;
    found->count = size / found->width;
    return 0;
}

/* Makes `copy` an array of so many numbers. Returns it, or NULL with an exception set. */
static uint32_t *new_numbers(numbers *found, Py_ssize_t count) {
    uint32_t *points = PyMem_Malloc(((size_t)count + 1) * sizeof *points);
    if (!points) return PyErr_NoMemory(), NULL;
    found->copy = points;
    found->items = found->copy;
    found->count = count;
    return points;
}

static int64_t point_at(const numbers *found, PyObject *sequence, Py_ssize_t index) {
    PyObject *item = PySequence_GetItem(sequence, index);
    int64_t point = item ? found->as->read(item) : -1;
    Py_XDECREF(item);
    return point;
}

/* Reads a range without an object for each number. */
static int range_numbers(PyObject *given, numbers *found) {
    Py_ssize_t count = PyObject_Size(given);
    int64_t first = count > 0 ? point_at(found, given, 0) : count;
    int64_t last = count > 0 && first >= 0 ? point_at(found, given, count - 1) : first;
    uint32_t *points = last < 0 ? NULL : new_numbers(found, count);
    if (!points) return -1;
    int64_t step = count > 1 ? (last - first) / (count - 1) : 0;
    for (Py_ssize_t i = 0; i < count; i++) points[i] = (uint32_t)(first + i * step);
    return 0;
}

PyObject *items_of(const reading *as, PyObject *given) {
    PyObject *iterator = PyObject_GetIter(given);
    if (!iterator && PyErr_ExceptionMatches(PyExc_TypeError)) raise_type(as->name, as->expected, given);
    /* PySequence_Tuple copies a list in one piece, but an iterator item by item. */
    PyObject *items = iterator ? PySequence_Tuple(PyList_CheckExact(given) ? given : iterator) : NULL;
    Py_XDECREF(iterator);
    return items;
}

static int iterable_numbers(PyObject *given, numbers *found) {
    found->owner = items_of(found->as, given);
    uint32_t *points = found->owner ? new_numbers(found, PyTuple_Size(found->owner)) : NULL;
    if (!points) return -1;
    for (Py_ssize_t i = 0; i < found->count; i++) {
        int64_t point = found->as->read(PyTuple_GetItem(found->owner, i));
        if (point < 0) return -1;
        points[i] = (uint32_t)point;
    }
    return 0;
}

int numbers_of(const reading *as, PyObject *given, numbers *found) {
    *found = (numbers){.as = as, .width = 4};
    bool has_no_buffer = PyList_Check(given) || PyTuple_Check(given) || PyAnySet_Check(given);
    int status = PyUnicode_Check(given)  ? text_numbers(given, found)
                 : PyRange_Check(given) ? range_numbers(given, found)
                 : has_no_buffer        ? 1
                                        : buffer_numbers(given, found);
    if (status > 0) {
        *found = (numbers){.as = as, .width = 4};
        status = iterable_numbers(given, found);
    }
    if (status) numbers_free(found);
    return status;
}

int numbers_own(numbers *found) {
    if (found->copy) return 0;
    numbers borrowed = *found;
    uint32_t *points = new_numbers(found, borrowed.count);
    if (!points) return -1;
    Py_ssize_t copied = numbers_copy(&borrowed, 0, borrowed.count, points);
    if (copied < borrowed.count) return raise_outside(&borrowed, copied), -1;
    found->width = 4;
    found->is_signed = 0;
    return 0;
}

void numbers_free(numbers *found) {
    PyMem_Free(found->copy);
    Py_CLEAR(found->owner);
    found->copy = NULL;
}

/* Item `index`, as its bits: a negative number is above INT64_MAX. */
static uint64_t item(const numbers *given, Py_ssize_t index) {
    const uint8_t *at = given->items + index * given->width;
    if (given->width == 1) return given->is_signed ? (uint64_t)(int8_t)*at : *at;
    if (given->width == 2) {
        uint16_t number;
        memcpy(&number, at, sizeof number);
        return given->is_signed ? (uint64_t)(int16_t)number : number;
    }
    if (given->width == 4) {
        uint32_t number;
        memcpy(&number, at, sizeof number);
        return given->is_signed ? (uint64_t)(int32_t)number : number;
    }
    uint64_t number;
    memcpy(&number, at, sizeof number);
    return number;
}

Py_ssize_t numbers_copy(const numbers *given, Py_ssize_t from, Py_ssize_t count, uint32_t *points) {
    if (!given->is_signed && given->width <= 4) {
        const uint8_t *items = given->items + from * given->width;
        if (given->width == 4) memcpy(points, items, 4 * (size_t)count);
        else if (given->width == 1) for (Py_ssize_t i = 0; i < count; i++) points[i] = items[i];
        else for (Py_ssize_t i = 0; i < count; i++) memcpy(points + i, items + 2 * i, 2), points[i] &= 0xFFFF;
        return count;
    }
    for (Py_ssize_t i = 0; i < count; i++) {
        uint64_t number = item(given, from + i);
        if (number > UINT32_MAX) return i;
        points[i] = (uint32_t)number;
    }
    return count;
}

void *raise_outside(const numbers *given, Py_ssize_t index) {
    uint64_t bits = item(given, index);
    PyObject *number = given->is_signed ? PyLong_FromLongLong((int64_t)bits)
                                        : PyLong_FromUnsignedLongLong(bits);
    if (number) given->as->read(number);
    Py_XDECREF(number);
    return NULL;
}

PyObject *output_view(PyObject *out, Py_ssize_t count, Py_ssize_t width, void **address) {
    PyObject *view = view_of("out", "a writable buffer", out), *part = NULL;
    int kind = view ? view_kind(view) : 0;
    Py_ssize_t size, item_size = kind ? view_number(view, "itemsize") : -1;
    Py_ssize_t contiguous = item_size < 0 ? -1 : view_number(view, "c_contiguous");
    if (contiguous < 0) goto done;
    if (kind != 'u' || item_size != width || !contiguous) {
        PyErr_Format(PyExc_ValueError, "out: expected a contiguous buffer of unsigned integers of %d bits",
                     8 * (int)width);
        goto done;
    }
    if (writable_bytes_of(view, address, &size)) {
        if (PyErr_ExceptionMatches(PyExc_TypeError) || PyErr_ExceptionMatches(PyExc_BufferError))
            PyErr_SetString(PyExc_TypeError, "out: expected a writable buffer, found a read-only one");
        goto done;
    }
    if ((uintptr_t)*address % (uintptr_t)width) {
        PyErr_Format(PyExc_ValueError, "out: expected a buffer that is aligned to %d bytes", (int)width);
        goto done;
    }
    if (size / width < count) {
        PyErr_Format(PyExc_ValueError, "out: expected room for %zd values, found %zd", count, size / width);
        goto done;
    }
    part = PySequence_GetSlice(view, 0, count);
done:
    Py_XDECREF(view);
    return part;
}

PyObject *new_view(Py_ssize_t count, Py_ssize_t width, void **address) {
    /* memoryview.cast rejects an empty view, so it gets one item. */
    PyObject *bytes = PyBytes_FromStringAndSize(NULL, (count || width == 1 ? count : 1) * width);
    PyObject *view = bytes ? PyMemoryView_FromObject(bytes) : NULL;
    if (view) *address = PyBytes_AsString(bytes);
    Py_XDECREF(bytes);
    if (!view || width == 1) return view;
    PyObject *cast = PyObject_CallMethod(view, "cast", "s", width == 2 ? "H" : "I");
    Py_DECREF(view);
    if (!cast || count) return cast;
    PyObject *empty = PySequence_GetSlice(cast, 0, 0);
    Py_DECREF(cast);
    return empty;
}
