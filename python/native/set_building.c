/* The boundaries of sets: of code points, and of ranges. */
#include "shared.h"

/* No set has more boundaries: every other code point. */
#define MOST_ENDS 0x110000

/* Takes memory for the boundaries of so many ranges. Returns how many it has room for, or -1 with an
 * exception set. */
static int64_t room_for(size_t ranges, boundaries *found) {
    size_t room = ranges < MOST_ENDS / 2 ? 2 * ranges : MOST_ENDS;
    found->ends = found->made = PyMem_Malloc((room + 1) * sizeof *found->ends);
    return found->made ? (int64_t)room : (PyErr_NoMemory(), -1);
}

/* Returns the memory that so many boundaries do not need. A count below 0 is an `enum bks_error`. Returns
 * 0, or -1 with an exception set. */
static int fit(int64_t count, boundaries *found) {
    if (count < 0) {
        PyMem_Free(found->made);
        found->made = NULL;
        return raise_failure(count), -1;
    }
    uint32_t *smaller = PyMem_Realloc(found->made, ((size_t)count + 1) * sizeof *smaller);
    if (smaller) found->ends = found->made = smaller;
    found->count = (size_t)count;
    return 0;
}

/* Raises InvalidSet for the first number above 0x10FFFF. Returns 0, or -1 with an exception set. */
static int test_points(const numbers *given) {
    const uint32_t *points = given->copy;
    uint32_t highest = 0;
    for (Py_ssize_t i = 0; i < given->count; i++) highest = points[i] > highest ? points[i] : highest;
    if (highest <= 0x10FFFF) return 0;
    Py_ssize_t index = 0;
    while (points[index] <= 0x10FFFF) index++;
    raise_outside(given, index);
    return -1;
}

int boundaries_of_points(PyObject *given, boundaries *found) {
    static const reading as = {"text", "a str or code points", code_point_of_set};
    numbers points;
    if (numbers_of(&as, given, &points)) return -1;
    size_t count = (size_t)points.count;
    int64_t room = numbers_own(&points) || test_points(&points) ? -1 : room_for(count, found), made = -1;
    if (room >= 0 && count > LONG_CALL) {
        Py_BEGIN_ALLOW_THREADS
        made = bks_set_from_points(points.copy, count, found->made, (size_t)room);
        Py_END_ALLOW_THREADS
    } else if (room >= 0) {
        made = bks_set_from_points(points.copy, count, found->made, (size_t)room);
    }
    numbers_free(&points);
    return room < 0 ? -1 : fit(made, found);
}

/* Raises TypeError or ValueError for an item that is not a pair. */
static int raise_pair(PyObject *given, Py_ssize_t index) {
    static const char expected[] = "a first and a last code point";
    char name[40];
    PyOS_snprintf(name, sizeof name, "pairs[%zd]", index);
    if (!PyErr_Occurred()) PyErr_Format(PyExc_ValueError, "%s: expected %s, found %R", name, expected, given);
    else if (PyErr_ExceptionMatches(PyExc_TypeError)) raise_type(name, expected, given);
    return -1;
}

/* Reads a pair. Returns 0, or -1 with an exception set. */
static int read_range(PyObject *given, Py_ssize_t index, bks_interval *range) {
    PyObject *pair = PySequence_Tuple(given);
    if (!pair || PyTuple_Size(pair) != 2) {
        Py_XDECREF(pair);
        return raise_pair(given, index);
    }
    int64_t first = code_point_of_set(PyTuple_GetItem(pair, 0));
    int64_t last = first < 0 ? -1 : code_point_of_set(PyTuple_GetItem(pair, 1));
    Py_DECREF(pair);
    if (last < 0) return -1;
    *range = (bks_interval){(uint32_t)first, (uint32_t)last};
    if (first <= last) return 0;
    raise_message("InvalidSet", PyUnicode_FromFormat("pairs[%zd]: the range 0x%x..=0x%x ends before it starts", index,
                                                (int)first, (int)last));
    return -1;
}

/* Returns the ranges of pairs, memory to free, or NULL with an exception set. */
static bks_interval *ranges_of(PyObject *pairs, Py_ssize_t count) {
    bks_interval *ranges = PyMem_Malloc(((size_t)count + 1) * sizeof *ranges);
    if (!ranges) return PyErr_NoMemory(), NULL;
    for (Py_ssize_t i = 0; i < count; i++) {
        if (read_range(PyTuple_GetItem(pairs, i), i, ranges + i)) {
            PyMem_Free(ranges);
            return NULL;
        }
    }
    return ranges;
}

int boundaries_of_ranges(PyObject *given, boundaries *found) {
    static const reading as = {"pairs", "an iterable of pairs", code_point_of_set};
    PyObject *pairs = items_of(&as, given);
    size_t count = pairs ? (size_t)PyTuple_Size(pairs) : 0;
    bks_interval *ranges = pairs ? ranges_of(pairs, (Py_ssize_t)count) : NULL;
    int64_t room = ranges ? room_for(count, found) : -1, made = -1;
    Py_XDECREF(pairs);
    if (room >= 0) made = bks_set_from_ranges(ranges, count, found->made, (size_t)room);
    PyMem_Free(ranges);
    return room < 0 ? -1 : fit(made, found);
}
