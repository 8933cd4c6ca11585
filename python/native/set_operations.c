/* Operations on two sets, of which one may be any collections.abc.Set of code points. */
#include "shared.h"
#include <string.h>

typedef int64_t operation(const uint32_t *, size_t, const uint32_t *, size_t, uint32_t *, size_t);

static PyObject *not_implemented(void) {
    Py_INCREF(Py_NotImplemented);
    return Py_NotImplemented;
}

/* Whether an object is a collections.abc.Set: 1, 0, or -1 with an exception set. */
static int is_any_set(PyObject *object) {
    if (PyAnySet_Check(object)) return 1;
    PyObject *module = PyImport_ImportModule("collections.abc");
    PyObject *class = module ? PyObject_GetAttrString(module, "Set") : NULL;
    int is_one = class ? PyObject_IsInstance(object, class) : -1;
    Py_XDECREF(module);
    Py_XDECREF(class);
    return is_one;
}

/* Reads the boundaries of an operand, of any iterable of code points. Returns 0, or -1 with an exception
 * set. */
static int boundaries_of(PyObject *given, boundaries *found) {
    if (!is_set(given)) return boundaries_of_points(given, found);
    const code_point_set *set = (code_point_set *)given;
    *found = (boundaries){.ends = set->ends, .count = set->count};
    return 0;
}

static PyObject *joined_sets(const code_point_set *like, const boundaries *a, const boundaries *b, operation *call) {
    size_t room = a->count + b->count;
    uint32_t *ends = PyMem_Malloc((room + 1) * sizeof *ends);
    if (!ends) return raise_failure(BKS_NO_MEMORY);
    int64_t count;
    if (room > LONG_CALL) {
        Py_BEGIN_ALLOW_THREADS
        count = call(a->ends, a->count, b->ends, b->count, ends, room);
        Py_END_ALLOW_THREADS
    } else {
        count = call(a->ends, a->count, b->ends, b->count, ends, room);
    }
    return set_like(like, ends, count);
}

/* Joins two operands. The result has the class of the left one, or of the right one if the left one is not
 * of this module. */
static PyObject *joined(PyObject *left, PyObject *right, operation *call) {
    bool is_left = is_set(left);
    PyObject *other = is_left ? right : left, *result = NULL;
    int is_known = is_set(other) ? 1 : is_any_set(other);
    if (is_known <= 0) return is_known ? NULL : not_implemented();
    boundaries a = {.made = NULL}, b = {.made = NULL};
    if (!boundaries_of(left, &a) && !boundaries_of(right, &b))
        result = joined_sets((code_point_set *)(is_left ? left : right), &a, &b, call);
    PyMem_Free(a.made);
    PyMem_Free(b.made);
    return result;
}

PyObject *set_or(PyObject *a, PyObject *b) { return joined(a, b, bks_set_union); }
PyObject *set_and(PyObject *a, PyObject *b) { return joined(a, b, bks_set_intersection); }
PyObject *set_subtract(PyObject *a, PyObject *b) { return joined(a, b, bks_set_difference); }
PyObject *set_xor(PyObject *a, PyObject *b) { return joined(a, b, bks_set_symmetric_difference); }

PyObject *set_is_disjoint(code_point_set *self, PyObject *other) {
    boundaries found = {.made = NULL};
    uint32_t nothing[1];
    if (boundaries_of(other, &found)) return NULL;
    int64_t count = bks_set_intersection(self->ends, self->count, found.ends, found.count, nothing, 0);
    PyMem_Free(found.made);
    return count < 0 ? raise_failure(count) : PyBool_FromLong(count == 0);
}

/* ---- Comparisons ---- */

/* Whether another set has all code points of this one: 1, 0, or -1 with an exception set. */
static int is_inside(const code_point_set *self, PyObject *other) {
    int is_held = 1;
    for (size_t i = 0; i + 1 < self->count && is_held == 1; i += 2) {
        for (uint32_t c = self->ends[i]; c < self->ends[i + 1] && is_held == 1; c++) {
            PyObject *number = PyLong_FromUnsignedLong(c);
            is_held = number ? PySequence_Contains(other, number) : -1;
            Py_XDECREF(number);
        }
    }
    return is_held;
}

/* Whether this set has all elements of another one: 1, 0, or -1 with an exception set. */
static int has_inside(code_point_set *self, PyObject *other) {
    PyObject *iterator = PyObject_GetIter(other), *item;
    int is_held = iterator ? 1 : -1;
    while (is_held == 1 && (item = PyIter_Next(iterator))) {
        is_held = set_contains(self, item);
        Py_DECREF(item);
    }
    Py_XDECREF(iterator);
    return is_held == 1 && PyErr_Occurred() ? -1 : is_held;
}

/* Compares with a set of another kind as collections.abc.Set does: 1, 0, or -1 with an exception set. */
static int compare_elements(code_point_set *self, PyObject *other, int how) {
    Py_ssize_t mine = set_length(self), theirs = PyObject_Size(other);
    if (theirs < 0) return -1;
    switch (how) {
        case Py_LT: return mine < theirs ? is_inside(self, other) : 0;
        case Py_LE: return mine <= theirs ? is_inside(self, other) : 0;
        case Py_GT: return mine > theirs ? has_inside(self, other) : 0;
        case Py_GE: return mine >= theirs ? has_inside(self, other) : 0;
        default: return mine == theirs ? is_inside(self, other) : 0;
    }
}

/* Equality, and whether one set is a subset of the other. */
PyObject *set_compare(PyObject *left, PyObject *right, int how) {
    if (!is_set(right)) {
        int is_known = is_any_set(right);
        int result = is_known > 0 ? compare_elements((code_point_set *)left, right, how) : is_known;
        if (is_known == 0) return not_implemented();
        return result < 0 ? NULL : PyBool_FromLong(how == Py_NE ? !result : result);
    }
    const code_point_set *a = (code_point_set *)left, *b = (code_point_set *)right;
    bool same = a->count == b->count && !memcmp(a->ends, b->ends, a->count * sizeof *a->ends);
    if (how == Py_EQ || how == Py_NE) return PyBool_FromLong(same == (how == Py_EQ));
    if (same) return PyBool_FromLong(how == Py_LE || how == Py_GE);
    bool is_smaller = how == Py_LE || how == Py_LT;
    const code_point_set *outer = is_smaller ? b : a, *inner = is_smaller ? a : b;
    return PyBool_FromLong(bks_set_contains_all(outer->ends, outer->count, inner->ends, inner->count));
}
