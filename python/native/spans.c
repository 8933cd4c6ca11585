/* The type bekstaudi._native.Spans: the iterator that CodePointSet.spans returns. */
#include "shared.h"

typedef struct {
    PyObject_HEAD
    code_point_set *set;
    text from;
    Py_ssize_t at;
    bool held;              /* whether the next span is in the set, unless it is empty */
} spans;

static PyObject *spans_new(PyTypeObject *type, PyObject *args, PyObject *keywords) {
    PyObject *set, *given, *start;
    text from;
    (void)keywords;
    if (!PyArg_ParseTuple(args, "OOO", &set, &given, &start)) return NULL;
    if (!is_set(set)) return raise_type("set", "a CodePointSet", set);
    if (text_of("text", given, &from)) return NULL;
    Py_ssize_t at = slice_index("start", start, from.length, 0);
    spans *self = at < 0 ? NULL : (spans *)PyType_GenericAlloc(type, 0);
    if (!self) return NULL;
    Py_INCREF(set);
    Py_INCREF(given);
    self->set = (code_point_set *)set;
    self->from = from;
    self->at = at;
    set_count_tests(self->set, (size_t)(from.length - at));
    return (PyObject *)self;
}

static int spans_traverse(spans *self, visitproc visit, void *arg) {
    /* From CPython 3.9 on an object of such a type visits its type. */
    Py_VISIT(Py_TYPE(self));
    Py_VISIT(self->set);
    Py_VISIT(self->from.object);
    return 0;
}

static void spans_free(spans *self) {
    PyTypeObject *type = Py_TYPE(self);
    PyObject_GC_UnTrack(self);
    Py_XDECREF((PyObject *)self->set);
    Py_XDECREF(self->from.object);
    ((freefunc)PyType_GetSlot(type, Py_tp_free))(self);
    Py_DECREF(type);
}

/* Returns a span as a tuple. */
static PyObject *span_tuple(Py_ssize_t start, Py_ssize_t end, bool held) {
    PyObject *found = PyTuple_New(3), *first = PyLong_FromSsize_t(start), *last = PyLong_FromSsize_t(end);
    if (found && first && last) {
        PyTuple_SetItem(found, 0, first);
        PyTuple_SetItem(found, 1, last);
        PyTuple_SetItem(found, 2, PyBool_FromLong(held));
        return found;
    }
    Py_XDECREF(found);
    Py_XDECREF(first);
    Py_XDECREF(last);
    return NULL;
}

static PyObject *spans_next(spans *self) {
    Py_ssize_t start = self->at, end = start;
    bool held = self->held;
    if (start >= self->from.length) return NULL;
    end = set_span_end(self->set, &self->from, start, held);
    /* Only the first span can be empty. */
    if (end == start) {
        held = !held;
        end = set_span_end(self->set, &self->from, start, held);
    }
    PyObject *found = end < 0 ? NULL : span_tuple(start, end, held);
    if (!found) return NULL;
    self->at = end;
    self->held = !held;
    return found;
}

static PyType_Slot slots[] = {
    {Py_tp_new, spans_new}, {Py_tp_dealloc, spans_free}, {Py_tp_traverse, spans_traverse},
    {Py_tp_iter, PyObject_SelfIter}, {Py_tp_iternext, spans_next}, {0, NULL}};

PyType_Spec spans_spec = {"bekstaudi._native.Spans", sizeof(spans), 0,
                          Py_TPFLAGS_DEFAULT | Py_TPFLAGS_HAVE_GC, slots};
