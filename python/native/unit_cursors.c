/* The type bekstaudi._native.UnitTrieCursor: a position in a UnitTrie. */
#include "shared.h"

typedef struct {
    PyObject_HEAD
    over_bytes *trie;
    bks_cursor at;
} unit_cursor;

/* Returns a new cursor of a type at a position. */
static PyObject *cursor_at(PyTypeObject *type, over_bytes *trie, bks_cursor at) {
    unit_cursor *self = (unit_cursor *)PyType_GenericAlloc(type, 0);
    if (!self) return NULL;
    Py_INCREF((PyObject *)trie);
    self->trie = trie;
    self->at = at;
    return (PyObject *)self;
}

static PyObject *cursor_new(PyTypeObject *type, PyObject *args, PyObject *keywords) {
    static char *names[] = {"trie", NULL};
    PyObject *given;
    if (!PyArg_ParseTupleAndKeywords(args, keywords, "O", names, &given)) return NULL;
    if (!is_freed_by(given, over_bytes_free) || ((over_bytes *)given)->trie.size)
        return raise_type("trie", "a UnitTrie", given);
    return cursor_at(type, (over_bytes *)given, (bks_cursor){0, 0});
}

static int cursor_traverse(unit_cursor *self, visitproc visit, void *arg) {
    /* From CPython 3.9 on an object of such a type visits its type. */
    Py_VISIT(Py_TYPE(self));
    Py_VISIT(self->trie);
    return 0;
}

static void cursor_free(unit_cursor *self) {
    PyTypeObject *type = Py_TYPE(self);
    PyObject_GC_UnTrack(self);
    Py_XDECREF((PyObject *)self->trie);
    ((freefunc)PyType_GetSlot(type, Py_tp_free))(self);
    Py_DECREF(type);
}

PyDoc_STRVAR(cursor_step_text,
    "step($self, key, /)\n--\n\n"
    "Move on by the units of a str or a list of units. Return whether some key starts with all units so far.\n\n"
    "After False no further step returns True.");

static PyObject *cursor_step(unit_cursor *self, PyObject *given) {
    const over_bytes *trie = self->trie;
    key_units key;
    int32_t value;
    uint16_t none[1];
    if (key_of(given, &key)) return NULL;
    bool is_there = key.count || bks_units_value(trie->bytes, trie->size, &self->at, &value) ||
                    bks_units_next(trie->bytes, trie->size, &self->at, none, 0);
    for (size_t i = 0; i < key.count; i++)
        is_there = bks_units_step(trie->bytes, trie->size, &self->at, key.units[i]) != BKS_NO_MATCH;
    key_free(&key);
    return PyBool_FromLong(is_there);
}

static PyObject *cursor_copy(unit_cursor *self, PyObject *none) {
    (void)none;
    return cursor_at(Py_TYPE(self), self->trie, self->at);
}

/* Returns a number, or None if there is none. */
static PyObject *number_or_none(bool is_there, int32_t value) {
    if (is_there) return PyLong_FromLong(value);
    Py_INCREF(Py_None);
    return Py_None;
}

static PyObject *cursor_value(unit_cursor *self, void *none) {
    int32_t value = 0;
    (void)none;
    bool is_there = bks_units_value(self->trie->bytes, self->trie->size, &self->at, &value);
    return number_or_none(is_there, value);
}

static PyObject *cursor_unique_value(unit_cursor *self, PyObject *none) {
    int32_t value = 0;
    int64_t found;
    (void)none;
    Py_BEGIN_ALLOW_THREADS
    found = bks_units_unique(self->trie->bytes, self->trie->size, &self->at, &value);
    Py_END_ALLOW_THREADS
    return found < 0 ? raise_failure(found) : number_or_none(found, value);
}

static PyObject *list_of_units(const uint16_t *units, Py_ssize_t count) {
    PyObject *list = PyList_New(count);
    for (Py_ssize_t i = 0; list && i < count; i++) {
        PyObject *unit = PyLong_FromLong(units[i]);
        if (!unit || PyList_SetItem(list, i, unit)) Py_CLEAR(list);
    }
    return list;
}

static PyObject *cursor_next_units(unit_cursor *self, PyObject *none) {
    const over_bytes *trie = self->trie;
    uint16_t few[16], *units = few;
    (void)none;
    int64_t count = bks_units_next(trie->bytes, trie->size, &self->at, few, 16);
    if (count > 16) {
        size_t room = (size_t)count;
        units = PyMem_Malloc(room * sizeof *units);
        count = units ? bks_units_next(trie->bytes, trie->size, &self->at, units, room) : BKS_NO_MEMORY;
        if (count > (int64_t)room) count = (int64_t)room;
    }
    PyObject *list = count < 0 ? raise_failure(count) : list_of_units(units, (Py_ssize_t)count);
    if (units != few) PyMem_Free(units);
    return list;
}

static PyMethodDef methods[] = {
    {"step", METHOD(cursor_step), METH_O, cursor_step_text},
    {"next_units", METHOD(cursor_next_units), METH_NOARGS,
     "next_units($self, /)\n--\n\n"
     "Return the units with which keys go on from here, in ascending order: a list."},
    {"unique_value", METHOD(cursor_unique_value), METH_NOARGS,
     "unique_value($self, /)\n--\n\n"
     "Return the value that all keys have that start with the units so far, or None if their values differ."},
    {"copy", METHOD(cursor_copy), METH_NOARGS,
     "copy($self, /)\n--\n\nReturn another cursor at the same position: go on from it to come back here."},
    {"__copy__", METHOD(cursor_copy), METH_NOARGS, NULL},
    {NULL, NULL, 0, NULL}};

static PyGetSetDef fields[] = {
    {"value", (getter)cursor_value, NULL, "The value of the key that ends here, or None if none does.", NULL},
    {NULL, NULL, NULL, NULL, NULL}};

static char description[] =
    "UnitTrieCursor(trie)\n--\n\n"
    "A position in a UnitTrie, at first before any unit: `UnitTrie.cursor` makes it.";

static PyType_Slot slots[] = {
    {Py_tp_new, cursor_new}, {Py_tp_dealloc, cursor_free}, {Py_tp_traverse, cursor_traverse},
    {Py_tp_methods, methods}, {Py_tp_getset, fields}, {Py_tp_doc, description}, {0, NULL}};

PyType_Spec cursor_spec = {"bekstaudi._native.UnitTrieCursor", sizeof(unit_cursor), 0,
                           Py_TPFLAGS_DEFAULT | Py_TPFLAGS_HAVE_GC, slots};
