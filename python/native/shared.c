/* Errors, code points, and bytes that belong to other objects. */
#include "shared.h"
#include <string.h>

/* PyObject_GetBuffer is in the limited API only from 3.11 on. These two are in that of 3.9, and stay
 * in the stable ABI, but headers mark them as deprecated or leave them out: they do not lock the
 * buffer. Here a memoryview always does. */
PyAPI_FUNC(int) PyObject_AsReadBuffer(PyObject *object, const void **buffer, Py_ssize_t *size);
PyAPI_FUNC(int) PyObject_AsWriteBuffer(PyObject *object, void **buffer, Py_ssize_t *size);
#pragma GCC diagnostic ignored "-Wdeprecated-declarations"

int bytes_of(PyObject *owner, const void **bytes, Py_ssize_t *size) {
    return PyObject_AsReadBuffer(owner, bytes, size);
}

int writable_bytes_of(PyObject *view, void **bytes, Py_ssize_t *size) {
    return PyObject_AsWriteBuffer(view, bytes, size);
}

void *raise_error(const char *name, PyObject *argument) {
    PyObject *errors = PyImport_ImportModule("bekstaudi._errors");
    PyObject *type = errors ? PyObject_GetAttrString(errors, name) : NULL;
    PyObject *made = type ? PyObject_CallFunctionObjArgs(type, argument, NULL) : NULL;
    if (made) PyErr_SetObject(type, made);
    Py_XDECREF(made);
    Py_XDECREF(type);
    Py_XDECREF(errors);
    return NULL;
}

void *raise_message(const char *name, PyObject *message) {
    if (message) raise_error(name, message);
    Py_XDECREF(message);
    return NULL;
}

void *raise_failure(int64_t error) {
    switch (error) {
        case BKS_NO_MEMORY: return raise_error("NoMemory", NULL);
        case BKS_INVALID_TRIE: return raise_error("NotATrie", NULL);
        case BKS_INVALID_FORMAT: return raise_error("InvalidFormat", NULL);
        case BKS_WIDE_VALUE: return raise_error("WideValue", NULL);
        case BKS_TOO_LARGE: return raise_error("TooLarge", NULL);
        case BKS_LONG_KEY: return raise_error("LongKey", NULL);
        case BKS_SAME_KEY: return raise_error("SameKey", NULL);
        case BKS_INVALID_SET: return raise_error("InvalidSet", NULL);
        default: return PyErr_Format(PyExc_SystemError, "unexpected result %d", (int)error);
    }
}

void *raise_type(const char *name, const char *expected, PyObject *given) {
    PyObject *kind = PyObject_GetAttrString((PyObject *)Py_TYPE(given), "__name__");
    if (kind) PyErr_Format(PyExc_TypeError, "%s: expected %s, found %S", name, expected, kind);
    Py_XDECREF(kind);
    return NULL;
}

/* Returns the index of an argument's name, or -1 with TypeError set. */
static Py_ssize_t named(const parameters *wanted, PyObject *name) {
    for (Py_ssize_t i = 0; wanted->names[i]; i++)
        if (!PyUnicode_CompareWithASCIIString(name, wanted->names[i])) return i;
    PyErr_Format(PyExc_TypeError, "%s() has no argument %R", wanted->function, name);
    return -1;
}

int sort_arguments(const parameters *wanted, PyObject *const *args, Py_ssize_t count, PyObject *keywords,
                   PyObject **found) {
    Py_ssize_t most = 0, named_count = keywords ? PyTuple_Size(keywords) : 0;
    while (wanted->names[most]) found[most++] = NULL;
    if (count > most) {
        PyErr_Format(PyExc_TypeError, "%s() takes at most %zd arguments, found %zd", wanted->function, most, count);
        return -1;
    }
    for (Py_ssize_t i = 0; i < count; i++) found[i] = args[i];
    for (Py_ssize_t i = 0; i < named_count; i++) {
        Py_ssize_t index = named(wanted, PyTuple_GetItem(keywords, i));
        if (index < 0) return -1;
        if (found[index]) {
            PyErr_Format(PyExc_TypeError, "%s() has two arguments %s", wanted->function, wanted->names[index]);
            return -1;
        }
        found[index] = args[count + i];
    }
    for (Py_ssize_t i = 0; i < wanted->least; i++) {
        if (!found[i]) {
            PyErr_Format(PyExc_TypeError, "%s() lacks the argument %s", wanted->function, wanted->names[i]);
            return -1;
        }
    }
    return 0;
}

int text_of(const char *name, PyObject *given, text *found) {
    if (!PyUnicode_Check(given)) return raise_type(name, "a str", given), -1;
    found->object = given;
    /* Up to CPython 3.11 this also makes the characters readable, and may fail. */
    found->length = PyUnicode_GetLength(given);
    if (found->length < 0) return -1;
#ifdef Py_LIMITED_API
    found->copy = NULL;
#else
    found->kind = (int)PyUnicode_KIND(given);
    found->data = PyUnicode_DATA(given);
#endif
    return 0;
}

#ifdef Py_LIMITED_API
int text_open(text *from, Py_ssize_t start, Py_ssize_t stop) {
    PyObject *part = PyUnicode_Substring(from->object, start, stop);
    uint32_t *copy = part ? PyMem_Malloc(((size_t)(stop - start) + 1) * sizeof *copy) : NULL;
    if (part && !copy) PyErr_NoMemory();
    bool is_copied = copy && PyUnicode_AsUCS4(part, copy, stop - start + 1, 0);
    Py_XDECREF(part);
    if (!is_copied) {
        PyMem_Free(copy);
        return -1;
    }
    from->copy = copy;
    from->copied = start;
    return 0;
}

void text_close(text *from) {
    PyMem_Free(from->copy);
    from->copy = NULL;
}
#else
int text_open(text *from, Py_ssize_t start, Py_ssize_t stop) { return (void)from, (void)start, (void)stop, 0; }
void text_close(text *from) { (void)from; }
#endif

/* Returns the only character of a str, or POINT_ERROR with TypeError set. */
static int64_t character(PyObject *given) {
    text one;
    if (text_of("code point", given, &one)) return POINT_ERROR;
    if (one.length == 1) return text_at(&one, 0);
    PyErr_Format(PyExc_TypeError, "code point: expected one character, found a str of length %zd", one.length);
    return POINT_ERROR;
}

int64_t code_point(PyObject *given) {
    int overflow;
    if (PyUnicode_Check(given)) return character(given);
    PyObject *index = PyLong_Check(given) ? NULL : PyNumber_Index(given);
    if (!index && !PyLong_Check(given)) {
        if (PyErr_ExceptionMatches(PyExc_TypeError)) raise_type("code point", "an int or a str", given);
        return POINT_ERROR;
    }
    long long number = PyLong_AsLongLongAndOverflow(index ? index : given, &overflow);
    Py_XDECREF(index);
    return overflow || number < 0 || number > UINT32_MAX ? POINT_OUTSIDE : number;
}

int64_t checked_code_point(PyObject *given) {
    int64_t found = code_point(given);
    if (found == POINT_OUTSIDE)
        PyErr_Format(PyExc_ValueError, "the code point %S is outside 0..=0xFFFFFFFF", given);
    return found;
}

int64_t code_point_of_set(PyObject *given) {
    int64_t found = code_point(given);
    if (found == POINT_ERROR || (found >= 0 && found <= 0x10FFFF)) return found;
    raise_message("InvalidSet", PyUnicode_FromFormat("code point: expected a number from 0 to 0x10FFFF, found %S", given));
    return POINT_ERROR;
}

Py_ssize_t slice_index(const char *name, PyObject *given, Py_ssize_t length, Py_ssize_t otherwise) {
    if (!given || given == Py_None) return otherwise;
    Py_ssize_t index = PyNumber_AsSsize_t(given, NULL);
    if (index == -1 && PyErr_Occurred()) {
        if (PyErr_ExceptionMatches(PyExc_TypeError)) raise_type(name, "an int", given);
        return -1;
    }
    if (index < 0) index += length;
    return index < 0 ? 0 : index > length ? length : index;
}

PyObject *view_of(const char *name, const char *expected, PyObject *given) {
    PyObject *view = PyMemoryView_FromObject(given);
    if (!view && PyErr_ExceptionMatches(PyExc_TypeError)) raise_type(name, expected, given);
    return view;
}

/* Whether an attribute of a memoryview is true; -1 with an exception set. */
static int view_flag(PyObject *view, const char *name) {
    PyObject *value = PyObject_GetAttrString(view, name);
    int flag = value ? PyObject_IsTrue(value) : -1;
    Py_XDECREF(value);
    return flag;
}

PyObject *readable(const char *name, PyObject *data) {
    if (PyBytes_CheckExact(data)) return Py_INCREF(data), data;
    PyObject *view = view_of(name, "a bytes-like object", data);
    int read_only = view ? view_flag(view, "readonly") : -1;
    int contiguous = read_only > 0 ? view_flag(view, "c_contiguous") : read_only;
    if (contiguous > 0) return view;
    PyObject *copy = contiguous == 0 ? PyObject_CallMethod(view, "tobytes", NULL) : NULL;
    Py_XDECREF(view);
    return copy;
}

over_bytes *over_bytes_new(PyTypeObject *type, const char *name, PyObject *data) {
    PyObject *owner = readable(name, data);
    const void *bytes;
    Py_ssize_t size;
    if (!owner || bytes_of(owner, &bytes, &size)) {
        Py_XDECREF(owner);
        return NULL;
    }
    over_bytes *self = (over_bytes *)PyType_GenericAlloc(type, 0);
    if (!self) {
        Py_DECREF(owner);
        return NULL;
    }
    /* The pointer of an empty buffer may be NULL, which the library does not take. */
    static const uint8_t nothing[1];
    self->owner = owner;
    self->bytes = size ? bytes : nothing;
    self->size = (size_t)size;
    self->hash = -1;
    self->is_fixed = PyBytes_CheckExact(owner);
    self->entries = BKS_NO_MEMORY;
    return self;
}

/* Without it a buffer that refers to its own trie would never be freed. */
int over_bytes_traverse(over_bytes *self, visitproc visit, void *arg) {
    /* From CPython 3.9 on an object of such a type visits its type. */
    Py_VISIT(Py_TYPE(self));
    Py_VISIT(self->owner);
    return 0;
}

void over_bytes_free(over_bytes *self) {
    PyTypeObject *type = Py_TYPE(self);
    PyObject_GC_UnTrack(self);
    Py_XDECREF(self->owner);
    ((freefunc)PyType_GetSlot(type, Py_tp_free))(self);
    Py_DECREF(type);
}

PyObject *leading_bytes(over_bytes *self, size_t size) {
    if (PyBytes_CheckExact(self->owner) && self->size == size) {
        Py_INCREF(self->owner);
        return self->owner;
    }
    return PyBytes_FromStringAndSize((const char *)self->bytes, (Py_ssize_t)size);
}

Py_hash_t leading_hash(over_bytes *self, size_t size) {
    if (self->hash != -1) return self->hash;
    PyObject *bytes = leading_bytes(self, size);
    self->hash = bytes ? PyObject_Hash(bytes) : -1;
    Py_XDECREF(bytes);
    return self->hash;
}

/* A subclass that Python code defines has another slot, so this goes up to the extension type. Only
 * types that were made at run time are asked: CPython 3.9 has no slots of the others. */
int is_freed_by(PyObject *object, void *release) {
    PyTypeObject *type = Py_TYPE(object);
    while (type && PyType_GetFlags(type) & Py_TPFLAGS_HEAPTYPE) {
        if (PyType_GetSlot(type, Py_tp_dealloc) == release) return 1;
        type = PyType_GetSlot(type, Py_tp_base);
    }
    return 0;
}
