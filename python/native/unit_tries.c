/* The type bekstaudi._native.UnitTrie. */
#include "shared.h"
#include <string.h>

static PyObject *units_new(PyTypeObject *type, PyObject *args, PyObject *keywords) {
    static char *names[] = {"units", NULL};
    PyObject *data;
    if (!PyArg_ParseTupleAndKeywords(args, keywords, "O", names, &data)) return NULL;
    over_bytes *self = over_bytes_new(type, "units", data);
    if (self) self->size = self->size / 2 * 2;
    return (PyObject *)self;
}

/* ---- Keys ---- */

/* Writes a code point as one or two units. Returns how many. */
static size_t write_units(uint32_t c, uint16_t *units) {
    if (c <= 0xFFFF) {
        units[0] = (uint16_t)c;
        return 1;
    }
    units[0] = (uint16_t)(0xD7C0 + (c >> 10));
    units[1] = (uint16_t)(0xDC00 | (c & 0x3FF));
    return 2;
}

/* Reads a unit of a list. Returns -1 with an exception set. */
static int64_t read_unit(PyObject *item) {
    PyObject *index = PyNumber_Index(item);
    if (!index) {
        if (PyErr_ExceptionMatches(PyExc_TypeError)) raise_type("key", "a str or a list of ints", item);
        return -1;
    }
    int overflow;
    long number = PyLong_AsLongAndOverflow(index, &overflow);
    Py_DECREF(index);
    if (!overflow && number >= 0 && number <= 0xFFFF) return number;
    raise_message("WideUnit", PyUnicode_FromFormat("key: %S is not an unsigned number of 16 bits", item));
    return -1;
}

void key_free(key_units *key) {
    if (key->units != key->few) PyMem_Free(key->units);
}

/* Takes memory for the units of a key. Returns 0, or -1 with an exception set. */
static int key_new(Py_ssize_t most, key_units *key) {
    key->count = 0;
    key->units = most <= 128 ? key->few : PyMem_Malloc((size_t)most * sizeof *key->units);
    return key->units ? 0 : (PyErr_NoMemory(), -1);
}

static int text_key(PyObject *given, key_units *key) {
    text from;
    if (text_of("key", given, &from) || key_new(2 * from.length, key)) return -1;
    for (Py_ssize_t i = 0; i < from.length; i++)
        key->count += write_units(text_at(&from, i), key->units + key->count);
    return 0;
}

static int list_key(PyObject *given, key_units *key) {
    PyObject *list = PySequence_List(given);
    Py_ssize_t length = list ? PyList_Size(list) : 0;
    int64_t unit = 0;
    if (!list || key_new(length, key)) {
        Py_XDECREF(list);
        return -1;
    }
    for (Py_ssize_t i = 0; i < length && unit >= 0; i++) {
        unit = read_unit(PyList_GetItem(list, i));
        key->units[key->count++] = (uint16_t)unit;
    }
    Py_DECREF(list);
    if (unit >= 0) return 0;
    key_free(key);
    return -1;
}

int key_of(PyObject *given, key_units *key) {
    if (PyUnicode_Check(given)) return text_key(given, key);
    if (PySequence_Check(given) && !PyBytes_Check(given) && !PyByteArray_Check(given)) return list_key(given, key);
    return raise_type("key", "a str or a list of 16-bit units", given), -1;
}

/* Finds a key. Returns 1 and its value, 0 if it is not there, or -1 with an exception set. */
static int value_of(over_bytes *self, PyObject *given, int32_t *value) {
    key_units key;
    if (key_of(given, &key)) return -1;
    bool found = bks_units_get(self->bytes, self->size, key.units, key.count, value);
    key_free(&key);
    return found;
}

static PyObject *units_item(over_bytes *self, PyObject *key) {
    int32_t value;
    int found = value_of(self, key, &value);
    if (found == 0) PyErr_SetObject(PyExc_KeyError, key);
    return found > 0 ? PyLong_FromLong(value) : NULL;
}

static int units_contains(over_bytes *self, PyObject *key) {
    int32_t value;
    return value_of(self, key, &value);
}

PyDoc_STRVAR(units_get_text,
    "get($self, /, key, default=None)\n--\n\nReturn the value of a key, or `default` if it is not there.");

static PyObject *units_get(over_bytes *self, PyObject *const *args, Py_ssize_t count, PyObject *keywords) {
    static const parameters wanted = {"get", {"key", "default", NULL}, 1};
    PyObject *given[2];
    int32_t value;
    if (sort_arguments(&wanted, args, count, keywords, given)) return NULL;
    int found = value_of(self, given[0], &value);
    if (found < 0) return NULL;
    if (found) return PyLong_FromLong(value);
    PyObject *otherwise = given[1] ? given[1] : Py_None;
    Py_INCREF(otherwise);
    return otherwise;
}

/* ---- Prefixes of texts ---- */

/* The state of a search through a text: `at` is the index of the next character. */
typedef struct {
    bks_cursor cursor;
    uint32_t step;          /* of enum bks_step */
    Py_ssize_t at;
} search;

/* Advances to the next character after which a key ends. Returns whether there is one. A key that
 * ends between the two units of a character does not count. */
static bool next_end(over_bytes *self, const text *from, search *now) {
    uint16_t units[2];
    while (now->at < from->length && now->step & 1) {
        size_t count = write_units(text_at(from, now->at++), units);
        for (size_t i = 0; i < count; i++)
            now->step = bks_units_step(self->bytes, self->size, &now->cursor, units[i]);
        if (now->step & 2) return true;
    }
    return false;
}

/* Returns the key that ends at a cursor, with its value. */
static PyObject *found_key(over_bytes *self, const text *from, Py_ssize_t start, const search *end) {
    int32_t value = 0;
    bks_units_value(self->bytes, self->size, &end->cursor, &value);
    PyObject *key = PyUnicode_Substring(from->object, start, end->at);
    PyObject *number = key ? PyLong_FromLong(value) : NULL;
    PyObject *pair = number ? PyTuple_Pack(2, key, number) : NULL;
    Py_XDECREF(key);
    Py_XDECREF(number);
    return pair;
}

/* Starts a search by the arguments text and start. Returns whether the empty key is there, or -1 with an
 * exception set. */
static int begin_search(over_bytes *self, const parameters *wanted, PyObject *const *args, Py_ssize_t count,
                        PyObject *keywords, text *from, search *now) {
    PyObject *found[2];
    int32_t value;
    if (sort_arguments(wanted, args, count, keywords, found) || text_of("text", found[0], from)) return -1;
    *now = (search){.step = BKS_NO_VALUE, .at = slice_index("start", found[1], from->length, 0)};
    return now->at < 0 ? -1 : bks_units_value(self->bytes, self->size, &now->cursor, &value);
}

PyDoc_STRVAR(units_longest_text,
    "longest($self, /, text, start=0)\n--\n\n"
    "Return the longest key that `text[start:]` starts with, and its value; None if there is none.\n\n"
    "Reads the text only as far as keys go on.");

static PyObject *units_longest(over_bytes *self, PyObject *const *args, Py_ssize_t count, PyObject *keywords) {
    static const parameters wanted = {"longest", {"text", "start", NULL}, 1};
    text from;
    search now, longest;
    int is_found = begin_search(self, &wanted, args, count, keywords, &from, &now);
    if (is_found < 0) return NULL;
    Py_ssize_t start = now.at;
    longest = now;
    while (next_end(self, &from, &now)) {
        longest = now;
        is_found = 1;
    }
    if (is_found) return found_key(self, &from, start, &longest);
    Py_INCREF(Py_None);
    return Py_None;
}

PyDoc_STRVAR(units_prefixes_text,
    "prefixes($self, /, text, start=0)\n--\n\n"
    "Return all keys that `text[start:]` starts with, with their values, the shortest first: a list.");

static PyObject *units_prefixes(over_bytes *self, PyObject *const *args, Py_ssize_t count, PyObject *keywords) {
    static const parameters wanted = {"prefixes", {"text", "start", NULL}, 1};
    text from;
    search now;
    int is_found = begin_search(self, &wanted, args, count, keywords, &from, &now);
    PyObject *list = is_found < 0 ? NULL : PyList_New(0);
    if (!list) return NULL;
    Py_ssize_t start = now.at;
    for (is_found = is_found || next_end(self, &from, &now); is_found; is_found = next_end(self, &from, &now)) {
        PyObject *pair = found_key(self, &from, start, &now);
        if (!pair || PyList_Append(list, pair)) {
            Py_XDECREF(pair);
            Py_DECREF(list);
            return NULL;
        }
        Py_DECREF(pair);
    }
    return list;
}

/* ---- Entries ---- */

/* A trie below a prefix: its units, and what all its keys start with. */
typedef struct {
    const uint8_t *bytes;
    size_t size;
    uint8_t *copy;          /* memory to free: the units, if they could not be read in place */
    PyObject *head;         /* a str */
} part;

static void part_free(part *below) {
    PyMem_Free(below->copy);
    Py_XDECREF(below->head);
}

static uint16_t unit_at(const over_bytes *self, size_t index) {
    return (uint16_t)(self->bytes[2 * index] | self->bytes[2 * index + 1] << 8);
}

static bool is_lead(uint16_t unit) { return unit >= 0xD800 && unit <= 0xDBFF; }

/* Sets `below` to the node `node`, whose keys start with the units of `head`. A last lead surrogate
 * belongs to the next unit, so the trie gets a node for it: a linear match of one unit. */
static int part_at(over_bytes *self, size_t node, const uint16_t *head, size_t count, part *below) {
    const uint16_t linear_match = 0x30;
    int order = -1;
    *below = (part){.bytes = self->bytes + 2 * node, .size = self->size - 2 * node};
    if (count && is_lead(head[count - 1])) {
        uint16_t units[2] = {linear_match, head[--count]};
        below->copy = PyMem_Malloc(below->size + sizeof units);
        if (!below->copy) return PyErr_NoMemory(), -1;
        memcpy(below->copy, units, sizeof units);
        memcpy(below->copy + sizeof units, below->bytes, below->size);
        below->bytes = below->copy;
        below->size += sizeof units;
    }
    below->head = PyUnicode_DecodeUTF16((const char *)head, (Py_ssize_t)(2 * count), "replace", &order);
    if (below->head) return 0;
    part_free(below);
    return -1;
}

/* Finds the trie of the keys that start with a prefix. Returns 1, 0 if there is none, or -1 with an
 * exception set. */
static int part_below(over_bytes *self, const key_units *prefix, part *below) {
    bks_cursor now = {0, 0};
    uint32_t step = BKS_NO_VALUE;
    size_t count = self->size / 2, read = 0;
    while (read < prefix->count && step & 1)
        step = bks_units_step(self->bytes, self->size, &now, prefix->units[read++]);
    if (read < prefix->count || step == BKS_NO_MATCH) return 0;
    if (now.position > count || now.left > count - now.position) return 0;
    /* The units that all keys go on with. */
    uint16_t *head = PyMem_Malloc((prefix->count + now.left + 1) * sizeof *head);
    if (!head) return PyErr_NoMemory(), -1;
    memcpy(head, prefix->units, prefix->count * sizeof *head);
    for (size_t i = 0; i < now.left; i++) head[prefix->count + i] = unit_at(self, now.position + i);
    int status = part_at(self, now.position + now.left, head, prefix->count + now.left, below);
    PyMem_Free(head);
    return status ? -1 : 1;
}

/* Returns the entries as a list of pairs. */
static PyObject *pairs_of(const bks_word *words, size_t count, const char *texts, PyObject *head) {
    PyObject *list = PyList_New((Py_ssize_t)count);
    bool is_whole = PyUnicode_GetLength(head) == 0;
    for (size_t i = 0; list && i < count; i++) {
        PyObject *key = PyUnicode_DecodeUTF8(texts + words[i].start, (Py_ssize_t)words[i].size, NULL);
        PyObject *whole = key && !is_whole ? PyUnicode_Concat(head, key) : (Py_XINCREF(key), key);
        PyObject *value = PyLong_FromLong(words[i].value);
        PyObject *pair = whole && value ? PyTuple_Pack(2, whole, value) : NULL;
        if (!pair || PyList_SetItem(list, (Py_ssize_t)i, pair)) Py_CLEAR(list);
        Py_XDECREF(key);
        Py_XDECREF(whole);
        Py_XDECREF(value);
    }
    return list;
}

static PyObject *listed(const part *from) {
    const size_t most = PY_SSIZE_T_MAX / sizeof(bks_word) - 1;
    size_t size = 0, needed;
    bks_word nothing[1], *words = NULL;
    char *texts = NULL;
    PyObject *list = NULL;
    int64_t count, written = BKS_NO_MEMORY;
    Py_BEGIN_ALLOW_THREADS
    count = bks_units_list(from->bytes, from->size, nothing, 0, (char *)nothing, 0, &size);
    Py_END_ALLOW_THREADS
    if (count < 0) return raise_failure(count);
    if ((size_t)count <= most && size < PY_SSIZE_T_MAX) {
        words = PyMem_Malloc(((size_t)count + 1) * sizeof *words);
        texts = PyMem_Malloc(size + 1);
    }
    if (words && texts) {
        Py_BEGIN_ALLOW_THREADS
        written = bks_units_list(from->bytes, from->size, words, (size_t)count, texts, size, &needed);
        Py_END_ALLOW_THREADS
    }
    if (written < 0) raise_failure(written);
    else if (written > count || needed > size)
        PyErr_SetString(PyExc_RuntimeError, "the units changed while they were listed");
    else list = pairs_of(words, (size_t)written, texts, from->head);
    PyMem_Free(words);
    PyMem_Free(texts);
    return list;
}

PyDoc_STRVAR(units_items_text,
    "items($self, /, prefix='')\n--\n\n"
    "Return the keys that start with `prefix` and their values, in the order of the keys' units: a list\n"
    "of pairs.\n\n"
    "A lone surrogate in a key is shown as U+FFFD, so two keys can look alike, and `trie[key]` is not\n"
    "always the value beside it. A few units from an untrusted source can have very many entries:\n"
    "call `count` first.");

/* Lists at most `most` entries after the first `skipped` ones. Returns how many, or an `enum bks_error`.
 * The texts get more memory until all of them fit. */
static int64_t list_page(const over_bytes *self, uint64_t skipped, bks_word *words, size_t most, char **texts) {
    size_t room = 16 * most, needed;
    for (;;) {
        int64_t count;
        char *larger = PyMem_Realloc(*texts, room + 1);
        if (!larger) return BKS_NO_MEMORY;
        *texts = larger;
        Py_BEGIN_ALLOW_THREADS
        count = bks_units_list_below(self->bytes, self->size, "", 0, skipped, words, most, larger, room, &needed);
        Py_END_ALLOW_THREADS
        if (count < 0 || (size_t)count == most || needed <= room) return count;
        room = needed > 2 * room ? needed : 2 * room;
    }
}

/* Returns at most `most` entries after the first `skipped` ones: fewer only if no other one is left. */
static PyObject *units_page(over_bytes *self, PyObject *args) {
    unsigned long long skipped;
    Py_ssize_t most;
    char *texts = NULL;
    if (!PyArg_ParseTuple(args, "Kn", &skipped, &most)) return NULL;
    bks_word *words = PyMem_Malloc((size_t)most * sizeof *words);
    int64_t count = words ? list_page(self, skipped, words, (size_t)most, &texts) : BKS_NO_MEMORY;
    PyObject *head = count < 0 ? raise_failure(count) : PyUnicode_FromString("");
    PyObject *list = head ? pairs_of(words, (size_t)count, texts, head) : NULL;
    Py_XDECREF(head);
    PyMem_Free(texts);
    PyMem_Free(words);
    return list;
}

static PyObject *units_items(over_bytes *self, PyObject *const *args, Py_ssize_t count, PyObject *keywords) {
    static const parameters wanted = {"items", {"prefix", NULL}, 0};
    PyObject *given[1];
    key_units prefix = {.units = prefix.few};
    part below;
    if (sort_arguments(&wanted, args, count, keywords, given) || (given[0] && key_of(given[0], &prefix))) return NULL;
    int found = part_below(self, &prefix, &below);
    key_free(&prefix);
    if (found <= 0) return found < 0 ? NULL : PyList_New(0);
    PyObject *list = listed(&below);
    part_free(&below);
    return list;
}

/* Returns how many entries there are, or an `enum bks_error`. It counts them once. */
static int64_t counted(over_bytes *self) {
    int64_t count = self->entries;
    if (count != BKS_NO_MEMORY) return count;
    Py_BEGIN_ALLOW_THREADS
    count = bks_units_count(self->bytes, self->size);
    Py_END_ALLOW_THREADS
    return self->entries = count;
}

static PyObject *units_count(over_bytes *self, PyObject *none) {
    (void)none;
    int64_t count = counted(self);
    if (count >= 0) return PyLong_FromLongLong(count);
    if (count != BKS_INVALID_TRIE) return raise_failure(count);
    Py_INCREF(Py_None);
    return Py_None;
}

static Py_ssize_t units_length(over_bytes *self) {
    int64_t count = counted(self);
    if (count < 0) raise_failure(count);
    return count < 0 ? -1 : (Py_ssize_t)count;
}

static PyObject *units_data(over_bytes *self, void *none) {
    (void)none;
    return leading_bytes(self, self->size);
}

static Py_hash_t units_hash(over_bytes *self) { return leading_hash(self, self->size); }

static PyObject *units_compare(over_bytes *self, PyObject *other, int how) {
    const over_bytes *second = (over_bytes *)other;
    if (how != Py_EQ && how != Py_NE) return Py_INCREF(Py_NotImplemented), Py_NotImplemented;
    if (!is_freed_by(other, over_bytes_free) || second->trie.size)
        return PyObject_CallMethod((PyObject *)self, "_compared", "Oi", other, how == Py_EQ);
    bool same = self->size == second->size && !memcmp(self->bytes, second->bytes, self->size);
    return PyBool_FromLong(same == (how == Py_EQ));
}

PyObject *build_units(PyObject *module, PyObject *args) {
    (void)module;
    PyObject *keys, *lengths, *values, *built;
    if (!PyArg_ParseTuple(args, "SSS", &keys, &lengths, &values)) return NULL;
    size_t count = (size_t)PyBytes_Size(lengths) / sizeof(size_t), key_count = (size_t)PyBytes_Size(keys) / 2;
    size_t value_count = (size_t)PyBytes_Size(values) / sizeof(int32_t), room = 4 * key_count + 32 * count;
    const uint16_t *units = (uint16_t *)(void *)PyBytes_AsString(keys);
    const size_t *sizes = (size_t *)(void *)PyBytes_AsString(lengths);
    const int32_t *numbers = (int32_t *)(void *)PyBytes_AsString(values);
    uint8_t *bytes = PyMem_Malloc(room + 1);
    int64_t size = BKS_NO_MEMORY;
    if (bytes) {
        Py_BEGIN_ALLOW_THREADS
        size = bks_units_build(units, key_count, sizes, count, numbers, value_count, bytes, room);
        Py_END_ALLOW_THREADS
    }
    built = size < 0 ? raise_failure(size) : PyBytes_FromStringAndSize((char *)bytes, size);
    PyMem_Free(bytes);
    return built;
}

static PyMethodDef methods[] = {
    {"get", METHOD(units_get), METH_FASTCALL | METH_KEYWORDS, units_get_text},
    {"longest", METHOD(units_longest), METH_FASTCALL | METH_KEYWORDS, units_longest_text},
    {"prefixes", METHOD(units_prefixes), METH_FASTCALL | METH_KEYWORDS, units_prefixes_text},
    {"items", METHOD(units_items), METH_FASTCALL | METH_KEYWORDS, units_items_text},
    {"count", METHOD(units_count), METH_NOARGS,
     "count($self, /)\n--\n\n"
     "Return the number of entries, at most 2 ** 63 - 1; None if the units are not a trie.\n\n"
     "Only the first call counts them."},
    {"_page", METHOD(units_page), METH_VARARGS, NULL},
    {NULL, NULL, 0, NULL}};

static PyGetSetDef fields[] = {
    {"data", (getter)units_data, NULL, "The units of the trie, two bytes each, the lowest byte first.", NULL},
    {NULL, NULL, NULL, NULL, NULL}};

static PyType_Slot slots[] = {
    {Py_tp_new, units_new}, {Py_tp_dealloc, over_bytes_free}, {Py_tp_traverse, over_bytes_traverse},
    {Py_tp_hash, units_hash}, {Py_tp_richcompare, units_compare}, {Py_mp_subscript, units_item},
    {Py_mp_length, units_length}, {Py_sq_contains, units_contains}, {Py_tp_methods, methods},
    {Py_tp_getset, fields}, {0, NULL}};

PyType_Spec units_spec = {"bekstaudi._native.UnitTrie", sizeof(over_bytes), 0,
                          Py_TPFLAGS_DEFAULT | Py_TPFLAGS_BASETYPE | Py_TPFLAGS_HAVE_GC, slots};
