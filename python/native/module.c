/* The extension module bekstaudi._native. The classes of bekstaudi/__init__.py are made of its types;
 * nothing else uses it. */
#include "shared.h"

PyDoc_STRVAR(point_text,
    "point($module, code_point, /)\n--\n\nReturn a code point as an int below 2 ** 32.");

static PyObject *point(PyObject *module, PyObject *given) {
    (void)module;
    int64_t found = checked_code_point(given);
    return found < 0 ? NULL : PyLong_FromLongLong(found);
}

static PyMethodDef functions[] = {
    {"build_trie", METHOD(build_trie), METH_VARARGS, NULL},
    {"build_units", METHOD(build_units), METH_VARARGS, NULL},
    {"point", METHOD(point), METH_O, point_text},
    {NULL, NULL, 0, NULL}};

/* Sets an ImportError if the library has instructions that the processor lacks. */
static bool is_wrong_processor(void) {
#ifdef BEKSTAUDI_NEEDS_SSE4_2
    if (!__builtin_cpu_supports("sse4.2") || !__builtin_cpu_supports("popcnt")) {
        PyErr_SetString(PyExc_ImportError, "bekstaudi: this build needs a processor with SSE4.2 (x86-64-v2)");
        return true;
    }
#endif
    return false;
}

static int execute(PyObject *module) {
    if (is_wrong_processor()) return -1;
    static const char *const names[] = {"Trie", "CodePointSet", "UnitTrie", "UnitTrieCursor", "Spans"};
    PyType_Spec *const specs[] = {&trie_spec, &set_spec, &units_spec, &cursor_spec, &spans_spec};
    for (int i = 0; i < 5; i++) {
        PyObject *type = PyType_FromSpec(specs[i]);
        if (!type || PyModule_AddObject(module, names[i], type)) {
            Py_XDECREF(type);
            return -1;
        }
    }
    return PyModule_AddStringConstant(module, "version", BEKSTAUDI_VERSION);
}

/* From CPython 3.12 on a module says that it works in interpreters with a GIL of their own. Older
 * ones reject the slot, whose numbers are part of the stable ABI but not of 3.9's headers. */
#define MULTIPLE_INTERPRETERS 3
#define PER_INTERPRETER_GIL ((void *)2)

static PyModuleDef_Slot slots[] = {{Py_mod_exec, (void *)execute}, {0, NULL}};
static PyModuleDef_Slot slots_from_3_12[] = {
    {Py_mod_exec, (void *)execute}, {MULTIPLE_INTERPRETERS, PER_INTERPRETER_GIL}, {0, NULL}};

static struct PyModuleDef definition = {
    PyModuleDef_HEAD_INIT, "bekstaudi._native", NULL, 0, functions, slots, NULL, NULL, NULL};
static struct PyModuleDef definition_from_3_12 = {
    PyModuleDef_HEAD_INIT, "bekstaudi._native", NULL, 0, functions, slots_from_3_12, NULL, NULL, NULL};

PyMODINIT_FUNC PyInit__native(void) {
    PyObject *version = PySys_GetObject("hexversion");
    bool is_new = version && PyLong_AsUnsignedLong(version) >= 0x030C0000;
    return PyModuleDef_Init(is_new ? &definition_from_3_12 : &definition);
}
