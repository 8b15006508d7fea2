#include "native.h"

int lt_tag_init(PyObject *self, PyObject *arguments, PyObject *named) { return lt_init(self, arguments, named, 1); }
static int range_init(PyObject *self, PyObject *arguments, PyObject *named) { return lt_init(self, arguments, named, 0); }

/* Adds an object to the module, which gets its only reference. */
static int add(PyObject *module, const char *name, PyObject *object) {
    if (object && !PyModule_AddObject(module, name, object)) return 0;
    Py_XDECREF(object);
    return -1;
}

/* Adds a class to the module, with the slots that Tag and Range share and with its own slots. */
static int add_class(PyObject *module, const char *name, const char *full, initproc init, PyMethodDef *methods,
                     PyGetSetDef *members) {
    PyType_Slot slots[16];
    size_t count = 0;
    for (PyType_Slot *slot = lt_value_slots; slot->slot; slot++) slots[count++] = *slot;
    slots[count++] = (PyType_Slot){Py_tp_init, (void *)init};
    slots[count++] = (PyType_Slot){Py_tp_methods, methods};
    slots[count++] = (PyType_Slot){Py_tp_getset, members};
    slots[count] = (PyType_Slot){0, NULL};
    PyType_Spec spec = {full, sizeof(Value), 0, Py_TPFLAGS_DEFAULT | Py_TPFLAGS_BASETYPE, slots};
    return add(module, name, PyType_FromSpec(&spec));
}

static int fill(PyObject *module) {
    static PyMethodDef none[] = {{NULL, NULL, 0, NULL}};
    return add_class(module, "TagBase", "langtag._native.TagBase", lt_tag_init, none, lt_tag_members) ||
           add_class(module, "RangeBase", "langtag._native.RangeBase", range_init, lt_range_methods, lt_range_members) ? -1 : 0;
}

/* Py_mod_multiple_interpreters of Python 3.12, which the headers of 3.8 lack. An older Python refuses this number. */
#define MULTIPLE_INTERPRETERS 3
#define OWN_GIL_SUPPORTED ((void *)2)
static PyModuleDef_Slot slots[] = {{Py_mod_exec, fill}, {0, NULL}};
static PyModuleDef_Slot slots_since_3_12[] = {{Py_mod_exec, fill}, {MULTIPLE_INTERPRETERS, OWN_GIL_SUPPORTED}, {0, NULL}};
static PyModuleDef definition = {PyModuleDef_HEAD_INIT, "langtag._native", NULL, 0, lt_functions, slots, NULL, NULL, NULL};

/* The headers of 3.8 do not export this function. */
__attribute__((visibility("default"))) PyMODINIT_FUNC PyInit__native(void) {
    long minor = strtol(Py_GetVersion() + 2, NULL, 10); /* "3.11.2 (main, .." */
    if (minor >= 12) definition.m_slots = slots_since_3_12;
    return PyModuleDef_Init(&definition);
}
