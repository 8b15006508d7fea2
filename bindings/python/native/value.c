/* What Tag and Range share. */
#include <stddef.h>
#include "native.h"
#include <structmember.h>

static void dealloc(PyObject *self) {
    Value *it = (Value *)self;
    PyTypeObject *type = Py_TYPE(self);
    if (it->weak) PyObject_ClearWeakRefs(self);
    Py_XDECREF(it->text.owner);
    ((freefunc)PyType_GetSlot(type, Py_tp_free))(self);
    Py_DECREF(type);
}

/* Returns the last base type whose tp_dealloc is the function above. In CPython a class in Python has its own tp_dealloc, and in PyPy that
 * of its base. */
static PyTypeObject *base_of(PyTypeObject *type) {
    PyTypeObject *found = NULL;
    for (; type && (PyType_GetFlags(type) & Py_TPFLAGS_HEAPTYPE); type = (PyTypeObject *)PyType_GetSlot(type, Py_tp_base))
        if ((destructor)PyType_GetSlot(type, Py_tp_dealloc) == dealloc) found = type;
    if (!found) PyErr_SetString(PyExc_TypeError, "langtag: neither Tag nor Range");
    return found;
}

static PyObject *new(PyTypeObject *type, PyObject *arguments, PyObject *named) {
    PyTypeObject *base = base_of(type);
    Value *self = base ? (Value *)((allocfunc)PyType_GetSlot(type, Py_tp_alloc))(type, 0) : NULL;
    if (!self) return NULL;
    self->hash = -1;
    self->base = base;
    return (PyObject *)self;
}

int lt_lacks(Value *self) {
    if (self->text.owner) return 0;
    lt_raise("uninitialized", (PyObject *)self, NULL);
    return 1;
}

bool lt_is_tag(PyObject *object) {
    PyTypeObject *base = base_of(Py_TYPE(object));
    if (!base) PyErr_Clear();
    return base && (initproc)PyType_GetSlot(base, Py_tp_init) == lt_tag_init;
}

Value *lt_as_tag(PyObject *object) {
    if (lt_is_tag(object)) return lt_lacks((Value *)object) ? NULL : (Value *)object;
    lt_raise("wrong_type", object, "tag");
    return NULL;
}

static PyObject *only_argument(PyObject *arguments, PyObject *named) {
    static char *names[] = {"text", NULL};
    PyObject *text;
    if ((!named || PyDict_Size(named) == 0) && PyTuple_Size(arguments) == 1) return PyTuple_GetItem(arguments, 0);
    return PyArg_ParseTupleAndKeywords(arguments, named, "O", names, &text) ? text : NULL;
}

static int refuse_change(int is_tag) {
    PyObject *name = is_tag ? lt_str("Tag", 3) : lt_str("Range", 5);
    if (name) lt_raise("unchangeable", name, NULL);
    Py_XDECREF(name);
    return -1;
}

int lt_text_or_tag(PyObject *from, Text *text, const char *expected) {
    if (PyUnicode_Check(from) || PyBytes_Check(from) || !lt_is_tag(from)) return lt_text_of(from, text, expected);
    if (lt_lacks((Value *)from)) return -1;
    *text = ((Value *)from)->text;
    Py_INCREF(text->owner);
    return 0;
}

/* Raises `_error` of the Python class. */
static int refuse(PyObject *self, PyObject *from) {
    PyObject *error = PyObject_GetAttrString(self, "_error");
    PyObject *made = error ? PyObject_CallFunctionObjArgs(error, from, NULL) : NULL;
    if (made) PyErr_SetObject(error, made);
    Py_XDECREF(error);
    Py_XDECREF(made);
    return -1;
}

static int copy(Value *self, Value *other) {
    if (lt_lacks(other)) return -1;
    Py_INCREF(other->text.owner);
    self->text = other->text;
    self->hash = other->hash;
    self->kind = other->kind;
    self->parts = other->parts;
    return 0;
}

int lt_init(PyObject *object, PyObject *arguments, PyObject *named, int is_tag) {
    Value *self = (Value *)object;
    if (self->text.owner) return refuse_change(is_tag);
    PyObject *from = only_argument(arguments, named);
    if (!from) return -1;
    if (PyObject_TypeCheck(from, self->base)) return copy(self, (Value *)from);
    Text text;
    if (lt_text_or_tag(from, &text, is_tag ? "tag" : "range")) return -1;
    langtag_parts parts = {{0, 0}, {0, 0}, {0, 0}, {0, 0}, {0, 0}, {0, 0}}; /* not those of self, which another thread may read */
    LET_GO(text.len);
    uint32_t kind = is_tag ? langtag_parse(text.data, text.len, &parts) : langtag_range_kind(text.data, text.len);
    TAKE_BACK();
    if (!kind || self->text.owner) { /* if self has an owner now, another thread called __init__ meanwhile */
        Py_DECREF(text.owner);
        return kind ? refuse_change(is_tag) : refuse(object, from);
    }
    self->parts = parts;
    self->kind = kind;
    self->text = text;
    return 0;
}

static PyObject *str(PyObject *object) {
    Value *self = (Value *)object;
    return lt_lacks(self) ? NULL : lt_str(self->text.data, self->text.len);
}

PyObject *lt_data(PyObject *object, void *unused) {
    Value *self = (Value *)object;
    if (lt_lacks(self)) return NULL;
    Py_INCREF(self->text.owner);
    return self->text.owner;
}

static Py_hash_t hash(PyObject *object) {
    Value *self = (Value *)object;
    if (self->hash != -1) return self->hash;
    PyObject *folded = lt_lacks(self) ? NULL : lt_changed(&self->text, langtag_fold);
    if (!folded) return -1;
    self->hash = PyObject_Hash(folded); /* this hash is keyed, as all hashes of Python are */
    Py_DECREF(folded);
    return self->hash;
}

static PyObject *compare(PyObject *a, PyObject *b, int operator) {
    Value *x = (Value *)a, *y = (Value *)b;
    if (!PyObject_TypeCheck(b, x->base)) {
        Py_INCREF(Py_NotImplemented);
        return Py_NotImplemented;
    }
    if (lt_lacks(x) || lt_lacks(y)) return NULL;
    size_t x_len = x->text.len, y_len = y->text.len;
    if (operator == Py_EQ || operator == Py_NE)
        return PyBool_FromLong(langtag_eq(x->text.data, x_len, y->text.data, y_len) == (operator == Py_EQ));
    int order = langtag_cmp(x->text.data, x_len, y->text.data, y_len);
    return PyBool_FromLong(operator == Py_LT ? order < 0 : operator == Py_LE ? order <= 0 : operator == Py_GT ? order > 0 : order >= 0);
}

static PyMemberDef members[] = { /* Python 3.9 and later read this; for 3.8 the Python class adds __weakref__ */
    {"__weaklistoffset__", T_PYSSIZET, offsetof(Value, weak), READONLY, NULL}, {NULL, 0, 0, 0, NULL}};

PyType_Slot lt_value_slots[] = {
    {Py_tp_new, new}, {Py_tp_dealloc, dealloc}, {Py_tp_str, str},
    {Py_tp_hash, hash}, {Py_tp_richcompare, compare}, {Py_tp_members, members}, {0, NULL}};
