#include "native.h"

/* Returns the real bytes, even if a subclass of str or bytes has its own encode or length. A lone surrogate becomes bytes that no
 * tag contains. */
static PyObject *owned(PyObject *from, const char *expected) {
    if (PyUnicode_Check(from)) {
        PyObject *made = PyUnicode_AsUTF8String(from);
        if (made || !PyErr_ExceptionMatches(PyExc_UnicodeEncodeError)) return made;
        PyErr_Clear();
        return PyUnicode_AsEncodedString(from, "utf-8", "surrogatepass");
    }
    if (PyBytes_CheckExact(from)) {
        Py_INCREF(from);
        return from;
    }
    if (PyBytes_Check(from)) {
        char *data;
        Py_ssize_t len;
        return PyBytes_AsStringAndSize(from, &data, &len) ? NULL : PyBytes_FromStringAndSize(data, len);
    }
    lt_raise("wrong_type", from, expected);
    return NULL;
}

int lt_text(PyObject *from, Text *text) { return lt_text_of(from, text, "text"); }

int lt_text_of(PyObject *from, Text *text, const char *expected) {
    text->owner = owned(from, expected);
    if (!text->owner) return -1;
    text->data = PyBytes_AsString(text->owner);
    text->len = (size_t)PyBytes_Size(text->owner);
    return 0;
}

void lt_raise(const char *function, PyObject *value, const char *expected) {
    PyObject *texts = PyImport_ImportModule("langtag._texts"), *call = texts ? PyObject_GetAttrString(texts, function) : NULL;
    PyObject *word = call && expected ? lt_str(expected, strlen(expected)) : NULL;
    PyObject *made = call ? PyObject_CallFunctionObjArgs(call, value, word, NULL) : NULL;
    if (made) PyErr_SetString(PyExc_SystemError, "langtag: no error was raised");
    Py_XDECREF(made);
    Py_XDECREF(word);
    Py_XDECREF(call);
    Py_XDECREF(texts);
}

PyObject *lt_str(const char *data, size_t len) { return PyUnicode_FromStringAndSize(data, (Py_ssize_t)len); }

PyObject *lt_changed(const Text *text, void (*change)(char *, size_t)) {
    PyObject *copied = PyBytes_FromStringAndSize(NULL, (Py_ssize_t)text->len); /* nobody else has it yet, not even if it has only one byte */
    if (!copied) return NULL;
    char *data = PyBytes_AsString(copied);
    memcpy(data, text->data, text->len);
    change(data, text->len);
    return copied;
}

PyObject *lt_none(void) {
    Py_INCREF(Py_None);
    return Py_None;
}
