/* The English names of tags, and the name of each language in the language itself. */
#include "native.h"
#include "langtag_names.h"

/* Returns the form of a tag whose subtags have the names, as bytes that nobody else has, or NULL with an exception. Its time is quadratic. */
static PyObject *named_form(const Text *tag) {
    char none; /* no pointer may be NULL */
    size_t len;
    {
        LET_GO(tag->len);
        len = langtag_name_form(tag->data, tag->len, &none, 0);
        TAKE_BACK();
    }
    PyObject *form = PyBytes_FromStringAndSize(NULL, (Py_ssize_t)len);
    if (!form) return NULL;
    char *data = PyBytes_AsString(form);
    LET_GO(tag->len);
    langtag_name_form(tag->data, tag->len, data, len);
    TAKE_BACK();
    return form;
}

PyObject *lt_describe(PyObject *module, PyObject *from) {
    PyObject *answer = NULL;
    Text tag = {NULL};
    PyObject *form = lt_text(from, &tag) ? NULL : named_form(&tag);
    if (form) {
        char *data = PyBytes_AsString(form);
        const size_t len = (size_t)PyBytes_Size(form);
        langtag_name_keep_language(tag.data, tag.len, data);
        const size_t name_len = langtag_name_describe(data, len, NULL, 0);
        answer = PyBytes_FromStringAndSize(NULL, (Py_ssize_t)name_len);
        if (answer) langtag_name_describe(data, len, PyBytes_AsString(answer), name_len);
    }
    Py_XDECREF(form);
    Py_XDECREF(tag.owner);
    return answer;
}

PyObject *lt_autonym(PyObject *module, PyObject *from) {
    PyObject *answer = NULL;
    Text tag = {NULL};
    PyObject *form = lt_text(from, &tag) ? NULL : named_form(&tag);
    if (form) {
        const char *name = langtag_name_autonym(PyBytes_AsString(form), (size_t)PyBytes_Size(form));
        answer = name ? PyBytes_FromStringAndSize(name, (Py_ssize_t)strlen(name)) : lt_none();
    }
    Py_XDECREF(form);
    Py_XDECREF(tag.owner);
    return answer;
}
