/* Lists of texts, and the tags of a site. */
#include "native.h"

static int open_list(List *list, size_t count) {
    list->count = list->len = 0;
    list->room = sizeof list->little;
    list->text = list->little;
    int is_few = count <= sizeof list->few / sizeof *list->few;
    list->spans = is_few ? list->few : PyMem_Malloc(count * sizeof *list->spans);
    if (list->spans) return 0;
    PyErr_NoMemory();
    return -1;
}

void lt_close(List *list) {
    if (!list->spans) return;
    if (list->spans != list->few) PyMem_Free(list->spans);
    if (list->text != list->little) PyMem_Free(list->text);
    list->spans = NULL;
}

static int grow(List *list, size_t len) {
    size_t room = 2 * (list->len + len);
    char *more = PyMem_Malloc(room);
    if (!more) {
        PyErr_NoMemory();
        return -1;
    }
    memcpy(more, list->text, list->len);
    if (list->text != list->little) PyMem_Free(list->text);
    list->text = more;
    list->room = room;
    return 0;
}

static int add(List *list, const Text *text) {
    if (text->len > list->room - list->len && grow(list, text->len)) return -1;
    memcpy(list->text + list->len, text->data, text->len);
    list->spans[list->count++] = (langtag_span){list->len, text->len};
    list->len += text->len;
    return 0;
}

static int add_text(List *list, PyObject *item, int is_tag) {
    Text text;
    if (lt_text(item, &text)) return -1;
    int status = -1;
    if (!is_tag || langtag_kind(text.data, text.len)) status = add(list, &text);
    else lt_raise("not_a_tag", item, NULL);
    Py_DECREF(text.owner);
    return status;
}

/* Adds a Tag or a text. `known` is the type of the last Tag, so that it need not be checked again. */
static int add_tag(List *list, PyObject *item, PyTypeObject **known) {
    Value *tag = (Value *)item;
    if (Py_TYPE(item) != *known || !tag->text.owner) {
        if (PyUnicode_Check(item) || PyBytes_Check(item)) return add_text(list, item, 1);
        if (!lt_as_tag(item)) return -1;
        *known = Py_TYPE(item);
    }
    return add(list, &tag->text);
}

static int read_list(PyObject *from, List *list, int are_tags) {
    PyTypeObject *known = NULL;
    Py_ssize_t count = PyList_Size(from);
    if (count < 0 || open_list(list, (size_t)count)) return -1;
    int status = 0;
    for (Py_ssize_t i = 0; i < count && !status; i++) {
        PyObject *item = PyList_GetItem(from, i);
        status = are_tags ? add_tag(list, item, &known) : add_text(list, item, 0);
    }
    if (status) lt_close(list);
    return status;
}

int lt_tags(PyObject *from, List *list) { return read_list(from, list, 1); }
int lt_ranges(PyObject *from, List *list) { return read_list(from, list, 0); }

int lt_site(PyObject *from, Site *site) {
    const char *text, *tags;
    Py_ssize_t len, size;
    if (!PyArg_ParseTuple(from, "y#y#", &text, &len, &tags, &size)) return -1;
    *site = (Site){text, (const langtag_prepared_tag *)tags, (size_t)len, (size_t)size / sizeof(langtag_prepared_tag)};
    return 0;
}

/* Returns (text, tags) for a list of tags. */
PyObject *lt_prepare(PyObject *module, PyObject *from) {
    List list;
    if (lt_tags(from, &list)) return NULL;
    PyObject *tags = PyBytes_FromStringAndSize(NULL, (Py_ssize_t)(list.count * sizeof(langtag_prepared_tag)));
    langtag_prepared_tag *prepared = tags ? (langtag_prepared_tag *)PyBytes_AsString(tags) : NULL;
    for (size_t i = 0; tags && i < list.count; i++) {
        prepared[i] = (langtag_prepared_tag){list.spans[i], {0, 0}};
        langtag_prepare(list.text, list.len, &prepared[i]);
    }
    PyObject *found = tags ? Py_BuildValue("y#N", list.text, (Py_ssize_t)list.len, tags) : NULL;
    lt_close(&list);
    return found;
}

PyObject *lt_append(PyObject *list, PyObject *item) {
    if (!item || PyList_Append(list, item)) Py_CLEAR(list);
    Py_XDECREF(item);
    return list;
}

PyObject *lt_numbers(const size_t *numbers, size_t count) {
    PyObject *list = PyList_New(0);
    for (size_t i = 0; list && i < count; i++) list = lt_append(list, PyLong_FromSize_t(numbers[i]));
    return list;
}
