/* langtag._native: the parts of the Python package that have to be fast, by the limited API of 3.8. The classes are heap types, and
 * there is no global state, so each interpreter has its own. The Python layer subclasses TagBase and RangeBase. Each subclass has
 * `_base`, which is the subclass itself, and `_error`, which is raised for a wrong text. bindings/generate.py writes calls.c. */
#ifndef LANGTAG_NATIVE_H
#define LANGTAG_NATIVE_H
#include <pyconfig.h>
#if !defined(Py_LIMITED_API) && !defined(Py_GIL_DISABLED) /* a free-threaded Python has no stable ABI */
#define Py_LIMITED_API 0x03080000
#endif
#define PY_SSIZE_T_CLEAN
#include <Python.h>
#include <stdint.h>
#include <string.h>
#include "langtag.h"

/* A text. `owner`, which is a str or bytes object, keeps the bytes alive. */
typedef struct {
    PyObject *owner;
    const char *data;
    size_t len;
} Text;

/* A Tag or a Range. It does not change after __init__. */
typedef struct {
    PyObject_HEAD
    PyObject *weak;
    Text text; /* has no owner before __init__ */
    Py_hash_t hash; /* -1 if it was not computed yet */
    PyTypeObject *base; /* TagBase or RangeBase; borrowed, since the object's own type keeps it alive */
    uint32_t kind;
    langtag_parts parts; /* only of a Tag */
} Value;

/* The joined texts of a list, and their spans. They are in the arrays at the end if these are large enough. */
typedef struct {
    langtag_span *spans; /* NULL if the list is not open */
    char *text;
    size_t count, len, room;
    langtag_span few[64];
    char little[1024];
} List;

/* The tags of a site, which lt_prepare returns: the joined texts, and an array of langtag_prepared_tag, both as bytes. */
typedef struct {
    const char *text;
    const langtag_prepared_tag *tags;
    size_t len, count;
} Site;

/* Lets other threads run during a call on a long text. For a text of megabytes, langtag_repeats may take seconds. */
#define LONG_TEXT 4096
#define LET_GO(len) PyThreadState *others = (len) >= LONG_TEXT ? PyEval_SaveThread() : NULL
#define TAKE_BACK() do { if (others) PyEval_RestoreThread(others); } while (0)

/* Reads the bytes of a str or bytes object. Returns 0, or -1 with an exception. The caller has to release the owner. */
int lt_text(PyObject *from, Text *text);
int lt_text_of(PyObject *from, Text *text, const char *expected); /* `expected` is "text", "tag" or "range", for the error */
int lt_text_or_tag(PyObject *from, Text *text, const char *expected); /* also reads the text of a Tag */

/* Read a list of Tags and texts of tags, and a list of texts. They return 0, or -1 with an exception. The caller has to close the list. */
int lt_tags(PyObject *from, List *list);
int lt_ranges(PyObject *from, List *list);
void lt_close(List *list);
int lt_site(PyObject *from, Site *site);
PyObject *lt_prepare(PyObject *module, PyObject *from);
PyObject *lt_describe(PyObject *module, PyObject *from); /* of a text; names are bytes */
PyObject *lt_autonym(PyObject *module, PyObject *from);

/* Raises an error by a function of langtag._texts, which has the words of the errors. `expected` is its second argument, or NULL. */
void lt_raise(const char *function, PyObject *value, const char *expected);

PyObject *lt_str(const char *data, size_t len);
PyObject *lt_none(void);
PyObject *lt_changed(const Text *text, void (*change)(char *, size_t)); /* a changed copy of the text, as bytes */
PyObject *lt_append(PyObject *list, PyObject *item); /* the list with the item, or NULL with an exception; takes both references over */
PyObject *lt_numbers(const size_t *numbers, size_t count);

int lt_lacks(Value *self); /* whether __init__ was not called; sets an exception in that case */
int lt_init(PyObject *self, PyObject *arguments, PyObject *named, int is_tag);
int lt_tag_init(PyObject *self, PyObject *arguments, PyObject *named);
Value *lt_as_tag(PyObject *object); /* NULL with an exception if it is not a Tag */
bool lt_is_tag(PyObject *object);
PyObject *lt_data(PyObject *self, void *unused);

extern PyType_Slot lt_value_slots[];
extern PyGetSetDef lt_tag_members[], lt_range_members[];
extern PyMethodDef lt_range_methods[], lt_functions[];
#endif
