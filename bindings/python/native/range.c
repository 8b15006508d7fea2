#include "native.h"

static PyObject *is_basic(PyObject *object, void *unused) {
    Value *self = (Value *)object;
    return lt_lacks(self) ? NULL : PyBool_FromLong(self->kind == LANGTAG_RANGE_BASIC);
}

typedef bool Match(const char *range, size_t range_len, const char *tag, size_t tag_len);

static PyObject *matches(PyObject *object, PyObject *other, Match *match) {
    Value *self = (Value *)object;
    Text tag;
    if (lt_lacks(self) || lt_text_or_tag(other, &tag, "tag")) return NULL;
    LET_GO(tag.len + self->text.len);
    bool answer = match(self->text.data, self->text.len, tag.data, tag.len);
    TAKE_BACK();
    Py_DECREF(tag.owner);
    return PyBool_FromLong(answer);
}

static PyObject *matches_basic(PyObject *self, PyObject *tag) { return matches(self, tag, langtag_matches_basic); }
static PyObject *matches_extended(PyObject *self, PyObject *tag) { return matches(self, tag, langtag_matches_extended); }

PyMethodDef lt_range_methods[] = {
    {"matches_basic", matches_basic, METH_O,
     "matches_basic($self, tag, /)\n--\n\n"
     "Returns whether it matches a tag by basic filtering (section 3.3.1): de-DE matches de-DE-1996, but not de-Latn-DE. It does\n"
     "not match a text that is not a tag."},
    {"matches_extended", matches_extended, METH_O,
     "matches_extended($self, tag, /)\n--\n\n"
     "Returns whether it matches a tag by extended filtering (section 3.3.2): de-DE matches de-Latn-DE. It does not match a text\n"
     "that is not a tag."},
    {NULL, NULL, 0, NULL}};

PyGetSetDef lt_range_members[] = {
    {"_data", lt_data, NULL, NULL, NULL},
    {"is_basic", is_basic, NULL, "Whether it is a basic range (section 2.1): de-CH, or only *.", NULL},
    {NULL, NULL, NULL, NULL, NULL}};
