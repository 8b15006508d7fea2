/* The parts of a tag, and its validity. */
#include "native.h"

/* The closure is the number of the part. */
static PyObject *tag_part(PyObject *object, void *number) {
    Value *self = (Value *)object;
    if (lt_lacks(self)) return NULL;
    langtag_span span = ((const langtag_span *)&self->parts)[(intptr_t)number];
    return span.len ? lt_str(self->text.data + span.start, span.len) : lt_none();
}

static PyObject *tag_kind(PyObject *object, void *unused) {
    return lt_lacks((Value *)object) ? NULL : PyLong_FromUnsignedLong(((Value *)object)->kind);
}

static PyObject *tag_is_valid(PyObject *object, void *unused) {
    Value *self = (Value *)object;
    langtag_span invalid;
    if (lt_lacks(self)) return NULL;
    LET_GO(self->text.len);
    bool answer = langtag_validity(self->text.data, self->text.len, &invalid) == LANGTAG_VALID;
    TAKE_BACK();
    return PyBool_FromLong(answer);
}

PyGetSetDef lt_tag_members[] = {
    {"_data", lt_data, NULL, NULL, NULL},
    {"_kind", tag_kind, NULL, NULL, NULL},
    {"language", tag_part, NULL, "The primary language with its extended languages, such as zh-yue.", (void *)0},
    {"script", tag_part, NULL, "The script, such as Hant.", (void *)1},
    {"region", tag_part, NULL, "The region, such as HK or 419.", (void *)2},
    {"_variants", tag_part, NULL, NULL, (void *)3},
    {"_extensions", tag_part, NULL, NULL, (void *)4},
    {"private_use", tag_part, NULL, "The private-use part with its x, such as x-mine. For a private-use tag it is the whole text.", (void *)5},
    {"is_valid", tag_is_valid, NULL,
     "Whether the tag is valid (RFC 5646 section 2.2.9) by IANA's registry of REGISTRY_DATE. It is valid if it is\n"
     "grandfathered, or if its subtags are registered, it has at most one extended language, and no variant or singleton is\n"
     "repeated. Deprecated subtags are valid.", NULL},
    {NULL, NULL, NULL, NULL, NULL}};
