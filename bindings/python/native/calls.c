/*
 * The functions of langtag.h as functions of Python. Written by bindings/generate.py from crates/langtag_c. Do not edit.
 *
 * A function has the parameters that it has in C, without those to which it only writes. A string is a str or bytes. A list is passed for a
 * string and the spans in it. A site, which `prepare` returns, is passed for a string and the prepared tags in it. The result is that of C,
 * with these exceptions:
 *
 * - If C writes or changes a string, the result is this string, as bytes.
 * - If C writes numbers, the result is a tuple of C's result and these numbers. If C's result is only true or false, the result is a tuple of
 *   these numbers, or None.
 * - If C removes one item after another, the result is the list of all items.
 * - If C writes numbers to an array, the result is the list of these numbers, and the last parameter is the length of the array.
 */
#include "native.h"

static PyObject *kind(PyObject *module, PyObject *text_from) {
    PyObject *answer = NULL;
    Text text = {NULL};
    if (!lt_text(text_from, &text)) {
        LET_GO(text.len);
        uint32_t result = langtag_kind(text.data, text.len);
        TAKE_BACK();
        answer = PyLong_FromUnsignedLong(result);
    }
    Py_XDECREF(text.owner);
    return answer;
}

static PyObject *parse(PyObject *module, PyObject *text_from) {
    PyObject *answer = NULL;
    Text text = {NULL};
    langtag_parts parts;
    if (!lt_text(text_from, &text)) {
        LET_GO(text.len);
        uint32_t result = langtag_parse(text.data, text.len, &parts);
        TAKE_BACK();
        answer = Py_BuildValue("(Innnnnnnnnnnn)", (unsigned)result, (Py_ssize_t)parts.language.start, (Py_ssize_t)parts.language.len, (Py_ssize_t)parts.script.start, (Py_ssize_t)parts.script.len, (Py_ssize_t)parts.region.start, (Py_ssize_t)parts.region.len, (Py_ssize_t)parts.variants.start, (Py_ssize_t)parts.variants.len, (Py_ssize_t)parts.extensions.start, (Py_ssize_t)parts.extensions.len, (Py_ssize_t)parts.private_use.start, (Py_ssize_t)parts.private_use.len);
    }
    Py_XDECREF(text.owner);
    return answer;
}

static PyObject *base_len(PyObject *module, PyObject *text_from) {
    PyObject *answer = NULL;
    Text text = {NULL};
    if (!lt_text(text_from, &text)) {
        LET_GO(text.len);
        size_t result = langtag_base_len(text.data, text.len);
        TAKE_BACK();
        answer = PyLong_FromSize_t(result);
    }
    Py_XDECREF(text.owner);
    return answer;
}

static PyObject *refused(PyObject *module, PyObject *text_from) {
    PyObject *answer = NULL;
    Text text = {NULL};
    langtag_span subtag;
    size_t offset;
    if (!lt_text(text_from, &text)) {
        LET_GO(text.len);
        uint32_t result = langtag_refused(text.data, text.len, &subtag, &offset);
        TAKE_BACK();
        answer = Py_BuildValue("(Innn)", (unsigned)result, (Py_ssize_t)subtag.start, (Py_ssize_t)subtag.len, (Py_ssize_t)offset);
    }
    Py_XDECREF(text.owner);
    return answer;
}

static PyObject *eq(PyObject *module, PyObject *arguments) {
    PyObject *a_from, *b_from, *answer = NULL;
    Text a = {NULL};
    Text b = {NULL};
    if (!PyArg_ParseTuple(arguments, "OO", &a_from, &b_from)) return NULL;
    if (!lt_text(a_from, &a) && !lt_text(b_from, &b)) {
        LET_GO(a.len + b.len);
        bool result = langtag_eq(a.data, a.len, b.data, b.len);
        TAKE_BACK();
        answer = PyBool_FromLong(result);
    }
    Py_XDECREF(a.owner);
    Py_XDECREF(b.owner);
    return answer;
}

static PyObject *cmp(PyObject *module, PyObject *arguments) {
    PyObject *a_from, *b_from, *answer = NULL;
    Text a = {NULL};
    Text b = {NULL};
    if (!PyArg_ParseTuple(arguments, "OO", &a_from, &b_from)) return NULL;
    if (!lt_text(a_from, &a) && !lt_text(b_from, &b)) {
        LET_GO(a.len + b.len);
        int32_t result = langtag_cmp(a.data, a.len, b.data, b.len);
        TAKE_BACK();
        answer = PyLong_FromLong(result);
    }
    Py_XDECREF(a.owner);
    Py_XDECREF(b.owner);
    return answer;
}

static PyObject *fold(PyObject *module, PyObject *text_from) {
    PyObject *answer = NULL;
    Text text = {NULL};
    if (!lt_text(text_from, &text)) {
        answer = lt_changed(&text, langtag_fold);
    }
    Py_XDECREF(text.owner);
    return answer;
}

static PyObject *recommend(PyObject *module, PyObject *text_from) {
    PyObject *answer = NULL;
    Text text = {NULL};
    if (!lt_text(text_from, &text)) {
        answer = lt_changed(&text, langtag_recommend);
    }
    Py_XDECREF(text.owner);
    return answer;
}

static PyObject *every_subtag(PyObject *module, PyObject *text_from) {
    PyObject *answer = NULL;
    Text text = {NULL};
    langtag_span subtag;
    if (!lt_text(text_from, &text)) {
        langtag_span rest = {0, text.len};
        answer = PyList_New(0);
        while (answer) {
            bool result = langtag_next_subtag(text.data, text.len, &rest, &subtag);
            if (!result) break;
            answer = lt_append(answer, Py_BuildValue("(nn)", (Py_ssize_t)subtag.start, (Py_ssize_t)subtag.len));
        }
    }
    Py_XDECREF(text.owner);
    return answer;
}

static PyObject *every_extension(PyObject *module, PyObject *text_from) {
    PyObject *answer = NULL;
    Text text = {NULL};
    langtag_span extension;
    if (!lt_text(text_from, &text)) {
        langtag_span rest = {0, text.len};
        answer = PyList_New(0);
        while (answer) {
            bool result = langtag_next_extension(text.data, text.len, &rest, &extension);
            if (!result) break;
            answer = lt_append(answer, Py_BuildValue("(nn)", (Py_ssize_t)extension.start, (Py_ssize_t)extension.len));
        }
    }
    Py_XDECREF(text.owner);
    return answer;
}

static PyObject *keyword(PyObject *module, PyObject *arguments) {
    PyObject *text_from, *key_from, *answer = NULL;
    Text text = {NULL};
    Text key = {NULL};
    langtag_span value;
    if (!PyArg_ParseTuple(arguments, "OO", &text_from, &key_from)) return NULL;
    if (!lt_text(text_from, &text) && !lt_text(key_from, &key)) {
        LET_GO(text.len + key.len);
        bool result = langtag_keyword(text.data, text.len, key.data, key.len, &value);
        TAKE_BACK();
        answer = result ? Py_BuildValue("(nn)", (Py_ssize_t)value.start, (Py_ssize_t)value.len) : lt_none();
    }
    Py_XDECREF(text.owner);
    Py_XDECREF(key.owner);
    return answer;
}

static PyObject *every_keyword(PyObject *module, PyObject *text_from) {
    PyObject *answer = NULL;
    Text text = {NULL};
    langtag_span key;
    langtag_span value;
    if (!lt_text(text_from, &text)) {
        size_t passed = 0;
        answer = PyList_New(0);
        while (answer) {
            LET_GO(text.len);
            bool result = langtag_next_keyword(text.data, text.len, &passed, &key, &value);
            TAKE_BACK();
            if (!result) break;
            answer = lt_append(answer, Py_BuildValue("(nnnn)", (Py_ssize_t)key.start, (Py_ssize_t)key.len, (Py_ssize_t)value.start, (Py_ssize_t)value.len));
        }
    }
    Py_XDECREF(text.owner);
    return answer;
}

static PyObject *attributes(PyObject *module, PyObject *text_from) {
    PyObject *answer = NULL;
    Text text = {NULL};
    langtag_span attributes;
    if (!lt_text(text_from, &text)) {
        LET_GO(text.len);
        bool result = langtag_attributes(text.data, text.len, &attributes);
        TAKE_BACK();
        answer = result ? Py_BuildValue("(nn)", (Py_ssize_t)attributes.start, (Py_ssize_t)attributes.len) : lt_none();
    }
    Py_XDECREF(text.owner);
    return answer;
}

static PyObject *transform(PyObject *module, PyObject *text_from) {
    PyObject *answer = NULL;
    Text text = {NULL};
    langtag_span language;
    if (!lt_text(text_from, &text)) {
        LET_GO(text.len);
        bool result = langtag_transform(text.data, text.len, &language);
        TAKE_BACK();
        answer = result ? Py_BuildValue("(nn)", (Py_ssize_t)language.start, (Py_ssize_t)language.len) : lt_none();
    }
    Py_XDECREF(text.owner);
    return answer;
}

static PyObject *field(PyObject *module, PyObject *arguments) {
    PyObject *text_from, *key_from, *answer = NULL;
    Text text = {NULL};
    Text key = {NULL};
    langtag_span value;
    if (!PyArg_ParseTuple(arguments, "OO", &text_from, &key_from)) return NULL;
    if (!lt_text(text_from, &text) && !lt_text(key_from, &key)) {
        LET_GO(text.len + key.len);
        bool result = langtag_field(text.data, text.len, key.data, key.len, &value);
        TAKE_BACK();
        answer = result ? Py_BuildValue("(nn)", (Py_ssize_t)value.start, (Py_ssize_t)value.len) : lt_none();
    }
    Py_XDECREF(text.owner);
    Py_XDECREF(key.owner);
    return answer;
}

static PyObject *every_field(PyObject *module, PyObject *text_from) {
    PyObject *answer = NULL;
    Text text = {NULL};
    langtag_span key;
    langtag_span value;
    if (!lt_text(text_from, &text)) {
        size_t passed = 0;
        answer = PyList_New(0);
        while (answer) {
            LET_GO(text.len);
            bool result = langtag_next_field(text.data, text.len, &passed, &key, &value);
            TAKE_BACK();
            if (!result) break;
            answer = lt_append(answer, Py_BuildValue("(nnnn)", (Py_ssize_t)key.start, (Py_ssize_t)key.len, (Py_ssize_t)value.start, (Py_ssize_t)value.len));
        }
    }
    Py_XDECREF(text.owner);
    return answer;
}

static PyObject *with_part(PyObject *module, PyObject *arguments) {
    PyObject *tag_from, *text_from, *answer = NULL;
    Text tag = {NULL};
    unsigned part;
    Text text = {NULL};
    if (!PyArg_ParseTuple(arguments, "OIO", &tag_from, &part, &text_from)) return NULL;
    if (!lt_text(tag_from, &tag) && !lt_text(text_from, &text)) {
        char room[192], *data = room;
        LET_GO(tag.len + text.len);
        size_t len = langtag_with_part(tag.data, tag.len, part, text.data, text.len, room, sizeof room);
        TAKE_BACK();
        answer = PyBytes_FromStringAndSize(len <= sizeof room ? room : NULL, (Py_ssize_t)len);
        if (answer && len > sizeof room) {
            data = PyBytes_AsString(answer);
            LET_GO(tag.len + text.len);
            langtag_with_part(tag.data, tag.len, part, text.data, text.len, data, len);
            TAKE_BACK();
        }
    }
    Py_XDECREF(tag.owner);
    Py_XDECREF(text.owner);
    return answer;
}

static PyObject *with_keyword(PyObject *module, PyObject *arguments) {
    PyObject *tag_from, *key_from, *value_from, *answer = NULL;
    Text tag = {NULL};
    Text key = {NULL};
    Text value = {NULL};
    if (!PyArg_ParseTuple(arguments, "OOO", &tag_from, &key_from, &value_from)) return NULL;
    if (!lt_text(tag_from, &tag) && !lt_text(key_from, &key) && !lt_text(value_from, &value)) {
        char room[192], *data = room;
        LET_GO(tag.len + key.len + value.len);
        size_t len = langtag_with_keyword(tag.data, tag.len, key.data, key.len, value.data, value.len, room, sizeof room);
        TAKE_BACK();
        answer = PyBytes_FromStringAndSize(len <= sizeof room ? room : NULL, (Py_ssize_t)len);
        if (answer && len > sizeof room) {
            data = PyBytes_AsString(answer);
            LET_GO(tag.len + key.len + value.len);
            langtag_with_keyword(tag.data, tag.len, key.data, key.len, value.data, value.len, data, len);
            TAKE_BACK();
        }
    }
    Py_XDECREF(tag.owner);
    Py_XDECREF(key.owner);
    Py_XDECREF(value.owner);
    return answer;
}

static PyObject *without_keyword(PyObject *module, PyObject *arguments) {
    PyObject *tag_from, *key_from, *answer = NULL;
    Text tag = {NULL};
    Text key = {NULL};
    if (!PyArg_ParseTuple(arguments, "OO", &tag_from, &key_from)) return NULL;
    if (!lt_text(tag_from, &tag) && !lt_text(key_from, &key)) {
        char room[192], *data = room;
        LET_GO(tag.len + key.len);
        size_t len = langtag_without_keyword(tag.data, tag.len, key.data, key.len, room, sizeof room);
        TAKE_BACK();
        answer = PyBytes_FromStringAndSize(len <= sizeof room ? room : NULL, (Py_ssize_t)len);
        if (answer && len > sizeof room) {
            data = PyBytes_AsString(answer);
            LET_GO(tag.len + key.len);
            langtag_without_keyword(tag.data, tag.len, key.data, key.len, data, len);
            TAKE_BACK();
        }
    }
    Py_XDECREF(tag.owner);
    Py_XDECREF(key.owner);
    return answer;
}

static PyObject *extensions_form(PyObject *module, PyObject *text_from) {
    PyObject *answer = NULL;
    Text text = {NULL};
    if (!lt_text(text_from, &text)) {
        char room[192], *data = room;
        LET_GO(text.len);
        size_t len = langtag_extensions_form(text.data, text.len, room, sizeof room);
        TAKE_BACK();
        answer = PyBytes_FromStringAndSize(len <= sizeof room ? room : NULL, (Py_ssize_t)len);
        if (answer && len > sizeof room) {
            data = PyBytes_AsString(answer);
            LET_GO(text.len);
            langtag_extensions_form(text.data, text.len, data, len);
            TAKE_BACK();
        }
    }
    Py_XDECREF(text.owner);
    return answer;
}

static PyObject *is_locale(PyObject *module, PyObject *text_from) {
    PyObject *answer = NULL;
    Text text = {NULL};
    if (!lt_text(text_from, &text)) {
        LET_GO(text.len);
        bool result = langtag_is_locale(text.data, text.len);
        TAKE_BACK();
        answer = PyBool_FromLong(result);
    }
    Py_XDECREF(text.owner);
    return answer;
}

static PyObject *locale_form(PyObject *module, PyObject *text_from) {
    PyObject *answer = NULL;
    Text text = {NULL};
    if (!lt_text(text_from, &text)) {
        char room[192], *data = room;
        LET_GO(text.len);
        size_t len = langtag_locale_form(text.data, text.len, room, sizeof room);
        TAKE_BACK();
        answer = PyBytes_FromStringAndSize(len <= sizeof room ? room : NULL, (Py_ssize_t)len);
        if (answer && len > sizeof room) {
            data = PyBytes_AsString(answer);
            LET_GO(text.len);
            langtag_locale_form(text.data, text.len, data, len);
            TAKE_BACK();
        }
    }
    Py_XDECREF(text.owner);
    return answer;
}

static PyObject *resolved_locale(PyObject *module, PyObject *arguments) {
    PyObject *range_from, *tag_from, *answer = NULL;
    Text range = {NULL};
    Text tag = {NULL};
    if (!PyArg_ParseTuple(arguments, "OO", &range_from, &tag_from)) return NULL;
    if (!lt_text(range_from, &range) && !lt_text(tag_from, &tag)) {
        char room[192], *data = room;
        LET_GO(range.len + tag.len);
        size_t len = langtag_resolved_locale(range.data, range.len, tag.data, tag.len, room, sizeof room);
        TAKE_BACK();
        answer = PyBytes_FromStringAndSize(len <= sizeof room ? room : NULL, (Py_ssize_t)len);
        if (answer && len > sizeof room) {
            data = PyBytes_AsString(answer);
            LET_GO(range.len + tag.len);
            langtag_resolved_locale(range.data, range.len, tag.data, tag.len, data, len);
            TAKE_BACK();
        }
    }
    Py_XDECREF(range.owner);
    Py_XDECREF(tag.owner);
    return answer;
}

static PyObject *repeats(PyObject *module, PyObject *text_from) {
    PyObject *answer = NULL;
    Text text = {NULL};
    langtag_repeated repeated;
    if (!lt_text(text_from, &text)) {
        LET_GO(text.len);
        uint32_t result = langtag_repeats(text.data, text.len, &repeated);
        TAKE_BACK();
        answer = Py_BuildValue("(Innnn)", (unsigned)result, (Py_ssize_t)repeated.variant.start, (Py_ssize_t)repeated.variant.len, (Py_ssize_t)repeated.singleton.start, (Py_ssize_t)repeated.singleton.len);
    }
    Py_XDECREF(text.owner);
    return answer;
}

static PyObject *validity(PyObject *module, PyObject *text_from) {
    PyObject *answer = NULL;
    Text text = {NULL};
    langtag_span invalid;
    if (!lt_text(text_from, &text)) {
        LET_GO(text.len);
        uint32_t result = langtag_validity(text.data, text.len, &invalid);
        TAKE_BACK();
        answer = Py_BuildValue("(Inn)", (unsigned)result, (Py_ssize_t)invalid.start, (Py_ssize_t)invalid.len);
    }
    Py_XDECREF(text.owner);
    return answer;
}

static PyObject *suggestion(PyObject *module, PyObject *arguments) {
    PyObject *subtag_from, *answer = NULL;
    unsigned fault;
    Text subtag = {NULL};
    if (!PyArg_ParseTuple(arguments, "IO", &fault, &subtag_from)) return NULL;
    if (!lt_text(subtag_from, &subtag)) {
        char room[192], *data = room;
        LET_GO(subtag.len);
        size_t len = langtag_suggestion(fault, subtag.data, subtag.len, room, sizeof room);
        TAKE_BACK();
        answer = PyBytes_FromStringAndSize(len <= sizeof room ? room : NULL, (Py_ssize_t)len);
        if (answer && len > sizeof room) {
            data = PyBytes_AsString(answer);
            LET_GO(subtag.len);
            langtag_suggestion(fault, subtag.data, subtag.len, data, len);
            TAKE_BACK();
        }
    }
    Py_XDECREF(subtag.owner);
    return answer;
}

static PyObject *canonical(PyObject *module, PyObject *text_from) {
    PyObject *answer = NULL;
    Text text = {NULL};
    if (!lt_text(text_from, &text)) {
        char room[192], *data = room;
        LET_GO(text.len);
        size_t len = langtag_canonical(text.data, text.len, room, sizeof room);
        TAKE_BACK();
        answer = PyBytes_FromStringAndSize(len <= sizeof room ? room : NULL, (Py_ssize_t)len);
        if (answer && len > sizeof room) {
            data = PyBytes_AsString(answer);
            LET_GO(text.len);
            langtag_canonical(text.data, text.len, data, len);
            TAKE_BACK();
        }
    }
    Py_XDECREF(text.owner);
    return answer;
}

static PyObject *is_canonical(PyObject *module, PyObject *text_from) {
    PyObject *answer = NULL;
    Text text = {NULL};
    if (!lt_text(text_from, &text)) {
        LET_GO(text.len);
        bool result = langtag_is_canonical(text.data, text.len);
        TAKE_BACK();
        answer = PyBool_FromLong(result);
    }
    Py_XDECREF(text.owner);
    return answer;
}

static PyObject *registry_date(PyObject *module, PyObject *arguments) {
    PyObject *answer = NULL;
    uint32_t result = langtag_registry_date();
    answer = PyLong_FromUnsignedLong(result);
    return answer;
}

static PyObject *maximized(PyObject *module, PyObject *text_from) {
    PyObject *answer = NULL;
    Text text = {NULL};
    if (!lt_text(text_from, &text)) {
        char room[192], *data = room;
        LET_GO(text.len);
        size_t len = langtag_maximized(text.data, text.len, room, sizeof room);
        TAKE_BACK();
        answer = PyBytes_FromStringAndSize(len <= sizeof room ? room : NULL, (Py_ssize_t)len);
        if (answer && len > sizeof room) {
            data = PyBytes_AsString(answer);
            LET_GO(text.len);
            langtag_maximized(text.data, text.len, data, len);
            TAKE_BACK();
        }
    }
    Py_XDECREF(text.owner);
    return answer;
}

static PyObject *minimized(PyObject *module, PyObject *text_from) {
    PyObject *answer = NULL;
    Text text = {NULL};
    if (!lt_text(text_from, &text)) {
        char room[192], *data = room;
        LET_GO(text.len);
        size_t len = langtag_minimized(text.data, text.len, room, sizeof room);
        TAKE_BACK();
        answer = PyBytes_FromStringAndSize(len <= sizeof room ? room : NULL, (Py_ssize_t)len);
        if (answer && len > sizeof room) {
            data = PyBytes_AsString(answer);
            LET_GO(text.len);
            langtag_minimized(text.data, text.len, data, len);
            TAKE_BACK();
        }
    }
    Py_XDECREF(text.owner);
    return answer;
}

static PyObject *cldr_version(PyObject *module, PyObject *arguments) {
    PyObject *answer = NULL;
    char room[192], *data = room;
    size_t len = langtag_cldr_version(room, sizeof room);
    answer = PyBytes_FromStringAndSize(len <= sizeof room ? room : NULL, (Py_ssize_t)len);
    if (answer && len > sizeof room) {
        data = PyBytes_AsString(answer);
        langtag_cldr_version(data, len);
    }
    return answer;
}

static PyObject *parent(PyObject *module, PyObject *text_from) {
    PyObject *answer = NULL;
    Text text = {NULL};
    if (!lt_text(text_from, &text)) {
        char room[192], *data = room;
        LET_GO(text.len);
        size_t len = langtag_parent(text.data, text.len, room, sizeof room);
        TAKE_BACK();
        answer = PyBytes_FromStringAndSize(len <= sizeof room ? room : NULL, (Py_ssize_t)len);
        if (answer && len > sizeof room) {
            data = PyBytes_AsString(answer);
            LET_GO(text.len);
            langtag_parent(text.data, text.len, data, len);
            TAKE_BACK();
        }
    }
    Py_XDECREF(text.owner);
    return answer;
}

static PyObject *nth_parent(PyObject *module, PyObject *arguments) {
    PyObject *text_from, *answer = NULL;
    Text text = {NULL};
    unsigned index;
    if (!PyArg_ParseTuple(arguments, "OI", &text_from, &index)) return NULL;
    if (!lt_text(text_from, &text)) {
        char room[192], *data = room;
        LET_GO(text.len);
        size_t len = langtag_nth_parent(text.data, text.len, index, room, sizeof room);
        TAKE_BACK();
        answer = PyBytes_FromStringAndSize(len <= sizeof room ? room : NULL, (Py_ssize_t)len);
        if (answer && len > sizeof room) {
            data = PyBytes_AsString(answer);
            LET_GO(text.len);
            langtag_nth_parent(text.data, text.len, index, data, len);
            TAKE_BACK();
        }
    }
    Py_XDECREF(text.owner);
    return answer;
}

static PyObject *is_right_to_left(PyObject *module, PyObject *text_from) {
    PyObject *answer = NULL;
    Text text = {NULL};
    if (!lt_text(text_from, &text)) {
        LET_GO(text.len);
        bool result = langtag_is_right_to_left(text.data, text.len);
        TAKE_BACK();
        answer = PyBool_FromLong(result);
    }
    Py_XDECREF(text.owner);
    return answer;
}

static PyObject *distance(PyObject *module, PyObject *arguments) {
    PyObject *desired_from, *supported_from, *answer = NULL;
    Text desired = {NULL};
    Text supported = {NULL};
    if (!PyArg_ParseTuple(arguments, "OO", &desired_from, &supported_from)) return NULL;
    if (!lt_text(desired_from, &desired) && !lt_text(supported_from, &supported)) {
        LET_GO(desired.len + supported.len);
        uint32_t result = langtag_distance(desired.data, desired.len, supported.data, supported.len);
        TAKE_BACK();
        answer = PyLong_FromUnsignedLong(result);
    }
    Py_XDECREF(desired.owner);
    Py_XDECREF(supported.owner);
    return answer;
}

static PyObject *best_for_header(PyObject *module, PyObject *arguments) {
    PyObject *header_from, *tags_from, *answer = NULL;
    Text header = {NULL};
    List tags;
    tags.spans = NULL;
    if (!PyArg_ParseTuple(arguments, "OO", &header_from, &tags_from)) return NULL;
    if (!lt_text(header_from, &header) && !lt_tags(tags_from, &tags)) {
        LET_GO(header.len + tags.len);
        size_t result = langtag_best_for_header(header.data, header.len, tags.text, tags.len, tags.spans, tags.count);
        TAKE_BACK();
        answer = PyLong_FromSize_t(result);
    }
    Py_XDECREF(header.owner);
    lt_close(&tags);
    return answer;
}

static PyObject *best_for_ranges(PyObject *module, PyObject *arguments) {
    PyObject *ranges_from, *tags_from, *answer = NULL;
    List ranges;
    ranges.spans = NULL;
    List tags;
    tags.spans = NULL;
    if (!PyArg_ParseTuple(arguments, "OO", &ranges_from, &tags_from)) return NULL;
    if (!lt_ranges(ranges_from, &ranges) && !lt_tags(tags_from, &tags)) {
        LET_GO(ranges.len + tags.len);
        size_t result = langtag_best_for_ranges(ranges.text, ranges.len, ranges.spans, ranges.count, tags.text, tags.len, tags.spans, tags.count);
        TAKE_BACK();
        answer = PyLong_FromSize_t(result);
    }
    lt_close(&ranges);
    lt_close(&tags);
    return answer;
}

static PyObject *match_for_header(PyObject *module, PyObject *arguments) {
    PyObject *header_from, *tags_from, *answer = NULL;
    Text header = {NULL};
    List tags;
    tags.spans = NULL;
    langtag_best_match found;
    if (!PyArg_ParseTuple(arguments, "OO", &header_from, &tags_from)) return NULL;
    if (!lt_text(header_from, &header) && !lt_tags(tags_from, &tags)) {
        LET_GO(header.len + tags.len);
        size_t result = langtag_match_for_header(header.data, header.len, tags.text, tags.len, tags.spans, tags.count, &found);
        TAKE_BACK();
        answer = Py_BuildValue("(nnnI)", (Py_ssize_t)result, (Py_ssize_t)found.range.start, (Py_ssize_t)found.range.len, (unsigned)found.distance);
    }
    Py_XDECREF(header.owner);
    lt_close(&tags);
    return answer;
}

static PyObject *suitable_for_header(PyObject *module, PyObject *arguments) {
    PyObject *header_from, *tags_from, *answer = NULL;
    Text header = {NULL};
    List tags;
    tags.spans = NULL;
    Py_ssize_t most;
    if (!PyArg_ParseTuple(arguments, "OOn", &header_from, &tags_from, &most)) return NULL;
    if (!lt_text(header_from, &header) && !lt_tags(tags_from, &tags)) {
        size_t room = most < 0 ? 0 : (size_t)most < tags.count ? (size_t)most : tags.count;
        size_t *found = PyMem_Malloc((room + 1) * sizeof *found);
        if (found) {
            LET_GO(header.len + tags.len);
            size_t count = langtag_suitable_for_header(header.data, header.len, tags.text, tags.len, tags.spans, tags.count, found, room);
            TAKE_BACK();
            answer = lt_numbers(found, count < room ? count : room);
        } else PyErr_NoMemory();
        PyMem_Free(found);
    }
    Py_XDECREF(header.owner);
    lt_close(&tags);
    return answer;
}

static PyObject *suitable_for_ranges(PyObject *module, PyObject *arguments) {
    PyObject *ranges_from, *tags_from, *answer = NULL;
    List ranges;
    ranges.spans = NULL;
    List tags;
    tags.spans = NULL;
    Py_ssize_t most;
    if (!PyArg_ParseTuple(arguments, "OOn", &ranges_from, &tags_from, &most)) return NULL;
    if (!lt_ranges(ranges_from, &ranges) && !lt_tags(tags_from, &tags)) {
        size_t room = most < 0 ? 0 : (size_t)most < tags.count ? (size_t)most : tags.count;
        size_t *found = PyMem_Malloc((room + 1) * sizeof *found);
        if (found) {
            LET_GO(ranges.len + tags.len);
            size_t count = langtag_suitable_for_ranges(ranges.text, ranges.len, ranges.spans, ranges.count, tags.text, tags.len, tags.spans, tags.count, found, room);
            TAKE_BACK();
            answer = lt_numbers(found, count < room ? count : room);
        } else PyErr_NoMemory();
        PyMem_Free(found);
    }
    lt_close(&ranges);
    lt_close(&tags);
    return answer;
}

static PyObject *site_best_for_header(PyObject *module, PyObject *arguments) {
    PyObject *header_from, *site_from, *answer = NULL;
    Text header = {NULL};
    Site site;
    if (!PyArg_ParseTuple(arguments, "OO", &header_from, &site_from)) return NULL;
    if (!lt_text(header_from, &header) && !lt_site(site_from, &site)) {
        LET_GO(header.len + site.len);
        size_t result = langtag_site_best_for_header(header.data, header.len, site.text, site.len, site.tags, site.count);
        TAKE_BACK();
        answer = PyLong_FromSize_t(result);
    }
    Py_XDECREF(header.owner);
    return answer;
}

static PyObject *site_best_for_ranges(PyObject *module, PyObject *arguments) {
    PyObject *ranges_from, *site_from, *answer = NULL;
    List ranges;
    ranges.spans = NULL;
    Site site;
    if (!PyArg_ParseTuple(arguments, "OO", &ranges_from, &site_from)) return NULL;
    if (!lt_ranges(ranges_from, &ranges) && !lt_site(site_from, &site)) {
        LET_GO(ranges.len + site.len);
        size_t result = langtag_site_best_for_ranges(ranges.text, ranges.len, ranges.spans, ranges.count, site.text, site.len, site.tags, site.count);
        TAKE_BACK();
        answer = PyLong_FromSize_t(result);
    }
    lt_close(&ranges);
    return answer;
}

static PyObject *site_match_for_header(PyObject *module, PyObject *arguments) {
    PyObject *header_from, *site_from, *answer = NULL;
    Text header = {NULL};
    Site site;
    langtag_best_match found;
    if (!PyArg_ParseTuple(arguments, "OO", &header_from, &site_from)) return NULL;
    if (!lt_text(header_from, &header) && !lt_site(site_from, &site)) {
        LET_GO(header.len + site.len);
        size_t result = langtag_site_match_for_header(header.data, header.len, site.text, site.len, site.tags, site.count, &found);
        TAKE_BACK();
        answer = Py_BuildValue("(nnnI)", (Py_ssize_t)result, (Py_ssize_t)found.range.start, (Py_ssize_t)found.range.len, (unsigned)found.distance);
    }
    Py_XDECREF(header.owner);
    return answer;
}

static PyObject *from_posix(PyObject *module, PyObject *name_from) {
    PyObject *answer = NULL;
    Text name = {NULL};
    if (!lt_text(name_from, &name)) {
        char room[192], *data = room;
        LET_GO(name.len);
        size_t len = langtag_from_posix(name.data, name.len, room, sizeof room);
        TAKE_BACK();
        answer = PyBytes_FromStringAndSize(len <= sizeof room ? room : NULL, (Py_ssize_t)len);
        if (answer && len > sizeof room) {
            data = PyBytes_AsString(answer);
            LET_GO(name.len);
            langtag_from_posix(name.data, name.len, data, len);
            TAKE_BACK();
        }
    }
    Py_XDECREF(name.owner);
    return answer;
}

static PyObject *to_posix(PyObject *module, PyObject *text_from) {
    PyObject *answer = NULL;
    Text text = {NULL};
    if (!lt_text(text_from, &text)) {
        char room[192], *data = room;
        LET_GO(text.len);
        size_t len = langtag_to_posix(text.data, text.len, room, sizeof room);
        TAKE_BACK();
        answer = PyBytes_FromStringAndSize(len <= sizeof room ? room : NULL, (Py_ssize_t)len);
        if (answer && len > sizeof room) {
            data = PyBytes_AsString(answer);
            LET_GO(text.len);
            langtag_to_posix(text.data, text.len, data, len);
            TAKE_BACK();
        }
    }
    Py_XDECREF(text.owner);
    return answer;
}

static PyObject *unknown_modifier(PyObject *module, PyObject *name_from) {
    PyObject *answer = NULL;
    Text name = {NULL};
    langtag_span modifier;
    if (!lt_text(name_from, &name)) {
        LET_GO(name.len);
        bool result = langtag_unknown_modifier(name.data, name.len, &modifier);
        TAKE_BACK();
        answer = result ? Py_BuildValue("(nn)", (Py_ssize_t)modifier.start, (Py_ssize_t)modifier.len) : lt_none();
    }
    Py_XDECREF(name.owner);
    return answer;
}

static PyObject *grandfathered(PyObject *module, PyObject *text_from) {
    PyObject *answer = NULL;
    Text text = {NULL};
    if (!lt_text(text_from, &text)) {
        LET_GO(text.len);
        uint32_t result = langtag_grandfathered(text.data, text.len);
        TAKE_BACK();
        answer = PyLong_FromUnsignedLong(result);
    }
    Py_XDECREF(text.owner);
    return answer;
}

static PyObject *range_kind(PyObject *module, PyObject *text_from) {
    PyObject *answer = NULL;
    Text text = {NULL};
    if (!lt_text(text_from, &text)) {
        LET_GO(text.len);
        uint32_t result = langtag_range_kind(text.data, text.len);
        TAKE_BACK();
        answer = PyLong_FromUnsignedLong(result);
    }
    Py_XDECREF(text.owner);
    return answer;
}

static PyObject *matches_basic(PyObject *module, PyObject *arguments) {
    PyObject *range_from, *tag_from, *answer = NULL;
    Text range = {NULL};
    Text tag = {NULL};
    if (!PyArg_ParseTuple(arguments, "OO", &range_from, &tag_from)) return NULL;
    if (!lt_text(range_from, &range) && !lt_text(tag_from, &tag)) {
        LET_GO(range.len + tag.len);
        bool result = langtag_matches_basic(range.data, range.len, tag.data, tag.len);
        TAKE_BACK();
        answer = PyBool_FromLong(result);
    }
    Py_XDECREF(range.owner);
    Py_XDECREF(tag.owner);
    return answer;
}

static PyObject *matches_extended(PyObject *module, PyObject *arguments) {
    PyObject *range_from, *tag_from, *answer = NULL;
    Text range = {NULL};
    Text tag = {NULL};
    if (!PyArg_ParseTuple(arguments, "OO", &range_from, &tag_from)) return NULL;
    if (!lt_text(range_from, &range) && !lt_text(tag_from, &tag)) {
        LET_GO(range.len + tag.len);
        bool result = langtag_matches_extended(range.data, range.len, tag.data, tag.len);
        TAKE_BACK();
        answer = PyBool_FromLong(result);
    }
    Py_XDECREF(range.owner);
    Py_XDECREF(tag.owner);
    return answer;
}

static PyObject *every_fallback(PyObject *module, PyObject *text_from) {
    PyObject *answer = NULL;
    Text text = {NULL};
    if (!lt_text(text_from, &text)) {
        langtag_span rest = {0, text.len};
        answer = PyList_New(0);
        while (answer) {
            bool result = langtag_next_fallback(text.data, text.len, &rest);
            if (!result) break;
            answer = lt_append(answer, Py_BuildValue("(nn)", (Py_ssize_t)rest.start, (Py_ssize_t)rest.len));
        }
    }
    Py_XDECREF(text.owner);
    return answer;
}

static PyObject *every_accepted(PyObject *module, PyObject *text_from) {
    PyObject *answer = NULL;
    Text text = {NULL};
    langtag_span range;
    uint32_t weight;
    if (!lt_text(text_from, &text)) {
        langtag_span rest = {0, text.len};
        answer = PyList_New(0);
        while (answer) {
            uint32_t result = langtag_next_accepted(text.data, text.len, &rest, &range, &weight);
            if (!result) break;
            answer = lt_append(answer, Py_BuildValue("(InnI)", (unsigned)result, (Py_ssize_t)range.start, (Py_ssize_t)range.len, (unsigned)weight));
        }
    }
    Py_XDECREF(text.owner);
    return answer;
}

static PyObject *tag_for_header(PyObject *module, PyObject *arguments) {
    PyObject *header_from, *tags_from, *answer = NULL;
    Text header = {NULL};
    List tags;
    tags.spans = NULL;
    size_t index;
    langtag_span bad;
    if (!PyArg_ParseTuple(arguments, "OO", &header_from, &tags_from)) return NULL;
    if (!lt_text(header_from, &header) && !lt_tags(tags_from, &tags)) {
        LET_GO(header.len + tags.len);
        uint32_t result = langtag_tag_for_header(header.data, header.len, tags.text, tags.len, tags.spans, tags.count, &index, &bad);
        TAKE_BACK();
        answer = Py_BuildValue("(Innn)", (unsigned)result, (Py_ssize_t)index, (Py_ssize_t)bad.start, (Py_ssize_t)bad.len);
    }
    Py_XDECREF(header.owner);
    lt_close(&tags);
    return answer;
}

static PyObject *tag_for_header_lenient(PyObject *module, PyObject *arguments) {
    PyObject *header_from, *tags_from, *answer = NULL;
    Text header = {NULL};
    List tags;
    tags.spans = NULL;
    if (!PyArg_ParseTuple(arguments, "OO", &header_from, &tags_from)) return NULL;
    if (!lt_text(header_from, &header) && !lt_tags(tags_from, &tags)) {
        LET_GO(header.len + tags.len);
        size_t result = langtag_tag_for_header_lenient(header.data, header.len, tags.text, tags.len, tags.spans, tags.count);
        TAKE_BACK();
        answer = PyLong_FromSize_t(result);
    }
    Py_XDECREF(header.owner);
    lt_close(&tags);
    return answer;
}

PyMethodDef lt_functions[] = {
    {"kind", kind, METH_O, NULL},
    {"parse", parse, METH_O, NULL},
    {"base_len", base_len, METH_O, NULL},
    {"refused", refused, METH_O, NULL},
    {"eq", eq, METH_VARARGS, NULL},
    {"cmp", cmp, METH_VARARGS, NULL},
    {"fold", fold, METH_O, NULL},
    {"recommend", recommend, METH_O, NULL},
    {"every_subtag", every_subtag, METH_O, NULL},
    {"every_extension", every_extension, METH_O, NULL},
    {"keyword", keyword, METH_VARARGS, NULL},
    {"every_keyword", every_keyword, METH_O, NULL},
    {"attributes", attributes, METH_O, NULL},
    {"transform", transform, METH_O, NULL},
    {"field", field, METH_VARARGS, NULL},
    {"every_field", every_field, METH_O, NULL},
    {"with_part", with_part, METH_VARARGS, NULL},
    {"with_keyword", with_keyword, METH_VARARGS, NULL},
    {"without_keyword", without_keyword, METH_VARARGS, NULL},
    {"extensions_form", extensions_form, METH_O, NULL},
    {"is_locale", is_locale, METH_O, NULL},
    {"locale_form", locale_form, METH_O, NULL},
    {"resolved_locale", resolved_locale, METH_VARARGS, NULL},
    {"repeats", repeats, METH_O, NULL},
    {"validity", validity, METH_O, NULL},
    {"suggestion", suggestion, METH_VARARGS, NULL},
    {"canonical", canonical, METH_O, NULL},
    {"is_canonical", is_canonical, METH_O, NULL},
    {"registry_date", registry_date, METH_NOARGS, NULL},
    {"maximized", maximized, METH_O, NULL},
    {"minimized", minimized, METH_O, NULL},
    {"cldr_version", cldr_version, METH_NOARGS, NULL},
    {"parent", parent, METH_O, NULL},
    {"nth_parent", nth_parent, METH_VARARGS, NULL},
    {"is_right_to_left", is_right_to_left, METH_O, NULL},
    {"distance", distance, METH_VARARGS, NULL},
    {"best_for_header", best_for_header, METH_VARARGS, NULL},
    {"best_for_ranges", best_for_ranges, METH_VARARGS, NULL},
    {"match_for_header", match_for_header, METH_VARARGS, NULL},
    {"suitable_for_header", suitable_for_header, METH_VARARGS, NULL},
    {"suitable_for_ranges", suitable_for_ranges, METH_VARARGS, NULL},
    {"site_best_for_header", site_best_for_header, METH_VARARGS, NULL},
    {"site_best_for_ranges", site_best_for_ranges, METH_VARARGS, NULL},
    {"site_match_for_header", site_match_for_header, METH_VARARGS, NULL},
    {"from_posix", from_posix, METH_O, NULL},
    {"to_posix", to_posix, METH_O, NULL},
    {"unknown_modifier", unknown_modifier, METH_O, NULL},
    {"grandfathered", grandfathered, METH_O, NULL},
    {"range_kind", range_kind, METH_O, NULL},
    {"matches_basic", matches_basic, METH_VARARGS, NULL},
    {"matches_extended", matches_extended, METH_VARARGS, NULL},
    {"every_fallback", every_fallback, METH_O, NULL},
    {"every_accepted", every_accepted, METH_O, NULL},
    {"tag_for_header", tag_for_header, METH_VARARGS, NULL},
    {"tag_for_header_lenient", tag_for_header_lenient, METH_VARARGS, NULL},
    {"prepare", lt_prepare, METH_O, NULL},
    {"describe", lt_describe, METH_O, NULL},
    {"autonym", lt_autonym, METH_O, NULL},
    {NULL, NULL, 0, NULL}};
