/* The module dbus_wire._objects: the parts and the values of messages as Python objects, and back.
 *
 * It parses and spells nothing. Each text is checked, each type found, each value spelled, and each
 * message taken apart and built by a call of libdbus_wire, which include/dbus_wire.h describes. The
 * calls are those of the library that the module _library loaded, and which it gives to `use`.
 *
 * A function returns None of what it does not take: it has no errors of its own but MemoryError,
 * and the modules in Python say what is wrong. It takes values of Python's own types alone, and of
 * subclasses of str, int and float, whose methods it does not call. So no code of a caller runs
 * while it works, and nothing changes under it.
 *
 * For the limited API of Python 3.9. */
#ifndef Py_LIMITED_API
#define Py_LIMITED_API 0x03090000
#endif
#define PY_SSIZE_T_CLEAN
#include <Python.h>
#include <stdbool.h>

#include "dbus_wire.h"

/* The library's calls that are made here, by their names in the header. */
#define CALLS(of)                                                                                  \
    of(text_check) of(put_number) of(put_text) of(put_signature) of(begin_struct) of(open_array)   \
        of(close_array) of(build) of(rebuild) of(parts_of) of(flatten) of(flatten_fields)

/* The classes of values that are none of Python's own. */
#define CLASSES(of) of(variant) of(object_path) of(signature) of(unix_fd)

#define POINTER(call) __typeof__(dbus_wire_##call) *call;
struct calls {
    CALLS(POINTER)
};

/* What `use` was given. */
struct state {
    struct calls calls;
    struct dbus_wire_limits limits;                        /* the specification's */
    PyObject *variant, *object_path, *signature, *unix_fd; /* the classes */
    PyObject *signature_name, *value_name;                 /* of the members of a Variant */
};

/* What a function returns of what it does not take, and after an error of Python. */
static PyObject *not_taken(void) {
    if (PyErr_Occurred() != NULL && PyErr_ExceptionMatches(PyExc_MemoryError)) return NULL;
    PyErr_Clear();
    Py_RETURN_NONE;
}

/* From how many bytes on other threads run while the library reads them. */
#define LONG_FROM 65536

static PyThreadState *let_others_run(size_t length) {
    return length < LONG_FROM ? NULL : PyEval_SaveThread();
}

static void go_on(PyThreadState *state) {
    if (state != NULL) PyEval_RestoreThread(state);
}

/* ---- Values to a body */

/* The most codes that a signature has. */
#define MOST_CODES 255

/* A signature, and how many codes the complete type has that begins at each of them. */
struct types {
    const char *codes;
    uint8_t lengths[MOST_CODES];
};

/* A body that is spelled. */
struct body {
    const struct state *state;
    struct dbus_wire_writer writer;
    uint8_t *out;
    size_t room;
    uint32_t open; /* how many containers are open */
};

/* Makes more room. */
static bool grow(struct body *body) {
    uint8_t *out = body->room > PTRDIFF_MAX / 2 ? NULL : PyMem_Realloc(body->out, body->room * 2);
    if (out == NULL) {
        PyErr_NoMemory();
        return false;
    }
    body->out = out;
    body->room *= 2;
    return true;
}

/* Makes a call that puts something, with more room as long as there is too little, and returns
 * whether it is put. */
#define PUT(body, call, ...)                                                                       \
    for (;;) {                                                                                     \
        uint32_t answer = (body)->state->calls.call((body)->out, (body)->room, __VA_ARGS__);       \
        if (answer != DBUS_WIRE_NO_ROOM) return answer == DBUS_WIRE_OK;                            \
        if (!grow(body)) return false;                                                             \
    }

static bool put_number(struct body *body, uint32_t width, uint64_t bits) {
    PUT(body, put_number, &body->writer, width, bits)
}

static bool put_text(struct body *body, const char *text, size_t length) {
    PUT(body, put_text, &body->writer, text, length)
}

static bool put_signature(struct body *body, const char *text, size_t length) {
    PUT(body, put_signature, &body->writer, text, length)
}

static bool begin_struct(struct body *body) {
    PUT(body, begin_struct, &body->writer)
}

static bool open_array(struct body *body, uint32_t alignment, struct dbus_wire_array *array) {
    PUT(body, open_array, &body->writer, alignment, array)
}

/* What a type is aligned to, by its first code, as dbus_wire_open_array says. Each number has as
 * many bytes. */
static uint32_t alignment_of(uint32_t code) {
    switch (code) {
    case 'y': case 'g': case 'v': return 1;
    case 'n': case 'q': return 2;
    case 'x': case 't': case 'd': case '(': case '{': return 8;
    default: return 4;
    }
}

/* Whether the text is of the kind. */
static bool is_text(const struct state *state, uint32_t kind, const char *text, size_t length) {
    struct dbus_wire_text_checked told;
    return state->calls.text_check(kind, text, length, &told) == DBUS_WIRE_OK;
}

/* The types of a signature. Of what follows a complete type the library tells where that ends: some
 * complete type begins with it, and none with more. */
static struct types types_of(const struct state *state, const char *codes, size_t length) {
    struct types types = {codes, {0}};
    for (size_t at = 0; at < length; at++) {
        struct dbus_wire_text_checked told;
        uint32_t answer =
            state->calls.text_check(DBUS_WIRE_TEXT_SINGLE_TYPE, codes + at, length - at, &told);
        types.lengths[at] = (uint8_t)(answer == DBUS_WIRE_OK ? length - at : told.offset);
    }
    return types;
}

/* The UTF-8 of a str, and its length; NULL of another object, and of a str that has none. */
static PyObject *utf8_of(PyObject *object, char **text, size_t *length) {
    PyObject *bytes = PyUnicode_Check(object) ? PyUnicode_AsUTF8String(object) : NULL;
    Py_ssize_t size = 0;
    if (bytes == NULL || PyBytes_AsStringAndSize(bytes, text, &size) != 0) return NULL;
    *length = (size_t)size;
    return bytes;
}

static bool put_value(struct body *body, const struct types *types, size_t at, PyObject *value);

static bool put_integer(struct body *body, uint32_t width, PyObject *value, long long least,
                        long long greatest) {
    int overflow = 0;
    if (!PyLong_Check(value) || PyBool_Check(value)) return false;
    long long number = PyLong_AsLongLongAndOverflow(value, &overflow);
    return overflow == 0 && least <= number && number <= greatest &&
           put_number(body, width, (uint64_t)number);
}

static bool put_uint64(struct body *body, PyObject *value) {
    if (!PyLong_Check(value) || PyBool_Check(value)) return false;
    unsigned long long number = PyLong_AsUnsignedLongLong(value);
    return PyErr_Occurred() == NULL && put_number(body, 8, number);
}

static bool put_double(struct body *body, PyObject *value) {
    if (!PyFloat_Check(value)) return false;
    double number = PyFloat_AsDouble(value);
    uint64_t bits;
    memcpy(&bits, &number, sizeof bits);
    return put_number(body, 8, bits);
}

static bool put_checked(struct body *body, uint32_t kind, PyObject *value) {
    char *text = NULL;
    size_t length = 0;
    PyObject *bytes = utf8_of(value, &text, &length);
    if (bytes == NULL) return false;
    bool put = is_text(body->state, kind, text, length) &&
               (kind == DBUS_WIRE_TEXT_SIGNATURE ? put_signature : put_text)(body, text, length);
    Py_DECREF(bytes);
    return put;
}

/* Puts the value of a variant, whose signature is this. */
static bool put_held(struct body *body, PyObject *signature, PyObject *value) {
    char *codes = NULL;
    size_t length = 0;
    PyObject *bytes = utf8_of(signature, &codes, &length);
    if (bytes == NULL) return false;
    bool put = is_text(body->state, DBUS_WIRE_TEXT_SINGLE_TYPE, codes, length) &&
               put_signature(body, codes, length);
    if (put) {
        struct types types = types_of(body->state, codes, length);
        put = put_value(body, &types, 0, value);
    }
    Py_DECREF(bytes);
    return put;
}

static bool put_variant(struct body *body, PyObject *variant) {
    if ((PyObject *)Py_TYPE(variant) != body->state->variant) return false;
    PyObject *signature = PyObject_GetAttr(variant, body->state->signature_name);
    PyObject *value = signature == NULL ? NULL : PyObject_GetAttr(variant, body->state->value_name);
    bool put = value != NULL && put_held(body, signature, value);
    Py_XDECREF(signature);
    Py_XDECREF(value);
    return put;
}

/* The number of the items of a list or a tuple, -1 of another object; and one of them, which is
 * borrowed. */
static Py_ssize_t count_of(PyObject *values) {
    return PyList_CheckExact(values)    ? PyList_Size(values)
           : PyTuple_CheckExact(values) ? PyTuple_Size(values)
                                        : -1;
}

static PyObject *item_of(PyObject *values, Py_ssize_t at) {
    return PyList_CheckExact(values) ? PyList_GetItem(values, at) : PyTuple_GetItem(values, at);
}

/* Puts the fields of a struct or a dict entry, whose first type is at this place. */
static bool put_fields(struct body *body, const struct types *types, size_t at, PyObject *values) {
    Py_ssize_t count = count_of(values);
    if (count < 0 || !begin_struct(body)) return false;
    for (Py_ssize_t i = 0; i < count; at += types->lengths[at], i++) {
        if (types->lengths[at] == 0 || !put_value(body, types, at, item_of(values, i)))
            return false;
    }
    return types->lengths[at] == 0;
}

/* Puts the entries of a dict, whose keys' type is at this place. */
static bool put_entries(struct body *body, const struct types *types, size_t at,
                        PyObject *entries) {
    PyObject *key, *value;
    Py_ssize_t place = 0;
    while (PyDict_Next(entries, &place, &key, &value)) {
        bool put = begin_struct(body) && put_value(body, types, at, key);
        if (!put || !put_value(body, types, at + types->lengths[at], value)) return false;
    }
    return true;
}

/* Puts BYTEs, which are as they are in either order. */
static bool put_bytes(struct body *body, PyObject *bytes) {
    char *data = NULL;
    Py_ssize_t length = 0;
    if (PyBytes_AsStringAndSize(bytes, &data, &length) != 0) return false;
    while (body->room - body->writer.length < (size_t)length) {
        if (!grow(body)) return false;
    }
    memcpy(body->out + body->writer.length, data, (size_t)length);
    body->writer.length += (size_t)length;
    return true;
}

/* Puts the elements of an array, whose type is at this place. */
static bool put_elements(struct body *body, const struct types *types, size_t at,
                         PyObject *values) {
    if (types->codes[at] == 'y' && PyBytes_CheckExact(values)) return put_bytes(body, values);
    if (types->codes[at] == '{' && PyDict_CheckExact(values))
        return put_entries(body, types, at + 1, values);
    Py_ssize_t count = count_of(values);
    for (Py_ssize_t i = 0; i < count; i++) {
        if (!put_value(body, types, at, item_of(values, i))) return false;
    }
    return count >= 0;
}

static bool put_array(struct body *body, const struct types *types, size_t at, PyObject *values) {
    struct dbus_wire_array array;
    if (!open_array(body, alignment_of((unsigned char)types->codes[at]), &array)) return false;
    if (!put_elements(body, types, at, values)) return false;
    return body->writer.length - array.start <= body->state->limits.array &&
           body->state->calls.close_array(body->out, body->room, &body->writer, &array) ==
               DBUS_WIRE_OK;
}

static bool put_container(struct body *body, const struct types *types, size_t at,
                          PyObject *value) {
    if (body->open == body->state->limits.depth) return false;
    body->open++;
    bool put = types->codes[at] == 'a'   ? put_array(body, types, at + 1, value)
               : types->codes[at] == '(' ? put_fields(body, types, at + 1, value)
                                         : put_variant(body, value);
    body->open--;
    return put;
}

/* Puts a value of the type at this place, and returns whether it is one. */
static bool put_value(struct body *body, const struct types *types, size_t at, PyObject *value) {
    switch (types->codes[at]) {
    case 'y': return put_integer(body, 1, value, 0, UINT8_MAX);
    case 'n': return put_integer(body, 2, value, INT16_MIN, INT16_MAX);
    case 'q': return put_integer(body, 2, value, 0, UINT16_MAX);
    case 'i': return put_integer(body, 4, value, INT32_MIN, INT32_MAX);
    case 'u': case 'h': return put_integer(body, 4, value, 0, UINT32_MAX);
    case 'x': return put_integer(body, 8, value, INT64_MIN, INT64_MAX);
    case 't': return put_uint64(body, value);
    case 'b': return PyBool_Check(value) && put_number(body, 4, value == Py_True);
    case 'd': return put_double(body, value);
    case 's': return put_checked(body, DBUS_WIRE_TEXT_STRING, value);
    case 'o': return put_checked(body, DBUS_WIRE_TEXT_OBJECT_PATH, value);
    case 'g': return put_checked(body, DBUS_WIRE_TEXT_SIGNATURE, value);
    case '{': return put_fields(body, types, at + 1, value);
    default: return put_container(body, types, at, value);
    }
}

/* Puts values, one for each type of the signature. */
static bool put_all(struct body *body, const char *codes, size_t length, PyObject *values) {
    if (!is_text(body->state, DBUS_WIRE_TEXT_SIGNATURE, codes, length)) return false;
    struct types types = types_of(body->state, codes, length);
    Py_ssize_t count = count_of(values), i = 0;
    size_t at = 0;
    for (; i < count && at < length; at += types.lengths[at], i++) {
        if (!put_value(body, &types, at, item_of(values, i))) return false;
    }
    return i == count && at == length;
}

/* spell(signature, values, order): the bytes of a body. */
static PyObject *spell(PyObject *module, PyObject *arguments) {
    PyObject *signature, *values, *made;
    struct body body = {PyModule_GetState(module), {0, 0, 0}, NULL, 256, 0};
    char *codes = NULL;
    size_t length = 0;
    if (!PyArg_ParseTuple(arguments, "OOI:spell", &signature, &values, &body.writer.order))
        return NULL;
    PyObject *bytes = utf8_of(signature, &codes, &length);
    if (bytes == NULL) return not_taken();
    if ((body.out = PyMem_Malloc(body.room)) == NULL) {
        PyErr_NoMemory();
        made = NULL;
    } else if (put_all(&body, codes, length, values)) {
        made = PyBytes_FromStringAndSize((const char *)body.out, (Py_ssize_t)body.writer.length);
    } else {
        made = not_taken();
    }
    PyMem_Free(body.out);
    Py_DECREF(bytes);
    return made;
}

/* ---- A message of its parts */

/* A row of the parts of a message, in the order of struct dbus_wire_draft: numbers and texts. */
#define NUMBERS 6
#define TEXTS 7

/* Reads a number of the row; what is None is 0. */
static bool read_number(PyObject *row, Py_ssize_t at, uint32_t *number) {
    PyObject *given = PyTuple_GetItem(row, at);
    if (given == NULL || (given != Py_None && (!PyLong_Check(given) || PyBool_Check(given))))
        return false;
    unsigned long long read = given == Py_None ? 0 : PyLong_AsUnsignedLongLong(given);
    *number = (uint32_t)read;
    return PyErr_Occurred() == NULL && read <= UINT32_MAX;
}

/* Reads a text of the row, which is there if it is not None. Its bytes are to be kept. */
static bool read_text(PyObject *row, Py_ssize_t at, struct dbus_wire_draft_text *text,
                      PyObject **kept) {
    PyObject *given = PyTuple_GetItem(row, at);
    char *bytes = "";
    if (given == NULL) return false;
    text->is_there = given != Py_None;
    if (text->is_there && (*kept = utf8_of(given, &bytes, &text->length)) == NULL) return false;
    text->bytes = bytes;
    return true;
}

/* Reads all but the body, and adds up the lengths of the texts. */
static bool read_row(PyObject *row, struct dbus_wire_draft *draft, PyObject *kept[TEXTS],
                     size_t *lengths) {
    uint32_t *numbers[NUMBERS] = {&draft->order,  &draft->kind,         &draft->flags,
                                  &draft->serial, &draft->reply_serial, &draft->unix_fds};
    struct dbus_wire_draft_text *texts[TEXTS] = {
        &draft->path,        &draft->interface, &draft->member,   &draft->error_name,
        &draft->destination, &draft->sender,    &draft->signature};
    for (Py_ssize_t i = 0; i < NUMBERS; i++) {
        if (!read_number(row, i, numbers[i])) return false;
    }
    for (Py_ssize_t i = 0; i < TEXTS; i++) {
        if (!read_text(row, NUMBERS + i, texts[i], &kept[i])) return false;
        *lengths += texts[i]->length;
    }
    return true;
}

/* The message of the draft, or another message changed by it, in this room at first. */
static PyObject *made_of(const struct calls *calls, const struct dbus_wire_draft *draft,
                         const struct dbus_wire_limits *limits, PyObject *other, size_t room) {
    const char *bytes = PyBytes_Check(other) ? PyBytes_AsString(other) : NULL;
    size_t length = bytes == NULL ? 0 : (size_t)PyBytes_Size(other);
    struct dbus_wire_checked told = {room, 0, 0, 0, 0, 0};
    uint8_t *out = NULL;
    uint32_t answer;
    do {
        PyMem_Free(out);
        if ((out = PyMem_Malloc(told.length)) == NULL) return PyErr_NoMemory();
        room = told.length;
        PyThreadState *running = let_others_run(length + room);
        answer = bytes == NULL ? calls->build(draft, limits, out, room, &told)
                               : calls->rebuild(bytes, length, limits, draft, out, room, &told);
        go_on(running);
    } while (answer == DBUS_WIRE_NO_ROOM);
    PyObject *made = answer == DBUS_WIRE_OK
                         ? PyBytes_FromStringAndSize((const char *)out, (Py_ssize_t)told.length)
                         : not_taken();
    PyMem_Free(out);
    return made;
}

/* build(row, body, limits, other): the bytes of the message of these parts, within the limits at
 * this address; of another message that is changed, if one is given. */
static PyObject *build(PyObject *module, PyObject *arguments) {
    const struct state *state = PyModule_GetState(module);
    struct dbus_wire_draft draft = {0};
    PyObject *row, *body, *limits, *other, *made, *kept[TEXTS] = {NULL};
    size_t lengths = 0;
    if (!PyArg_ParseTuple(arguments, "O!SO!O:build", &PyTuple_Type, &row, &body, &PyLong_Type,
                          &limits, &other))
        return NULL;
    draft.body = PyBytes_AsString(body);
    draft.body_length = (size_t)PyBytes_Size(body);
    if (!read_row(row, &draft, kept, &lengths)) {
        made = not_taken();
    } else {
        made = made_of(&state->calls, &draft, PyLong_AsVoidPtr(limits), other,
                       lengths + draft.body_length + 256);
    }
    for (size_t i = 0; i < TEXTS; i++)
        Py_XDECREF(kept[i]);
    return made;
}

/* parts_of(bytes, limits): the row of the parts of the one message that the bytes are, within the
 * limits at this address. */
static PyObject *parts_of(PyObject *module, PyObject *arguments) {
    const struct state *state = PyModule_GetState(module);
    struct dbus_wire_parts parts;
    struct dbus_wire_checked told;
    const char *bytes;
    Py_ssize_t length;
    PyObject *limits;
    if (!PyArg_ParseTuple(arguments, "y#O!:parts_of", &bytes, &length, &PyLong_Type, &limits))
        return NULL;
    const struct dbus_wire_limits *given = PyLong_AsVoidPtr(limits);
    PyThreadState *running = let_others_run((size_t)length);
    uint32_t answer = state->calls.parts_of(bytes, (size_t)length, given, &parts, &told);
    go_on(running);
    if (answer != DBUS_WIRE_WHOLE || told.length != (uint64_t)length) Py_RETURN_NONE;
#define TEXT(name)                                                                                 \
    parts.name.is_there ? bytes + parts.name.offset : NULL, (Py_ssize_t)parts.name.length
    return Py_BuildValue("IIIIIIs#s#s#s#s#s#s#", parts.order, parts.kind, parts.flags, parts.serial,
                         parts.reply_serial, parts.unix_fds, TEXT(path), TEXT(interface),
                         TEXT(member), TEXT(error_name), TEXT(destination), TEXT(sender),
                         TEXT(signature));
}

/* ---- Values of a message */

/* A message, and the row of items of its values. */
struct items {
    const struct state *state;
    const char *bytes;
    size_t length;
    const struct dbus_wire_flat_item *row;
    bool is_big; /* whether its byte order is big */
};

/* A number of a type by its bits, as struct dbus_wire_flat_item has them. */
static PyObject *number_of(const struct state *state, uint32_t code, uint64_t bits) {
    double number;
    switch (code) {
    case 'b': return PyBool_FromLong(bits != 0);
    case 'n': return PyLong_FromLong((int16_t)bits);
    case 'i': return PyLong_FromLong((int32_t)bits);
    case 'x': return PyLong_FromLongLong((int64_t)bits);
    case 'd': memcpy(&number, &bits, sizeof number); return PyFloat_FromDouble(number);
    case 'h': return PyObject_CallFunction(state->unix_fd, "K", (unsigned long long)bits);
    default: return PyLong_FromUnsignedLongLong(bits);
    }
}

/* Adds what was made to the list, which takes it over. */
static bool add(PyObject *list, PyObject *made) {
    bool added = made != NULL && PyList_Append(list, made) == 0;
    Py_XDECREF(made);
    return added;
}

/* The elements of an array of numbers. */
static PyObject *numbers_of(const struct items *items, const struct dbus_wire_flat_item *array) {
    const uint8_t *bytes = (const uint8_t *)items->bytes + array->offset;
    uint32_t width = alignment_of(array->element);
    PyObject *list = PyList_New(0);
    for (const uint8_t *end = bytes + array->length; list != NULL && bytes < end; bytes += width) {
        uint64_t bits = 0;
        for (uint32_t i = 0; i < width; i++)
            bits = bits << 8 | bytes[items->is_big ? i : width - 1 - i];
        if (!add(list, number_of(items->state, array->element, bits))) Py_CLEAR(list);
    }
    return list;
}

static PyObject *text_of(const struct items *items, const struct dbus_wire_flat_item *text,
                         PyObject *class) {
    PyObject *made =
        PyUnicode_FromStringAndSize(items->bytes + text->offset, (Py_ssize_t)text->length);
    if (made == NULL || class == NULL) return made;
    PyObject *of_class = PyObject_CallFunctionObjArgs(class, made, NULL);
    Py_DECREF(made);
    return of_class;
}

static PyObject *value_at(const struct items *items, uint64_t *at);

/* The values from this place of the row up to the end. */
static PyObject *values_up_to(const struct items *items, uint64_t *at, uint64_t end) {
    PyObject *list = PyList_New(0);
    while (list != NULL && *at < end) {
        if (!add(list, value_at(items, at))) Py_CLEAR(list);
    }
    return list;
}

/* A dict of a list of pairs, which it takes over; that list if two keys are equal. */
static PyObject *dict_of(PyObject *pairs) {
    PyObject *entries = PyDict_New();
    Py_ssize_t count = PyList_Size(pairs);
    for (Py_ssize_t i = 0; entries != NULL && i < count; i++) {
        PyObject *pair = PyList_GetItem(pairs, i);
        if (PyDict_SetItem(entries, PyTuple_GetItem(pair, 0), PyTuple_GetItem(pair, 1)) != 0)
            Py_CLEAR(entries);
    }
    if (entries == NULL || PyDict_Size(entries) == count) {
        Py_DECREF(pairs);
        return entries;
    }
    Py_DECREF(entries);
    return pairs;
}

/* A Variant of the item, whose value comes next. It is made as its class does, whose __init__ takes
 * five times as long. */
static PyObject *variant_of(const struct items *items, const struct dbus_wire_flat_item *item,
                            uint64_t *at) {
    const struct state *state = items->state;
    PyObject *signature = text_of(items, item, state->signature);
    PyObject *value = signature == NULL ? NULL : value_at(items, at);
    PyObject *made = value == NULL ? NULL : PyType_GenericAlloc((PyTypeObject *)state->variant, 0);
    if (made != NULL && (PyObject_GenericSetAttr(made, state->signature_name, signature) != 0 ||
                         PyObject_GenericSetAttr(made, state->value_name, value) != 0))
        Py_CLEAR(made);
    Py_XDECREF(signature);
    Py_XDECREF(value);
    return made;
}

static PyObject *array_of(const struct items *items, const struct dbus_wire_flat_item *item,
                          uint64_t *at) {
    if (item->element == 'y')
        return PyBytes_FromStringAndSize(items->bytes + item->offset, (Py_ssize_t)item->length);
    if (item->element != 0 && strchr("bnqiuxtdh", (int)item->element) != NULL)
        return numbers_of(items, item);
    PyObject *list = values_up_to(items, at, *at + item->number);
    return list != NULL && item->element == '{' ? dict_of(list) : list;
}

/* The next value of the row, after which `*at` is. */
static PyObject *value_at(const struct items *items, uint64_t *at) {
    const struct dbus_wire_flat_item *item = &items->row[(*at)++];
    PyObject *list, *made;
    switch (item->code) {
    case 's': return text_of(items, item, NULL);
    case 'o': return text_of(items, item, items->state->object_path);
    case 'g': return text_of(items, item, items->state->signature);
    case 'v': return variant_of(items, item, at);
    case 'a': return array_of(items, item, at);
    case '(': case '{':
        list = values_up_to(items, at, *at + item->number);
        made = list == NULL ? NULL : PyList_AsTuple(list);
        Py_XDECREF(list);
        return made;
    default: return number_of(items->state, item->code, item->number);
    }
}

/* Writes the items of a part of the message to the row, by the call that does. */
static uint32_t flatten(const struct items *items, __typeof__(dbus_wire_flatten) *call,
                        struct dbus_wire_flat_item *row, size_t room, uint64_t *count,
                        struct dbus_wire_checked *told) {
    const struct dbus_wire_limits *limits = &items->state->limits;
    PyThreadState *running = let_others_run(items->length);
    uint32_t answer = call(items->bytes, items->length, limits, 0, row, room, count, told);
    go_on(running);
    return answer;
}

/* How many items most messages have at most. */
#define FEW 32

/* values(bytes, is_header): the list of the values of the body of the message that the bytes are,
 * or of the one value of its header fields. */
static PyObject *values(PyObject *module, PyObject *arguments) {
    const struct state *state = PyModule_GetState(module);
    struct dbus_wire_flat_item few[FEW], *many = NULL;
    struct dbus_wire_checked told;
    struct items items = {state, NULL, 0, few, false};
    Py_ssize_t length;
    int is_header;
    uint64_t count = 0, at = 0;
    if (!PyArg_ParseTuple(arguments, "y#p:values", &items.bytes, &length, &is_header)) return NULL;
    items.length = (size_t)length;
    __typeof__(dbus_wire_flatten) *call =
        is_header ? state->calls.flatten_fields : state->calls.flatten;
    uint32_t answer = flatten(&items, call, few, FEW, &count, &told);
    if (answer == DBUS_WIRE_NO_ROOM) {
        items.row = many =
            count > PTRDIFF_MAX / sizeof *many ? NULL : PyMem_Malloc(count * sizeof *many);
        if (many == NULL) return PyErr_NoMemory();
        answer = flatten(&items, call, many, count, &count, &told);
    }
    items.is_big = answer == DBUS_WIRE_WHOLE && told.order == 'B';
    PyObject *made = answer == DBUS_WIRE_WHOLE ? values_up_to(&items, &at, count) : not_taken();
    PyMem_Free(many);
    return made;
}

/* ---- The module */

/* use(calls, limits, classes..): takes the calls, in the order of CALLS, and the specification's
 * limits by their addresses, and the classes of values. */
static PyObject *use(PyObject *module, PyObject *arguments) {
    struct state *state = PyModule_GetState(module);
    PyObject *addresses, *limits, *variant, *object_path, *signature, *unix_fd;
    if (!PyArg_ParseTuple(arguments, "O!O!OOOO:use", &PyTuple_Type, &addresses, &PyLong_Type,
                          &limits, &variant, &object_path, &signature, &unix_fd))
        return NULL;
    Py_ssize_t at = 0;
    void *address;
#define TAKE(call)                                                                                 \
    if ((address = PyLong_AsVoidPtr(PyTuple_GetItem(addresses, at++))) == NULL) return NULL;       \
    memcpy(&state->calls.call, &address, sizeof address);
    CALLS(TAKE)
    state->limits = *(const struct dbus_wire_limits *)PyLong_AsVoidPtr(limits);
#define KEEP(class)                                                                                \
    Py_INCREF(class);                                                                              \
    Py_XDECREF(state->class);                                                                      \
    state->class = class;
    CLASSES(KEEP)
    Py_RETURN_NONE;
}

static int visit_state(PyObject *module, visitproc visit, void *arg) {
    struct state *state = PyModule_GetState(module);
#define VISIT(class) Py_VISIT(state->class);
    CLASSES(VISIT)
    return 0;
}

static int clear_state(PyObject *module) {
    struct state *state = PyModule_GetState(module);
#define FORGET(class) Py_CLEAR(state->class);
    CLASSES(FORGET)
    Py_CLEAR(state->signature_name);
    Py_CLEAR(state->value_name);
    return 0;
}

static void free_state(void *module) {
    clear_state(module);
}

static int begin(PyObject *module) {
    struct state *state = PyModule_GetState(module);
    state->signature_name = PyUnicode_InternFromString("signature");
    state->value_name = PyUnicode_InternFromString("value");
    if (state->signature_name == NULL || state->value_name == NULL) return -1;
#define NAME(call) #call " "
    return PyModule_AddStringConstant(module, "CALLS", CALLS(NAME));
}

static PyMethodDef functions[] = {
    {"use", use, METH_VARARGS,
     "Takes the library's calls and limits, by their addresses, and the classes of values."},
    {"spell", spell, METH_VARARGS,
     "The bytes of a body, one value for each type of the signature, in the byte order."},
    {"build", build, METH_VARARGS,
     "The bytes of the message of these parts, or of another message that they change."},
    {"parts_of", parts_of, METH_VARARGS, "The parts of the message that the bytes are."},
    {"values", values, METH_VARARGS,
     "The values of the body, or of the header, of the message that the bytes are."},
    {NULL, NULL, 0, NULL},
};

static PyModuleDef_Slot slots[] = {
    {Py_mod_exec, (void *)begin},
    {0, NULL},
};

static struct PyModuleDef definition = {
    PyModuleDef_HEAD_INIT, "_objects",  "The parts and the values of messages as Python objects.",
    sizeof(struct state),  functions,   slots,
    visit_state,           clear_state, free_state,
};

PyMODINIT_FUNC PyInit__objects(void) {
    return PyModuleDef_Init(&definition);
}
