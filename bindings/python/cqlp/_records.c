/* Makes of events of Python what cqlp_encode takes: an array of cqlp_event and their contents, one after the other, as `_pack` of _encode.py
 * does. It calls nothing of libcqlp. It is of the stable ABI, from Python 3.9 on, and bindings/build makes cqlp/_records.abi3.so of it. Where that
 * is not there, _encode.py does it alone. */
#define Py_LIMITED_API 0x03090000
#define PY_SSIZE_T_CLEAN
#include <Python.h>
#include <string.h>

#include "cqlp.h"

/* The members of an event of Python, a tuple, in their order. */
enum { AT, CONTENT, NUMBER, ROW, COLUMN, LEVEL, EXTRA, OCTETS, TAG, FIELD, KIND, OPCODE, FLAGS, MARK, MEMBERS };

/* Those that are numbers, but for the offset, which is not looked at, and what they are at least and at most. */
static const struct { int member; int64_t least, most; } NUMBERS[] = {
    {NUMBER, INT64_MIN, INT64_MAX}, {ROW, 0, UINT32_MAX}, {COLUMN, 0, UINT32_MAX}, {LEVEL, 0, UINT32_MAX},
    {EXTRA, INT32_MIN, INT32_MAX},  {TAG, 0, UINT8_MAX},  {FIELD, 0, UINT8_MAX},   {KIND, 0, UINT8_MAX},
    {OPCODE, 0, UINT8_MAX},         {FLAGS, 0, UINT8_MAX}, {MARK, 0, UINT8_MAX},
};

/* The contents that came. */
typedef struct contents {
  char *bytes;
  Py_ssize_t length, room;
} contents;

static int add(contents *to, const char *bytes, Py_ssize_t length) {
  if (length > to->room - to->length) {
    Py_ssize_t wanted = to->room + to->room / 2 + 256;
    if (length > PY_SSIZE_T_MAX / 2 - to->length) return PyErr_NoMemory(), 0;
    if (wanted < to->length + length) wanted = to->length + length;
    char *grown = PyMem_Realloc(to->bytes, (size_t)wanted);
    if (grown == NULL) return PyErr_NoMemory(), 0;
    to->bytes = grown;
    to->room = wanted;
  }
  if (length) memcpy(to->bytes + to->length, bytes, (size_t)length);
  to->length += length;
  return 1;
}

/* The bytes of a member, which may be of any type that has bytes; NULL with an exception. */
static PyObject *bytes_of(PyObject *member) {
  if (PyBytes_Check(member)) {
    Py_INCREF(member);
    return member;
  }
  PyObject *none = PyBytes_FromStringAndSize(NULL, 0);
  PyObject *found = none == NULL ? NULL : PyObject_CallMethod(none, "join", "((O))", member);
  Py_XDECREF(none);
  return found;
}

/* Reads the members that are numbers. Answers 1, or 0 where one is out of its range, or -1 with an exception. */
static int read_numbers(PyObject *event, int64_t numbers[MEMBERS]) {
  int fits = 1;
  for (size_t i = 0; i < sizeof NUMBERS / sizeof *NUMBERS; i++) {
    PyObject *number = PyNumber_Index(PyTuple_GetItem(event, NUMBERS[i].member));
    int outside = 0;
    if (number == NULL) return -1;
    int64_t found = PyLong_AsLongLongAndOverflow(number, &outside);
    Py_DECREF(number);
    if (outside || found < NUMBERS[i].least || found > NUMBERS[i].most) fits = 0;
    numbers[NUMBERS[i].member] = found;
  }
  return fits;
}

/* Whether its content is one of those that cqlp_encode takes. */
static int has_content(const cqlp_event *event) {
  switch (event->tag) {
  case CQLP_TAG_TEXT:
    return 1;
  case CQLP_TAG_BYTES:
  case CQLP_TAG_BOUND:
    return event->mark == CQLP_MARK_NONE;
  case CQLP_TAG_LEAF:
    switch (event->kind) {
    case CQLP_KIND_CUSTOM:
    case CQLP_KIND_ASCII:
    case CQLP_KIND_BLOB:
    case CQLP_KIND_DECIMAL:
    case CQLP_KIND_VARCHAR:
    case CQLP_KIND_VARINT:
    case CQLP_KIND_RAW:
      return 1;
    }
  }
  return 0;
}

/* Whether it has as many octets as it is to have. Of an address cqlp_encode says so. */
static int has_octets(const cqlp_event *event) {
  if (event->tag == CQLP_TAG_UUID) return event->octets == 16;
  if (event->tag != CQLP_TAG_LEAF) return 1;
  switch (event->kind) {
  case CQLP_KIND_FLOAT:
    return event->octets == 4;
  case CQLP_KIND_DOUBLE:
    return event->octets == 8;
  case CQLP_KIND_UUID:
  case CQLP_KIND_TIMEUUID:
    return event->octets == 16;
  }
  return 1;
}

/* Writes an event with these numbers, octets and content, and adds the content. */
static int put(const int64_t numbers[MEMBERS], PyObject *octets, PyObject *content, cqlp_event *record, contents *to) {
  record->number = numbers[NUMBER];
  record->row = (uint32_t)numbers[ROW];
  record->column = (uint32_t)numbers[COLUMN];
  record->level = (uint32_t)numbers[LEVEL];
  record->extra = (int32_t)numbers[EXTRA];
  record->tag = (uint8_t)numbers[TAG];
  record->field = (uint8_t)numbers[FIELD];
  record->kind = (uint8_t)numbers[KIND];
  record->opcode = (uint8_t)numbers[OPCODE];
  record->flags = (uint8_t)numbers[FLAGS];
  record->mark = (uint8_t)numbers[MARK];
  record->octets = (uint8_t)PyBytes_Size(octets);
  memcpy(record->bytes, PyBytes_AsString(octets), record->octets);
  if (!has_octets(record)) {
    memset(record, 0, sizeof *record);
    return 1;
  }
  if (!has_content(record)) return 1;
  record->length = (size_t)PyBytes_Size(content);
  return add(to, PyBytes_AsString(content), PyBytes_Size(content));
}

/* Takes an event. An event that a cqlp_event cannot hold has no tag, so that cqlp_encode refuses it in its turn. */
static int take(PyObject *event, PyObject *type, cqlp_event *record, contents *to) {
  int64_t numbers[MEMBERS];
  memset(record, 0, sizeof *record);
  int is_event = PyObject_IsInstance(event, type);
  if (is_event < 0) return 0;
  if (!is_event || !PyTuple_Check(event) || PyTuple_Size(event) != MEMBERS) {
    PyErr_SetString(PyExc_TypeError, "an Event is wanted");
    return 0;
  }
  PyObject *content = bytes_of(PyTuple_GetItem(event, CONTENT));
  PyObject *octets = content == NULL ? NULL : bytes_of(PyTuple_GetItem(event, OCTETS));
  int fits = octets == NULL ? -1 : read_numbers(event, numbers);
  int done = fits >= 0;
  if (fits > 0 && PyBytes_Size(octets) <= (Py_ssize_t)sizeof record->bytes) done = put(numbers, octets, content, record, to);
  Py_XDECREF(content);
  Py_XDECREF(octets);
  return done;
}

PyDoc_STRVAR(pack_doc, "pack(events, type): of a tuple of events, each of this type, the bytes of an array of cqlp_event, and those of their "
                       "contents.");

static PyObject *pack(PyObject *module, PyObject *arguments) {
  PyObject *events, *type;
  (void)module;
  if (!PyArg_ParseTuple(arguments, "OO", &events, &type)) return NULL;
  if (!PyTuple_Check(events)) {
    PyErr_SetString(PyExc_TypeError, "a tuple is wanted");
    return NULL;
  }
  Py_ssize_t count = PyTuple_Size(events);
  if (count > PY_SSIZE_T_MAX / (Py_ssize_t)sizeof(cqlp_event)) return PyErr_NoMemory();
  /* the bytes of an object are aligned as its numbers before them are */
  PyObject *array = PyBytes_FromStringAndSize(NULL, count * (Py_ssize_t)sizeof(cqlp_event));
  contents found = {NULL, 0, 0};
  if (array == NULL) return NULL;
  cqlp_event *into = (cqlp_event *)(void *)PyBytes_AsString(array);
  int done = 1;
  for (Py_ssize_t at = 0; done && at < count; at++) done = take(PyTuple_GetItem(events, at), type, &into[at], &found);
  PyObject *both = done ? Py_BuildValue("Oy#", array, found.length ? found.bytes : "", found.length) : NULL;
  Py_DECREF(array);
  PyMem_Free(found.bytes);
  return both;
}

static PyMethodDef methods[] = {
    {"pack", pack, METH_VARARGS, pack_doc},
    {NULL, NULL, 0, NULL},
};

static int exec(PyObject *module) {
  return PyModule_AddIntConstant(module, "EVENT_SIZE", sizeof(cqlp_event));
}

static PyModuleDef_Slot slots[] = {
    {Py_mod_exec, (void *)exec},
    {0, NULL},
};

static struct PyModuleDef module = {
    .m_base = PyModuleDef_HEAD_INIT,
    .m_name = "cqlp._records",
    .m_methods = methods,
    .m_slots = slots,
};

PyMODINIT_FUNC PyInit__records(void) {
  return PyModuleDef_Init(&module);
}
