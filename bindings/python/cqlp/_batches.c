/* Calls the library for arrays: makes copies of the arrays that cqlp_columns_next filled, as `_array_of` of _arrays.py does, and reads the events before
 * the rows of a page. It is given where the calls of the library lie, and is linked with none. It is of the stable ABI, from Python 3.9 on, and
 * bindings/build makes cqlp/_batches.abi3.so of it. Where that is not there, _arrays.py does it alone. */
#define Py_LIMITED_API 0x03090000
#define PY_SSIZE_T_CLEAN
#include <Python.h>
#include <string.h>

#include "cqlp.h"

typedef uint32_t get_call(cqlp_columns *columns, size_t column, cqlp_column *view);
typedef uint32_t next_call(cqlp_decoder *decoder, const uint8_t *input, size_t length, cqlp_event *events, size_t room, cqlp_batch *batch);

enum { MANY = 256 }; /* how many events of metadata one call reads */

/* The address that a Python integer has; NULL with an exception. */
static void *place_of(PyObject *number) {
  void *place = PyLong_AsVoidPtr(number);
  if (place == NULL && !PyErr_Occurred()) PyErr_SetString(PyExc_ValueError, "nothing lies there");
  return place;
}

/* ---- copies of arrays */

static int bit(const uint8_t *bits, size_t at) {
  return bits[at / 8] >> at % 8 & 1;
}

/* Whether so many bits are all this one. */
static int are_all(const uint8_t *bits, size_t count, int wanted) {
  uint64_t same = wanted ? ~(uint64_t)0 : 0, eight;
  size_t whole = count / 64, at = 8 * whole;
  for (size_t k = 0; k < whole; k++) {
    memcpy(&eight, bits + 8 * k, 8);
    if (eight != same) return 0;
  }
  for (at = 64 * whole; at < count; at++)
    if (bit(bits, at) != wanted) return 0;
  return 1;
}

/* So many bits, and zeros after the last. */
static PyObject *bits_of(const uint8_t *bits, size_t count) {
  PyObject *found = PyBytes_FromStringAndSize(NULL, (Py_ssize_t)((count + 7) / 8));
  if (found == NULL || count == 0) return found;
  char *to = PyBytes_AsString(found);
  memcpy(to, bits, (count + 7) / 8);
  if (count % 8) to[count / 8] = (char)((unsigned char)to[count / 8] & ((1u << count % 8) - 1));
  return found;
}

/* None where so many bits are all this one. */
static PyObject *bits_but(const uint8_t *bits, size_t count, int common) {
  if (!are_all(bits, count, common)) return bits_of(bits, count);
  Py_INCREF(Py_None);
  return Py_None;
}

static PyObject *copy(const uint8_t *bytes, size_t length) {
  return PyBytes_FromStringAndSize(length ? (const char *)bytes : "", (Py_ssize_t)length);
}

/* The offsets of so many cells, as a memoryview of 64-bit integers; None where the layout has none. */
static PyObject *offsets_of(const cqlp_column *view, size_t count) {
  if (view->bounds == 0) {
    Py_INCREF(Py_None);
    return Py_None;
  }
  PyObject *bytes = copy((const uint8_t *)view->offsets, 8 * (count + 1));
  PyObject *plain = bytes == NULL ? NULL : PyMemoryView_FromObject(bytes);
  PyObject *found = plain == NULL ? NULL : PyObject_CallMethod(plain, "cast", "s", "q");
  Py_XDECREF(plain);
  Py_XDECREF(bytes);
  return found;
}

static PyObject *values_of(const cqlp_column *view, size_t count) {
  if (view->kind == CQLP_KIND_BOOLEAN) return bits_of(view->values, count);
  size_t size = view->bounds ? (size_t)view->offsets[count] : view->cells ? view->size / view->cells * count : 0;
  return copy(view->values, size);
}

/* A tuple of the kind, the values, the offsets, the validity and the empties of the first cells of a column. */
static PyObject *column_of(const cqlp_column *view, size_t count) {
  PyObject *members[5] = {PyLong_FromLong(view->kind), values_of(view, count), offsets_of(view, count), bits_but(view->validity, count, 1),
                          bits_but(view->empties, count, 0)};
  PyObject *found = PyTuple_New(5);
  for (Py_ssize_t at = 0; at < 5; at++) {
    if (found != NULL && members[at] != NULL) {
      PyTuple_SetItem(found, at, members[at]);
    } else {
      Py_XDECREF(members[at]);
      Py_CLEAR(found);
    }
  }
  return found;
}

PyDoc_STRVAR(copied_doc, "copied(get, handle, width): how many whole rows so many columns have, and a list with a tuple for each column: its kind and copies of "
                         "its values, offsets, validity and empties. `get` is where cqlp_columns_get lies.");

static PyObject *copied(PyObject *module, PyObject *arguments) {
  PyObject *call, *handle;
  Py_ssize_t width;
  (void)module;
  if (!PyArg_ParseTuple(arguments, "OOn", &call, &handle, &width)) return NULL;
  void *place = place_of(call), *columns = place == NULL ? NULL : place_of(handle);
  if (columns == NULL) return NULL;
  get_call *get;
  memcpy(&get, &place, sizeof get);
  cqlp_column view;
  if (width < 1 || get(columns, (size_t)width - 1, &view) != CQLP_DONE) {
    PyErr_SetString(PyExc_ValueError, "there are no such columns");
    return NULL;
  }
  size_t count = view.cells;
  PyObject *found = PyList_New(width);
  for (Py_ssize_t at = 0; found != NULL && at < width; at++) {
    PyObject *one = get(columns, (size_t)at, &view) != CQLP_DONE || view.cells < count ? NULL : column_of(&view, count);
    if (one == NULL) {
      if (!PyErr_Occurred()) PyErr_SetString(PyExc_ValueError, "there is no such column");
      Py_CLEAR(found);
    } else {
      PyList_SetItem(found, at, one);
    }
  }
  return found == NULL ? NULL : Py_BuildValue("nN", (Py_ssize_t)count, found);
}

/* ---- events before rows */

/* Whether an event is one of those that only say more of the frame under way: neither its header, nor its end, nor the count of its rows, nor of a cell. */
static int is_within(const cqlp_event *event) {
  return event->tag != CQLP_TAG_FRAME && event->field != CQLP_FIELD_ROWS && (event->tag < CQLP_TAG_LEAF || event->tag > CQLP_TAG_END);
}

/* The members of an event, as `RECORD` of _native.py has them, and its content. */
static PyObject *record_of(const cqlp_event *event) {
  return Py_BuildValue("((KOnLIIIiy#BBBBBBB)y#)", (unsigned long long)event->at, Py_None, (Py_ssize_t)event->length, (long long)event->number,
                       (unsigned)event->row, (unsigned)event->column, (unsigned)event->level, (int)event->extra, (const char *)event->bytes,
                       (Py_ssize_t)sizeof event->bytes, event->tag, event->field, event->kind, event->opcode, event->flags, event->mark, event->octets,
                       event->length ? (const char *)event->content : "", (Py_ssize_t)event->length);
}

/* Whether it is the option of a type that has no more to it. */
static int is_plain_type(const cqlp_event *event) {
  if (event->tag != CQLP_TAG_TYPE_NODE) return 0;
  switch (event->kind) {
  case CQLP_KIND_CUSTOM:
  case CQLP_KIND_LIST:
  case CQLP_KIND_SET:
  case CQLP_KIND_MAP:
  case CQLP_KIND_TUPLE:
  case CQLP_KIND_UDT:
    return 0;
  default:
    return 1;
  }
}

/* Puts an event behind those that came: of a column's name its text, and of its type, where that is plain, the kind. */
static int put(PyObject *found, const cqlp_event *event, int *is_name) {
  PyObject *one;
  if (*is_name && is_plain_type(event)) {
    *is_name = 0;
    one = PyLong_FromLong(event->kind);
  } else if (event->tag == CQLP_TAG_TEXT && event->field == CQLP_FIELD_COLUMN_NAME) {
    *is_name = 1;
    one = PyUnicode_DecodeUTF8(event->length ? (const char *)event->content : "", (Py_ssize_t)event->length, NULL);
  } else {
    *is_name = 0;
    one = record_of(event);
  }
  int done = one == NULL ? -1 : PyList_Append(found, one);
  Py_XDECREF(one);
  return done == 0;
}

PyDoc_STRVAR(before_doc, "before(next, decoder, place, length, event, batch): reads events, one by one, up to the first that is a header, an end, the "
                         "count of rows or of a cell, and at most 256. The last one, if one came, lies at `event`, and `batch` speaks of all. Answers the "
                         "code of the call, and a list of those before it: of a column's name its text, of its type right behind it the kind, where no more "
                         "is to be said of that, and of another its members and its content. `next` is where cqlp_next lies.");

static PyObject *before(PyObject *module, PyObject *arguments) {
  PyObject *words[5];
  Py_ssize_t length;
  void *places[5];
  (void)module;
  if (!PyArg_ParseTuple(arguments, "OOOnOO", &words[0], &words[1], &words[2], &length, &words[3], &words[4])) return NULL;
  for (int at = 0; at < 5; at++) {
    places[at] = at == 2 ? PyLong_AsVoidPtr(words[at]) : place_of(words[at]); /* no bytes lie anywhere */
    if (places[at] == NULL && PyErr_Occurred()) return NULL;
  }
  next_call *next;
  memcpy(&next, &places[0], sizeof next);
  const uint8_t *input = places[2];
  cqlp_event *event = places[3];
  cqlp_batch *batch = places[4];
  PyObject *found = PyList_New(0);
  size_t used = 0;
  uint32_t code = CQLP_DONE;
  int is_name = 0;
  for (int count = 0; found != NULL; count++) {
    code = next(places[1], input + used, (size_t)length - used, event, 1, batch);
    if (code != CQLP_DONE) break;
    used += batch->used;
    batch->used = used;
    if (batch->events == 0 || batch->stop != CQLP_STOP_FULL || count == MANY || !is_within(event)) break;
    if (!put(found, event, &is_name)) Py_CLEAR(found);
  }
  return found == NULL ? NULL : Py_BuildValue("IN", (unsigned)code, found);
}

static PyMethodDef batches_methods[] = {
    {"copied", copied, METH_VARARGS, copied_doc},
    {"before", before, METH_VARARGS, before_doc},
    {NULL, NULL, 0, NULL},
};

static int batches_exec(PyObject *module) {
  return PyModule_AddIntConstant(module, "EVENT_SIZE", sizeof(cqlp_event));
}

static PyModuleDef_Slot module_slots[] = {
    {Py_mod_exec, (void *)batches_exec},
    {0, NULL},
};

static struct PyModuleDef module = {
    .m_base = PyModuleDef_HEAD_INIT,
    .m_name = "cqlp._batches",
    .m_methods = batches_methods,
    .m_slots = module_slots,
};

PyMODINIT_FUNC PyInit__batches(void) {
  return PyModuleDef_Init(&module);
}
