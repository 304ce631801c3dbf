/* Puts the events of cells together to rows of Python values, as `_Cells` of _pages.py does, or to columns, as `_ColumnCells` of _columns.py
 * does: the same values, from the events where cqlp_next put them, or from the arrays that cqlp_columns_next filled. It is given where
 * cqlp_next lies, and is linked with no library. It is of the stable ABI, from Python 3.9 on, and bindings/build makes cqlp/_cells.abi3.so of it.
 * Where that is not there, _pages.py and _columns.py do it alone. */
#define Py_LIMITED_API 0x03090000
#define PY_SSIZE_T_CLEAN
#include <Python.h>
#include <string.h>

#include "cqlp.h"

_Static_assert(sizeof(double) == 8 && sizeof(float) == 4, "floats are binary64 and binary32");

typedef uint32_t next_call(cqlp_decoder *decoder, const uint8_t *input, size_t length, cqlp_event *events, size_t room, cqlp_batch *batch);

enum { MANY = 4096 }; /* with how many events one reading ends, or a call's more */

/* A list, set, map, tuple or udt whose items are still to come. */
typedef struct items {
  uint8_t kind;
  int64_t wanted;   /* how many fields a tuple or a udt has */
  Py_ssize_t count; /* how many items came: of a map keys and values */
  PyObject *type;   /* lent: the columns' types hold it */
  PyObject *values; /* a list; of a set a set, of a map a dict */
  PyObject *key;    /* of a map the key whose value is still to come, else NULL */
} items;

/* What is said of a number of a column: it is there, null, of no bytes, or of a content that its type does not have. */
enum state { IS_THERE, IS_NULL, IS_EMPTY, IS_ODD };

/* The cells of a column of a page. */
typedef struct column {
  uint8_t kind;
  uint8_t size;      /* the bytes of a number; 0 where the values are in a list */
  char *numbers;     /* this many bytes for each */
  char *missing;     /* NULL where no number is missing; else the state of each */
  Py_ssize_t length; /* how many numbers there are */
  Py_ssize_t room;   /* and how many have room */
  PyObject *values;  /* the list, or NULL */
} column;

typedef struct cells {
  PyObject_HEAD
  Py_ssize_t width;  /* how many cells a row has */
  PyObject *types;   /* a tuple of the columns' types, or an empty one where they are not described */
  PyObject *leaves;  /* of each kind the function that makes its value, of an event's number, content, extra and octets */
  PyObject *empty;   /* a value of no bytes, of a type that is neither a text nor bytes */
  PyObject *frozen;  /* makes of a value one that may be in a set */
  int to_columns;    /* whether cells go to columns; else they go to rows */
  column *columns;   /* those whose types are described; else as many as cells of the first row have come */
  Py_ssize_t begun;  /* how many they are */
  Py_ssize_t space;  /* and how many have room */
  PyObject **row;    /* the cells of the row that is under way, where they go to rows */
  Py_ssize_t length; /* how many they are */
  Py_ssize_t room;   /* and how many have room */
  int may_hold;      /* whether one of them may hold another value */
  items *open;       /* the values around the next one, the outermost first */
  Py_ssize_t depth;
  Py_ssize_t levels; /* for how many there is room */
  PyObject *parts;   /* a list of the parts of a long scalar that came */
} cells;

/* Whether an array has room for one more; it is grown by half. */
static int grow(void **array, Py_ssize_t length, Py_ssize_t *room, size_t size) {
  if (length < *room) return 1;
  Py_ssize_t wanted = *room + *room / 2 + 8;
  void *grown = (size_t)wanted > PY_SSIZE_T_MAX / size ? NULL : PyMem_Realloc(*array, (size_t)wanted * size);
  if (grown == NULL) {
    PyErr_NoMemory();
    return 0;
  }
  *array = grown;
  *room = wanted;
  return 1;
}

static PyObject *bytes_of(const cqlp_event *event) {
  return PyBytes_FromStringAndSize((const char *)event->content, (Py_ssize_t)event->length);
}

/* The value that the Python function for this kind makes. */
static PyObject *called(cells *self, const cqlp_event *event) {
  PyObject *make = PyList_GetItem(self->leaves, event->kind);
  return make == NULL ? NULL
                      : PyObject_CallFunction(make, "Ly#iy#", (long long)event->number,
                                              event->length ? (const char *)event->content : "", (Py_ssize_t)event->length,
                                              (int)event->extra, (const char *)event->bytes, (Py_ssize_t)event->octets);
}

/* A varint of few bytes, in two's complement. */
static PyObject *short_varint(const cqlp_event *event) {
  uint64_t number = event->content[0] & 0x80 ? ~(uint64_t)0 : 0;
  for (size_t at = 0; at < event->length; at++) number = number << 8 | event->content[at];
  int64_t of_sign;
  memcpy(&of_sign, &number, 8);
  return PyLong_FromLongLong(of_sign);
}

/* A binary64 or binary32, whose highest byte comes first. */
static PyObject *binary(const cqlp_event *event) {
  uint64_t number = 0;
  for (int at = 0; at < event->octets; at++) number = number << 8 | event->bytes[at];
  if (event->octets == 4) {
    uint32_t half = (uint32_t)number;
    float single;
    memcpy(&single, &half, 4);
    return PyFloat_FromDouble(single);
  }
  double twice;
  memcpy(&twice, &number, 8);
  return PyFloat_FromDouble(twice);
}

/* An integer. Python makes one of few bits faster of a long. */
static inline PyObject *integer(int64_t number) {
#if LONG_MAX >= INT64_MAX
  return PyLong_FromLong((long)number);
#else
  return PyLong_FromLongLong(number);
#endif
}

/* The value of a scalar of another kind than most. */
static PyObject *rare(cells *self, const cqlp_event *event) {
  self->may_hold = 1;
  switch (event->kind) {
  case CQLP_KIND_CUSTOM:
  case CQLP_KIND_BLOB:
  case CQLP_KIND_RAW:
    return bytes_of(event);
  case CQLP_KIND_DOUBLE:
  case CQLP_KIND_FLOAT:
    return binary(event);
  case CQLP_KIND_VARINT:
    return 0 < event->length && event->length <= 8 ? short_varint(event) : called(self, event);
  default:
    return called(self, event);
  }
}

/* The value of a scalar. */
static inline PyObject *leaf(cells *self, const cqlp_event *event) {
  switch (event->kind) {
  case CQLP_KIND_BIGINT:
  case CQLP_KIND_COUNTER:
  case CQLP_KIND_INT:
  case CQLP_KIND_SMALLINT:
  case CQLP_KIND_TINYINT:
    return integer(event->number);
  case CQLP_KIND_BOOLEAN: {
    PyObject *truth = event->number != 0 ? Py_True : Py_False;
    Py_INCREF(truth);
    return truth;
  }
  case CQLP_KIND_ASCII:
  case CQLP_KIND_VARCHAR:
    return PyUnicode_DecodeUTF8((const char *)event->content, (Py_ssize_t)event->length, NULL);
  default:
    return rare(self, event);
  }
}

/* The type of the item that comes next, lent; NULL where it is not described, or with an exception. */
static PyObject *next_type(cells *self) {
  if (self->depth == 0) return PyTuple_Size(self->types) ? PyTuple_GetItem(self->types, self->length) : NULL;
  items *around = &self->open[self->depth - 1];
  PyObject *inner = PyTuple_GetItem(around->type, 1);
  if (inner == NULL) return NULL;
  Py_ssize_t place = 0;
  if (around->kind == CQLP_KIND_TUPLE || around->kind == CQLP_KIND_UDT) place = around->count;
  if (around->kind == CQLP_KIND_MAP) place = around->count % 2;
  return PyTuple_GetItem(inner, place);
}

/* A value of no bytes, of a type of this kind. */
static PyObject *empty_of(cells *self, long kind) {
  switch (kind) {
  case CQLP_KIND_ASCII:
  case CQLP_KIND_VARCHAR:
    return PyUnicode_FromStringAndSize(NULL, 0);
  case CQLP_KIND_CUSTOM:
  case CQLP_KIND_BLOB:
  case CQLP_KIND_RAW:
    return PyBytes_FromStringAndSize(NULL, 0);
  default:
    Py_INCREF(self->empty);
    return self->empty;
  }
}

/* A value of no bytes. */
static PyObject *empty_value(cells *self) {
  PyObject *type = next_type(self), *kind = type == NULL ? NULL : PyTuple_GetItem(type, 0);
  if (PyErr_Occurred()) return NULL;
  long number = kind == NULL ? CQLP_KIND_RAW : PyLong_AsLong(kind);
  if (number == -1 && PyErr_Occurred()) return NULL;
  return empty_of(self, number);
}

/* Begins a value with items. */
static int enter(cells *self, const cqlp_event *event) {
  PyObject *type = next_type(self);
  if (type == NULL) {
    if (!PyErr_Occurred()) PyErr_SetString(PyExc_ValueError, "a value with items, of a type that is not told");
    return 0;
  }
  if (!grow((void **)&self->open, self->depth, &self->levels, sizeof(items))) return 0;
  PyObject *values = event->kind == CQLP_KIND_SET ? PySet_New(NULL) : event->kind == CQLP_KIND_MAP ? PyDict_New() : PyList_New(0);
  if (values == NULL) return 0;
  self->open[self->depth++] = (items){event->kind, event->number, 0, type, values, NULL};
  return 1;
}

/* A tuple, or of a udt a dict by the names of its fields. Those that did not come are None. Bytes after the last field, as a lenient reading
 * gives them, are an item more of a tuple; in a dict their name is that of no letters. */
static PyObject *fields(items *of) {
  while (of->count < of->wanted) {
    if (PyList_Append(of->values, Py_None) < 0) return NULL;
    of->count++;
  }
  if (of->kind == CQLP_KIND_TUPLE) return PyList_AsTuple(of->values);
  PyObject *names = PyTuple_GetItem(of->type, 2), *found = names == NULL ? NULL : PyDict_New();
  Py_ssize_t named = found == NULL ? 0 : PyTuple_Size(names);
  for (Py_ssize_t at = 0; found != NULL && at < named && at < of->count; at++)
    if (PyDict_SetItem(found, PyTuple_GetItem(names, at), PyList_GetItem(of->values, at)) < 0) Py_CLEAR(found);
  if (found != NULL && named < of->count && PyDict_SetItemString(found, "", PyList_GetItem(of->values, named)) < 0) Py_CLEAR(found);
  return found;
}

/* Ends a value with items, and gives it. */
static PyObject *leave(cells *self) {
  if (self->depth == 0) {
    PyErr_SetString(PyExc_ValueError, "the end of a value that did not begin");
    return NULL;
  }
  items of = self->open[--self->depth];
  PyObject *value = of.values;
  if (of.kind == CQLP_KIND_TUPLE || of.kind == CQLP_KIND_UDT)
    value = fields(&of);
  else
    Py_INCREF(value);
  Py_DECREF(of.values);
  Py_XDECREF(of.key);
  return value;
}

/* Takes a part of a long scalar, and gives the scalar after the last. NULL is no error where no exception is set. */
static PyObject *part(cells *self, const cqlp_event *event) {
  if (self->parts == NULL && (self->parts = PyList_New(0)) == NULL) return NULL;
  PyObject *content = bytes_of(event);
  if (content == NULL) return NULL;
  int done = PyList_Append(self->parts, content);
  Py_DECREF(content);
  if (done < 0 || event->mark != CQLP_MARK_LAST) return NULL;
  PyObject *none = PyBytes_FromStringAndSize(NULL, 0);
  PyObject *value = none == NULL ? NULL : PyObject_CallMethod(none, "join", "O", self->parts);
  Py_XDECREF(none);
  Py_CLEAR(self->parts);
  return value;
}

/* Puts an item into the value around it. The item is taken. `whole` says that it is itself a value with items. */
static int put_item(cells *self, PyObject *item, int whole) {
  items *around = &self->open[self->depth - 1];
  int is_key = around->kind == CQLP_KIND_MAP && around->key == NULL;
  around->count++;
  if (whole && (is_key || around->kind == CQLP_KIND_SET)) {
    PyObject *hashable = PyObject_CallFunctionObjArgs(self->frozen, item, NULL);
    Py_DECREF(item);
    if (hashable == NULL) return 0;
    item = hashable;
  }
  if (is_key) {
    around->key = item;
    return 1;
  }
  int done;
  if (around->kind == CQLP_KIND_MAP) {
    done = PyDict_SetItem(around->values, around->key, item);
    Py_CLEAR(around->key);
  } else {
    done = around->kind == CQLP_KIND_SET ? PySet_Add(around->values, item) : PyList_Append(around->values, item);
  }
  Py_DECREF(item);
  return done == 0;
}

/* Puts a cell into the row. The cell is taken. */
static inline int put_cell(cells *self, PyObject *cell) {
  if (self->length == self->room && !grow((void **)&self->row, self->length, &self->room, sizeof(PyObject *))) {
    Py_DECREF(cell);
    return 0;
  }
  self->row[self->length++] = cell;
  return 1;
}

/* How many bytes a number of this kind has in a column; 0 where a value of it is none of a number's width. */
static uint8_t width_of(long kind) {
  switch (kind) {
  case CQLP_KIND_BOOLEAN:
  case CQLP_KIND_TINYINT:
    return 1;
  case CQLP_KIND_SMALLINT:
    return 2;
  case CQLP_KIND_INT:
  case CQLP_KIND_DATE:
  case CQLP_KIND_FLOAT:
    return 4;
  case CQLP_KIND_BIGINT:
  case CQLP_KIND_COUNTER:
  case CQLP_KIND_TIMESTAMP:
  case CQLP_KIND_TIME:
  case CQLP_KIND_DOUBLE:
    return 8;
  default:
    return 0;
  }
}

/* What an event of a cell says of a number of this column. */
static enum state state_of(const column *of, const cqlp_event *event) {
  if (event->tag == CQLP_TAG_LEAF) return event->kind == of->kind ? IS_THERE : IS_ODD;
  return event->tag == CQLP_TAG_NULL ? IS_NULL : IS_EMPTY;
}

/* The bits of a number of a column that is there, the lowest first. A date counts from 1970. */
static uint64_t bits_of(const column *of, const cqlp_event *event) {
  if (of->kind == CQLP_KIND_DATE) return (uint64_t)(event->number - ((int64_t)1 << 31));
  if (of->kind != CQLP_KIND_FLOAT && of->kind != CQLP_KIND_DOUBLE) return (uint64_t)event->number;
  uint64_t bits = 0;
  for (int at = 0; at < of->size; at++) bits = bits << 8 | event->bytes[at];
  return bits;
}

/* Writes the lowest bytes of a number as this machine has them. */
static void write_number(char *to, uint8_t size, uint64_t bits) {
  uint8_t byte = (uint8_t)bits;
  uint16_t half = (uint16_t)bits;
  uint32_t word = (uint32_t)bits;
  switch (size) {
  case 1: memcpy(to, &byte, 1); break;
  case 2: memcpy(to, &half, 2); break;
  case 4: memcpy(to, &word, 4); break;
  default: memcpy(to, &bits, 8);
  }
}

/* Whether a column has a byte for each number that says whether it is missing. */
static int grow_missing(column *of, Py_ssize_t before) {
  char *grown = PyMem_Realloc(of->missing, (size_t)of->room);
  if (grown == NULL) {
    PyErr_NoMemory();
    return 0;
  }
  memset(grown + before, 0, (size_t)(of->room - before));
  of->missing = grown;
  return 1;
}

/* Puts a number into its column, or that it is missing. */
static int put_number(column *of, const cqlp_event *event) {
  Py_ssize_t before = of->room;
  if (!grow((void **)&of->numbers, of->length, &of->room, of->size)) return 0;
  if (of->missing != NULL && before < of->room && !grow_missing(of, before)) return 0;
  enum state state = state_of(of, event);
  write_number(of->numbers + of->length * of->size, of->size, state == IS_THERE ? bits_of(of, event) : 0);
  if (state != IS_THERE) {
    if (of->missing == NULL && !grow_missing(of, 0)) return 0;
    of->missing[of->length] = (char)state;
  }
  of->length++;
  return 1;
}

static int bit(const uint8_t *bits, size_t at) {
  return bits[at / 8] >> at % 8 & 1;
}

/* Whether a column has room for so many more numbers, and for whether each is missing where it has that. */
static int grow_by(column *of, size_t count) {
  Py_ssize_t before = of->room;
  if ((size_t)(of->room - of->length) < count) {
    size_t wanted = (size_t)of->length + count + (size_t)of->room / 2;
    void *grown = wanted > PY_SSIZE_T_MAX / of->size ? NULL : PyMem_Realloc(of->numbers, wanted * of->size);
    if (grown == NULL) {
      PyErr_NoMemory();
      return 0;
    }
    of->numbers = grown;
    of->room = (Py_ssize_t)wanted;
  }
  return of->missing == NULL || before == of->room || grow_missing(of, before);
}

/* The bits of a number in an array of the library, whose lowest byte comes first. */
static uint64_t bits_at(const column *of, const cqlp_column *from, size_t at) {
  if (of->kind == CQLP_KIND_BOOLEAN) return (uint64_t)bit(from->values, at);
  uint64_t bits = 0;
  for (size_t k = of->size; k > 0; k--) bits = bits << 8 | from->values[at * of->size + k - 1];
  return of->kind == CQLP_KIND_DATE ? bits ^ (uint64_t)1 << 31 : bits;
}

/* Puts the numbers of an array of the library into their column, as put_number does. */
static int put_numbers(column *of, const cqlp_column *from) {
  const uint16_t one = 1;
  int is_little_endian = *(const uint8_t *)&one;
  if (from->cells == 0) return 1;
  if (!grow_by(of, from->cells)) return 0;
  char *to = of->numbers + of->length * of->size;
  if (is_little_endian && of->kind != CQLP_KIND_BOOLEAN && of->kind != CQLP_KIND_DATE) {
    memcpy(to, from->values, from->cells * of->size);
  } else {
    for (size_t at = 0; at < from->cells; at++) write_number(to + at * of->size, of->size, bits_at(of, from, at));
  }
  for (size_t at = 0; at < from->cells; at++) {
    if (at % 8 == 0 && from->validity[at / 8] == 0xff) {
      at += 7;
      continue;
    }
    if (bit(from->validity, at)) continue;
    if (of->missing == NULL && !grow_missing(of, 0)) return 0;
    of->missing[of->length + (Py_ssize_t)at] = bit(from->empties, at) ? IS_EMPTY : IS_NULL;
    write_number(to + at * of->size, of->size, 0);
  }
  of->length += (Py_ssize_t)from->cells;
  return 1;
}

/* The value of a cell in an array of the library, as that of the event that says the same. */
static PyObject *value_at(cells *self, const cqlp_column *from, size_t at) {
  cqlp_event event;
  memset(&event, 0, sizeof event);
  event.kind = from->kind;
  if (from->kind == CQLP_KIND_UUID || from->kind == CQLP_KIND_TIMEUUID) {
    event.octets = 16;
    memcpy(event.bytes, from->values + 16 * at, 16);
    return leaf(self, &event);
  }
  event.content = from->values + from->offsets[at];
  event.length = (size_t)(from->offsets[at + 1] - from->offsets[at]);
  if (from->kind == CQLP_KIND_INET && event.length <= sizeof event.bytes) {
    event.octets = (uint8_t)event.length;
    memcpy(event.bytes, event.content, event.length);
    event.length = 0;
  } else if (from->kind == CQLP_KIND_DECIMAL && event.length >= 4) {
    uint32_t scale = 0;
    for (int k = 0; k < 4; k++) scale = scale << 8 | event.content[k];
    memcpy(&event.extra, &scale, 4);
    event.content += 4;
    event.length -= 4;
  }
  return leaf(self, &event);
}

/* Puts the values of an array of the library into the list of their column. */
static int put_values(cells *self, const column *of, const cqlp_column *from) {
  int is_text = from->kind == CQLP_KIND_VARCHAR || from->kind == CQLP_KIND_ASCII;
  for (size_t at = 0; at < from->cells; at++) {
    PyObject *value;
    if (bit(from->empties, at)) {
      value = empty_of(self, from->kind);
    } else if (!bit(from->validity, at)) {
      Py_INCREF(Py_None);
      value = Py_None;
    } else if (is_text) { // most are such
      uint64_t begin = from->offsets[at];
      value = PyUnicode_DecodeUTF8((const char *)from->values + begin, (Py_ssize_t)(from->offsets[at + 1] - begin), NULL);
    } else {
      value = value_at(self, from, at);
    }
    int done = value == NULL ? -1 : PyList_Append(of->values, value);
    Py_XDECREF(value);
    if (done < 0) return 0;
  }
  return 1;
}

PyDoc_STRVAR(put_doc, "put(address, count): puts the cells of so many columns of the library, as cqlp_columns_get puts where they lie, behind those "
                      "that came. The next cell is the first of a row; of the row under way in them the first columns have one more.");

static PyObject *cells_put(PyObject *object, PyObject *arguments) {
  cells *self = (cells *)object;
  PyObject *address;
  Py_ssize_t count;
  if (!PyArg_ParseTuple(arguments, "On", &address, &count)) return NULL;
  const cqlp_column *from = PyLong_AsVoidPtr(address);
  if (from == NULL && PyErr_Occurred()) return NULL;
  int is_begun = self->to_columns && count == self->width && count == self->begun;
  if (!is_begun || self->depth > 0 || (self->length > 0 && from[0].cells > 0)) {
    PyErr_SetString(PyExc_ValueError, "cells of other columns, or within a row");
    return NULL;
  }
  for (Py_ssize_t at = 0; at < count; at++) {
    column *of = &self->columns[at];
    if (of->size > 0 && of->kind != from[at].kind) {
      PyErr_SetString(PyExc_ValueError, "numbers of another kind");
      return NULL;
    }
    if (!(of->size > 0 ? put_numbers(of, &from[at]) : put_values(self, of, &from[at]))) return NULL;
    if (from[at].cells > from[count - 1].cells) self->length = at + 1;
  }
  Py_INCREF(Py_None);
  return Py_None;
}

/* Begins one more column, of numbers where its type is described and they have a width. A count that lies gets no memory: a column that is
 * not described begins when its first cell comes. */
static int begin_column(cells *self) {
  if (!grow((void **)&self->columns, self->begun, &self->space, sizeof(column))) return 0;
  int described = PyTuple_Size(self->types) > self->begun;
  PyObject *kind = described ? PyTuple_GetItem(PyTuple_GetItem(self->types, self->begun), 0) : NULL;
  long number = kind == NULL ? CQLP_KIND_RAW : PyLong_AsLong(kind);
  if (PyErr_Occurred()) return 0;
  column of = {(uint8_t)number, width_of(number), NULL, NULL, 0, 0, NULL};
  if (of.size == 0 && (of.values = PyList_New(0)) == NULL) return 0;
  self->columns[self->begun++] = of;
  return 1;
}

/* Goes on to the next column, or to the first of the next row. */
static int next_column(cells *self) {
  if (++self->length == self->width) self->length = 0;
  return 1;
}

/* Whether a value can hold no other. */
static int is_plain(PyObject *value) {
  PyTypeObject *type = Py_TYPE(value);
  return type == &PyLong_Type || type == &PyUnicode_Type || value == Py_None || type == &PyBool_Type || type == &PyFloat_Type || type == &PyBytes_Type;
}

/* Whether no cell of the row can hold another value. */
static int is_plain_row(const cells *self) {
  for (Py_ssize_t at = 0; self->may_hold && at < self->length; at++)
    if (!is_plain(self->row[at])) return 0;
  return 1;
}

/* Puts the row, which is whole, into the list, and begins the next. The collector of cycles need not know of one with plain values, as it would find too. */
static int put_row(cells *self, PyObject *rows) {
  PyObject *row = PyTuple_New(self->length);
  if (row == NULL) return 0;
  if (self->length > 0 && is_plain_row(self)) PyObject_GC_UnTrack(row); /* the tuple without values is shared */
  for (Py_ssize_t at = 0; at < self->length; at++) PyTuple_SetItem(row, at, self->row[at]);
  self->length = self->may_hold = 0;
  int done = PyList_Append(rows, row);
  Py_DECREF(row);
  return done == 0;
}

/* Takes an event of a cell that is no scalar of a row, or an item, or of a column. The rows that are whole go into the list. */
static int add_other(cells *self, const cqlp_event *event, PyObject *rows) {
  if (self->to_columns && self->length == self->begun && !begin_column(self)) return 0;
  column *of = self->to_columns ? &self->columns[self->length] : NULL;
  if (of != NULL && of->size > 0 && self->depth == 0) return put_number(of, event) && next_column(self);
  PyObject *value;
  if (event->tag != CQLP_TAG_NULL) self->may_hold = 1;
  switch (event->tag) {
  case CQLP_TAG_LEAF:
    value = leaf(self, event);
    break;
  case CQLP_TAG_NULL:
    Py_INCREF(Py_None);
    value = Py_None;
    break;
  case CQLP_TAG_EMPTY:
    value = empty_value(self);
    break;
  case CQLP_TAG_ENTER:
    return enter(self, event);
  case CQLP_TAG_LEAVE:
    value = leave(self);
    break;
  default:
    value = part(self, event);
    if (value == NULL) return !PyErr_Occurred();
  }
  if (value == NULL) return 0;
  if (self->depth > 0) return put_item(self, value, event->tag == CQLP_TAG_LEAVE);
  if (of != NULL) {
    int done = PyList_Append(of->values, value);
    Py_DECREF(value);
    return done == 0 && next_column(self);
  }
  return put_cell(self, value) && (self->length != self->width || put_row(self, rows));
}

/* The same of any event of a cell. Most are scalars of a row. */
static inline int add(cells *self, const cqlp_event *event, PyObject *rows) {
  if (event->tag != CQLP_TAG_LEAF || self->depth > 0 || self->to_columns) return add_other(self, event, rows);
  PyObject *value = leaf(self, event);
  if (value == NULL) return 0;
  return put_cell(self, value) && (self->length != self->width || put_row(self, rows));
}

/* Whether so many events are each a scalar or a null, so that as many columns have a row of them. */
static inline int are_of_row(const cqlp_event *events, Py_ssize_t width) {
  for (Py_ssize_t at = 0; at < width; at++)
    if (events[at].tag != CQLP_TAG_LEAF && events[at].tag != CQLP_TAG_NULL) return 0;
  return 1;
}

/* The row of so many such events; NULL with an exception. The collector of cycles is to know of it where one of its values may hold another. */
static PyObject *row_of(cells *self, const cqlp_event *events, Py_ssize_t width) {
  PyObject *row = PyTuple_New(width);
  int is_plain_so_far = 1;
  if (row == NULL) return NULL;
  PyObject_GC_UnTrack(row);
  for (Py_ssize_t at = 0; at < width; at++) {
    PyObject *value = Py_None;
    if (events[at].tag == CQLP_TAG_LEAF) {
      value = leaf(self, &events[at]);
    } else {
      Py_INCREF(value);
    }
    if (self->may_hold) {
      is_plain_so_far = is_plain_so_far && value != NULL && is_plain(value);
      self->may_hold = 0;
    }
    if (value == NULL || PyTuple_SetItem(row, at, value) < 0) {
      Py_DECREF(row);
      return NULL;
    }
  }
  if (!is_plain_so_far) PyObject_GC_Track(row);
  return row;
}

/* Takes so many events, from a place on, up to the first that is none of a cell. Most rows have scalars alone, and are made at once. */
static int add_many(cells *self, const cqlp_event *events, Py_ssize_t *at, Py_ssize_t count, PyObject *rows) {
  Py_ssize_t width = self->to_columns || self->width < 1 ? PY_SSIZE_T_MAX : self->width;
  while (*at < count && CQLP_TAG_LEAF <= events[*at].tag && events[*at].tag <= CQLP_TAG_PART) {
    if (count - *at < width || self->length > 0 || self->depth > 0 || self->parts != NULL || !are_of_row(events + *at, width)) {
      if (!add(self, &events[(*at)++], rows)) return 0;
      continue;
    }
    PyObject *row = row_of(self, events + *at, width);
    if (row == NULL) return 0;
    int done = PyList_Append(rows, row);
    Py_DECREF(row);
    if (done < 0) return 0;
    *at += width;
  }
  return 1;
}

PyDoc_STRVAR(take_doc, "take(address, at, count): of so many events in memory, from this place on, those of cells; the rows that they end, "
                       "in a list, and the place of the first event that is none of a cell, or the count.");

static PyObject *cells_take(PyObject *object, PyObject *arguments) {
  cells *self = (cells *)object;
  PyObject *address;
  Py_ssize_t at, count;
  if (!PyArg_ParseTuple(arguments, "Onn", &address, &at, &count)) return NULL;
  const cqlp_event *events = PyLong_AsVoidPtr(address);
  if (events == NULL && PyErr_Occurred()) return NULL;
  PyObject *rows = PyList_New(0);
  if (rows == NULL) return NULL;
  if (!add_many(self, events, &at, count, rows)) {
    Py_DECREF(rows);
    return NULL;
  }
  return Py_BuildValue("Nn", rows, at);
}

/* Reads events, and takes them, as `read` says. Answers 0 with an exception. */
static int read_events(cells *self, next_call *next, void *const places[4], Py_ssize_t length, Py_ssize_t room, Py_ssize_t *at, uint32_t *code,
                       PyObject *rows) {
  const uint8_t *input = places[1];
  cqlp_batch *batch = places[3];
  size_t used = 0, taken = 0;
  do {
    Py_BEGIN_ALLOW_THREADS
    *code = next(places[0], input + used, (size_t)length - used, places[2], (size_t)room, batch);
    Py_END_ALLOW_THREADS
    if (*code != CQLP_DONE) return 1;
    used += batch->used;
    taken += batch->events;
    batch->used = used;
    *at = 0;
    if (!add_many(self, places[2], at, (Py_ssize_t)batch->events, rows)) return 0;
  } while (*at == (Py_ssize_t)batch->events && batch->stop == CQLP_STOP_FULL && taken < MANY);
  return 1;
}

PyDoc_STRVAR(read_doc, "read(next, decoder, place, length, events, room, batch): reads events into a room for so many, and takes them as `take` does, until "
                       "one is left, a call does not fill the room, or some thousand came. `batch` speaks of the last call, but its `used` of all. "
                       "Answers what `take` answers, the place among the events of the last call, and the code. `next` is where cqlp_next lies.");

static PyObject *cells_read(PyObject *object, PyObject *arguments) {
  cells *self = (cells *)object;
  PyObject *words[5], *rows;
  Py_ssize_t length, room, at = 0;
  void *places[5];
  uint32_t code = CQLP_DONE;
  next_call *next;
  if (!PyArg_ParseTuple(arguments, "OOOnOnO", &words[0], &words[1], &words[2], &length, &words[3], &room, &words[4])) return NULL;
  for (int k = 0; k < 5; k++) {
    places[k] = PyLong_AsVoidPtr(words[k]);
    if (places[k] == NULL && PyErr_Occurred()) return NULL;
    if (places[k] == NULL && k != 2) return PyErr_SetString(PyExc_ValueError, "nothing lies there"), NULL;
  }
  memcpy(&next, &places[0], sizeof next);
  if ((rows = PyList_New(0)) == NULL) return NULL;
  if (!read_events(self, next, places + 1, length, room, &at, &code, rows)) {
    Py_DECREF(rows);
    return NULL;
  }
  return Py_BuildValue("NnI", rows, at, (unsigned)code);
}

PyDoc_STRVAR(columns_doc, "columns(): of each column the bytes of its numbers, as this machine has them, or a list of its values; and a byte "
                          "for each number that says whether it is missing, or None.");

static PyObject *cells_columns(PyObject *object, PyObject *none) {
  cells *self = (cells *)object;
  (void)none;
  PyObject *found = PyList_New(0);
  for (Py_ssize_t at = 0; found != NULL && at < self->begun; at++) {
    const column *of = &self->columns[at];
    PyObject *one = of->size == 0        ? Py_BuildValue("OO", of->values, Py_None)
                    : of->missing == NULL ? Py_BuildValue("y#O", of->length ? of->numbers : "", of->length * of->size, Py_None)
                                          : Py_BuildValue("y#y#", of->numbers, of->length * of->size, of->missing, of->length);
    if (one == NULL || PyList_Append(found, one) < 0) Py_CLEAR(found);
    Py_XDECREF(one);
  }
  return found;
}

/* Begins the columns that are described. */
static int begin_columns(cells *self) {
  Py_ssize_t described = PyTuple_Size(self->types);
  if (self->width < 1 || (described != 0 && described != self->width)) {
    PyErr_SetString(PyExc_ValueError, "columns have a width of 1 and more, and as many types or none");
    return 0;
  }
  self->to_columns = 1;
  while (self->begun < described)
    if (!begin_column(self)) return 0;
  return 1;
}

static int cells_init(PyObject *object, PyObject *arguments, PyObject *names) {
  static char *words[] = {"width", "types", "leaves", "empty", "frozen", "to_columns", NULL};
  int to_columns = 0;
  cells *self = (cells *)object;
  if (self->types != NULL) {
    PyErr_SetString(PyExc_TypeError, "begun already");
    return -1;
  }
  if (!PyArg_ParseTupleAndKeywords(arguments, names, "nOOOO|p", words, &self->width, &self->types, &self->leaves, &self->empty,
                                   &self->frozen, &to_columns)) {
    self->types = self->leaves = self->empty = self->frozen = NULL;
    return -1;
  }
  Py_INCREF(self->types);
  Py_INCREF(self->leaves);
  Py_INCREF(self->empty);
  Py_INCREF(self->frozen);
  if (!PyTuple_Check(self->types) || !PyList_Check(self->leaves)) {
    PyErr_SetString(PyExc_TypeError, "types is a tuple, leaves a list");
    return -1;
  }
  return !to_columns || begin_columns(self) ? 0 : -1;
}

static void cells_dealloc(PyObject *object) {
  cells *self = (cells *)object;
  PyTypeObject *type = Py_TYPE(object);
  for (Py_ssize_t at = 0; !self->to_columns && at < self->length; at++) Py_DECREF(self->row[at]);
  for (Py_ssize_t at = 0; at < self->begun; at++) {
    PyMem_Free(self->columns[at].numbers);
    PyMem_Free(self->columns[at].missing);
    Py_XDECREF(self->columns[at].values);
  }
  for (Py_ssize_t at = 0; at < self->depth; at++) {
    Py_DECREF(self->open[at].values);
    Py_XDECREF(self->open[at].key);
  }
  PyMem_Free(self->columns);
  PyMem_Free(self->row);
  PyMem_Free(self->open);
  Py_XDECREF(self->parts);
  Py_XDECREF(self->types);
  Py_XDECREF(self->leaves);
  Py_XDECREF(self->empty);
  Py_XDECREF(self->frozen);
  freefunc release = (freefunc)PyType_GetSlot(type, Py_tp_free);
  release(object);
  Py_DECREF(type);
}

static PyMethodDef cells_methods[] = {
    {"take", cells_take, METH_VARARGS, take_doc},
    {"read", cells_read, METH_VARARGS, read_doc},
    {"put", cells_put, METH_VARARGS, put_doc},
    {"columns", cells_columns, METH_NOARGS, columns_doc},
    {NULL, NULL, 0, NULL},
};

PyDoc_STRVAR(cells_doc, "Puts events of cells together to rows, or to columns.");

static PyType_Slot cells_slots[] = {
    {Py_tp_doc, (void *)cells_doc},
    {Py_tp_init, (void *)cells_init},
    {Py_tp_dealloc, (void *)cells_dealloc},
    {Py_tp_methods, cells_methods},
    {0, NULL},
};

static PyType_Spec cells_spec = {
    .name = "cqlp._cells.Cells",
    .basicsize = sizeof(cells),
    .flags = Py_TPFLAGS_DEFAULT,
    .slots = cells_slots,
};

/* ---- rows one by one */

/* The rows of the lists that an iterator gives, which gives other things too. */
typedef struct rows {
  PyObject_HEAD
  PyObject *found; /* the iterator */
  PyObject *now;   /* the list under way, or NULL */
  Py_ssize_t at;   /* which of its rows is the next */
  Py_ssize_t size; /* how many it has; 0 where there is none */
} rows;

static int rows_init(PyObject *object, PyObject *arguments, PyObject *names) {
  rows *self = (rows *)object;
  PyObject *found;
  if (names != NULL || self->found != NULL) {
    PyErr_SetString(PyExc_TypeError, "begun already, or by names");
    return -1;
  }
  if (!PyArg_ParseTuple(arguments, "O", &found)) return -1;
  self->found = PyObject_GetIter(found);
  return self->found == NULL ? -1 : 0;
}

/* While the iterator is asked another thread may be here, which it refuses: the list under way is exhausted then, and stays. */
static PyObject *rows_next(PyObject *object) {
  rows *self = (rows *)object;
  while (self->at >= self->size) {
    PyObject *found = self->found;
    if (found == NULL) return NULL;
    Py_INCREF(found);
    PyObject *next = PyIter_Next(found);
    Py_DECREF(found);
    if (next == NULL) return NULL;
    PyObject *before = next;
    if (PyList_Check(next)) {
      before = self->now;
      self->now = next;
      self->at = 0;
      self->size = PyList_Size(next);
    }
    Py_XDECREF(before);
  }
  PyObject *row = PyList_GetItem(self->now, self->at++);
  Py_XINCREF(row);
  return row;
}

static PyObject *rows_close(PyObject *object, PyObject *none) {
  rows *self = (rows *)object;
  (void)none;
  self->at = self->size = 0;
  Py_CLEAR(self->now);
  if (self->found == NULL) Py_RETURN_NONE;
  return PyObject_CallMethod(self->found, "close", NULL);
}

static int rows_traverse(PyObject *object, visitproc visit, void *arg) {
  Py_VISIT(Py_TYPE(object));
  Py_VISIT(((rows *)object)->found);
  Py_VISIT(((rows *)object)->now);
  return 0;
}

static int rows_clear(PyObject *object) {
  rows *self = (rows *)object;
  self->at = self->size = 0;
  Py_CLEAR(self->found);
  Py_CLEAR(self->now);
  return 0;
}

static void rows_dealloc(PyObject *object) {
  PyTypeObject *type = Py_TYPE(object);
  PyObject_GC_UnTrack(object);
  rows_clear(object);
  freefunc release = (freefunc)PyType_GetSlot(type, Py_tp_free);
  release(object);
  Py_DECREF(type);
}

static PyMethodDef rows_methods[] = {
    {"close", rows_close, METH_NOARGS, "Lets go of the source."},
    {NULL, NULL, 0, NULL},
};

PyDoc_STRVAR(rows_doc, "Rows(found): the items of each list that an iterator gives, one by one.");

static PyType_Slot rows_slots[] = {
    {Py_tp_doc, (void *)rows_doc},
    {Py_tp_init, (void *)rows_init},
    {Py_tp_dealloc, (void *)rows_dealloc},
    {Py_tp_traverse, (void *)rows_traverse},
    {Py_tp_clear, (void *)rows_clear},
    {Py_tp_iter, (void *)PyObject_SelfIter},
    {Py_tp_iternext, (void *)rows_next},
    {Py_tp_methods, rows_methods},
    {0, NULL},
};

static PyType_Spec rows_spec = {
    .name = "cqlp._cells.Rows",
    .basicsize = sizeof(rows),
    .flags = Py_TPFLAGS_DEFAULT | Py_TPFLAGS_HAVE_GC,
    .slots = rows_slots,
};

static int add_type(PyObject *module, const char *name, PyType_Spec *spec) {
  PyObject *type = PyType_FromSpec(spec);
  if (type == NULL) return -1;
  if (PyModule_AddObject(module, name, type) == 0) return 0;
  Py_DECREF(type);
  return -1;
}

static int cells_exec(PyObject *module) {
  if (add_type(module, "Cells", &cells_spec) < 0 || add_type(module, "Rows", &rows_spec) < 0) return -1;
  return PyModule_AddIntConstant(module, "EVENT_SIZE", sizeof(cqlp_event));
}

static PyModuleDef_Slot module_slots[] = {
    {Py_mod_exec, (void *)cells_exec},
    {0, NULL},
};

static struct PyModuleDef module = {
    .m_base = PyModuleDef_HEAD_INIT,
    .m_name = "cqlp._cells",
    .m_slots = module_slots,
};

PyMODINIT_FUNC PyInit__cells(void) {
  return PyModuleDef_Init(&module);
}
