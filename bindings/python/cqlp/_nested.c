/* Puts the events of cells together to arrays in the layout of Apache Arrow, as `_item_arrays.py` does of Python values, and makes no Python value for a
 * cell. It is given where cqlp_next lies, and is linked with no library. It is of the stable ABI, from Python 3.9 on, and bindings/build makes
 * cqlp/_nested.abi3.so of it. Where that is not there, _item_arrays.py does it alone. */
#define Py_LIMITED_API 0x03090000
#define PY_SSIZE_T_CLEAN
#include <Python.h>
#include <string.h>

#include "cqlp.h"

typedef uint32_t next_call(cqlp_decoder *decoder, const uint8_t *input, size_t length, cqlp_event *events, size_t room, cqlp_batch *batch);

/* Bytes that grow. */
typedef struct buffer {
  uint8_t *bytes;
  size_t length, room;
} buffer;

/* The array of a column, or of the items of another array. */
typedef struct node {
  uint8_t kind;
  uint8_t size;                            /* how many bytes each value has, where all have the same; else 0 */
  size_t cells;                            /* how many values came */
  buffer values, offsets;
  buffer validity, empties;                /* bits for the values, and for none while all are valid, and no one is empty */
  Py_ssize_t count;                        /* how many arrays it has in it */
  struct node *inner;
} node;

/* A value with items that are still to come. */
typedef struct level {
  node *around;
  Py_ssize_t next; /* which array the next item goes to */
} level;

enum { DEEPEST = 64 }; /* cqlp.h: the greatest limit `depth` */

typedef struct nested {
  PyObject_HEAD
  int is_begun;          /* else it has no types */
  Py_ssize_t width;      /* how many cells a row has */
  node *columns;
  uint8_t *wanted;       /* of each column whether its cells are kept */
  size_t most, rows;     /* how many rows a batch has at most, and how many whole ones came */
  size_t memory, memory_used;
  Py_ssize_t column;     /* of the next cell */
  Py_ssize_t depth;      /* how many values are around the next one */
  level levels[DEEPEST];
} nested;

/* ---- bytes */

/* Grows a buffer by half, to room for so many more bytes. */
static int grow(buffer *to, size_t length) {
  size_t room = to->length + length + to->length / 2 + 64;
  uint8_t *grown = room > PY_SSIZE_T_MAX ? NULL : PyMem_Realloc(to->bytes, room);
  if (grown == NULL) return PyErr_NoMemory(), 0;
  to->bytes = grown;
  to->room = room;
  return 1;
}

/* Room for so many more bytes, which are counted; NULL with an exception. */
static inline uint8_t *more(nested *self, buffer *to, size_t length) {
  if (to->room - to->length < length && !grow(to, length)) return NULL;
  uint8_t *found = to->bytes + to->length;
  to->length += length;
  self->memory_used += length;
  return found;
}

static int put(nested *self, buffer *to, const void *bytes, size_t length) {
  uint8_t *found = more(self, to, length);
  if (found != NULL && length > 0) memcpy(found, bytes, length);
  return found != NULL;
}

/* Puts the bit of this number, the least of a byte first. */
static int put_bit(nested *self, buffer *to, size_t at, int bit) {
  if (at % 8 == 0) {
    uint8_t *byte = more(self, to, 1);
    if (byte == NULL) return 0;
    *byte = 0;
  }
  to->bytes[at / 8] |= (uint8_t)((bit != 0) << at % 8);
  return 1;
}

/* The same where bits are kept from the first on that is not common. Their memory was counted. */
static inline int put_rare(buffer *to, size_t at, int bit, int common) {
  if (to->length == 0 && bit == common) return 1;
  size_t length = at / 8 + 1;
  if (to->room < length && !grow(to, length - to->length)) return 0;
  if (to->length == 0) {
    memset(to->bytes, common ? 0xff : 0, length);
    to->bytes[at / 8] &= (uint8_t)((1u << at % 8) - 1);
  } else if (to->length < length) {
    to->bytes[at / 8] = 0;
  }
  to->length = length;
  to->bytes[at / 8] |= (uint8_t)((bit != 0) << at % 8);
  return 1;
}

static int bit_at(const uint8_t *bits, size_t at) {
  return bits[at / 8] >> at % 8 & 1;
}

/* Writes the bytes of a number, the lowest first. The compiler makes one write of each case. */
static inline void write_lowest_first(uint8_t *to, uint64_t number, size_t size) {
  switch (size) {
  case 1:
    to[0] = (uint8_t)number;
    return;
  case 2:
    for (int at = 0; at < 2; at++) to[at] = (uint8_t)(number >> 8 * at);
    return;
  case 4:
    for (int at = 0; at < 4; at++) to[at] = (uint8_t)(number >> 8 * at);
    return;
  default:
    for (int at = 0; at < 8; at++) to[at] = (uint8_t)(number >> 8 * at);
  }
}

/* ---- values */

static int has_items(uint8_t kind) {
  return kind == CQLP_KIND_LIST || kind == CQLP_KIND_SET || kind == CQLP_KIND_MAP;
}

static int has_fields(uint8_t kind) {
  return kind == CQLP_KIND_TUPLE || kind == CQLP_KIND_UDT;
}

static int has_bytes(const node *of) {
  return of->size == 0 && of->kind != CQLP_KIND_BOOLEAN && !has_items(of->kind) && !has_fields(of->kind);
}

/* Where the next value of an array begins: among its bytes, or its items. */
static uint64_t end_of(const node *of) {
  return has_items(of->kind) ? of->inner[of->count - 1].cells : of->values.length;
}

/* Ends a value: where it ends, and whether it is there, and has bytes. Two bits are counted for it, also where they are not kept. */
static inline int end_value(nested *self, node *of, int is_valid, int is_empty) {
  if (of->size == 0 && of->kind != CQLP_KIND_BOOLEAN && !has_fields(of->kind)) {
    uint8_t *end = more(self, &of->offsets, 8);
    if (end == NULL) return 0;
    uint64_t offset = end_of(of);
    memcpy(end, &offset, 8);
  }
  if (of->cells % 8 == 0) self->memory_used += 2;
  if (!put_rare(&of->validity, of->cells, is_valid, 1) || !put_rare(&of->empties, of->cells, is_empty, 0)) return 0;
  of->cells++;
  return 1;
}

/* Puts a null, or a value of no bytes, which is there where an array of bytes can have it. */
static int put_nothing(nested *self, node *of, int is_empty) {
  if (of->size > 0) {
    uint8_t *zeros = more(self, &of->values, of->size);
    if (zeros == NULL) return 0;
    memset(zeros, 0, of->size);
  } else if (of->kind == CQLP_KIND_BOOLEAN) {
    if (!put_bit(self, &of->values, of->cells, 0)) return 0;
  } else if (has_fields(of->kind)) {
    for (Py_ssize_t at = 0; at < of->count; at++)
      if (!put_nothing(self, &of->inner[at], 0)) return 0;
  }
  return end_value(self, of, is_empty && has_bytes(of), is_empty);
}

/* Puts the bytes of a scalar. */
static int put_scalar(nested *self, node *of, const cqlp_event *event) {
  switch (of->kind) {
  case CQLP_KIND_BOOLEAN:
    return put_bit(self, &of->values, of->cells, event->number != 0);
  case CQLP_KIND_UUID:
  case CQLP_KIND_TIMEUUID:
    return put(self, &of->values, event->bytes, 16);
  case CQLP_KIND_INET:
    return put(self, &of->values, event->bytes, event->octets <= 16 ? event->octets : 16);
  case CQLP_KIND_DECIMAL: {
    uint8_t scale[4];
    for (int at = 0; at < 4; at++) scale[at] = (uint8_t)((uint32_t)event->extra >> 8 * (3 - at));
    return put(self, &of->values, scale, 4) && put(self, &of->values, event->content, event->length);
  }
  default:
    break;
  }
  if (of->size == 0) return put(self, &of->values, event->content, event->length);
  uint8_t *to = more(self, &of->values, of->size);
  if (to == NULL) return 0;
  if (of->kind != CQLP_KIND_FLOAT && of->kind != CQLP_KIND_DOUBLE) return write_lowest_first(to, (uint64_t)event->number, of->size), 1;
  for (int at = 0; at < of->size; at++) to[at] = event->bytes[of->size - 1 - at];
  return 1;
}

static int wrong(const char *text) {
  PyErr_SetString(PyExc_ValueError, text);
  return 0;
}

/* The array that the next value goes to; NULL with an exception. The one after it is the next. */
static inline node *next_node(nested *self) {
  if (self->depth == 0) return &self->columns[self->column];
  level *around = &self->levels[self->depth - 1];
  if (around->next >= around->around->count) return wrong("more items than the type has"), NULL;
  node *found = &around->around->inner[around->next++];
  if (has_items(around->around->kind) && around->next == around->around->count) around->next = 0;
  return found;
}

static int enter(nested *self, const cqlp_event *event) {
  node *of = next_node(self);
  if (of == NULL) return 0;
  if (of->kind != event->kind || !(has_items(of->kind) || has_fields(of->kind))) return wrong("a value of another type");
  if (self->depth == DEEPEST) return wrong("too many values around one");
  self->levels[self->depth++] = (level){of, 0};
  return 1;
}

/* Ends a value with items. The fields that did not come are null. */
static int leave(nested *self) {
  if (self->depth == 0) return wrong("the end of a value that did not begin");
  level ended = self->levels[--self->depth];
  node *of = ended.around;
  if (has_items(of->kind) && ended.next != 0) return wrong("a key without a value");
  for (Py_ssize_t at = ended.next; has_fields(of->kind) && at < of->count; at++)
    if (!put_nothing(self, &of->inner[at], 0)) return 0;
  return end_value(self, of, 1, 0);
}

/* Puts a part of a long scalar, which is a value with the last. */
static int put_part(nested *self, const cqlp_event *event) {
  level *around = self->depth ? &self->levels[self->depth - 1] : NULL, before = around ? *around : (level){NULL, 0};
  node *of = next_node(self);
  if (of == NULL) return 0;
  if (!has_bytes(of)) return wrong("a part of a value that has none");
  if (!put(self, &of->values, event->content, event->length)) return 0;
  if (event->mark == CQLP_MARK_LAST) return end_value(self, of, 1, 0);
  if (around != NULL) *around = before;
  return 1;
}

/* Puts an event that is no scalar. */
static int put_other(nested *self, const cqlp_event *event) {
  if (event->tag == CQLP_TAG_ENTER) return enter(self, event);
  if (event->tag == CQLP_TAG_LEAVE) return leave(self);
  if (event->tag == CQLP_TAG_PART) return put_part(self, event);
  node *of = next_node(self);
  return of != NULL && put_nothing(self, of, event->tag == CQLP_TAG_EMPTY);
}

static inline int put_event(nested *self, const cqlp_event *event) {
  if (event->tag != CQLP_TAG_LEAF) return put_other(self, event);
  node *of = next_node(self);
  if (of == NULL) return 0;
  if (of->kind != event->kind) return wrong("a value of another type");
  return put_scalar(self, of, event) && end_value(self, of, 1, 0);
}

/* Passes over an event of a column that is not wanted. */
static int pass_event(nested *self, const cqlp_event *event) {
  if (event->tag == CQLP_TAG_ENTER) self->depth++;
  if (event->tag == CQLP_TAG_LEAVE && self->depth-- == 0) return self->depth = 0, wrong("the end of a value that did not begin");
  return 1;
}

/* Why events are taken no further. */
enum state { AT_NO_CELL, AT_BATCH_END, OUT_OF_MEMORY, FAILED };

/* Puts those of so many events, from a place on, that are of cells. The place is that of the first that is none, or behind a row that ends the batch, or
 * behind the event by which a row that is not whole takes more than the memory. */
static enum state put_events(nested *self, const cqlp_event *events, Py_ssize_t *at, Py_ssize_t count) {
  while (*at < count && CQLP_TAG_LEAF <= events[*at].tag && events[*at].tag <= CQLP_TAG_PART) {
    const cqlp_event *event = &events[(*at)++];
    if (!(self->wanted[self->column] ? put_event(self, event) : pass_event(self, event))) return FAILED;
    if (self->memory_used > self->memory) return OUT_OF_MEMORY;
    if (self->depth > 0 || (event->tag == CQLP_TAG_PART && event->mark != CQLP_MARK_LAST)) continue;
    if (++self->column < self->width) continue;
    self->column = 0;
    if (++self->rows >= self->most || self->memory_used > self->memory / 4) return AT_BATCH_END;
  }
  return AT_NO_CELL;
}

static PyObject *answer(Py_ssize_t at, enum state state, uint32_t code) {
  return state == FAILED ? NULL : Py_BuildValue("niI", at, (int)state, (unsigned)code);
}

PyDoc_STRVAR(take_doc, "take(address, at, count): puts those of so many events in memory, from this place on, that are of cells; the place of the first "
                       "that is none, or behind a row that ends the batch; 1 where it does, 2 where a row that is not whole takes more than the "
                       "memory, and its last event is before this place, else 0; and 0.");

static PyObject *nested_take(PyObject *object, PyObject *arguments) {
  nested *self = (nested *)object;
  PyObject *address;
  Py_ssize_t at, count;
  if (!PyArg_ParseTuple(arguments, "Onn", &address, &at, &count)) return NULL;
  const cqlp_event *events = PyLong_AsVoidPtr(address);
  if (events == NULL && PyErr_Occurred()) return NULL;
  if (!self->is_begun) return wrong("it has no types"), NULL;
  enum state state = put_events(self, events, &at, count);
  return answer(at, state, 0);
}

PyDoc_STRVAR(read_doc, "read(next, decoder, place, length, events, room, batch): reads events into a room for so many, and takes them as `take` does, until "
                       "one is left, a batch ends, or a call does not fill the room. `batch` speaks of the last call, but its `used` of all. Answers what "
                       "`take` answers of the events of the last call, and its code. `next` is where cqlp_next lies.");

static PyObject *nested_read(PyObject *object, PyObject *arguments) {
  nested *self = (nested *)object;
  PyObject *words[5];
  Py_ssize_t length, room, at = 0;
  void *places[5];
  if (!PyArg_ParseTuple(arguments, "OOOnOnO", &words[0], &words[1], &words[2], &length, &words[3], &room, &words[4])) return NULL;
  for (int k = 0; k < 5; k++) {
    places[k] = PyLong_AsVoidPtr(words[k]);
    if (places[k] == NULL && (PyErr_Occurred() || k != 2)) return PyErr_Occurred() ? NULL : (wrong("nothing lies there"), NULL);
  }
  if (!self->is_begun) return wrong("it has no types"), NULL;
  next_call *next;
  memcpy(&next, &places[0], sizeof next);
  const uint8_t *input = places[2];
  cqlp_batch *batch = places[4];
  enum state state = AT_NO_CELL;
  uint32_t code = CQLP_DONE;
  size_t used = 0;
  do {
    Py_BEGIN_ALLOW_THREADS
    code = next(places[1], input + used, (size_t)length - used, places[3], (size_t)room, batch);
    Py_END_ALLOW_THREADS
    if (code != CQLP_DONE) break;
    used += batch->used;
    batch->used = used;
    at = 0;
    state = put_events(self, places[3], &at, (Py_ssize_t)batch->events);
  } while (state == AT_NO_CELL && at == (Py_ssize_t)batch->events && batch->stop == CQLP_STOP_FULL);
  return answer(at, state, code);
}

/* ---- arrays */

/* The first of so many bits, and zeros after the last; None where all are this one. */
static PyObject *bits_of(const buffer *from, size_t count, int unless) {
  size_t length = (count + 7) / 8;
  int differs = 0;
  if (unless >= 0 && from->length == 0) Py_RETURN_NONE;
  for (size_t at = 0; !differs && at < count / 8; at++) differs = from->bytes[at] != (unless ? 0xff : 0);
  for (size_t at = count - count % 8; !differs && at < count; at++) differs = bit_at(from->bytes, at) != unless;
  if (!differs && unless >= 0) Py_RETURN_NONE;
  PyObject *found = PyBytes_FromStringAndSize(NULL, (Py_ssize_t)length); /* of no bytes yet: bytes objects of one byte are shared */
  if (found == NULL || length == 0) return found;
  char *bytes = PyBytes_AsString(found);
  memcpy(bytes, from->bytes, length);
  if (count % 8) bytes[length - 1] &= (char)((1 << count % 8) - 1);
  return found;
}

static PyObject *bytes_of(const buffer *from, size_t length) {
  return PyBytes_FromStringAndSize(length ? (const char *)from->bytes : "", (Py_ssize_t)length);
}

/* The values among the first of so many cells. */
static PyObject *values_of(const node *of, size_t count, size_t end) {
  if (of->kind == CQLP_KIND_BOOLEAN) return bits_of(&of->values, count, -1);
  if (of->size > 0) return bytes_of(&of->values, count * of->size);
  return bytes_of(&of->values, has_bytes(of) ? end : 0);
}

/* Of the first of so many cells the values, offsets, validity and empties, and the same of each array in it. */
static PyObject *array_of(const node *of, size_t count) {
  uint64_t end = 0;
  int has_offsets = of->offsets.length > 0;
  if (has_offsets) memcpy(&end, of->offsets.bytes + 8 * count, 8);
  PyObject *inner = PyTuple_New(of->count);
  for (Py_ssize_t at = 0; inner != NULL && at < of->count; at++) {
    PyObject *one = array_of(&of->inner[at], has_fields(of->kind) ? count : (size_t)end);
    if (one == NULL || PyTuple_SetItem(inner, at, one) < 0) Py_CLEAR(inner);
  }
  if (inner == NULL) return NULL;
  PyObject *offsets = has_offsets ? bytes_of(&of->offsets, 8 * (count + 1)) : (Py_INCREF(Py_None), Py_None);
  return Py_BuildValue("nNNNNN", (Py_ssize_t)count, values_of(of, count, (size_t)end), offsets, bits_of(&of->validity, count, 1),
                       bits_of(&of->empties, count, 0), inner);
}

/* Removes all values, and keeps the memory. Offsets begin with 0. */
static int clear(nested *self, node *of) {
  of->cells = of->values.length = of->offsets.length = of->validity.length = of->empties.length = 0;
  for (Py_ssize_t at = 0; at < of->count; at++)
    if (!clear(self, &of->inner[at])) return 0;
  if (of->size > 0 || of->kind == CQLP_KIND_BOOLEAN || has_fields(of->kind)) return 1;
  return put(self, &of->offsets, (uint64_t[]){0}, 8);
}

static int clear_all(nested *self) {
  self->rows = 0;
  self->column = self->depth = 0;
  for (Py_ssize_t at = 0; at < self->width; at++)
    if (self->wanted[at] && !clear(self, &self->columns[at])) return 0;
  self->memory_used = 0;
  return 1;
}

PyDoc_STRVAR(arrays_doc, "arrays(): how many whole rows came, and of each column that is wanted, in a list, its cells, values, offsets, validity, empties and "
                         "the same of each array in it. No row is there from then on, also none that was not whole.");

static PyObject *nested_arrays(PyObject *object, PyObject *none) {
  nested *self = (nested *)object;
  (void)none;
  if (!self->is_begun) return wrong("it has no types"), NULL;
  PyObject *found = PyList_New(0);
  for (Py_ssize_t at = 0; found != NULL && at < self->width; at++) {
    if (!self->wanted[at]) continue;
    PyObject *one = array_of(&self->columns[at], self->rows);
    if (one == NULL || PyList_Append(found, one) < 0) Py_CLEAR(found);
    Py_XDECREF(one);
  }
  Py_ssize_t rows = (Py_ssize_t)self->rows;
  if (found != NULL && !clear_all(self)) Py_CLEAR(found);
  return found == NULL ? NULL : Py_BuildValue("nN", rows, found);
}

/* ---- types */

static uint8_t size_of(long kind) {
  switch (kind) {
  case CQLP_KIND_TINYINT:
    return 1;
  case CQLP_KIND_SMALLINT:
    return 2;
  case CQLP_KIND_INT:
  case CQLP_KIND_DATE:
  case CQLP_KIND_FLOAT:
    return 4;
  case CQLP_KIND_BIGINT:
  case CQLP_KIND_COUNTER:
  case CQLP_KIND_TIMESTAMP:
  case CQLP_KIND_TIME:
  case CQLP_KIND_DOUBLE:
    return 8;
  case CQLP_KIND_UUID:
  case CQLP_KIND_TIMEUUID:
    return 16;
  default:
    return 0;
  }
}

/* Makes the array of a type, and those in it. */
static int begin(node *of, PyObject *type, int deep) {
  PyObject *kind = PyTuple_Check(type) ? PyTuple_GetItem(type, 0) : NULL, *inner = kind == NULL ? NULL : PyTuple_GetItem(type, 1);
  long number = kind == NULL ? -1 : PyLong_AsLong(kind);
  if (inner == NULL || number < 0 || number > 255 || !PyTuple_Check(inner) || deep > DEEPEST) {
    PyErr_Clear();
    return wrong("no type");
  }
  of->kind = (uint8_t)number;
  of->size = size_of(number);
  Py_ssize_t count = has_items(of->kind) || has_fields(of->kind) ? PyTuple_Size(inner) : 0;
  if (has_items(of->kind) && count != (of->kind == CQLP_KIND_MAP ? 2 : 1)) return wrong("no type");
  if (count == 0) return 1;
  if ((of->inner = PyMem_Calloc((size_t)count, sizeof *of->inner)) == NULL) return PyErr_NoMemory(), 0;
  for (; of->count < count; of->count++)
    if (!begin(&of->inner[of->count], PyTuple_GetItem(inner, of->count), deep + 1)) return of->count++, 0;
  return 1;
}

static void let_go(node *of) {
  for (Py_ssize_t at = 0; at < of->count; at++) let_go(&of->inner[at]);
  PyMem_Free(of->inner);
  PyMem_Free(of->values.bytes);
  PyMem_Free(of->offsets.bytes);
  PyMem_Free(of->validity.bytes);
  PyMem_Free(of->empties.bytes);
}

static int nested_init(PyObject *object, PyObject *arguments, PyObject *names) {
  static char *words[] = {"types", "rows", "memory", NULL};
  nested *self = (nested *)object;
  PyObject *types;
  Py_ssize_t most, memory;
  if (self->columns != NULL) {
    PyErr_SetString(PyExc_TypeError, "begun already");
    return -1;
  }
  if (!PyArg_ParseTupleAndKeywords(arguments, names, "O!nn", words, &PyTuple_Type, &types, &most, &memory)) return -1;
  Py_ssize_t width = PyTuple_Size(types);
  if (width < 1 || most < 1 || memory < 1) return wrong("types, rows and memory are over 0"), -1;
  self->most = (size_t)most;
  self->memory = (size_t)memory;
  self->columns = PyMem_Calloc((size_t)width, sizeof *self->columns);
  self->wanted = PyMem_Calloc((size_t)width, 1);
  if (self->columns == NULL || self->wanted == NULL) return PyErr_NoMemory(), -1;
  self->width = width;
  for (Py_ssize_t at = 0; at < width; at++) {
    PyObject *type = PyTuple_GetItem(types, at);
    self->wanted[at] = type != Py_None;
    if (self->wanted[at] && !begin(&self->columns[at], type, 1)) return -1;
  }
  self->is_begun = clear_all(self);
  return self->is_begun ? 0 : -1;
}

static void nested_dealloc(PyObject *object) {
  nested *self = (nested *)object;
  PyTypeObject *type = Py_TYPE(object);
  for (Py_ssize_t at = 0; at < self->width; at++) let_go(&self->columns[at]);
  PyMem_Free(self->columns);
  PyMem_Free(self->wanted);
  freefunc release = (freefunc)PyType_GetSlot(type, Py_tp_free);
  release(object);
  Py_DECREF(type);
}

static PyMethodDef nested_methods[] = {
    {"take", nested_take, METH_VARARGS, take_doc},
    {"read", nested_read, METH_VARARGS, read_doc},
    {"arrays", nested_arrays, METH_NOARGS, arrays_doc},
    {NULL, NULL, 0, NULL},
};

PyDoc_STRVAR(nested_doc, "Nested(types, rows, memory): puts events of cells together to arrays, of each column by its type, a tuple of its kind and the types "
                         "in it, and of none that is None.");

static PyType_Slot nested_slots[] = {
    {Py_tp_doc, (void *)nested_doc},
    {Py_tp_init, (void *)nested_init},
    {Py_tp_dealloc, (void *)nested_dealloc},
    {Py_tp_methods, nested_methods},
    {0, NULL},
};

static PyType_Spec nested_spec = {
    .name = "cqlp._nested.Nested",
    .basicsize = sizeof(nested),
    .flags = Py_TPFLAGS_DEFAULT,
    .slots = nested_slots,
};

static int nested_exec(PyObject *module) {
  PyObject *type = PyType_FromSpec(&nested_spec);
  if (type == NULL) return -1;
  if (PyModule_AddObject(module, "Nested", type) < 0) {
    Py_DECREF(type);
    return -1;
  }
  return PyModule_AddIntConstant(module, "EVENT_SIZE", sizeof(cqlp_event));
}

static PyModuleDef_Slot module_slots[] = {
    {Py_mod_exec, (void *)nested_exec},
    {0, NULL},
};

static struct PyModuleDef module = {
    .m_base = PyModuleDef_HEAD_INIT,
    .m_name = "cqlp._nested",
    .m_slots = module_slots,
};

PyMODINIT_FUNC PyInit__nested(void) {
  return PyModuleDef_Init(&module);
}
