/* Hands columns on by the C data interface of Apache Arrow, in the capsules that other packages take: `_arrow.py` says what is in them. Nothing is
 * copied but dates and decimals: an array holds the bytes objects that its buffers are in until it is released, which may be in any thread. It calls
 * nothing of libcqlp. It is of the stable ABI, from Python 3.9 on, and bindings/build makes cqlp/_capsules.abi3.so of it. */
#define Py_LIMITED_API 0x03090000
#define PY_SSIZE_T_CLEAN
#include <Python.h>
#include <errno.h>
#include <stdlib.h>
#include <string.h>

/* The three structs of the interface. */
struct ArrowSchema {
  const char *format, *name, *metadata;
  int64_t flags, n_children;
  struct ArrowSchema **children, *dictionary;
  void (*release)(struct ArrowSchema *);
  void *private_data;
};

struct ArrowArray {
  int64_t length, null_count, offset, n_buffers, n_children;
  const void **buffers;
  struct ArrowArray **children, *dictionary;
  void (*release)(struct ArrowArray *);
  void *private_data;
};

struct ArrowArrayStream {
  int (*get_schema)(struct ArrowArrayStream *, struct ArrowSchema *);
  int (*get_next)(struct ArrowArrayStream *, struct ArrowArray *);
  const char *(*get_last_error)(struct ArrowArrayStream *);
  void (*release)(struct ArrowArrayStream *);
  void *private_data;
};

/* ---- schemas, which hold nothing of Python */

static void release_schema(struct ArrowSchema *schema) {
  for (int64_t at = 0; at < schema->n_children; at++) {
    struct ArrowSchema *child = schema->children[at];
    if (child->release != NULL) child->release(child);
    free(child);
  }
  free(schema->children);
  free((void *)schema->format);
  free((void *)schema->name);
  free((void *)schema->metadata);
  schema->release = NULL;
}

/* A copy of so many bytes; NULL with an exception. */
static char *copied(const char *bytes, size_t length) {
  char *found = malloc(length ? length : 1);
  if (found == NULL) PyErr_NoMemory();
  else if (length) memcpy(found, bytes, length);
  return found;
}

/* Makes a schema of its format, name, metadata, flags and children. Answers 0 with an exception; then too it is to be released. */
static int make_schema(PyObject *parts, struct ArrowSchema *schema) {
  const char *format, *name, *metadata;
  Py_ssize_t length;
  long long flags;
  PyObject *children;
  memset(schema, 0, sizeof *schema);
  schema->release = release_schema;
  if (!PyArg_ParseTuple(parts, "yyz#LO!", &format, &name, &metadata, &length, &flags, &PyTuple_Type, &children)) return 0;
  schema->flags = flags;
  if ((schema->format = copied(format, strlen(format) + 1)) == NULL) return 0;
  if ((schema->name = copied(name, strlen(name) + 1)) == NULL) return 0;
  if (metadata != NULL && (schema->metadata = copied(metadata, (size_t)length)) == NULL) return 0;
  size_t count = (size_t)PyTuple_Size(children);
  schema->children = calloc(count + 1, sizeof *schema->children);
  if (schema->children == NULL) return PyErr_NoMemory(), 0;
  for (size_t at = 0; at < count; at++) {
    struct ArrowSchema *child = calloc(1, sizeof *child);
    if (child == NULL) return PyErr_NoMemory(), 0;
    schema->children[schema->n_children++] = child;
    if (!make_schema(PyTuple_GetItem(children, (Py_ssize_t)at), child)) return 0;
  }
  return 1;
}

/* ---- arrays: each holds what it was made of, with its buffers */

static void let_go(PyObject *held) {
  if (held == NULL || !Py_IsInitialized()) return;
  PyGILState_STATE state = PyGILState_Ensure();
  Py_DECREF(held);
  PyGILState_Release(state);
}

static void release_array(struct ArrowArray *array) {
  for (int64_t at = 0; at < array->n_children; at++) {
    struct ArrowArray *child = array->children[at];
    if (child->release != NULL) child->release(child);
    free(child);
  }
  free(array->children);
  free(array->buffers);
  let_go(array->private_data);
  array->release = NULL;
}

/* Makes an array of its length, its nulls, its buffers, each bytes or None, and its children. Answers 0 with an exception; then too it is to be
 * released. */
static int make_array(PyObject *parts, struct ArrowArray *array) {
  long long length, nulls;
  PyObject *buffers, *children;
  memset(array, 0, sizeof *array);
  array->release = release_array;
  if (!PyArg_ParseTuple(parts, "LLO!O!", &length, &nulls, &PyTuple_Type, &buffers, &PyTuple_Type, &children)) return 0;
  array->length = length;
  array->null_count = nulls;
  Py_INCREF(parts);
  array->private_data = parts;
  size_t kinds = (size_t)PyTuple_Size(buffers), count = (size_t)PyTuple_Size(children);
  array->buffers = calloc(kinds + 1, sizeof *array->buffers);
  array->children = calloc(count + 1, sizeof *array->children);
  if (array->buffers == NULL || array->children == NULL) return PyErr_NoMemory(), 0;
  for (; array->n_buffers < (int64_t)kinds; array->n_buffers++) {
    PyObject *buffer = PyTuple_GetItem(buffers, (Py_ssize_t)array->n_buffers);
    if (buffer == Py_None) continue;
    if ((array->buffers[array->n_buffers] = PyBytes_AsString(buffer)) == NULL) return 0;
  }
  for (size_t at = 0; at < count; at++) {
    struct ArrowArray *child = calloc(1, sizeof *child);
    if (child == NULL) return PyErr_NoMemory(), 0;
    array->children[array->n_children++] = child;
    if (!make_array(PyTuple_GetItem(children, (Py_ssize_t)at), child)) return 0;
  }
  return 1;
}

/* ---- streams */

/* What a stream reads: what its schema is made of, an iterator of what arrays are made of, and its last error. */
typedef struct reading {
  PyObject *schema, *arrays;
  char *error;
} reading;

/* Keeps the text of the exception that was raised. */
static int fail(reading *from) {
  PyObject *type, *value, *trace, *text, *bytes = NULL;
  PyErr_Fetch(&type, &value, &trace);
  PyErr_NormalizeException(&type, &value, &trace);
  text = value == NULL ? NULL : PyObject_Str(value);
  if (text != NULL) bytes = PyUnicode_AsEncodedString(text, "utf-8", "replace");
  free(from->error);
  from->error = NULL;
  if (bytes != NULL) from->error = copied(PyBytes_AsString(bytes), (size_t)PyBytes_Size(bytes) + 1);
  Py_XDECREF(bytes);
  Py_XDECREF(text);
  Py_XDECREF(trace);
  Py_XDECREF(value);
  Py_XDECREF(type);
  PyErr_Clear();
  return EIO;
}

static int get_schema(struct ArrowArrayStream *stream, struct ArrowSchema *schema) {
  reading *from = stream->private_data;
  PyGILState_STATE state = PyGILState_Ensure();
  int code = 0;
  if (!make_schema(from->schema, schema)) {
    code = fail(from);
    schema->release(schema);
  }
  PyGILState_Release(state);
  return code;
}

/* An array that is released is the end. */
static int get_next(struct ArrowArrayStream *stream, struct ArrowArray *array) {
  reading *from = stream->private_data;
  PyGILState_STATE state = PyGILState_Ensure();
  int code = 0;
  memset(array, 0, sizeof *array);
  PyObject *parts = PyIter_Next(from->arrays);
  if (parts == NULL) {
    if (PyErr_Occurred()) code = fail(from);
  } else if (!make_array(parts, array)) {
    code = fail(from);
    array->release(array);
  }
  Py_XDECREF(parts);
  PyGILState_Release(state);
  return code;
}

static const char *get_last_error(struct ArrowArrayStream *stream) {
  return ((reading *)stream->private_data)->error;
}

static void release_stream(struct ArrowArrayStream *stream) {
  reading *from = stream->private_data;
  let_go(from->schema);
  let_go(from->arrays);
  free(from->error);
  free(from);
  stream->release = NULL;
}

/* ---- capsules: what nobody took of them is released with them */

#define DESTROY(name, kind, word)                                  \
  static void name(PyObject *capsule) {                            \
    struct kind *found = PyCapsule_GetPointer(capsule, word);      \
    if (found != NULL && found->release != NULL) found->release(found); \
    free(found);                                                   \
  }
DESTROY(destroy_schema, ArrowSchema, "arrow_schema")
DESTROY(destroy_array, ArrowArray, "arrow_array")
DESTROY(destroy_stream, ArrowArrayStream, "arrow_array_stream")

static PyObject *schema(PyObject *module, PyObject *parts) {
  struct ArrowSchema *made = malloc(sizeof *made);
  PyObject *capsule = NULL;
  (void)module;
  if (made == NULL) return PyErr_NoMemory();
  if (make_schema(parts, made)) capsule = PyCapsule_New(made, "arrow_schema", destroy_schema);
  if (capsule == NULL) {
    made->release(made);
    free(made);
  }
  return capsule;
}

static PyObject *array(PyObject *module, PyObject *parts) {
  struct ArrowArray *made = malloc(sizeof *made);
  PyObject *capsule = NULL;
  (void)module;
  if (made == NULL) return PyErr_NoMemory();
  if (make_array(parts, made)) capsule = PyCapsule_New(made, "arrow_array", destroy_array);
  if (capsule == NULL) {
    made->release(made);
    free(made);
  }
  return capsule;
}

static PyObject *stream(PyObject *module, PyObject *parts) {
  PyObject *of_schema, *arrays, *capsule = NULL;
  (void)module;
  if (!PyArg_ParseTuple(parts, "OO", &of_schema, &arrays)) return NULL;
  struct ArrowArrayStream *made = malloc(sizeof *made);
  reading *from = calloc(1, sizeof *from);
  if (made != NULL && from != NULL) {
    Py_INCREF(of_schema);
    Py_INCREF(arrays);
    *from = (reading){of_schema, arrays, NULL};
    *made = (struct ArrowArrayStream){get_schema, get_next, get_last_error, release_stream, from};
    capsule = PyCapsule_New(made, "arrow_array_stream", destroy_stream);
    if (capsule != NULL) return capsule;
    release_stream(made);
    from = NULL;
  } else {
    PyErr_NoMemory();
  }
  free(from);
  free(made);
  return NULL;
}

/* ---- decimals */

enum { WORDS = 8 };

/* A number of at most 256 bits and a sign; the lowest 32 bits come first. */
typedef struct number {
  uint32_t words[WORDS];
  int is_negative;
} number;

/* The cells of a column of decimals or varints, and whether each is there, a bit each, or NULL where all are. */
typedef struct cells {
  const uint8_t *values, *offsets, *there;
  size_t size, count;
  int has_scale;
} cells;

static int negate(number *of) {
  uint64_t carry = 1;
  for (int at = 0; at < WORDS; at++) {
    carry += (uint32_t)~of->words[at];
    of->words[at] = (uint32_t)carry;
    carry >>= 32;
  }
  return carry == 0;
}

/* Whether a number in two's complement, its highest byte first, has at most 256 bits and a sign. */
static int read_number(const uint8_t *bytes, size_t length, number *to) {
  uint8_t fill = length > 0 && bytes[0] & 0x80 ? 0xff : 0;
  while (length > 4 * WORDS && *bytes == fill) bytes++, length--;
  if (length > 4 * WORDS) return 0;
  memset(to->words, fill, sizeof to->words);
  for (size_t at = 0; at < length; at++) {
    size_t place = length - 1 - at;
    to->words[place / 4] &= ~((uint32_t)0xff << 8 * (place % 4));
    to->words[place / 4] |= (uint32_t)bytes[at] << 8 * (place % 4);
  }
  to->is_negative = fill != 0;
  return !to->is_negative || negate(to);
}

static int is_zero(const number *of) {
  uint32_t bits = 0;
  for (int at = 0; at < WORDS; at++) bits |= of->words[at];
  return bits == 0;
}

static int times_ten(number *of) {
  uint64_t carry = 0;
  for (int at = 0; at < WORDS; at++) {
    carry += (uint64_t)of->words[at] * 10;
    of->words[at] = (uint32_t)carry;
    carry >>= 32;
  }
  return carry == 0;
}

/* Whether a number has no more than so many digits. */
static int has_digits(const number *of, int digits) {
  number bound = {{1}, 0};
  while (digits-- > 0) times_ten(&bound);
  for (int at = WORDS - 1; at >= 0; at--)
    if (of->words[at] != bound.words[at]) return of->words[at] < bound.words[at];
  return 0;
}

static int read_cells(PyObject *arguments, cells *of, long long *scale, int *digits) {
  Py_ssize_t size, ends, bits = 0, count;
  const char *values, *offsets, *there;
  if (!PyArg_ParseTuple(arguments, "y#y#z#np|Li", &values, &size, &offsets, &ends, &there, &bits, &count, &of->has_scale, scale, digits)) return 0;
  if (count < 0 || ends / 8 <= count || (there != NULL && bits < (count + 7) / 8)) {
    PyErr_SetString(PyExc_ValueError, "there are fewer offsets or bits than cells");
    return 0;
  }
  *of = (cells){(const uint8_t *)values, (const uint8_t *)offsets, (const uint8_t *)there, (size_t)size, (size_t)count, of->has_scale};
  return 1;
}

/* Of a cell the scale and the bytes of its number. Answers 0 where it has no value. */
static int read_cell(const cells *of, size_t at, int32_t *scale, const uint8_t **bytes, size_t *length) {
  uint64_t begin, end;
  if (of->there != NULL && !(of->there[at / 8] >> at % 8 & 1)) return 0;
  memcpy(&begin, of->offsets + 8 * at, 8);
  memcpy(&end, of->offsets + 8 * at + 8, 8);
  if (begin > end || end > of->size || (of->has_scale && end - begin < 4)) return 0;
  uint32_t bits = 0;
  for (int k = 0; of->has_scale && k < 4; k++) bits = bits << 8 | of->values[begin + k];
  memcpy(scale, &bits, 4);
  *bytes = of->values + begin + (of->has_scale ? 4 : 0);
  *length = (size_t)(end - begin) - (of->has_scale ? 4 : 0);
  return 1;
}

static PyObject *scale_of(PyObject *module, PyObject *arguments) {
  cells of = {0};
  long long none;
  int digits = 38, some = 0;
  int32_t scale = 0, first = 0;
  const uint8_t *bytes;
  size_t length;
  number found;
  (void)module;
  if (!read_cells(arguments, &of, &none, &digits)) return NULL;
  digits = 38;
  for (size_t at = 0; at < of.count; at++) {
    if (!read_cell(&of, at, &scale, &bytes, &length)) continue;
    if (!some++) first = scale;
    if (scale != first || scale > 76 || !read_number(bytes, length, &found)) Py_RETURN_NONE;
    for (long long less = scale; less < 0 && !is_zero(&found); less++)
      if (!times_ten(&found)) Py_RETURN_NONE;
    if (scale > 38 || !has_digits(&found, digits)) digits = 76;
    if (digits == 76 && !has_digits(&found, digits)) Py_RETURN_NONE;
  }
  if (!some) Py_RETURN_NONE;
  return Py_BuildValue("ii", digits, first < 0 ? 0 : (int)first);
}

/* Writes a number, which has this scale, with a greater one. Answers 0 where it has more digits than are there. */
static int write_number(number *of, long long scale, long long greater, int digits, uint8_t *to) {
  if (!is_zero(of) && scale > greater) return 0;
  for (; !is_zero(of) && scale < greater; scale++)
    if (!times_ten(of) || !has_digits(of, digits)) return 0;
  if (!has_digits(of, digits)) return 0;
  if (of->is_negative) negate(of);
  for (int at = 0; at < (digits == 38 ? 16 : 32); at++) to[at] = (uint8_t)(of->words[at / 4] >> 8 * (at % 4));
  return 1;
}

static PyObject *decimals(PyObject *module, PyObject *arguments) {
  cells of = {0};
  long long greater = 0;
  int digits = 0;
  int32_t scale;
  const uint8_t *bytes;
  size_t length;
  number found;
  (void)module;
  if (!read_cells(arguments, &of, &greater, &digits)) return NULL;
  size_t width = digits == 38 ? 16 : 32;
  PyObject *made = of.count > PY_SSIZE_T_MAX / width ? PyErr_NoMemory() : PyBytes_FromStringAndSize(NULL, (Py_ssize_t)(of.count * width));
  if (made == NULL) return NULL;
  uint8_t *to = (uint8_t *)PyBytes_AsString(made);
  memset(to, 0, of.count * width);
  for (size_t at = 0; at < of.count; at++) {
    if (!read_cell(&of, at, &scale, &bytes, &length)) continue;
    if (!read_number(bytes, length, &found) || !write_number(&found, scale, greater, digits, to + at * width)) {
      Py_DECREF(made);
      return Py_BuildValue("n", (Py_ssize_t)at);
    }
  }
  return made;
}

static PyMethodDef methods[] = {
    {"scale_of", scale_of, METH_VARARGS,
     "scale_of(values, offsets, there, count, has_scale): 38 or 76, the digits that all numbers have room in, and the scale that all have, or 0 where that is "
     "less; None where there is no number, or no such scale."},
    {"decimals", decimals, METH_VARARGS,
     "decimals(values, offsets, there, count, has_scale, scale, digits): the numbers in 16 or 32 bytes each, the lowest first; the first cell that does not "
     "fit, where there is one."},
    {"schema", schema, METH_VARARGS, "schema(format, name, metadata, flags, children): a capsule with an ArrowSchema; each child is such a tuple."},
    {"array", array, METH_VARARGS, "array(length, nulls, buffers, children): a capsule with an ArrowArray; a buffer is bytes or None, a child such a tuple."},
    {"stream", stream, METH_VARARGS, "stream(schema, arrays): a capsule with an ArrowArrayStream, of such tuples."},
    {NULL, NULL, 0, NULL},
};

static PyModuleDef_Slot slots[] = {{0, NULL}};

static struct PyModuleDef module = {
    .m_base = PyModuleDef_HEAD_INIT,
    .m_name = "cqlp._capsules",
    .m_methods = methods,
    .m_slots = slots,
};

PyMODINIT_FUNC PyInit__capsules(void) {
  return PyModuleDef_Init(&module);
}
