/*
 * The rows of a transcript as objects of Python, made at once. Only Python's stable interface is used.
 *
 * A Row has the numbers of struct transcript_row as members, its position, and what it is read from (Source of transcript.py). The classes
 * of entries are made of it in Python. Words are attributes of such a class: what words of a line say, read once for equal words. Where
 * this module isn't built, toarmuts/rows.py does the same.
 */
#define Py_LIMITED_API 0x030a0000
#define PY_SSIZE_T_CLEAN
#include <Python.h>
#include <structmember.h>

#include <string.h>

#include "transcript_table.h"

/* The number of different words that are kept for each reader before all are let go, and of slots for words that come again. */
#define MOST_KEPT 4096
#define PLACES 1024

/* What is between a turn's stimulus and its call. */
#define ARROW (sizeof " -> " - 1)

struct row {
  PyObject_HEAD
  PyObject *source;
  PyObject *data;
  Py_ssize_t index;
  int has_clock;
  struct transcript_row numbers;
};

/* The last words of a slot, by which reader they were read, and what they mean. */
struct recent {
  Py_ssize_t reader;
  PyObject *key;
  PyObject *made;
};

/* Of a turn its call's words, or those of its stimulus. There is a reader for each detail that a row may have, or one for all calls,
 * and what each has read. */
struct words {
  PyObject_HEAD
  int are_call;
  PyObject *readers;
  PyObject *known;
  struct recent recent[PLACES];
};

static PyTypeObject *row_type;

#define NUMBER(name, type, field)                                                                      \
  {                                                                                                    \
    name, type, offsetof(struct row, numbers) + offsetof(struct transcript_row, field), READONLY, NULL \
  }

static PyMemberDef row_members[] = {
  {"_source", T_OBJECT, offsetof(struct row, source), READONLY, NULL},
  {"index", T_PYSSIZET, offsetof(struct row, index), READONLY, "Its position in the transcript that it was taken from, from 0 on."},
  NUMBER("_begin", T_ULONGLONG, begin),
  NUMBER("_answer", T_ULONGLONG, answer),
  NUMBER("_asked", T_ULONGLONG, asked),
  NUMBER("_length", T_UINT, length),
  NUMBER("_content", T_UINT, content),
  NUMBER("_call", T_UINT, call),
  NUMBER("_kind", T_UBYTE, kind),
  NUMBER("_detail", T_UBYTE, detail),
  NUMBER("_process", T_UBYTE, process),
  NUMBER("_event", T_UBYTE, event),
  NUMBER("_reply", T_UBYTE, reply),
  NUMBER("_refusal", T_UBYTE, refusal),
  NUMBER("_call_kind", T_UBYTE, call_kind),
  NUMBER("_asked_kind", T_UBYTE, asked_kind),
  {NULL, 0, 0, 0, NULL}};

static void
row_dealloc(PyObject *self)
{
  PyTypeObject *type = Py_TYPE(self);
  freefunc tp_free = (freefunc)PyType_GetSlot(type, Py_tp_free);

  Py_XDECREF(((struct row *)self)->source);
  Py_XDECREF(((struct row *)self)->data);
  tp_free(self);
  Py_DECREF(type);
}

static PyObject *
row_clock(PyObject *self, void *closure)
{
  const struct row *row = (const struct row *)self;

  (void)closure;
  if(!row->has_clock) {
    Py_RETURN_NONE;
  }
  return PyLong_FromUnsignedLongLong(row->numbers.clock);
}

static PyGetSetDef row_attributes[] = {
  {"clock", row_clock, NULL, "The ticks since boot, of a tick those after it; None in a quiet transcript, which shows no ticks.", NULL},
  {NULL, NULL, NULL, NULL, NULL}};

static PyType_Slot row_slots[] = {{Py_tp_doc, (void *)"A row of a transcript's table."},
                                  {Py_tp_members, row_members},
                                  {Py_tp_getset, row_attributes},
                                  {Py_tp_dealloc, (void *)row_dealloc},
                                  {0, NULL}};

static PyType_Spec row_spec = {"toarmuts._entries.Row", sizeof(struct row), 0, Py_TPFLAGS_DEFAULT | Py_TPFLAGS_BASETYPE, row_slots};

/* The old words are let go last: what that sets off may come back here. */
static void
forget(struct recent *recent)
{
  struct recent before = *recent;

  recent->key = NULL;
  recent->made = NULL;
  Py_XDECREF(before.key);
  Py_XDECREF(before.made);
}

static int
words_init(PyObject *self, PyObject *arguments, PyObject *named)
{
  struct words *words = (struct words *)self;
  PyObject *readers, *known;
  Py_ssize_t i;
  int are_call;

  (void)named;
  if(!PyArg_ParseTuple(arguments, "pO!", &are_call, &PyTuple_Type, &readers)) {
    return -1;
  }
  known = PyTuple_New(PyTuple_Size(readers));
  for(i = 0; known != NULL && i < PyTuple_Size(readers); i++) {
    PyObject *dict = PyDict_New();

    if(dict == NULL) {
      Py_DECREF(known);
      return -1;
    }
    PyTuple_SetItem(known, i, dict);
  }
  if(known == NULL) {
    return -1;
  }
  if(words->readers != NULL) {
    Py_DECREF(known);
    PyErr_SetString(PyExc_TypeError, "words are made once");
    return -1;
  }
  Py_INCREF(readers);
  words->are_call = are_call;
  words->readers = readers;
  words->known = known;
  return 0;
}

/* A slot for words: equal words have the same. */
static size_t
place_of(const char *line, size_t length)
{
  uint64_t mixed = length, part;

  for(; length >= sizeof part; line += sizeof part, length -= sizeof part) {
    memcpy(&part, line, sizeof part);
    mixed = (mixed ^ part) * 0x9e3779b97f4a7c15u;
  }
  part = 0;
  memcpy(&part, line, length);
  mixed = (mixed ^ part) * 0x9e3779b97f4a7c15u;
  return (size_t)(mixed >> 32) % PLACES;
}

/* What words tell, by a reader: kept, or read now. */
static PyObject *
read_words(PyObject *key, PyObject *reader, PyObject *known)
{
  PyObject *made = PyDict_GetItemWithError(known, key);

  if(made != NULL || PyErr_Occurred()) {
    Py_XINCREF(made);
    return made;
  }
  made = PyObject_CallFunction(reader, "s#", PyBytes_AsString(key), PyBytes_Size(key));
  if(made == NULL) {
    return NULL;
  }
  if(PyDict_Size(known) >= MOST_KEPT) {
    PyDict_Clear(known);
  }
  if(PyDict_SetItem(known, key, made) < 0) {
    Py_CLEAR(made);
  }
  return made;
}

/* The same of words that are looked for among the recent ones first. */
static PyObject *
find_words(struct words *words, const char *line, size_t length, Py_ssize_t detail)
{
  struct recent *recent = &words->recent[place_of(line, length)];
  PyObject *reader, *known, *key, *made;

  if(recent->key != NULL && recent->reader == detail && (size_t)PyBytes_Size(recent->key) == length &&
     memcmp(PyBytes_AsString(recent->key), line, length) == 0) {
    Py_INCREF(recent->made);
    return recent->made;
  }
  reader = PyTuple_GetItem(words->readers, detail);
  known = reader == NULL ? NULL : PyTuple_GetItem(words->known, detail);
  key = known == NULL ? NULL : PyBytes_FromStringAndSize(line, (Py_ssize_t)length);
  if(key == NULL) {
    return NULL;
  }
  made = read_words(key, reader, known);
  if(made == NULL) {
    Py_DECREF(key);
    return NULL;
  }
  forget(recent);
  recent->reader = detail;
  recent->key = key;
  Py_INCREF(made);
  recent->made = made;
  return made;
}

/* In place of a reader's exception there is what the row's method _spoilt makes of it: one with the number of the line. */
static void
add_line(PyObject *row)
{
  PyObject *type, *fault, *trace, *raised;

  PyErr_Fetch(&type, &fault, &trace);
  PyErr_NormalizeException(&type, &fault, &trace);
  raised = fault != NULL ? PyObject_CallMethod(row, "_spoilt", "O", fault) : NULL;
  if(raised == NULL || raised == fault) {
    Py_XDECREF(raised);
    PyErr_Clear();
    PyErr_Restore(type, fault, trace);
    return;
  }
  PyErr_SetObject((PyObject *)Py_TYPE(raised), raised);
  Py_DECREF(raised);
  Py_XDECREF(type);
  Py_XDECREF(fault);
  Py_XDECREF(trace);
}

static PyObject *
words_get(PyObject *self, PyObject *object, PyObject *owner)
{
  struct words *words = (struct words *)self;
  const struct row *row = (const struct row *)object;
  PyObject *made;
  size_t first, last;

  (void)owner;
  if(object == NULL || object == Py_None) {
    Py_INCREF(self);
    return self;
  }
  if(!PyObject_TypeCheck(object, row_type) || words->readers == NULL || row->data == NULL) {
    PyErr_SetString(PyExc_TypeError, "a row of a transcript is wanted");
    return NULL;
  }
  first = words->are_call ? row->numbers.call : row->numbers.content;
  last = words->are_call ? row->numbers.length : row->numbers.call - ARROW;
  if(last < first || last > row->numbers.length) {
    PyErr_SetString(PyExc_ValueError, "the words lie outside the line");
    return NULL;
  }
  made = find_words(words, PyBytes_AsString(row->data) + row->numbers.begin + first, last - first,
                    words->are_call ? 0 : row->numbers.detail);
  if(made == NULL) {
    add_line(object);
  }
  return made;
}

static void
words_dealloc(PyObject *self)
{
  struct words *words = (struct words *)self;
  PyTypeObject *type = Py_TYPE(self);
  freefunc tp_free = (freefunc)PyType_GetSlot(type, Py_tp_free);

  for(size_t i = 0; i < PLACES; i++) {
    forget(&words->recent[i]);
  }
  Py_XDECREF(words->readers);
  Py_XDECREF(words->known);
  tp_free(self);
  Py_DECREF(type);
}

static PyType_Slot words_slots[] = {
  {Py_tp_doc, (void *)"Words(are_call, readers): what words of a turn's line tell, read once for equal words."},
  {Py_tp_init, words_init},
  {Py_tp_descr_get, words_get},
  {Py_tp_dealloc, words_dealloc},
  {0, NULL}};

static PyType_Spec words_spec = {"toarmuts._entries.Words", sizeof(struct words), 0, Py_TPFLAGS_DEFAULT, words_slots};

/* An object of the class for its kind. */
static PyObject *
make_row(PyObject *types, PyObject *source, PyObject *data, const struct transcript_row *numbers, Py_ssize_t index)
{
  PyTypeObject *type = (PyTypeObject *)PyTuple_GetItem(types, numbers->kind);
  allocfunc alloc;
  struct row *row;

  if(type == NULL) {
    return NULL;
  }
  if(!PyType_IsSubtype(type, row_type)) {
    PyErr_SetString(PyExc_TypeError, "classes of rows are wanted");
    return NULL;
  }
  alloc = (allocfunc)PyType_GetSlot(type, Py_tp_alloc);
  row = (struct row *)alloc(type, 0);
  if(row == NULL) {
    return NULL;
  }
  Py_INCREF(source);
  Py_INCREF(data);
  row->source = source;
  row->data = data;
  row->index = index;
  row->numbers = *numbers;
  return (PyObject *)row;
}

/* make(types, source, data, table, first, count, clock): a list of rows of a table, of the class that types has for their kinds.
 * Their clocks are counted from this one; where it is None they have none. */
static PyObject *
make(PyObject *module, PyObject *arguments)
{
  PyObject *types, *source, *data, *table, *clock, *list;
  Py_ssize_t first, count, size, i;
  const struct transcript_row *rows;
  unsigned long long clock_before = 0;

  (void)module;
  if(!PyArg_ParseTuple(arguments, "O!OSO!nnO", &PyTuple_Type, &types, &source, &data, &PyByteArray_Type, &table, &first, &count, &clock)) {
    return NULL;
  }
  if(clock != Py_None) {
    clock_before = PyLong_AsUnsignedLongLong(clock);
    if(PyErr_Occurred()) {
      return NULL;
    }
  }
  rows = (const struct transcript_row *)(const void *)PyByteArray_AsString(table);
  size = PyByteArray_Size(table) / (Py_ssize_t)sizeof *rows;
  if(rows == NULL || first < 0 || first > size || count < 0 || count > size - first) {
    PyErr_SetString(PyExc_ValueError, "the table has fewer rows");
    return NULL;
  }
  list = PyList_New(count);
  for(i = 0; list != NULL && i < count; i++) {
    PyObject *row = make_row(types, source, data, &rows[first + i], first + i);

    if(row == NULL) {
      Py_DECREF(list);
      return NULL;
    }
    ((struct row *)row)->has_clock = clock != Py_None;
    ((struct row *)row)->numbers.clock += clock_before;
    PyList_SetItem(list, i, row);
  }
  return list;
}

static PyMethodDef methods[] = {{"make", make, METH_VARARGS, "Makes the rows of a table."}, {NULL, NULL, 0, NULL}};

static struct PyModuleDef definition = {PyModuleDef_HEAD_INIT, "toarmuts._entries", NULL, -1, methods, NULL, NULL, NULL, NULL};

PyMODINIT_FUNC
PyInit__entries(void)
{
  PyObject *module = PyModule_Create(&definition);
  PyObject *words;

  if(module == NULL) {
    return NULL;
  }
  row_type = (PyTypeObject *)PyType_FromSpec(&row_spec);
  words = PyType_FromSpec(&words_spec);
  if(row_type == NULL || words == NULL || PyModule_AddObjectRef(module, "Row", (PyObject *)row_type) < 0 ||
     PyModule_AddObjectRef(module, "Words", words) < 0) {
    Py_CLEAR(row_type);
    Py_XDECREF(words);
    Py_DECREF(module);
    return NULL;
  }
  Py_DECREF(words);
  return module;
}
