/* The class Server. */
#include "core.h"

/* Hands in a row: a pair of a version and a page's bytes. */
static bool open_row(party *it, PyObject *row) {
  PyObject *pair = PySequence_Tuple(row), *version_given;
  uint64_t version;
  Py_buffer view;
  if (pair == NULL
      || !PyArg_ParseTuple(pair, "Oy*;a row is a version and bytes", &version_given, &view)) {
    Py_XDECREF(pair);
    return false;
  }
  bool right = core_number(version_given, 64, &version);
  if (right) {
    uint32_t fault =
        rughvadi_open_row(&it->handle, version, core_bytes(&view), (size_t)view.len);
    right = fault == RUGHVADI_DONE;
    if (!right) {
      core_refuse(core_state_of((PyObject *)it), fault);
    }
  }
  PyBuffer_Release(&view);
  Py_DECREF(pair);
  return right;
}

/* Hands in all rows. */
static bool open_rows(party *it, PyObject *rows) {
  PyObject *rest = PyObject_GetIter(rows), *row;
  if (rest == NULL) {
    return false;
  }
  bool right = true;
  while (right && (row = PyIter_Next(rest)) != NULL) {
    right = open_row(it, row);
    Py_DECREF(row);
  }
  Py_DECREF(rest);
  return right && !PyErr_Occurred();
}

/* Hands in rows of zeros. */
static bool open_zeros(party *it, uint64_t pages) {
  uint8_t *zeros = PyMem_Calloc(1, (size_t)it->page_size);
  if (zeros == NULL) {
    PyErr_NoMemory();
    return false;
  }
  uint32_t fault = RUGHVADI_DONE;
  for (uint64_t page = 0; page < pages && fault == RUGHVADI_DONE; page++) {
    fault = rughvadi_open_row(&it->handle, 0, zeros, (size_t)it->page_size);
  }
  PyMem_Free(zeros);
  if (fault != RUGHVADI_DONE) {
    core_refuse(core_state_of((PyObject *)it), fault);
  }
  return fault == RUGHVADI_DONE;
}

/* Makes the server in the life of that floor over those rows, or over zeros where they are None. */
static bool open_over(party *it, const rughvadi_limits *numbers, uint64_t last, PyObject *rows,
                      uint64_t floor) {
  uint32_t fault =
      rughvadi_open_life(numbers, rows == Py_None ? 0 : last, floor, &it->handle);
  if (fault == RUGHVADI_DONE) {
    if (!(rows == Py_None ? open_zeros(it, numbers->pages) : open_rows(it, rows))) {
      return false;
    }
    fault = rughvadi_open_serve(&it->handle);
  }
  if (fault != RUGHVADI_DONE) {
    core_refuse(core_state_of((PyObject *)it), fault);
  }
  return fault == RUGHVADI_DONE;
}

static PyObject *server_new(PyTypeObject *class, PyObject *args, PyObject *named) {
  static char *names[] = {"limits", "last_commit", "rows", "floor", NULL};
  PyObject *limits, *last_given = NULL, *rows = Py_None, *floor_given = NULL;
  uint64_t last = 0, floor = 0;
  rughvadi_limits numbers;
  if (!PyArg_ParseTupleAndKeywords(args, named, "O|OO$O:Server", names, &limits, &last_given, &rows,
                                   &floor_given)
      || (last_given != NULL && !core_number(last_given, 64, &last))
      || (floor_given != NULL && !core_number(floor_given, 64, &floor))) {
    return NULL;
  }
  party *it = core_new_party(class, limits, &numbers);
  if (it != NULL && !open_over(it, &numbers, last, rows, floor)) {
    Py_CLEAR(it);
  }
  return (PyObject *)it;
}

/* A page of the batch, by its place; its bytes are read straight into what is answered. */
static PyObject *batch_page(PyObject *self, size_t at) {
  party *it = (party *)self;
  uint32_t page;
  uint64_t version;
  uint8_t *room;
  PyObject *bytes = core_room(it->page_size, &room);
  if (bytes == NULL) {
    return NULL;
  }
  uint32_t fault =
      rughvadi_server_page(&it->handle, at, room, (size_t)it->page_size, &page, &version);
  if (fault != RUGHVADI_DONE) {
    Py_DECREF(bytes);
    return core_refuse(core_state_of(self), fault);
  }
  return PyObject_CallFunction(core_state_of(self)->batch_page, "IKN", page,
                               (unsigned long long)version, bytes);
}

static PyObject *server_batch(PyObject *self, PyObject *unused) {
  (void)unused;
  uint64_t number = 0;
  size_t count = 0;
  uint32_t fault = rughvadi_server_batch(&((party *)self)->handle, &number, &count);
  if (fault != RUGHVADI_DONE) {
    return core_none_or(self, fault == RUGHVADI_NOTHING ? RUGHVADI_DONE : fault);
  }
  PyObject *pages = PyTuple_New((Py_ssize_t)count);
  for (size_t at = 0; pages != NULL && at < count; at++) {
    PyObject *page = batch_page(self, at);
    if (page == NULL || PyTuple_SetItem(pages, (Py_ssize_t)at, page) < 0) {
      Py_CLEAR(pages);
    }
  }
  if (pages == NULL) {
    return NULL;
  }
  return PyObject_CallFunction(core_state_of(self)->batch, "KN", (unsigned long long)number,
                               pages);
}

static PyObject *server_can_flush(PyObject *self, PyObject *given) {
  uint64_t number;
  if (!core_number(given, 64, &number)) {
    return NULL;
  }
  return PyBool_FromLong(rughvadi_server_can_flush(&((party *)self)->handle, number));
}

static PyObject *server_flushed(PyObject *self, PyObject *given) {
  uint64_t number;
  if (!core_number(given, 64, &number)) {
    return NULL;
  }
  return core_none_or(self, rughvadi_server_flushed(&((party *)self)->handle, number));
}

static PyObject *server_forget(PyObject *self, PyObject *given) {
  uint64_t number;
  if (!core_number(given, 64, &number)) {
    return NULL;
  }
  return core_none_or(self, rughvadi_server_forget(&((party *)self)->handle, number));
}

static PyObject *server_leave(PyObject *self, PyObject *client) {
  uint64_t number;
  if (!core_number(client, 32, &number)) {
    return NULL;
  }
  return core_none_or(self, rughvadi_server_leave(&((party *)self)->handle, (uint32_t)number));
}

static PyObject *server_next_incarnation(PyObject *self, PyObject *client) {
  uint64_t number, incarnation = 0;
  if (!core_number(client, 32, &number)) {
    return NULL;
  }
  uint32_t fault =
      rughvadi_server_incarnation(&((party *)self)->handle, (uint32_t)number, &incarnation);
  return fault == RUGHVADI_DONE ? PyLong_FromUnsignedLongLong(incarnation)
                                : core_refuse(core_state_of(self), fault);
}

static PyMethodDef methods[] = {
    CORE_PARTY_METHODS,
    {"batch", server_batch, METH_NOARGS,
     "batch($self, /)\n--\n\nWhat is to be written next; None if every commit is on disk."},
    {"can_flush", server_can_flush, METH_O,
     "can_flush($self, number, /)\n--\n\n"
     "Whether that commit was made and isn't on disk yet, so that `flushed` takes it."},
    {"flushed", server_flushed, METH_O,
     "flushed($self, number, /)\n--\n\n"
     "Reports that the commits up to this number are on disk now, synced. Their clients are\n"
     "told."},
    {"forget", server_forget, METH_O,
     "forget($self, number, /)\n--\n\n"
     "Drops the commits up to this number, which are on disk, from memory. Without this call\n"
     "memory grows with each commit."},
    {"leave", server_leave, METH_O,
     "leave($self, client, /)\n--\n\n"
     "Tells the server that a client went away and won't come back in its present incarnation."},
    {"next_incarnation", server_next_incarnation, METH_O,
     "next_incarnation($self, client, /)\n--\n\n"
     "The incarnation with which the client may greet next."},
    {NULL, NULL, 0, NULL}};

static PyGetSetDef properties[] = {CORE_PARTY_PROPERTIES, {NULL, NULL, NULL, NULL, NULL}};

static PyType_Slot slots[] = {
    {Py_tp_doc,
     "Server(limits, last_commit=0, rows=None, *, floor=0)\n--\n\n"
     "A page server over a store of zeros, or over the rows of a store that was written before:\n"
     "the number of its last commit, and the version and the bytes of each page. It writes\n"
     "nothing itself: `batch` says what is to be written. For a host that keeps lives it begins\n"
     "the life with that floor, and ignores every frame of a lower incarnation. 0 stands for no\n"
     "life."},
    {Py_tp_new, server_new},
    {Py_tp_dealloc, core_dealloc},
    {Py_tp_traverse, core_traverse},
    {Py_tp_methods, methods},
    {Py_tp_getset, properties},
    {0, NULL}};

PyType_Spec core_server_spec = {
    .name = "rughvadi.Server",
    .basicsize = sizeof(party),
    .flags = Py_TPFLAGS_DEFAULT | Py_TPFLAGS_HAVE_GC | Py_TPFLAGS_IMMUTABLETYPE,
    .slots = slots};
