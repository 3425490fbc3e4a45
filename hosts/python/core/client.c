/* The class Client. */
#include "core.h"

static PyObject *client_new(PyTypeObject *class, PyObject *args, PyObject *named) {
  static char *names[] = {"limits", "client", "incarnation", NULL};
  PyObject *limits, *client_given, *incarnation_given;
  uint64_t client, incarnation;
  rughvadi_limits numbers;
  if (!PyArg_ParseTupleAndKeywords(args, named, "OOO:Client", names, &limits, &client_given,
                                   &incarnation_given)
      || !core_number(client_given, 32, &client)
      || !core_number(incarnation_given, 64, &incarnation)) {
    return NULL;
  }
  party *it = core_new_party(class, limits, &numbers);
  if (it == NULL) {
    return NULL;
  }
  uint32_t fault = rughvadi_client_new(&numbers, (uint32_t)client, incarnation, &it->handle);
  if (fault != RUGHVADI_DONE) {
    core_refuse(core_state_of((PyObject *)it), fault);
    Py_CLEAR(it);
  }
  return (PyObject *)it;
}

static PyObject *client_hello(PyObject *self, PyObject *unused) {
  (void)unused;
  return core_none_or(self, rughvadi_client_hello(&((party *)self)->handle));
}

static PyObject *client_begin(PyObject *self, PyObject *unused) {
  (void)unused;
  uint64_t txn = 0;
  uint32_t fault = rughvadi_client_begin(&((party *)self)->handle, &txn);
  return fault == RUGHVADI_DONE ? PyLong_FromUnsignedLongLong(txn)
                                : core_refuse(core_state_of(self), fault);
}

PyObject *core_client_read(PyObject *self, PyObject *page) {
  party *it = (party *)self;
  uint64_t number;
  uint8_t *room;
  if (!core_number(page, 32, &number)) {
    return NULL;
  }
  PyObject *bytes = core_room(it->page_size, &room);
  if (bytes == NULL) {
    return NULL;
  }
  bool here = false;
  uint32_t fault = rughvadi_client_read(&it->handle, (uint32_t)number, room,
                                        (size_t)it->page_size, &here);
  if (fault == RUGHVADI_DONE && here) {
    return bytes;
  }
  Py_DECREF(bytes);
  return core_none_or(self, fault);
}

static PyObject *client_want(PyObject *self, PyObject *page) {
  uint64_t number;
  bool may = false;
  if (!core_number(page, 32, &number)) {
    return NULL;
  }
  uint32_t fault = rughvadi_client_want(&((party *)self)->handle, (uint32_t)number, &may);
  return fault == RUGHVADI_DONE ? PyBool_FromLong(may) : core_refuse(core_state_of(self), fault);
}

static PyObject *client_write(PyObject *self, PyObject *const *args, Py_ssize_t count) {
  uint64_t number;
  Py_buffer view;
  if (count != 2) {
    PyErr_SetString(PyExc_TypeError, "write() takes a page and its bytes");
    return NULL;
  }
  if (!core_number(args[0], 32, &number) || PyObject_GetBuffer(args[1], &view, PyBUF_SIMPLE) < 0) {
    return NULL;
  }
  uint32_t fault = rughvadi_client_write(&((party *)self)->handle, (uint32_t)number,
                                         core_bytes(&view), (size_t)view.len);
  PyBuffer_Release(&view);
  return core_none_or(self, fault);
}

static PyObject *client_finish(PyObject *self, PyObject *unused) {
  (void)unused;
  return core_none_or(self, rughvadi_client_finish(&((party *)self)->handle));
}

static PyObject *client_drop(PyObject *self, PyObject *unused) {
  (void)unused;
  return core_none_or(self, rughvadi_client_drop(&((party *)self)->handle));
}

static PyObject *client_next_data(PyObject *self, PyObject *unused) {
  (void)unused;
  uint32_t client;
  PyObject *bytes = core_fetched(self, &client);
  return bytes != NULL || PyErr_Occurred() ? bytes : Py_NewRef(Py_None);
}

static PyObject *client_peek(PyObject *self, PyObject *page) {
  party *it = (party *)self;
  uint64_t number;
  uint8_t *room;
  if (!core_number(page, 32, &number)) {
    return NULL;
  }
  PyObject *bytes = core_room(it->page_size, &room);
  if (bytes == NULL) {
    return NULL;
  }
  uint32_t fault =
      rughvadi_client_peek(&it->handle, (uint32_t)number, room, (size_t)it->page_size);
  if (fault == RUGHVADI_DONE) {
    return bytes;
  }
  Py_DECREF(bytes);
  return core_none_or(self, fault == RUGHVADI_NOTHING ? RUGHVADI_DONE : fault);
}

static PyObject *client_may_write(PyObject *self, PyObject *page) {
  uint64_t number;
  if (!core_number(page, 32, &number)) {
    return NULL;
  }
  return PyBool_FromLong(rughvadi_client_may_write(&((party *)self)->handle, (uint32_t)number));
}

static PyObject *client_status(PyObject *self, void *unused) {
  (void)unused;
  uint32_t status = rughvadi_client_status(&((party *)self)->handle);
  PyObject *statuses = core_state_of(self)->statuses;
  return Py_XNewRef(PyTuple_GetItem(statuses, (Py_ssize_t)status));
}

static PyObject *client_last(PyObject *self, void *unused) {
  (void)unused;
  uint64_t number = 0;
  uint32_t ended = rughvadi_client_last(&((party *)self)->handle, &number);
  PyObject *how = PyTuple_GetItem(core_state_of(self)->endings, (Py_ssize_t)ended);
  return how == NULL ? NULL : Py_BuildValue("OK", how, (unsigned long long)number);
}

static PyMethodDef methods[] = {
    CORE_PARTY_METHODS,
    {"hello", client_hello, METH_NOARGS, "hello($self, /)\n--\n\nGreets the server."},
    {"begin", client_begin, METH_NOARGS,
     "begin($self, /)\n--\n\nBegins a transaction. Returns its number."},
    {"read", core_client_read, METH_O,
     "read($self, page, /)\n--\n\n"
     "Reads a page. Returns its bytes, or None if an ask goes out for it."},
    {"want", client_want, METH_O,
     "want($self, page, /)\n--\n\n"
     "Asks to write a page that was read. Returns whether it may be written now; if not, an\n"
     "ask goes out."},
    {"write", (PyCFunction)(void (*)(void))client_write, METH_FASTCALL,
     "write($self, page, data, /)\n--\n\nWrites a page that was read and may be written."},
    {"finish", client_finish, METH_NOARGS, "finish($self, /)\n--\n\nCommits the transaction."},
    {"drop", client_drop, METH_NOARGS,
     "drop($self, /)\n--\n\nEnds the transaction without a commit."},
    {"next_data", client_next_data, METH_NOARGS,
     "next_data($self, /)\n--\n\nThe bytes of `next_frame` alone."},
    {"peek", client_peek, METH_O,
     "peek($self, page, /)\n--\n\n"
     "The bytes of the client's copy of a page, if it has one. This isn't a read, and locks\n"
     "nothing."},
    {"may_write", client_may_write, METH_O,
     "may_write($self, page, /)\n--\n\nWhether the open transaction may write the page now."},
    {NULL, NULL, 0, NULL}};

static PyGetSetDef properties[] = {
    CORE_PARTY_PROPERTIES,
    {"status", client_status, NULL,
     "What the client reports about itself; None once it is closed.", NULL},
    {"last", client_last, NULL,
     "How the last transaction ended (None before the first did), and its commit or 0.", NULL},
    {NULL, NULL, NULL, NULL, NULL}};

static PyType_Slot slots[] = {
    {Py_tp_doc,
     "Client(limits, client, incarnation)\n--\n\n"
     "One incarnation of a client, which no earlier client of its number had. It sends nothing\n"
     "itself: `frames` fetches its frames."},
    {Py_tp_new, client_new},
    {Py_tp_dealloc, core_dealloc},
    {Py_tp_traverse, core_traverse},
    {Py_tp_methods, methods},
    {Py_tp_getset, properties},
    {0, NULL}};

PyType_Spec core_client_spec = {
    .name = "rughvadi.Client",
    .basicsize = sizeof(party),
    .flags = Py_TPFLAGS_DEFAULT | Py_TPFLAGS_HAVE_GC | Py_TPFLAGS_IMMUTABLETYPE,
    .slots = slots};
