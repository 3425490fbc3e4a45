/* The class Wire: a link's client and its socket's descriptor, as far as a transaction of held
 * pages needs them. What else a link does is written in Python. */
#include "core.h"

#include <errno.h>
#include <structmember.h>
#include <sys/socket.h>

/* Whether a socket has something to receive, its end or an error. It waits for nothing. */
static bool has_come(int descriptor) {
  char first;
  ssize_t got = recv(descriptor, &first, 1, MSG_PEEK | MSG_DONTWAIT);
  return got >= 0 || (errno != EAGAIN && errno != EWOULDBLOCK && errno != EINTR);
}

static rughvadi_handle *handle_of(wire *it) { return &((party *)it->client)->handle; }

uint32_t core_wire_begin(wire *it, bool *begun) {
  *begun = false;
  if (it->gone || has_come(it->descriptor)) {
    return RUGHVADI_DONE;
  }
  uint64_t txn;
  uint32_t fault = rughvadi_client_begin(handle_of(it), &txn);
  *begun = it->is_silent = fault == RUGHVADI_DONE;
  return fault;
}

PyObject *core_wire_read(wire *it, PyObject *page) {
  return it->gone ? Py_NewRef(Py_None) : core_client_read(it->client, page);
}

PyObject *core_wire_drop(wire *it) {
  uint32_t client, fault = rughvadi_client_drop(handle_of(it));
  if (fault != RUGHVADI_DONE) {
    return core_refuse(core_state_of(it->client), fault);
  }
  /* From here on it is gone, unless what was said is kept or sent. */
  it->gone = true;
  PyObject *drop = core_fetched(it->client, &client);
  if (drop == NULL) {
    return NULL;
  }
  PyObject *more = core_fetched(it->client, &client);
  if (more == NULL && PyErr_Occurred()) {
    Py_DECREF(drop);
    return NULL;
  }
  if (more != NULL || !it->is_silent) {
    return more != NULL ? Py_BuildValue("(NN)", drop, more) : Py_BuildValue("(N)", drop);
  }
  PyObject *earlier = it->late;
  it->late = drop;
  Py_XDECREF(earlier);
  it->gone = false;
  return PyTuple_New(0);
}

static PyObject *wire_new(PyTypeObject *class, PyObject *args, PyObject *named) {
  static char *names[] = {"client", "descriptor", NULL};
  core_state *state = PyType_GetModuleState(class);
  PyObject *client;
  int descriptor;
  if (state == NULL
      || !PyArg_ParseTupleAndKeywords(args, named, "O!i:Wire", names, state->client, &client,
                                      &descriptor)) {
    return NULL;
  }
  wire *it = (wire *)PyType_GenericAlloc(class, 0);
  if (it != NULL) {
    it->client = Py_NewRef(client);
    it->descriptor = descriptor;
    it->is_silent = true;
  }
  return (PyObject *)it;
}

static int wire_traverse(PyObject *self, visitproc visit, void *arg) {
  Py_VISIT(Py_TYPE(self));
  Py_VISIT(((wire *)self)->client);
  Py_VISIT(((wire *)self)->late);
  return 0;
}

static void wire_dealloc(PyObject *self) {
  PyTypeObject *class = Py_TYPE(self);
  PyObject_GC_UnTrack(self);
  Py_CLEAR(((wire *)self)->client);
  Py_CLEAR(((wire *)self)->late);
  PyObject_GC_Del(self);
  Py_DECREF(class);
}

static PyObject *wire_begin(PyObject *self, PyObject *unused) {
  (void)unused;
  wire *it = (wire *)self;
  bool begun;
  uint32_t fault = core_wire_begin(it, &begun);
  return fault == RUGHVADI_DONE ? PyBool_FromLong(begun)
                                : core_refuse(core_state_of(it->client), fault);
}

static PyObject *wire_read(PyObject *self, PyObject *page) {
  return core_wire_read((wire *)self, page);
}

static PyObject *wire_drop(PyObject *self, PyObject *unused) {
  (void)unused;
  return core_wire_drop((wire *)self);
}

static PyObject *wire_transaction(PyObject *self, PyObject *link) {
  return core_new_transaction(link, self);
}

static PyMethodDef methods[] = {
    {"begin", wire_begin, METH_NOARGS,
     "begin($self, /)\n--\n\n"
     "Begins a transaction, and returns True. False if the link is gone, or something came."},
    {"read", wire_read, METH_O,
     "read($self, page, /)\n--\n\n"
     "Reads a page. Returns its bytes, or None if the link is gone or an ask has no answer."},
    {"drop", wire_drop, METH_NOARGS,
     "drop($self, /)\n--\n\n"
     "Ends the transaction without a commit. Returns the frames that are to be sent, if there\n"
     "are any. The link then counts as gone until they are."},
    {"transaction", wire_transaction, METH_O,
     "transaction($self, link, /)\n--\n\nA transaction of the link, which is to have this wire."},
    {NULL, NULL, 0, NULL}};

static PyMemberDef members[] = {
    {"gone", T_BOOL, offsetof(wire, gone), 0,
     "A frame was fetched and isn't sent completely, or bytes came and aren't taken."},
    {"is_silent", T_BOOL, offsetof(wire, is_silent), 0, "The transaction sent nothing yet."},
    {"late", T_OBJECT, offsetof(wire, late), 0,
     "A Drop that the server needn't hear of before it hears of something else."},
    {NULL, 0, 0, 0, NULL}};

static PyType_Slot slots[] = {
    {Py_tp_doc, "Wire(client, descriptor)\n--\n\nA client, and the descriptor of its socket."},
    {Py_tp_new, wire_new},
    {Py_tp_dealloc, wire_dealloc},
    {Py_tp_traverse, wire_traverse},
    {Py_tp_methods, methods},
    {Py_tp_members, members},
    {0, NULL}};

PyType_Spec core_wire_spec = {
    .name = "rughvadi._core.Wire",
    .basicsize = sizeof(wire),
    .flags = Py_TPFLAGS_DEFAULT | Py_TPFLAGS_HAVE_GC | Py_TPFLAGS_IMMUTABLETYPE,
    .slots = slots};
