/* The class Transaction of a blocking link. Held pages are read, and transactions of them begun and
 * dropped, without a step of Python; for all else the link's methods are called. */
#include "core.h"

#include <structmember.h>

typedef struct {
  PyObject_HEAD
  PyObject *link;
  PyObject *wire; /* the link's */
  bool is_dropped;
  PyObject *number;
} transaction;

PyObject *core_new_transaction(PyObject *link, PyObject *its_wire) {
  PyTypeObject *class = core_state_of(its_wire)->transaction;
  transaction *it = (transaction *)PyType_GenericAlloc(class, 0);
  if (it != NULL) {
    it->link = Py_NewRef(link);
    it->wire = Py_NewRef(its_wire);
  }
  return (PyObject *)it;
}

static int transaction_traverse(PyObject *self, visitproc visit, void *arg) {
  Py_VISIT(Py_TYPE(self));
  Py_VISIT(((transaction *)self)->link);
  Py_VISIT(((transaction *)self)->wire);
  Py_VISIT(((transaction *)self)->number);
  return 0;
}

static int transaction_clear(PyObject *self) {
  Py_CLEAR(((transaction *)self)->number);
  return 0;
}

static void transaction_dealloc(PyObject *self) {
  PyTypeObject *class = Py_TYPE(self);
  PyObject_GC_UnTrack(self);
  Py_CLEAR(((transaction *)self)->link);
  Py_CLEAR(((transaction *)self)->wire);
  Py_CLEAR(((transaction *)self)->number);
  PyObject_GC_Del(self);
  Py_DECREF(class);
}

/* False where a call raised an exception; its answer isn't used. */
static bool is_done(PyObject *answer) {
  Py_XDECREF(answer);
  return answer != NULL;
}

/* Clears the exception that was raised, if it is a fault: the link makes the call again, and says
 * why it was refused. Another one, as of a signal's handler, stays. */
static bool is_refused(transaction *it) {
  if (!PyErr_ExceptionMatches(core_state_of(it->wire)->fault)) {
    return false;
  }
  PyErr_Clear();
  return true;
}

static PyObject *transaction_enter(PyObject *self, PyObject *unused) {
  (void)unused;
  transaction *it = (transaction *)self;
  bool begun;
  core_wire_begin((wire *)it->wire, &begun);
  if (!begun && !is_done(PyObject_CallMethod(it->link, "_begin", NULL))) {
    return NULL;
  }
  return Py_NewRef(self);
}

static PyObject *transaction_exit(PyObject *self, PyObject *const *args, Py_ssize_t count) {
  transaction *it = (transaction *)self;
  if (it->is_dropped) {
    return Py_NewRef(Py_None);
  }
  if (count > 0 && args[0] != Py_None) {
    return PyObject_CallMethod(it->link, "_leave", NULL);
  }
  PyObject *number = PyObject_CallMethod(it->link, "_commit", NULL), *earlier = it->number;
  if (number == NULL) {
    return NULL;
  }
  it->number = number;
  Py_XDECREF(earlier);
  return Py_NewRef(Py_None);
}

static PyObject *transaction_read(PyObject *self, PyObject *page) {
  transaction *it = (transaction *)self;
  PyObject *bytes = core_wire_read((wire *)it->wire, page);
  if (bytes != NULL && bytes != Py_None) {
    return bytes;
  }
  if (bytes == NULL && !is_refused(it)) {
    return NULL;
  }
  /* An ask is out, or the call was refused. */
  Py_XDECREF(bytes);
  return PyObject_CallMethod(it->link, "_fetch", "(O)", page);
}

static bool drop(transaction *it) {
  wire *its = (wire *)it->wire;
  PyObject *said = NULL;
  if (!its->gone) {
    said = core_wire_drop(its);
    if (said == NULL && !is_refused(it)) {
      return false;
    }
  }
  if (said == NULL) {
    return is_done(PyObject_CallMethod(it->link, "_drop", NULL));
  }
  bool right = PyTuple_Size(said) == 0
               || is_done(PyObject_CallMethod(it->link, "_send_all", "(O)", said));
  Py_DECREF(said);
  return right;
}

static PyObject *transaction_drop(PyObject *self, PyObject *unused) {
  (void)unused;
  if (!drop((transaction *)self)) {
    return NULL;
  }
  ((transaction *)self)->is_dropped = true;
  return Py_NewRef(Py_None);
}

static PyObject *transaction_write(PyObject *self, PyObject *args) {
  PyObject *page, *data;
  if (!PyArg_ParseTuple(args, "OO:write", &page, &data)) {
    return NULL;
  }
  return PyObject_CallMethod(((transaction *)self)->link, "_put", "OO", page, data);
}

/* Reads the page first, where the transaction has not: no page is written unread. */
static int transaction_set(PyObject *self, PyObject *page, PyObject *data) {
  if (data == NULL) {
    PyErr_SetString(PyExc_TypeError, "a page can't be deleted");
    return -1;
  }
  PyObject *link = ((transaction *)self)->link;
  bool right = is_done(transaction_read(self, page))
               && is_done(PyObject_CallMethod(link, "_put", "OO", page, data));
  return right ? 0 : -1;
}

static PyMethodDef methods[] = {
    {"__enter__", transaction_enter, METH_NOARGS, NULL},
    {"__exit__", (PyCFunction)(void (*)(void))transaction_exit, METH_FASTCALL, NULL},
    {"read", transaction_read, METH_O,
     "read($self, page, /)\n--\n\n"
     "The bytes of a page. Nobody writes the page before the transaction ends, unless the\n"
     "server restarts or is told that the client left."},
    {"drop", transaction_drop, METH_NOARGS,
     "drop($self, /)\n--\n\n"
     "Ends the transaction without a commit, as the last call of the `with`, or of the job that\n"
     "`run` does. Nothing is written, and it waits for no answer, whereas a commit of reads\n"
     "alone waits for a sync. Its reads have no place among the commits."},
    {"write", transaction_write, METH_VARARGS,
     "write($self, page, data, /)\n--\n\nWrites a page that the transaction has read."},
    {NULL, NULL, 0, NULL}};

static PyMemberDef members[] = {
    {"number", T_OBJECT, offsetof(transaction, number), READONLY,
     "The number of its commit, once it has committed; else None."},
    {NULL, 0, 0, 0, NULL}};

static PyType_Slot slots[] = {
    {Py_tp_doc,
     "A transaction of a link, between the beginning and the end of a `with`. `t[5]` reads a\n"
     "page; `t[5] = data` reads and writes it."},
    {Py_tp_dealloc, transaction_dealloc},
    {Py_tp_traverse, transaction_traverse},
    {Py_tp_clear, transaction_clear},
    {Py_tp_methods, methods},
    {Py_tp_members, members},
    {Py_mp_subscript, transaction_read},
    {Py_mp_ass_subscript, transaction_set},
    {0, NULL}};

PyType_Spec core_transaction_spec = {
    .name = "rughvadi.Transaction",
    .basicsize = sizeof(transaction),
    .flags = Py_TPFLAGS_DEFAULT | Py_TPFLAGS_HAVE_GC | Py_TPFLAGS_IMMUTABLETYPE
             | Py_TPFLAGS_DISALLOW_INSTANTIATION,
    .slots = slots};
