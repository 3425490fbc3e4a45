/* What the files of the module `rughvadi._core` share.
 *
 * Every call of the library is made with the interpreter's lock held, and no code of Python runs
 * during one: arguments are converted before, answers are made after. So no two calls are made on
 * a handle at once. A call is short and waits for nothing, so the lock isn't let go.
 */
#ifndef RUGHVADI_CORE_H
#define RUGHVADI_CORE_H

#define PY_SSIZE_T_CLEAN
#include <Python.h>

#include <rughvadi.h>

/* What an interpreter's module keeps: what its answers are made of. */
typedef struct {
  PyObject *limits; /* the class Limits */
  PyObject *frame;
  PyObject *frame_head;
  PyObject *batch;
  PyObject *batch_page;
  PyObject *fault;    /* the class Fault */
  PyObject *fault_of; /* makes an exception of a fault's number and text */
  PyObject *statuses; /* a tuple: what a client says of itself, by number */
  PyObject *endings;  /* a tuple: how a transaction ended, by number */
  PyTypeObject *client, *server, *wire, *transaction; /* the classes of the module */
} core_state;

/* A server or a client in its handle. Its class has no subclass. */
typedef struct {
  PyObject_HEAD
  rughvadi_handle handle;
  PyObject *limits; /* that it was made with */
  Py_ssize_t page_size;
} party;

/* What a transaction of held pages needs of a link. */
typedef struct {
  PyObject_HEAD
  PyObject *client; /* a party */
  int descriptor;   /* of the socket */
  bool gone;        /* something was fetched and isn't sent whole, or came and isn't taken */
  bool is_silent;   /* the transaction said nothing yet */
  PyObject *late;   /* a Drop that is still to be sent, before anything else is; or NULL */
} wire;

extern PyType_Spec core_client_spec;
extern PyType_Spec core_server_spec;
extern PyType_Spec core_wire_spec;
extern PyType_Spec core_transaction_spec;

/* The state of the module that an object's class is of. */
static inline core_state *core_state_of(PyObject *self) {
  return PyType_GetModuleState(Py_TYPE(self));
}

/* Raises a fault; NULL. */
PyObject *core_refuse(const core_state *state, uint32_t fault);

/* None, or raises the fault. */
PyObject *core_none_or(PyObject *self, uint32_t fault);

/* The number, which has to fit so many bits; else false, and ValueError or TypeError is raised. */
bool core_number(PyObject *value, unsigned bits, uint64_t *number);

/* The numbers of a Limits; else false, and an exception is raised. */
bool core_limits(const core_state *state, PyObject *limits, rughvadi_limits *numbers);

/* The bytes of a buffer's view. */
static inline const uint8_t *core_bytes(const Py_buffer *view) {
  return view->len == 0 ? (const uint8_t *)"" : view->buf;
}

/* New bytes of that length, whose content is still to be written to *room; NULL for MemoryError. */
static inline PyObject *core_room(Py_ssize_t size, uint8_t **room) {
  PyObject *bytes = PyBytes_FromStringAndSize(NULL, size);
  if (bytes != NULL) {
    *room = (uint8_t *)PyBytes_AsString(bytes);
  }
  return bytes;
}

/* A new object of the class with an empty handle, and the limits' numbers; NULL where an exception
 * is raised. */
party *core_new_party(PyTypeObject *class, PyObject *limits, rughvadi_limits *numbers);

/* The oldest frame that was said as bytes, straight from the handle, and whose it is. NULL where
 * none is left, or an exception is raised. */
PyObject *core_fetched(PyObject *self, uint32_t *client);

/* Begins a transaction, and says whether it did: not where the link is gone, or something came that
 * is to be taken first. */
uint32_t core_wire_begin(wire *it, bool *begun);

/* The bytes of a page that is held, None where the link is gone or an ask is out, or NULL. */
PyObject *core_wire_read(wire *it, PyObject *page);

/* Drops the transaction of a link that isn't gone: a tuple of the frames that are to be sent. Where
 * there are any the link counts as gone until they were. NULL where an exception is raised. */
PyObject *core_wire_drop(wire *it);

/* A transaction of a link, which has this wire. */
PyObject *core_new_transaction(PyObject *link, PyObject *its_wire);

/* The method `read` of a client. */
PyObject *core_client_read(PyObject *self, PyObject *page);

/* What servers and clients have in common: methods, a property, and slots of the class. */
PyObject *core_take(PyObject *self, PyObject *data);
PyObject *core_next_frame(PyObject *self, PyObject *unused);
PyObject *core_frames(PyObject *self, PyObject *unused);
PyObject *core_again(PyObject *self, PyObject *unused);
PyObject *core_close(PyObject *self, PyObject *unused);
PyObject *core_enter(PyObject *self, PyObject *unused);
PyObject *core_get_limits(PyObject *self, void *unused);
int core_traverse(PyObject *self, visitproc visit, void *arg);
void core_dealloc(PyObject *self);

#define CORE_PARTY_METHODS                                                                         \
  {"take", core_take, METH_O,                                                                      \
   "take($self, data, /)\n--\n\n"                                                                  \
   "Takes the frame that the bytes begin with; how many bytes it has."},                           \
      {"next_frame", core_next_frame, METH_NOARGS,                                                 \
       "next_frame($self, /)\n--\n\nFetches the oldest frame that was said; None once all are."},  \
      {"frames", core_frames, METH_NOARGS,                                                         \
       "frames($self, /)\n--\n\nFetches what was said, the oldest first."},                        \
      {"again", core_again, METH_NOARGS,                                                           \
       "again($self, /)\n--\n\nWhat may be lost is said again."},                                  \
      {"close", core_close, METH_NOARGS,                                                           \
       "close($self, /)\n--\n\nLets the object go; every later call is refused."},                 \
      {"__enter__", core_enter, METH_NOARGS, NULL}, {"__exit__", core_close, METH_VARARGS, NULL}

#define CORE_PARTY_PROPERTIES                                                                      \
  { "limits", core_get_limits, NULL, "The limits that it was made with.", NULL }

#endif
