/* What servers and clients have in common. */
#include "core.h"

#include <string.h>

/* Short frames have fewer bytes than this; longer ones carry pages. */
enum { SHORT_FRAME = 64 };

PyObject *core_none_or(PyObject *self, uint32_t fault) {
  return fault == RUGHVADI_DONE ? Py_NewRef(Py_None) : core_refuse(core_state_of(self), fault);
}

bool core_number(PyObject *value, unsigned bits, uint64_t *number) {
  PyObject *whole = PyNumber_Index(value);
  if (whole == NULL) {
    return false;
  }
  unsigned long long found = PyLong_AsUnsignedLongLong(whole);
  Py_DECREF(whole);
  if (PyErr_Occurred()) {
    if (!PyErr_ExceptionMatches(PyExc_OverflowError)) {
      return false;
    }
    PyErr_Clear();
  } else if (bits == 64 || found >> bits == 0) {
    *number = found;
    return true;
  }
  PyErr_Format(PyExc_ValueError, "%S is out of range", value);
  return false;
}

bool core_limits(const core_state *state, PyObject *limits, rughvadi_limits *numbers) {
  int right = PyObject_IsInstance(limits, state->limits);
  if (right <= 0) {
    if (right == 0) {
      PyErr_SetString(PyExc_TypeError, "the limits are to be a rughvadi.Limits");
    }
    return false;
  }
  /* It has them as this struct has them. */
  PyObject *packed = PyObject_GetAttrString(limits, "_packed");
  if (packed == NULL) {
    return false;
  }
  char *bytes;
  Py_ssize_t size;
  right = PyBytes_AsStringAndSize(packed, &bytes, &size) == 0;
  if (right && size != (Py_ssize_t)sizeof *numbers) {
    PyErr_SetString(PyExc_TypeError, "the limits aren't of this version");
    right = 0;
  }
  if (right) {
    memcpy(numbers, bytes, sizeof *numbers);
  }
  Py_DECREF(packed);
  return right != 0;
}

party *core_new_party(PyTypeObject *class, PyObject *limits, rughvadi_limits *numbers) {
  core_state *state = PyType_GetModuleState(class);
  if (state == NULL || !core_limits(state, limits, numbers)) {
    return NULL;
  }
  party *it = (party *)PyType_GenericAlloc(class, 0);
  if (it != NULL) {
    it->handle = (rughvadi_handle)RUGHVADI_EMPTY;
    it->limits = Py_NewRef(limits);
    /* Of no use where it is out of range: no object is made then. */
    it->page_size = (Py_ssize_t)(numbers->page_size & 0xfffff);
  }
  return it;
}

int core_traverse(PyObject *self, visitproc visit, void *arg) {
  Py_VISIT(Py_TYPE(self));
  Py_VISIT(((party *)self)->limits);
  return 0;
}

void core_dealloc(PyObject *self) {
  PyTypeObject *class = Py_TYPE(self);
  PyObject_GC_UnTrack(self);
  rughvadi_free(&((party *)self)->handle);
  Py_CLEAR(((party *)self)->limits);
  PyObject_GC_Del(self);
  Py_DECREF(class);
}

PyObject *core_get_limits(PyObject *self, void *unused) {
  (void)unused;
  return Py_NewRef(((party *)self)->limits);
}

PyObject *core_take(PyObject *self, PyObject *data) {
  Py_buffer view;
  if (PyObject_GetBuffer(data, &view, PyBUF_SIMPLE) < 0) {
    return NULL;
  }
  size_t used = 0;
  uint32_t fault =
      rughvadi_take(&((party *)self)->handle, core_bytes(&view), (size_t)view.len, &used);
  PyBuffer_Release(&view);
  return fault == RUGHVADI_DONE ? PyLong_FromSize_t(used)
                                : core_refuse(core_state_of(self), fault);
}

PyObject *core_fetched(PyObject *self, uint32_t *client) {
  rughvadi_handle *handle = &((party *)self)->handle;
  uint8_t small[SHORT_FRAME], *room;
  size_t size = 0;
  uint32_t fault = rughvadi_next(handle, small, sizeof small, &size, client);
  if (fault == RUGHVADI_DONE) {
    return PyBytes_FromStringAndSize((const char *)small, (Py_ssize_t)size);
  }
  if (fault == RUGHVADI_NOTHING) {
    return NULL;
  }
  if (fault != RUGHVADI_ROOM) {
    return core_refuse(core_state_of(self), fault);
  }
  PyObject *bytes = core_room((Py_ssize_t)size, &room);
  if (bytes != NULL && (fault = rughvadi_next(handle, room, size, &size, client))) {
    Py_CLEAR(bytes);
    core_refuse(core_state_of(self), fault);
  }
  return bytes;
}

PyObject *core_next_frame(PyObject *self, PyObject *unused) {
  (void)unused;
  uint32_t client = 0;
  PyObject *bytes = core_fetched(self, &client);
  if (bytes == NULL) {
    return PyErr_Occurred() ? NULL : Py_NewRef(Py_None);
  }
  return PyObject_CallFunction(core_state_of(self)->frame, "IN", client, bytes);
}

PyObject *core_frames(PyObject *self, PyObject *unused) {
  (void)unused;
  PyObject *next = PyObject_GetAttrString(self, "next_frame");
  if (next == NULL) {
    return NULL;
  }
  PyObject *frames = PyCallIter_New(next, Py_None);
  Py_DECREF(next);
  return frames;
}

PyObject *core_again(PyObject *self, PyObject *unused) {
  (void)unused;
  return core_none_or(self, rughvadi_again(&((party *)self)->handle));
}

PyObject *core_close(PyObject *self, PyObject *unused) {
  (void)unused;
  rughvadi_free(&((party *)self)->handle);
  return Py_NewRef(Py_None);
}

PyObject *core_enter(PyObject *self, PyObject *unused) {
  (void)unused;
  return Py_NewRef(self);
}
