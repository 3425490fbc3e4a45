/* The module `rughvadi._core`: the library's calls for Python. */
#include "core.h"

PyObject *core_refuse(const core_state *state, uint32_t fault) {
  uint8_t text[64];
  size_t size = 0;
  if (rughvadi_fault_text(fault, text, sizeof text, &size) != RUGHVADI_DONE) {
    size = 0;
  }
  PyObject *error = PyObject_CallFunction(state->fault_of, "Is#", fault, (const char *)text,
                                          (Py_ssize_t)size);
  if (error != NULL) {
    PyErr_SetObject((PyObject *)Py_TYPE(error), error);
    Py_DECREF(error);
  }
  return NULL;
}

static PyObject *read_frame(PyObject *module, PyObject *args) {
  core_state *state = PyModule_GetState(module);
  PyObject *limits;
  rughvadi_limits numbers;
  Py_buffer view;
  if (!PyArg_ParseTuple(args, "Oy*:read_frame", &limits, &view)) {
    return NULL;
  }
  if (!core_limits(state, limits, &numbers)) {
    PyBuffer_Release(&view);
    return NULL;
  }
  rughvadi_frame_head head;
  uint32_t fault = rughvadi_frame_read(&numbers, core_bytes(&view), (size_t)view.len, &head);
  PyBuffer_Release(&view);
  if (fault != RUGHVADI_DONE) {
    return core_refuse(state, fault);
  }
  return PyObject_CallFunction(state->frame_head, "KIIK", (unsigned long long)head.length,
                               head.client, head.kind, (unsigned long long)head.incarnation);
}

static PyObject *version(PyObject *module, PyObject *unused) {
  (void)module;
  (void)unused;
  return PyLong_FromUnsignedLong(rughvadi_version());
}

static PyMethodDef functions[] = {
    {"read_frame", read_frame, METH_VARARGS,
     "read_frame($module, limits, data, /)\n--\n\n"
     "Reads the frame at the front of the bytes. `FrameShort` if more bytes are needed."},
    {"version", version, METH_NOARGS,
     "version($module, /)\n--\n\nThe version of the library's interface."},
    {NULL, NULL, 0, NULL}};

/* Makes a class of the module, which the state keeps. */
static bool add_class(PyObject *module, PyType_Spec *spec, PyTypeObject **class) {
  *class = (PyTypeObject *)PyType_FromModuleAndSpec(module, spec, NULL);
  return *class != NULL && PyModule_AddType(module, *class) == 0;
}

static bool add_classes(PyObject *module, core_state *state) {
  return add_class(module, &core_client_spec, &state->client)
         && add_class(module, &core_server_spec, &state->server)
         && add_class(module, &core_wire_spec, &state->wire)
         && add_class(module, &core_transaction_spec, &state->transaction);
}

/* A name of a module of the package. */
static PyObject *of_package(const char *module, const char *name) {
  PyObject *its = PyImport_ImportModule(module);
  if (its == NULL) {
    return NULL;
  }
  PyObject *found = PyObject_GetAttrString(its, name);
  Py_DECREF(its);
  return found;
}

static int made(PyObject *module) {
  core_state *state = PyModule_GetState(module);
  if (rughvadi_version() != RUGHVADI_VERSION) {
    PyErr_Format(PyExc_ImportError, "the library has version %u, and not %d", rughvadi_version(),
                 RUGHVADI_VERSION);
    return -1;
  }
  struct {
    PyObject **to;
    const char *module, *name;
  } parts[] = {
      {&state->limits, "rughvadi._values", "Limits"},
      {&state->frame, "rughvadi._values", "Frame"},
      {&state->frame_head, "rughvadi._values", "FrameHead"},
      {&state->batch, "rughvadi._values", "Batch"},
      {&state->batch_page, "rughvadi._values", "BatchPage"},
      {&state->statuses, "rughvadi._values", "STATUSES"},
      {&state->endings, "rughvadi._values", "ENDINGS"},
      {&state->fault, "rughvadi._faults", "Fault"},
      {&state->fault_of, "rughvadi._faults", "fault_of"},
  };
  for (size_t at = 0; at < sizeof parts / sizeof *parts; at++) {
    if ((*parts[at].to = of_package(parts[at].module, parts[at].name)) == NULL) {
      return -1;
    }
  }
  return add_classes(module, state) ? 0 : -1;
}

static int traverse(PyObject *module, visitproc visit, void *arg) {
  core_state *state = PyModule_GetState(module);
  Py_VISIT(state->limits);
  Py_VISIT(state->frame);
  Py_VISIT(state->frame_head);
  Py_VISIT(state->batch);
  Py_VISIT(state->batch_page);
  Py_VISIT(state->statuses);
  Py_VISIT(state->endings);
  Py_VISIT(state->fault);
  Py_VISIT(state->fault_of);
  Py_VISIT(state->client);
  Py_VISIT(state->server);
  Py_VISIT(state->wire);
  Py_VISIT(state->transaction);
  return 0;
}

static int clear(PyObject *module) {
  core_state *state = PyModule_GetState(module);
  Py_CLEAR(state->limits);
  Py_CLEAR(state->frame);
  Py_CLEAR(state->frame_head);
  Py_CLEAR(state->batch);
  Py_CLEAR(state->batch_page);
  Py_CLEAR(state->statuses);
  Py_CLEAR(state->endings);
  Py_CLEAR(state->fault);
  Py_CLEAR(state->fault_of);
  Py_CLEAR(state->client);
  Py_CLEAR(state->server);
  Py_CLEAR(state->wire);
  Py_CLEAR(state->transaction);
  return 0;
}

static void let_go(void *module) { clear(module); }

static PyModuleDef_Slot slots[] = {
    {Py_mod_exec, made},
#ifdef Py_mod_gil
    /* An interpreter that can do without its lock takes it where this module is imported. */
    {Py_mod_gil, Py_MOD_GIL_USED},
#endif
    {0, NULL}};

static PyModuleDef definition = {
    .m_base = PyModuleDef_HEAD_INIT,
    .m_name = "rughvadi._core",
    .m_doc = "The library's calls.",
    .m_size = sizeof(core_state),
    .m_methods = functions,
    .m_slots = slots,
    .m_traverse = traverse,
    .m_clear = clear,
    .m_free = let_go};

PyMODINIT_FUNC PyInit__core(void) { return PyModuleDef_Init(&definition); }
