#include "outgoing.h"

bool outgoing_put(struct outgoing *out, const void *bytes, size_t count) {
  return bytes_put(&out->waiting, bytes, count);
}

static void written(uv_write_t *request, int status) {
  struct outgoing *out = request->data;
  out->is_flying = false;
  bytes_cut(&out->flying, out->flying.size);
  if (status != UV_ECANCELED) {
    out->moved(out, status);
  }
}

/* Hands what waits to libuv. */
static void fly(struct outgoing *out) {
  struct bytes empty = out->flying;
  out->flying = out->waiting;
  out->waiting = empty;
  uv_buf_t buffer = {.base = (char *)out->flying.at, .len = out->flying.size};
  out->request.data = out;
  out->is_flying = true;
  int fault = uv_write(&out->request, out->stream, &buffer, 1, written);
  if (fault != 0) {
    written(&out->request, fault);
  }
}

void outgoing_send(struct outgoing *out) {
  if (out->is_flying || out->waiting.size == 0 || uv_is_closing((uv_handle_t *)out->stream)) {
    return;
  }
  uv_buf_t buffer = {.base = (char *)out->waiting.at, .len = out->waiting.size};
  int sent = uv_try_write(out->stream, &buffer, 1);
  if (sent < 0 && sent != UV_EAGAIN) {
    bytes_cut(&out->waiting, out->waiting.size);
    out->moved(out, sent);
    return;
  }
  if (sent > 0) {
    bytes_cut(&out->waiting, (size_t)sent);
  }
  if (out->waiting.size > 0) {
    fly(out);
  }
}

size_t outgoing_size(const struct outgoing *out) { return out->waiting.size + out->flying.size; }

void outgoing_free(struct outgoing *out) {
  bytes_free(&out->waiting);
  bytes_free(&out->flying);
}
