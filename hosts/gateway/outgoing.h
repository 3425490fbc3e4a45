/* What is to be sent on a stream: gathered, and written as the stream takes it. */
#ifndef GATEWAY_OUTGOING_H
#define GATEWAY_OUTGOING_H

#include "bytes.h"

#include <uv.h>

struct outgoing {
  uv_stream_t *stream;
  uv_write_t request;
  struct bytes waiting, flying; /* what isn't handed to libuv yet, and what is */
  bool is_flying;
  void (*moved)(struct outgoing *, int status); /* after a write, and where one fails */
  void *owner;
};

/* Puts bytes behind those that wait; false where memory was refused. */
bool outgoing_put(struct outgoing *out, const void *bytes, size_t count);

/* Writes what waits, as much as goes now, and the rest as the stream takes it. */
void outgoing_send(struct outgoing *out);

/* How many bytes aren't out yet. */
size_t outgoing_size(const struct outgoing *out);

/* Lets all bytes go: once the stream is closed. */
void outgoing_free(struct outgoing *out);

#endif
