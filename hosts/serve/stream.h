/* The core: frames that come are cut and taken by the library's server, and what it says is
 * gathered to be put out. It does no input or output. docs/FORMATS.md has its rules. */
#ifndef SERVE_STREAM_H
#define SERVE_STREAM_H

#include "engine.h"
#include "pace.h"

struct stream {
  rughvadi_limits limits;
  rughvadi_handle server;
  struct life life;
  struct pace pace;
  struct bytes in;      /* what came and isn't taken */
  struct bytes held;    /* frames of clients whose Hello waits for a higher bound */
  uint32_t waiting;     /* those clients, a bit for each */
  struct bytes out;     /* what was said and isn't put out */
  uint64_t passed_over; /* how many pieces were no frames */
  uint64_t wanted;      /* what the bound is to be for them; 0: none waits */
  bool has_ended;       /* what comes next is a header that no frame has */
};

/* Takes each whole piece of what came. A Hello for which the bound has to be raised is held, with
 * all that its client says behind it; other clients' frames go by. */
enum fault stream_take(struct stream *stream);

/* Makes the next batch; without pages, and of the number that was last, where only the bound is to
 * be raised. *is_there tells whether there is one. */
enum fault stream_batch(struct stream *stream, struct batch *batch, bool *is_there);

/* The batch is on disk: its commits are answered, and its bound is the life's. */
enum fault stream_written(struct stream *stream, const struct batch *batch);

void stream_free(struct stream *stream);

#endif
