#include "stream.h"

#include <string.h>

enum { KIND_AT = 1, CLIENT_AT = 2, INCARNATION_AT = 4, BODY_AT = 12 };
enum { HEADER = 16, GRANTED_HEAD = 24, MOST_CLIENTS = 32 };

/* Hellos from here on are let go: with them one client could leave no number for later lives. */
static const uint64_t MOST_INCARNATION = (UINT64_C(1) << 61) + (UINT64_C(1) << 60);

/* What the first bytes of a stream are. */
enum piece {
  PART,        /* less than a whole piece */
  FRAME,       /* a frame that is taken */
  AGAIN,       /* the header by which is said again what may be lost */
  UNREAD,      /* as many bytes as their header says, but no frame */
  LET_GO,      /* a frame at the bound or above it that makes no room for itself */
  UNBOUNDED,   /* a Hello for which the bound has to be raised first */
  NO_HEADER    /* a header that no frame has */
};

/* Whether this is told of a header by itself: then no frame has it. */
static bool is_of_header(uint32_t fault) {
  return fault == RUGHVADI_FRAME_VERSION || fault == RUGHVADI_FRAME_KIND
         || fault == RUGHVADI_FRAME_LENGTH;
}

/* What a whole piece is, of whose incarnation the server isn't to hear as the bound stands. */
static enum piece outside(const struct stream *stream, const uint8_t *bytes, size_t size) {
  rughvadi_frame_head head;
  if (rughvadi_frame_read(&stream->limits, bytes, size, &head) != RUGHVADI_DONE) {
    return UNREAD;
  }
  bool leaves_some = head.incarnation < MOST_INCARNATION;
  return leaves_some && head.kind == RUGHVADI_KIND_HELLO ? UNBOUNDED : LET_GO;
}

/* What the bytes begin with, and how many bytes it has. */
static enum piece front_of(const struct stream *stream, const uint8_t *bytes, size_t left,
                           size_t *size) {
  static const uint8_t again[HEADER] = {2};
  *size = HEADER;
  if (left < HEADER) {
    return PART;
  }
  if (memcmp(bytes, again, HEADER) == 0) {
    return AGAIN;
  }
  rughvadi_frame_head head;
  if (is_of_header(rughvadi_frame_read(&stream->limits, bytes, HEADER, &head))) {
    return NO_HEADER;
  }
  *size = HEADER + (size_t)number_at(bytes + BODY_AT, 4);
  if (left < *size) {
    return PART;
  }
  return number_at(bytes + INCARNATION_AT, 8) < stream->life.below ? FRAME
                                                                   : outside(stream, bytes, *size);
}

/* Fetches all that the server said, behind what waits to be put out. */
static enum fault fetch(struct stream *stream) {
  struct bytes *out = &stream->out;
  size_t most = HEADER + GRANTED_HEAD + (size_t)stream->limits.page_size;
  for (;;) {
    size_t size = 0;
    uint32_t client;
    if (!bytes_reserve(out, most)) {
      return FAULT_MEMORY;
    }
    uint32_t fault =
        rughvadi_next(&stream->server, out->at + out->size, out->room - out->size, &size, &client);
    if (fault == RUGHVADI_NOTHING) {
      return NO_FAULT;
    }
    if (fault != RUGHVADI_DONE) {
      return fault_of(fault);
    }
    out->size += size;
  }
}

/* Takes a frame, or what only looked like one. */
static enum fault take_frame(struct stream *stream, const uint8_t *bytes, size_t size) {
  size_t used;
  uint32_t fault = rughvadi_take(&stream->server, bytes, size, &used);
  if (fault >= RUGHVADI_FRAME_SHORT && fault <= RUGHVADI_FRAME_ORDER) {
    stream->passed_over++;
    return NO_FAULT;
  }
  if (fault != RUGHVADI_DONE) {
    return fault_of(fault);
  }
  uint32_t client = (uint32_t)number_at(bytes + CLIENT_AT, 2);
  if (bytes[KIND_AT] == RUGHVADI_KIND_COMMIT) {
    pace_commit(&stream->pace, client);
  } else if (bytes[KIND_AT] == RUGHVADI_KIND_HELLO) {
    pace_leave(&stream->pace, client);
  }
  return fetch(stream);
}

static enum fault say_again(struct stream *stream) {
  uint32_t fault = rughvadi_again(&stream->server);
  return fault == RUGHVADI_DONE ? fetch(stream) : fault_of(fault);
}

/* Whether a Hello of the frame's client is held. */
static bool waits(const struct stream *stream, const uint8_t *frame) {
  uint64_t client = number_at(frame + CLIENT_AT, 2);
  return client < MOST_CLIENTS && (stream->waiting >> client & 1) != 0;
}

/* Holds a frame behind those that are held. */
static enum fault hold(struct stream *stream, const uint8_t *frame, size_t size) {
  return bytes_put(&stream->held, frame, size) ? NO_FAULT : FAULT_MEMORY;
}

/* Holds a Hello, and with it what its client says, until the bound is above it. */
static enum fault hold_hello(struct stream *stream, const uint8_t *frame, size_t size) {
  uint64_t wanted = number_at(frame + INCARNATION_AT, 8) + LIFE_ROOM;
  stream->waiting |= UINT32_C(1) << number_at(frame + CLIENT_AT, 2);
  stream->wanted = wanted > stream->wanted ? wanted : stream->wanted;
  return hold(stream, frame, size);
}

/* What was held is taken next, before what came since. */
static enum fault release(struct stream *stream) {
  struct bytes held = stream->held;
  if (!bytes_put(&held, stream->in.at, stream->in.size)) {
    return FAULT_MEMORY;
  }
  stream->held = stream->in;
  stream->held.size = 0;
  stream->in = held;
  stream->waiting = 0;
  stream->wanted = 0;
  return NO_FAULT;
}

/* Takes the first piece of these bytes; 0 is how many it has where there is none. */
static enum fault take_piece(struct stream *stream, const uint8_t *bytes, size_t left,
                             size_t *used) {
  switch (front_of(stream, bytes, left, used)) {
    case FRAME:
      return waits(stream, bytes) ? hold(stream, bytes, *used) : take_frame(stream, bytes, *used);
    case LET_GO: return waits(stream, bytes) ? hold(stream, bytes, *used) : NO_FAULT;
    case UNBOUNDED: return hold_hello(stream, bytes, *used);
    case AGAIN: return say_again(stream);
    case UNREAD: stream->passed_over++; return NO_FAULT;
    case NO_HEADER: stream->has_ended = true; break;
    case PART: break;
  }
  *used = 0;
  return NO_FAULT;
}

/* Takes bytes from the front. The room stays, since as much is read again. */
static void cut_front(struct bytes *in, size_t count) {
  in->size -= count;
  if (in->size > 0 && count > 0) {
    memmove(in->at, in->at + count, in->size);
  }
}

enum fault stream_take(struct stream *stream) {
  size_t at = 0, used = 1;
  enum fault fault = NO_FAULT;
  while (fault == NO_FAULT && used > 0) {
    fault = take_piece(stream, stream->in.at + at, stream->in.size - at, &used);
    at += used;
  }
  if (fault == NO_FAULT) {
    cut_front(&stream->in, at);
  }
  return fault;
}

/* Copies the pages of the batch that the server has made. */
static enum fault copy_pages(struct stream *stream, struct batch *batch) {
  size_t page_size = (size_t)stream->limits.page_size;
  batch->bodies.size = 0;
  if (!bytes_reserve(&batch->bodies, batch->pages * page_size)) {
    return FAULT_MEMORY;
  }
  for (size_t at = 0; at < batch->pages; at++) {
    struct page *page = &batch->page[at];
    uint32_t fault =
        rughvadi_server_page(&stream->server, at, batch->bodies.at + batch->bodies.size, page_size,
                             &page->no, &page->version);
    if (fault != RUGHVADI_DONE) {
      return fault_of(fault);
    }
    batch->bodies.size += page_size;
  }
  return NO_FAULT;
}

enum fault stream_batch(struct stream *stream, struct batch *batch, bool *is_there) {
  uint64_t last = batch->number;
  batch->pages = 0;
  batch->below = stream->wanted > 0 ? stream->wanted : stream->life.below;
  uint32_t fault = rughvadi_server_batch(&stream->server, &batch->number, &batch->pages);
  if (fault == RUGHVADI_NOTHING) {
    batch->number = last;
    *is_there = stream->wanted > 0;
    return NO_FAULT;
  }
  *is_there = fault == RUGHVADI_DONE;
  return fault == RUGHVADI_DONE ? copy_pages(stream, batch) : fault_of(fault);
}

enum fault stream_written(struct stream *stream, const struct batch *batch) {
  stream->life.below = batch->below;
  if (stream->wanted > 0 && batch->below >= stream->wanted) {
    enum fault fault = release(stream);
    if (fault != NO_FAULT) {
      return fault;
    }
  }
  if (!rughvadi_server_can_flush(&stream->server, batch->number)) {
    return NO_FAULT; /* it had no commit */
  }
  uint32_t fault = rughvadi_server_flushed(&stream->server, batch->number);
  if (fault == RUGHVADI_DONE) {
    fault = rughvadi_server_forget(&stream->server, batch->number);
  }
  return fault == RUGHVADI_DONE ? fetch(stream) : fault_of(fault);
}

void stream_free(struct stream *stream) {
  rughvadi_free(&stream->server);
  bytes_free(&stream->in);
  bytes_free(&stream->held);
  bytes_free(&stream->out);
}
