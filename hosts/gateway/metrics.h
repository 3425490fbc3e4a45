/* What is counted of a store, and told in the text format of Prometheus. */
#ifndef GATEWAY_METRICS_H
#define GATEWAY_METRICS_H

#include "frame.h"

#include <uv.h>

enum { BUCKETS = 13 };

/* What came and went of a client, over all its connections. */
struct counts {
  bool is_seen; /* it was connected */
  uint64_t read_asks, write_asks, held_asks, read_grants, write_grants;
  uint64_t callbacks, aborts, commits, bytes_in, bytes_out;
  uint64_t committing,
      began;                /* the transaction of a Commit that isn't answered, and when it came */
  uint64_t within[BUCKETS]; /* how many commits took so long at most, each in one of them */
  uint64_t waited;          /* nanoseconds that all took */
};

struct metrics {
  struct counts of[MOST_CLIENTS];
  uint64_t starts; /* of its server */
};

/* A frame of a client came; or is held back. */
void metrics_take(struct metrics *metrics, const uint8_t *frame, size_t size);
void metrics_hold(struct metrics *metrics, const uint8_t *frame);

/* A frame goes to a client. */
void metrics_hear(struct metrics *metrics, const uint8_t *frame, size_t size);

/* The client is gone: its Commit isn't answered any more. */
void metrics_leave(struct metrics *metrics, uint16_t client);

struct gateway;

/* All of it as text; false where memory was refused. */
bool metrics_put(const struct gateway *gateway, struct bytes *text);

#endif
