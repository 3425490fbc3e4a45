/* Commits on their way to a server, handed on together: the server writes all that it reads at once
 * in one transaction, which takes one sync, or two where it is long. So no more go together than it
 * reads at once; one that is longer than that goes alone.
 *
 * While some are out the others wait. Once those are answered their clients will commit again in a
 * moment, and it pays to wait for them; but the server is idle meanwhile. So all who were in the
 * last two batches are waited for: for half as long as the last batch took at most, and ten
 * milliseconds; for the next commit no longer than each of those that wait costs (the time of the
 * last batch and of the wait, shared by them); and not for a while where nobody came. Other frames
 * don't pass through here. */
#ifndef GATEWAY_GATHER_H
#define GATEWAY_GATHER_H

#include "bytes.h"

#include <uv.h>

enum { ROUND = 1048576 }; /* bytes that `cb_play serve` reads at once */

struct gather {
  uv_poll_t poll;
  int clock;               /* a timer that counts nanoseconds; -1: none could be had */
  struct bytes held;       /* the commits that wait, */
  size_t last;             /* the bytes of the last that came, */
  unsigned count;          /* how many wait, */
  unsigned before;         /* and how many did as the wait for others began */
  uint32_t waiting;        /* whose commits wait, a bit for each client, */
  uint32_t newest, former; /* and whose were in the last batch, and in the one before */
  bool is_out;             /* the last batch isn't answered */
  bool is_armed;
  unsigned skips;          /* for so many batches nobody is waited for, */
  unsigned pause;          /* and for so many it was after the last wait that was in vain */
  uint64_t sent, answered; /* nanoseconds: when the last batch went, and when it was answered, */
  uint64_t took;           /* and how long the last that was answered took */
  bool (*send)(void *owner, const uint8_t *commits, size_t size);
  void *owner;
};

void gather_begin(struct gather *gather, uv_loop_t *loop);

/* Takes a commit; false where memory was refused. */
bool gather_put(struct gather *gather, const uint8_t *frame, size_t size);

/* The server answered commits: it is done with those that are out. */
void gather_answered(struct gather *gather);

/* That client won't commit again. */
void gather_leave(struct gather *gather, uint16_t client);

/* Where no clock could be had: looks whether those that are out were waited for long enough. */
void gather_tick(struct gather *gather);

/* All that wait go now. */
void gather_send_all(struct gather *gather);

/* Forgets all, as the server ends. */
void gather_clear(struct gather *gather);

#endif
