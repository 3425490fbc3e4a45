/* The loop: frames of all clients come on the standard input, what the library's server says goes
 * to the standard output, and batches go to the engine.
 *
 * Two threads do that, and either does all of it. The one that finds a batch writes it itself, and
 * the other takes frames meanwhile. So nobody's read waits for a disk, and no batch waits until
 * another thread has woken up. */
#ifndef SERVE_SERVICE_H
#define SERVE_SERVICE_H

#include "stream.h"

#include <pthread.h>

struct service {
  struct settings settings;
  struct stream stream;
  struct engine *engine;
  struct batch batch;   /* the last one, with room for a store's pages */
  pthread_mutex_t lock; /* under it is all of this, but for the engine and a batch that is out */
  int watch;            /* an epoll of the input, and of the next two */
  int clock;            /* a timerfd */
  int over;             /* an eventfd: readable once nothing is left to do */
  bool is_plain;        /* the input can't be watched, since its bytes are always there */
  bool is_ready;        /* it has bytes, or its end */
  bool is_watched;      /* one thread is told once it is ready */
  bool is_out;          /* a thread writes the batch */
  bool is_closed;       /* nothing more is read */
  bool is_over;         /* nothing is left to do */
  size_t ahead;         /* bytes that came since the batch went out */
  uint64_t patience;    /* nanoseconds for which the next batch waits for others; 0: for none */
  uint64_t beat;        /* when the engine is to be written to, if it has a beat */
  enum fault ending;    /* how it ends */
};

/* Serves until the input ends, or something fails, over an engine whose life has begun; how it
 * ended. Where a batch is out then, the process ends here: that may take long, and nobody is told
 * of it. */
enum fault service_run(struct service *service);

/* Says how it ended, and answers the status. */
int service_said(const struct service *service, enum fault fault);

#endif
