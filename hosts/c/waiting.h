/* Waiting on a socket until a moment, for the link and for connecting. It isn't installed. */
#ifndef RUGHVADI_WAITING_H
#define RUGHVADI_WAITING_H

#include <errno.h>
#include <poll.h>
#include <stdint.h>
#include <time.h>

/* Nanoseconds of a clock that nobody sets. */
typedef int64_t moment;

#define NEVER INT64_MAX

static inline moment now(void) {
  struct timespec time;
  clock_gettime(CLOCK_MONOTONIC, &time);
  return (moment)time.tv_sec * 1000000000 + time.tv_nsec;
}

/* So many milliseconds from now; below 0, and later than the clock can show: never. */
static inline moment in_ms(int64_t wait_ms) {
  return wait_ms < 0 || wait_ms > NEVER / 2000000 ? NEVER : now() + wait_ms * 1000000;
}

/* How long it is until then: 0 if that moment has passed. */
static inline struct timespec left_until(moment until) {
  moment left = until - now();
  left = left < 0 ? 0 : left;
  return (struct timespec){.tv_sec = left / 1000000000, .tv_nsec = left % 1000000000};
}

/* Waits for what is watched for. Above 0 if it is there, 0 if the moment passed or a signal came,
 * below 0 if the system refused: errno says how. */
static inline int watch(struct pollfd *watched, moment until) {
  struct timespec left = left_until(until);
  int ready = ppoll(watched, 1, until == NEVER ? NULL : &left, NULL);
  return ready < 0 && errno == EINTR ? 0 : ready;
}

/* The same, and a signal ends no wait. */
static inline int watch_on(struct pollfd *watched, moment until) {
  int ready = watch(watched, until);
  while (ready == 0 && now() < until) {
    ready = watch(watched, until);
  }
  return ready;
}

#endif
