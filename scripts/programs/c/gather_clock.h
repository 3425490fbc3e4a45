/* How commits go together, by the gateway's own code (gather.c), over a clock of the program's own:
 * the timer that the gateway set last is due at timer_at, and is_due is what it has called then.
 * Without a clock (is_clockless) it has its ticks alone. */
#ifndef GATHER_CLOCK_H
#define GATHER_CLOCK_H

#include <stdint.h>

static const uint64_t NEVER = UINT64_MAX;
static int is_clockless;
static uint64_t clock_now, timer_at;
static uint64_t model_hrtime(void);
static int model_settime(uint64_t nanoseconds);

#include <sys/timerfd.h>
#include <unistd.h>
#include <uv.h>
#define uv_hrtime model_hrtime
#define timerfd_create(clock, flags) (is_clockless ? -1 : 3)
#define timerfd_settime(fd, flags, time, old)                                                   \
  model_settime((uint64_t)(time)->it_value.tv_sec * 1000000000 + (uint64_t)(time)->it_value.tv_nsec)
#define uv_poll_init(loop, poll, fd) 0
#define uv_poll_start(poll, events, call) (is_due = (call))
#define read(fd, at, size) ((ssize_t)(*(at) = 1, sizeof *(at)))
#define close(fd) ((void)(fd))
static uv_poll_cb is_due;
#include "bytes.c"
#include "frame.c"
#include "gather.c"
#undef read

static uint64_t model_hrtime(void) { return clock_now; }

static int model_settime(uint64_t nanoseconds) {
  if (is_clockless) {
    return -1;
  }
  timer_at = clock_now + nanoseconds;
  return 0;
}

/* The time comes that the gateway set. */
static void go_on(struct gather *gather) {
  clock_now = timer_at;
  timer_at = NEVER;
  is_due(&gather->poll, 0, UV_READABLE);
}

#endif
