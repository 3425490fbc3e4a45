#include "gather.h"

#include "frame.h"

#include <sys/timerfd.h>
#include <unistd.h>

/* After waits in vain, one after another, nobody is waited for: for 0, 2, 6 and 14 batches. */
enum { SKIPS_MOST = 15 };

/* Nanoseconds. For so long others are waited for at most, however long a batch takes. */
static const uint64_t WAIT_MOST = 10000000;

/* For so long commits that are out may stay without an answer before the next go: one that the
 * server ignores is never answered. */
static const uint64_t UNANSWERED = 20000000;

static void arm(struct gather *gather, uint64_t nanoseconds) {
  struct itimerspec time = {.it_value = {.tv_sec = (time_t)(nanoseconds / 1000000000),
                                         .tv_nsec = (long)(nanoseconds % 1000000000)}};
  gather->is_armed = timerfd_settime(gather->clock, 0, &time, NULL) == 0;
}

/* So long they may be out. */
static uint64_t unanswered(const struct gather *gather) { return UNANSWERED + 4 * gather->took; }

static uint32_t bit_of(const uint8_t *frame) {
  return UINT32_C(1) << header_at(frame).client % MOST_CLIENTS;
}

/* Commits that go together: their bytes, how many they are and whose; and whose the others are. */
struct first {
  size_t size;
  unsigned count;
  uint32_t whose, others;
};

/* The first ones, as many as are read at once. */
static struct first first_ones(const struct gather *gather) {
  struct first first = {0};
  for (size_t at = 0; at < gather->held.size;) {
    const uint8_t *frame = gather->held.at + at;
    size_t length = HEADER + (size_t)header_at(frame).body;
    if (first.size == at && (at == 0 || at + length <= ROUND)) {
      first.size += length;
      first.whose |= bit_of(frame);
      first.count++;
    } else {
      first.others |= bit_of(frame);
    }
    at += length;
  }
  return first;
}

/* Sends the first ones; false where none wait, or memory was refused. */
static bool send_first(struct gather *gather) {
  struct first first = first_ones(gather);
  if (first.count == 0 || !gather->send(gather->owner, gather->held.at, first.size)) {
    return false;
  }
  bytes_cut(&gather->held, first.size);
  gather->count -= first.count;
  gather->waiting = first.others;
  gather->former = gather->newest;
  gather->newest = first.whose;
  gather->is_out = true;
  gather->sent = uv_hrtime();
  arm(gather, unanswered(gather));
  return true;
}

void gather_send_all(struct gather *gather) {
  while (send_first(gather)) {
  }
}

/* How long the next may be waited for from now on: no longer than each of those that wait costs; 0
 * where the time is over. */
static uint64_t patience(const struct gather *gather) {
  uint64_t most = gather->took / 2 < WAIT_MOST ? gather->took / 2 : WAIT_MOST;
  uint64_t waited = uv_hrtime() - gather->answered;
  if (waited >= most) {
    return 0;
  }
  uint64_t each = (gather->took + waited) / gather->count;
  return each < most - waited ? each : most - waited;
}

/* The wait for others is over. */
static void end_wait(struct gather *gather) {
  bool in_vain = gather->count == gather->before;
  unsigned more = 2 * gather->pause + 1;
  gather->pause = !in_vain ? 0 : more < SKIPS_MOST ? more : SKIPS_MOST;
  gather->skips = gather->pause;
  gather->is_armed = false;
}

/* Sends those that wait, or waits for others. */
static void look(struct gather *gather) {
  if (gather->count == 0 || gather->is_out) {
    return;
  }
  uint32_t missing = (gather->newest | gather->former) & ~gather->waiting;
  bool is_full = gather->held.size + gather->last > ROUND;
  bool waits = missing != 0 && !is_full && gather->skips == 0 && gather->clock >= 0;
  uint64_t time = waits ? patience(gather) : 0;
  if (time > 0) {
    gather->before = gather->is_armed ? gather->before : gather->count;
    arm(gather, time);
    return;
  }
  if (gather->is_armed) {
    end_wait(gather);
  }
  send_first(gather);
}

bool gather_put(struct gather *gather, const uint8_t *frame, size_t size) {
  if (!bytes_put(&gather->held, frame, size)) {
    return false;
  }
  gather->count++;
  gather->waiting |= bit_of(frame);
  gather->last = size;
  look(gather);
  return true;
}

void gather_answered(struct gather *gather) {
  if (!gather->is_out) {
    return;
  }
  gather->is_out = false;
  gather->is_armed = false;
  gather->answered = uv_hrtime();
  gather->took = gather->answered - gather->sent;
  gather->skips -= gather->skips > 0;
  look(gather);
}

void gather_leave(struct gather *gather, uint16_t client) {
  uint32_t others = ~(UINT32_C(1) << client % MOST_CLIENTS);
  gather->newest &= others;
  gather->former &= others;
  look(gather);
}

/* The time is over. */
/* NOLINTNEXTLINE(bugprone-easily-swappable-parameters): the form is libuv's */
static void is_time(uv_poll_t *poll, int status, int events) {
  struct gather *gather = poll->data;
  uint64_t times;
  (void)status;
  (void)events;
  if (read(gather->clock, &times, sizeof times) != sizeof times || !gather->is_armed) {
    return;
  }
  if (gather->is_out) {
    gather->is_out = false;
    gather->is_armed = false;
  } else {
    end_wait(gather);
  }
  send_first(gather);
}

void gather_tick(struct gather *gather) {
  if (gather->clock < 0 && gather->is_out && uv_hrtime() - gather->sent > unanswered(gather)) {
    gather->is_out = false;
    send_first(gather);
  }
}

void gather_begin(struct gather *gather, uv_loop_t *loop) {
  gather->clock = timerfd_create(CLOCK_MONOTONIC, TFD_NONBLOCK | TFD_CLOEXEC);
  if (gather->clock >= 0 && uv_poll_init(loop, &gather->poll, gather->clock) != 0) {
    close(gather->clock);
    gather->clock = -1;
  }
  if (gather->clock >= 0) {
    gather->poll.data = gather;
    uv_poll_start(&gather->poll, UV_READABLE, is_time);
  }
}

void gather_clear(struct gather *gather) {
  bytes_free(&gather->held);
  gather->count = gather->skips = gather->pause = 0;
  gather->waiting = gather->newest = gather->former = 0;
  gather->is_out = gather->is_armed = false;
  gather->took = 0;
}
