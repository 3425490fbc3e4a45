/* tries: rughvadi_link_run waits between the tries of a job, and takes what comes meanwhile. Its
 * bounds of tries and of time are kept, and nothing is left of what it gave up. */
#include "inside.h"

#include "../waiting.h"

#include <limits.h>

enum { MS = 1000000, ROUNDS = 300, TRIES = 12 };

static rughvadi_link link_of_ours;
static int calls;
static int64_t ended[TRIES], began[TRIES]; /* when a try ended, and when the job began */

/* A job that isn't done before its last try. */
static uint32_t count_calls(rughvadi_link *link, void *wanted) {
  uint8_t page[SIZE];
  began[calls % TRIES] = clock_ns;
  WANT(rughvadi_link_fetch(link, 1, page, SIZE));
  ended[calls % TRIES] = clock_ns;
  return ++calls == *(int *)wanted ? RUGHVADI_DONE : RUGHVADI_LINK_ABORTED;
}

static uint32_t run_within(int wanted, uint32_t tries, uint32_t time_ms) {
  uint64_t number;
  rughvadi_link_bound bound = {.tries = tries, .time_ms = time_ms};
  calls = 0;
  return rughvadi_link_run_within(&link_of_ours, count_calls, &wanted, &bound, &number);
}

static bool is_idle(const rughvadi_link *link) {
  return rughvadi_client_status(&link->client) == RUGHVADI_STATUS_IDLE;
}

/* No transaction is open: one can begin. */
static void hold_idle(void) {
  HOLD(is_idle(&link_of_ours));
  WANT(rughvadi_link_begin(&link_of_ours));
  WANT(rughvadi_link_drop(&link_of_ours));
}

static void bounds_of_tries(void) {
  for (int tries = 1; tries <= TRIES; tries++) {
    HOLD(run_within(-1, (uint32_t)tries, 0) == RUGHVADI_LINK_ABORTED && calls == tries);
    hold_idle();
    WANT(run_within(tries, (uint32_t)tries, 0));
    HOLD(calls == tries);
  }
}

static void bounds_of_time(void) {
  for (uint32_t time_ms = 1; time_ms <= ROUNDS; time_ms++) {
    int64_t end = clock_ns + (int64_t)time_ms * MS;
    HOLD(run_within(-1, 0, time_ms) == RUGHVADI_LINK_ABORTED && calls > 0);
    HOLD(began[(calls - 1) % TRIES] <= end && clock_ns <= end);
    hold_idle();
  }
}

/* The pauses are within their bounds, and spread over the longest one. */
static void pauses(void) {
  int64_t least = INT64_MAX, longest = 0;
  for (int round = 0; round < ROUNDS; round++) {
    uint64_t number;
    int wanted = TRIES;
    calls = 0;
    WANT(rughvadi_link_run(&link_of_ours, count_calls, &wanted, &number));
    HOLD(calls == TRIES);
    int64_t most = MS / 2;
    for (int at = 1; at < TRIES; at++) {
      int64_t pause = began[at] - ended[at - 1];
      HOLD(pause >= 0 && pause <= most);
      most = 2 * most < 100 * MS ? 2 * most : 100 * MS;
    }
    int64_t last = began[TRIES - 1] - ended[TRIES - 2];
    least = last < least ? last : least;
    longest = last > longest ? last : longest;
  }
  HOLD(least < 25 * MS && longest > 75 * MS);
}

/* ---- what comes meanwhile ---- */

static int waits;

/* As the first pause begins the other client wants to write a page; it may before that ends. */
static void want_in_pause(int64_t wait_ns) {
  (void)wait_ns;
  waits++;
  if (waits <= 2) {
    HOLD(is_idle(&link_of_ours));
    HOLD(rughvadi_client_may_write(&other, 1) == (waits == 2));
  }
  if (waits == 1) {
    other_wants(1);
  } else if (waits == 2) {
    other_drops();
  }
}

static void serves_meanwhile(void) {
  waits = 0;
  other_reads(1);
  on_wait = want_in_pause;
  WANT(run_within(TRIES, TRIES, 0));
  on_wait = NULL;
  HOLD(waits >= 2);
}

/* Waits are added to what the clock shows, and none ends before it begins. */
static void moments(void) {
  HOLD(in_ms(0) == clock_ns && in_ms(5) == clock_ns + 5 * MS);
  HOLD(in_ms(-1) == NEVER && in_ms(((int64_t)INT_MAX + 1) * INT_MAX) == NEVER);
}

int main(void) {
  moments();
  begin_inside();
  WANT(rughvadi_link_open(&link_of_ours, &limits, OURS, 1, ours));
  bounds_of_tries();
  bounds_of_time();
  pauses();
  serves_meanwhile();
  end_inside(&link_of_ours);
  printf("%d runs wait between tries, and keep to their bounds\n", ROUNDS);
  return 0;
}
