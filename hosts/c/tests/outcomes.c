/* outcomes: what calls of a link tell. The victim of a deadlock is told that it is one, and nobody
 * else. A page that left a small pool is fetched again before it is written. Where no answer comes
 * the link asks as often as it is to, and tells that then; the call may be made again. */
#include "inside.h"

enum { MS = 1000000, WAIT_MS = 70, TRIES = 3, LONG = 50, CALLS = 5 };

static rughvadi_link link_of_ours;
static uint8_t page[SIZE];

static uint32_t fetch(void) { return rughvadi_link_fetch(&link_of_ours, 3, page, SIZE); }
static uint32_t want(void) { return rughvadi_link_want(&link_of_ours, 1); }
static uint32_t put(void) { return rughvadi_link_put(&link_of_ours, 1, page, SIZE); }

static uint32_t commit(void) {
  uint64_t number;
  return rughvadi_link_commit(&link_of_ours, &number);
}

static uint32_t drop(void) { return rughvadi_link_drop(&link_of_ours); }

static uint32_t (*const calls[CALLS])(void) = {fetch, want, put, commit, drop};

static void open_with(const rughvadi_limits *own) {
  begin_inside();
  memset(counts, 0, sizeof counts);
  WANT(rughvadi_link_open(&link_of_ours, own, OURS, 1, ours));
  WANT(rughvadi_link_begin(&link_of_ours));
}

/* A transaction can begin and end. */
static void end_well(void) {
  WANT(rughvadi_link_begin(&link_of_ours));
  WANT(drop());
  end_inside(&link_of_ours);
}

/* ---- aborts ---- */

/* Both clients have read pages 1 and 2. */
static void open_both(void) {
  uint8_t room[SIZE];
  bool here = false;
  open_with(&limits);
  for (uint32_t at = 1; at <= 2; at++) {
    WANT(rughvadi_link_fetch(&link_of_ours, at, page, SIZE));
  }
  other_reads(1);
  WANT(rughvadi_client_read(&other, 2, room, SIZE, &here));
  pass_other();
}

/* The other one waits for the link, which then waits for it. */
static void abort_in(uint32_t (*call)(void)) {
  open_both();
  other_wants(1);
  WANT(rughvadi_link_serve(&link_of_ours, 0));
  HOLD(call() == RUGHVADI_LINK_ABORTED);
  other_drops();
  end_well();
}

/* The link has asked to write page 1, and is the victim as the other one wants page 2. It hears of
 * that before the call. */
static void abort_before(uint32_t (*call)(void)) {
  open_both();
  link_of_ours.wait_ms = link_of_ours.tries = 0;
  HOLD(want() == RUGHVADI_LINK_SILENT);
  other_wants(2);
  WANT(rughvadi_link_serve(&link_of_ours, 0));
  HOLD(call() == (call == drop ? RUGHVADI_DONE : RUGHVADI_LINK_ABORTED));
  HOLD(rughvadi_client_may_write(&other, 2));
  other_drops();
  end_well();
}

/* No transaction is open, and the last one was dropped. */
static void none_before(uint32_t (*call)(void)) {
  open_with(&limits);
  WANT(drop());
  HOLD(call() == RUGHVADI_NO_TRANSACTION);
  end_well();
}

/* ---- a small pool ---- */

/* Two slots, and three pages are read: the first one's bytes are gone as it is written. */
static void fetches_again(void) {
  rughvadi_limits few = limits;
  few.slots = few.kout = 2;
  open_with(&few);
  for (uint32_t at = 1; at <= 3; at++) {
    WANT(rughvadi_link_fetch(&link_of_ours, at, page, SIZE));
  }
  HOLD(counts[RUGHVADI_KIND_ASK_READ] == 3 && want() == RUGHVADI_NOT_HERE);
  memset(page, 0x5a, sizeof page);
  WANT(put());
  HOLD(counts[RUGHVADI_KIND_ASK_READ] == 4 && counts[RUGHVADI_KIND_ASK_WRITE] == 1);
  WANT(commit());
  uint8_t found[SIZE];
  bool here = false;
  other_reads(1);
  WANT(rughvadi_link_serve(&link_of_ours, 0));
  WANT(rughvadi_client_read(&other, 1, found, SIZE, &here));
  HOLD(here && memcmp(found, page, SIZE) == 0);
  other_drops();
  end_well();
}

/* ---- silence ---- */

static int waits;

static void count_waits(int64_t wait_ns) {
  HOLD(wait_ns == (int64_t)WAIT_MS * MS);
  waits++;
  is_lost = waits < LONG;
}

/* Nothing that is sent arrives: it is said again after each wait but the last one. */
static void asks_again(void) {
  open_with(&limits);
  link_of_ours.wait_ms = WAIT_MS;
  for (int tries = 0; tries <= TRIES; tries++) {
    int64_t began = clock_ns;
    uint32_t before = counts[RUGHVADI_KIND_ASK_READ];
    link_of_ours.tries = tries;
    is_lost = true;
    HOLD(fetch() == RUGHVADI_LINK_SILENT);
    HOLD(clock_ns - began == (int64_t)(tries + 1) * WAIT_MS * MS);
    HOLD(counts[RUGHVADI_KIND_ASK_READ] - before == (uint32_t)tries + (before == 0));
  }
  /* Without a bound it goes on until there is an answer. */
  link_of_ours.tries = -1;
  waits = 0;
  on_wait = count_waits;
  WANT(fetch());
  HOLD(waits > LONG);
  on_wait = NULL;
  WANT(drop());
  end_well();
}

/* A commit that no answer came to is waited for by the next call, and made once. */
static void commits_again(void) {
  uint64_t number = 0;
  open_with(&limits);
  WANT(rughvadi_link_fetch(&link_of_ours, 1, page, SIZE));
  WANT(put());
  link_of_ours.wait_ms = link_of_ours.tries = 0;
  is_lost = true;
  HOLD(commit() == RUGHVADI_LINK_SILENT && commit() == RUGHVADI_LINK_SILENT);
  is_lost = false;
  link_of_ours.tries = 1;
  WANT(rughvadi_link_commit(&link_of_ours, &number));
  HOLD(number == 1 && commit() == RUGHVADI_NO_TRANSACTION);
  end_well();
}

/* Nothing goes behind the commit itself. */
static ssize_t end_behind_commit(const uint8_t *bytes, size_t len, size_t before) {
  HOLD(before == 0 && len > 1);
  errno = EPIPE;
  return bytes[1] < RUGHVADI_KIND_DOWNGRADED ? (ssize_t)len : -1;
}

/* The other one waits for a page that the link writes. The link hears that its commit is done, and
 * is to hand that page on, but its connection has ended. The commit is told, and the next call says
 * that the link is gone. */
static void commits_at_its_end(void) {
  uint64_t number = 0;
  open_with(&limits);
  WANT(rughvadi_link_fetch(&link_of_ours, 1, page, SIZE));
  WANT(put());
  other_reads(1);
  on_send = end_behind_commit;
  WANT(rughvadi_link_commit(&link_of_ours, &number));
  HOLD(number == 1 && rughvadi_link_begin(&link_of_ours) == RUGHVADI_LINK_CLOSED);
  end_inside(&link_of_ours);
}

int main(void) {
  abort_in(want);
  abort_in(put);
  for (size_t at = 0; at < CALLS; at++) {
    abort_before(calls[at]);
    none_before(calls[at]);
  }
  fetches_again();
  asks_again();
  commits_again();
  commits_at_its_end();
  puts("aborts, calls without a transaction, a page that left its pool, and silence");
  return 0;
}
