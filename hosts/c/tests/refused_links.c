/* refused_links: each growth that a link's calls make in the library is refused in turn. A call
 * that tells of it is made once more, and all comes out as if nothing had been refused: the same
 * frames are sent, without a wait. Or its transaction is dropped, and another one does the same. At
 * the end nothing is left of the heap. */
#include "heap.h"
#include "inside.h"

#include <setjmp.h>

static rughvadi_link link_of_ours;
static long growths, refuse_at, refusals;
static bool is_in_call; /* of the link */

static bool is_refused(void) {
  return is_in_call && !is_theirs && ++growths == refuse_at;
}

static bool gives_up;       /* the transaction, and not the call, is made once more, */
static bool is_awaited;     /* unless the other client waits for it; */
static bool is_passed_over; /* or neither, since the next call does it, too */
static jmp_buf transaction; /* where it begins */
static uint64_t commits;

static bool is_open(void) {
  uint32_t status = rughvadi_client_status(&link_of_ours.client);
  return status == RUGHVADI_STATUS_OPEN || status == RUGHVADI_STATUS_WAITING;
}

static uint32_t told(uint32_t fault) {
  is_in_call = false;
  return fault;
}

/* Whether the call was refused memory, and is to be made once more. */
static bool was_refused(uint32_t fault) {
  if (fault != RUGHVADI_MEMORY && fault != RUGHVADI_FRAME_MEMORY) {
    WANT(fault);
    return false;
  }
  refusals++;
  if (is_passed_over) {
    return false;
  }
  if (gives_up && !is_awaited && is_open()) {
    WANT(rughvadi_link_drop(&link_of_ours));
    longjmp(transaction, 1);
  }
  return true;
}

#define TRY(call)                  \
  do {                             \
    is_in_call = true;             \
    if (was_refused(told(call))) { \
      is_in_call = true;           \
      WANT(told(call));            \
    }                              \
  } while (0)

/* ---- a scene with each kind of frame ---- */

static void write_page(uint8_t *page) {
  uint8_t written[SIZE];
  uint64_t number = 0;
  setjmp(transaction);
  TRY(rughvadi_link_begin(&link_of_ours));
  TRY(rughvadi_link_fetch(&link_of_ours, 1, written, SIZE));
  HOLD(memcmp(written, page, SIZE) == 0);
  written[0]++;
  TRY(rughvadi_link_put(&link_of_ours, 1, written, SIZE));
  TRY(rughvadi_link_commit(&link_of_ours, &number));
  memcpy(page, written, SIZE);
  HOLD(number == ++commits);
}

/* The other client reads the page that was written, and then wants to write it. */
static void hand_on(const uint8_t *page) {
  uint8_t found[SIZE];
  bool here = false;
  other_reads(1);
  TRY(rughvadi_link_serve(&link_of_ours, 0));
  WANT(rughvadi_client_read(&other, 1, found, SIZE, &here));
  HOLD(here && memcmp(found, page, SIZE) == 0);
  other_wants(1);
  TRY(rughvadi_link_serve(&link_of_ours, 0));
  HOLD(rughvadi_client_may_write(&other, 1));
  other_drops();
}

/* A transaction that has read the page that the other one wants to write, and how it ends. */
static void use_page(bool is_committed) {
  uint8_t page[SIZE];
  uint64_t number = 0;
  setjmp(transaction);
  TRY(rughvadi_link_begin(&link_of_ours));
  TRY(rughvadi_link_fetch(&link_of_ours, 2, page, SIZE));
  is_awaited = true;
  other_reads(2);
  other_wants(2);
  is_passed_over = gives_up;
  TRY(rughvadi_link_serve(&link_of_ours, 0));
  is_passed_over = false;
  HOLD(!rughvadi_client_may_write(&other, 2));
  if (is_committed) {
    TRY(rughvadi_link_commit(&link_of_ours, &number));
    HOLD(number == ++commits);
  } else {
    TRY(rughvadi_link_drop(&link_of_ours));
  }
  TRY(rughvadi_link_serve(&link_of_ours, 0));
  HOLD(rughvadi_client_may_write(&other, 2));
  other_drops();
  is_awaited = false;
}

static void play(void) {
  uint8_t page[SIZE] = {0};
  commits = 0;
  begin_inside();
  TRY(rughvadi_link_open(&link_of_ours, &limits, OURS, 1, ours));
  memset(counts, 0, sizeof counts);
  for (int times = 0; times < 2; times++) {
    write_page(page);
    write_page(page);
    hand_on(page);
    use_page(times == 0);
  }
  end_inside(&link_of_ours);
  HOLD(blocks == 0 && clock_ns == 0);
}

/* Refuses each of so many growths; how many were told of. */
static long sweep(long all, const uint32_t *wanted) {
  long told_of = 0;
  for (refuse_at = 1; refuse_at <= all; refuse_at++) {
    growths = refusals = 0;
    play();
    HOLD(refusals <= 1 && (gives_up || memcmp(counts, wanted, sizeof counts) == 0));
    told_of += refusals;
  }
  return told_of;
}

int main(void) {
  static uint32_t wanted[256];
  play();
  memcpy(wanted, counts, sizeof wanted);
  long all = growths;
  HOLD(all > 0 && refusals == 0);
  long told_of = sweep(all, wanted);
  gives_up = true;
  HOLD(sweep(all, wanted) == told_of);
  printf("%ld growths of a link were refused in turn, and calls told of %ld\n", all, told_of);
  return 0;
}
