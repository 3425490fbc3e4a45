/* sending: whatever ends the sending of a frame early, the link is gone and sends nothing more. A
 * scene has each kind of frame that a client says. It is played anew for each of them and for each
 * count of its bytes: the sending ends there by a jump, as out of a signal's handler, by a system
 * call that fails, and by an end that takes nothing for as long as an answer is awaited. Where the
 * other end takes some bytes at a time, and none now and then, each frame goes whole. */
#include "inside.h"

#include <setjmp.h>

enum { WAIT_MS = 70, TRIES = 2, KINDS = RUGHVADI_KIND_DOWNGRADED };
enum { OPENING_MS = 31 * 1000 }; /* so long a link that is opened waits for room */
enum how { BY_JUMP, BY_ERROR, BY_END, BY_RESET, BY_SILENCE, WAYS };

static enum how how;
static uint32_t kind; /* of the frame whose sending ends early */
static size_t most;   /* how many of its bytes go before that */
static bool waits;    /* the first Drop waits until something else is sent */
static bool ended, more;
static jmp_buf out;

/* The kind of a frame stands in its second byte. */
static ssize_t end_early(const uint8_t *bytes, size_t len, size_t before) {
  if (ended) {
    more = true;
    return (ssize_t)len;
  }
  uint8_t its = before > 1 ? sent[1] : bytes[1 - before];
  if (its != kind) {
    return (ssize_t)len;
  }
  if (before < most) {
    return (ssize_t)(most - before);
  }
  ended = how != BY_SILENCE;
  if (how == BY_JUMP) {
    longjmp(out, 1);
  }
  static const int faults[WAYS] = {
      [BY_ERROR] = EIO, [BY_END] = EPIPE, [BY_RESET] = ECONNRESET, [BY_SILENCE] = EAGAIN};
  errno = faults[how];
  return -1;
}

#define DO(call)                   \
  do {                             \
    uint32_t fault_ = (call);      \
    if (fault_ != RUGHVADI_DONE) { \
      return fault_;               \
    }                              \
  } while (0)

/* A transaction reads a page that is held: its Drop goes as the link serves. */
static uint32_t look_at_a_page(rughvadi_link *link, uint8_t page[SIZE]) {
  DO(rughvadi_link_begin(link));
  DO(rughvadi_link_fetch(link, 1, page, SIZE));
  DO(rughvadi_link_drop(link));
  HOLD(counts[RUGHVADI_KIND_DROP] == 0);
  return rughvadi_link_serve(link, 0);
}

/* The other client wants to write page 2, which the link read in a transaction that is open. */
static uint32_t use_a_page(rughvadi_link *link, uint8_t page[SIZE]) {
  DO(rughvadi_link_begin(link));
  DO(rughvadi_link_fetch(link, 2, page, SIZE));
  other_reads(2);
  other_wants(2);
  DO(rughvadi_link_serve(link, 0));
  DO(rughvadi_link_drop(link));
  other_drops();
  return RUGHVADI_DONE;
}

/* Sends a frame of each kind. */
static uint32_t play(rughvadi_link *link) {
  uint8_t page[SIZE] = {0};
  uint64_t number;
  DO(rughvadi_link_open(link, &limits, OURS, 1, ours));
  link->wait_ms = WAIT_MS;
  link->tries = TRIES;
  DO(rughvadi_link_begin(link));
  DO(rughvadi_link_fetch(link, 1, page, SIZE));
  DO(rughvadi_link_put(link, 1, page, SIZE));
  DO(rughvadi_link_commit(link, &number));
  if (waits) {
    DO(look_at_a_page(link, page));
  }
  /* The permission to write page 1 was kept: the other one reads it, and then wants to write it. */
  other_reads(1);
  DO(rughvadi_link_serve(link, 0));
  other_wants(1);
  DO(rughvadi_link_serve(link, 0));
  other_drops();
  return use_a_page(link, page);
}

/* Each later call says that the link is gone, and none sends anything. */
static void hold_gone(rughvadi_link *link) {
  uint8_t page[SIZE];
  uint64_t number;
  HOLD(rughvadi_link_fetch(link, 1, page, SIZE) == RUGHVADI_LINK_CLOSED);
  HOLD(rughvadi_link_put(link, 1, page, SIZE) == RUGHVADI_LINK_CLOSED);
  HOLD(rughvadi_link_commit(link, &number) == RUGHVADI_LINK_CLOSED);
  HOLD(rughvadi_link_drop(link) == RUGHVADI_LINK_CLOSED);
  HOLD(rughvadi_link_serve(link, 0) == RUGHVADI_LINK_CLOSED);
  HOLD(rughvadi_link_begin(link) == RUGHVADI_LINK_CLOSED);
  HOLD(!more);
}

/* The fault that the call answers whose sending ends so. */
static void hold_fault(uint32_t fault, int why, int64_t waited) {
  bool has_ended = how == BY_END || how == BY_RESET;
  HOLD(fault == (has_ended ? RUGHVADI_LINK_CLOSED : RUGHVADI_LINK_SYSTEM));
  int64_t wait_ms = kind == RUGHVADI_KIND_HELLO ? OPENING_MS : (TRIES + 1) * WAIT_MS;
  HOLD(how != BY_SILENCE || (why == ETIMEDOUT && waited == wait_ms * 1000000));
}

static void play_ended(void) {
  static rughvadi_link link;
  ended = more = false;
  begin_inside();
  memset(counts, 0, sizeof counts);
  on_send = end_early;
  if (setjmp(out) == 0) {
    errno = 0;
    int64_t began = clock_ns;
    uint32_t fault = play(&link);
    int why = errno;
    hold_fault(fault, why, clock_ns - began);
    HOLD(how != BY_JUMP);
  }
  ended = true;
  hold_gone(&link);
  end_inside(&link);
}

/* Ends the sending of a frame of the kind behind each number of its bytes, which are so many. */
static int end_behind_each(size_t whole) {
  HOLD(whole > 0);
  for (most = 0; most < whole; most++) {
    play_ended();
  }
  return (int)whole;
}

/* How many sendings were ended early: of each kind, and of a Drop that waits. */
static int end_each(const size_t whole[KINDS + 1]) {
  int count = 0;
  waits = false;
  for (kind = 1; kind <= KINDS; kind++) {
    count += end_behind_each(whole[kind]);
  }
  waits = true;
  kind = RUGHVADI_KIND_DROP;
  return count + end_behind_each(whole[kind]);
}

/* ---- frames that go in pieces ---- */

static size_t piece; /* so many bytes go at a time, at most */
static int calls;
static int64_t awaited; /* nanoseconds: by the first wait; 0: there was none */

/* Of three calls a signal ends the first, and the second one finds no room. */
static ssize_t send_piece(const uint8_t *bytes, size_t len, size_t before) {
  (void)bytes;
  (void)before;
  calls++;
  if (calls % 3 != 0) {
    errno = calls % 3 == 1 ? EINTR : EAGAIN;
    return -1;
  }
  return (ssize_t)(len < piece ? len : piece);
}

static void note_wait(int64_t wait_ns) { awaited = awaited == 0 ? wait_ns : awaited; }

/* All frames of the scene, in pieces: as many of each kind, and as long. */
static void play_in_pieces(size_t of) {
  static rughvadi_link link;
  static uint32_t wanted[256];
  static size_t long_as[256];
  memcpy(wanted, counts, sizeof wanted);
  memcpy(long_as, lengths, sizeof long_as);
  memset(counts, 0, sizeof counts);
  begin_inside();
  piece = of;
  has_room = true;
  on_send = send_piece;
  WANT(play(&link));
  HOLD(sent_len == 0 && memcmp(counts, wanted, sizeof counts) == 0);
  HOLD(memcmp(lengths, long_as, sizeof lengths) == 0);
  end_inside(&link);
}

/* Asks for a page that isn't held, where the other end has no room at first: for how long room is
 * awaited then. */
static int64_t wait_for_room(int wait_ms, int tries, bool comes, uint32_t fault) {
  static rughvadi_link link;
  uint8_t page[SIZE];
  begin_inside();
  WANT(rughvadi_link_open(&link, &limits, OURS, 1, ours));
  WANT(rughvadi_link_begin(&link));
  link.wait_ms = wait_ms;
  link.tries = tries;
  piece = MOST;
  calls = 1; /* the next one finds no room */
  awaited = 0;
  has_room = comes;
  on_send = send_piece;
  on_wait = note_wait;
  HOLD(rughvadi_link_fetch(&link, 1, page, SIZE) == fault);
  int64_t found = awaited;
  end_inside(&link);
  return found;
}

static void waits_for_room(void) {
  HOLD(wait_for_room(WAIT_MS, TRIES, true, RUGHVADI_DONE) == (TRIES + 1) * WAIT_MS * 1000000ll);
  HOLD(wait_for_room(-1, TRIES, true, RUGHVADI_DONE) == FOR_EVER);
  HOLD(wait_for_room(WAIT_MS, -1, true, RUGHVADI_DONE) == FOR_EVER);
  HOLD(wait_for_room(WAIT_MS, 0, false, RUGHVADI_LINK_SYSTEM) == WAIT_MS * 1000000ll);
  HOLD(wait_for_room(0, TRIES, false, RUGHVADI_LINK_SYSTEM) == 0);
}

int main(void) {
  static rughvadi_link link;
  begin_inside();
  WANT(play(&link));
  end_inside(&link);
  size_t whole[KINDS + 1];
  memcpy(whole, lengths, sizeof whole);
  for (size_t of = 1; of <= 40; of++) {
    play_in_pieces(of);
  }
  waits_for_room();
  int count = 0;
  for (int way = 0; way < WAYS; way++) {
    how = (enum how)way;
    count += end_each(whole);
  }
  printf("%d sendings of %d kinds of frames ended early, and the link was gone\n", count, KINDS);
  return 0;
}
