/* drops: a transaction that read held pages alone, and is dropped, sends nothing. Its Drop waits,
 * in place of one that waits already, and goes before whatever the link sends next: an ask, a
 * commit, or the answer to what came meanwhile. A transaction of which the server heard, or that
 * has more to say, sends its Drop at once. */
#include "inside.h"

enum { HELD = 1, UNREAD = 2, KINDS = 64 };

static rughvadi_link link_of_ours;
static uint8_t kinds[KINDS]; /* of the frames that were sent */
static size_t count;

/* A frame goes whole: its kind stands in its second byte. */
static ssize_t note(const uint8_t *bytes, size_t len, size_t before) {
  HOLD(before == 0 && len > 1 && count < KINDS);
  kinds[count++] = bytes[1];
  return (ssize_t)len;
}

/* What was sent since the last look: two kinds, or fewer where they are 0. */
static void hold_sent(uint8_t first, uint8_t second) {
  size_t wanted = (size_t)(first != 0) + (second != 0);
  HOLD(count == wanted && (wanted < 1 || kinds[0] == first) && (wanted < 2 || kinds[1] == second));
  count = 0;
}

static void fetch(uint32_t page) {
  uint8_t room[SIZE];
  WANT(rughvadi_link_fetch(&link_of_ours, page, room, SIZE));
}

/* A transaction of the held page alone. */
static void look(void) {
  WANT(rughvadi_link_begin(&link_of_ours));
  fetch(HELD);
  WANT(rughvadi_link_drop(&link_of_ours));
}

/* Of several Drops the last one goes, as the link serves. */
static void waits(void) {
  for (int at = 0; at < 3; at++) {
    look();
  }
  hold_sent(0, 0);
  WANT(rughvadi_link_serve(&link_of_ours, 0));
  hold_sent(RUGHVADI_KIND_DROP, 0);
  WANT(rughvadi_link_serve(&link_of_ours, 0));
  hold_sent(0, 0);
}

/* It goes before an ask, whose transaction sends its own Drop, and before a commit. */
static void goes_before(void) {
  uint64_t number;
  look();
  WANT(rughvadi_link_begin(&link_of_ours));
  fetch(UNREAD);
  hold_sent(RUGHVADI_KIND_DROP, RUGHVADI_KIND_ASK_READ);
  WANT(rughvadi_link_drop(&link_of_ours));
  hold_sent(RUGHVADI_KIND_DROP, 0);
  look();
  WANT(rughvadi_link_begin(&link_of_ours));
  fetch(HELD);
  WANT(rughvadi_link_commit(&link_of_ours, &number));
  hold_sent(RUGHVADI_KIND_DROP, RUGHVADI_KIND_COMMIT);
}

/* Another client wants to write the page: as the next transaction begins the link gives it back. */
static void answers(void) {
  look();
  other_reads(HELD);
  other_wants(HELD);
  hold_sent(0, 0);
  WANT(rughvadi_link_begin(&link_of_ours));
  hold_sent(RUGHVADI_KIND_DROP, RUGHVADI_KIND_GIVE_BACK);
  HOLD(rughvadi_client_may_write(&other, HELD));
  other_drops();
  WANT(rughvadi_link_drop(&link_of_ours));
  hold_sent(0, 0);
}

/* Writes the page and commits; the permission is kept. */
static void write_held(const uint8_t written[SIZE]) {
  uint64_t number;
  WANT(rughvadi_link_begin(&link_of_ours));
  fetch(HELD);
  WANT(rughvadi_link_put(&link_of_ours, HELD, written, SIZE));
  WANT(rughvadi_link_commit(&link_of_ours, &number));
  count = 0;
}

/* By a permission that was kept a page is written without a word. Where that transaction is dropped
 * the page is given back besides, and both are sent. */
static void gives_back(void) {
  uint8_t written[SIZE] = {0x22};
  write_held(written);
  WANT(rughvadi_link_begin(&link_of_ours));
  fetch(HELD);
  WANT(rughvadi_link_put(&link_of_ours, HELD, (const uint8_t[SIZE]){0x33}, SIZE));
  hold_sent(0, 0);
  WANT(rughvadi_link_drop(&link_of_ours));
  hold_sent(RUGHVADI_KIND_DROP, RUGHVADI_KIND_GIVE_BACK);
}

/* A permission that was kept goes to another client, behind a Drop that waited. */
static void hands_on(void) {
  uint8_t room[SIZE], written[SIZE] = {0x44};
  bool here = false;
  write_held(written);
  look();
  other_reads(HELD);
  WANT(rughvadi_link_serve(&link_of_ours, 0));
  hold_sent(RUGHVADI_KIND_DROP, RUGHVADI_KIND_DOWNGRADED);
  WANT(rughvadi_client_read(&other, HELD, room, SIZE, &here));
  HOLD(here && memcmp(room, written, SIZE) == 0);
  other_wants(HELD);
  WANT(rughvadi_link_serve(&link_of_ours, 0));
  hold_sent(RUGHVADI_KIND_GIVE_BACK, 0);
  HOLD(rughvadi_client_may_write(&other, HELD));
  other_drops();
}

int main(void) {
  begin_inside();
  on_send = note;
  WANT(rughvadi_link_open(&link_of_ours, &limits, OURS, 1, ours));
  WANT(rughvadi_link_begin(&link_of_ours));
  fetch(HELD);
  WANT(rughvadi_link_drop(&link_of_ours));
  count = 0;
  waits();
  goes_before();
  answers();
  gives_back();
  hands_on();
  end_inside(&link_of_ours);
  puts("a Drop that the server needs no earlier waits, and goes before all that is sent next");
  return 0;
}
