/* coming: what comes to a link. Frames are taken whole, however many come at once, and wherever one
 * is cut. A call that finds bytes that are no frame tells how they are wrong, and one whose receipt
 * fails tells that; each later call tells that the link is gone. A frame for a server is passed
 * over. */
#include "inside.h"

enum { HEADER = 16, CALLBACK = HEADER + 12, ROOM = 256, TOGETHER = 3, MANY = 3000 };

/* A frame, or what is none, of the link's client and incarnation. */
struct given {
  uint8_t version, kind, size;
  uint8_t body[ROOM];
};

static size_t put(uint8_t *bytes, const struct given *given) {
  const uint8_t header[HEADER] = {given->version, given->kind, 0, OURS, [11] = 1,
                                  [15] = given->size};
  memcpy(bytes, header, HEADER);
  memcpy(bytes + HEADER, given->body, given->size);
  return HEADER + (size_t)given->size;
}

static void say(const uint8_t *bytes, size_t size) {
  HOLD(write(theirs, bytes, size) == (ssize_t)size);
}

/* A link that has read pages 1 to 3, by grants 1 to 3, in a transaction that goes on or doesn't. */
static void open_with_pages(rughvadi_link *link, bool goes_on) {
  uint8_t page[SIZE];
  begin_inside();
  memset(counts, 0, sizeof counts);
  WANT(rughvadi_link_open(link, &limits, OURS, 1, ours));
  WANT(rughvadi_link_begin(link));
  for (uint32_t at = 1; at <= TOGETHER; at++) {
    WANT(rughvadi_link_fetch(link, at, page, SIZE));
  }
  if (!goes_on) {
    WANT(rughvadi_link_drop(link));
  }
}

/* ---- frames ---- */

static uint32_t given_back[MANY + 1]; /* the pages, in order */
static size_t count;

static ssize_t note_page(const uint8_t *bytes, size_t len, size_t before) {
  HOLD(before == 0 && len > 1);
  if (bytes[1] == RUGHVADI_KIND_GIVE_BACK) {
    HOLD(len == CALLBACK && count <= MANY);
    given_back[count++] = bytes[HEADER + 3];
  }
  return (ssize_t)len;
}

/* A Callback of a page whose grant has its number. */
static size_t put_callback(uint8_t *bytes, uint8_t page) {
  struct given callback = {2, RUGHVADI_KIND_CALLBACK, 12, {[3] = page, [11] = page}};
  return put(bytes, &callback);
}

static void open_with_callbacks(rughvadi_link *link) {
  open_with_pages(link, false);
  count = 0;
  on_send = note_page;
}

/* Callbacks of all three pages come, and between these bytes and the others the link serves: it has
 * given back those pages whose frames were whole. */
static void cut_at(size_t cut) {
  static rughvadi_link link;
  uint8_t bytes[TOGETHER * CALLBACK];
  size_t size = 0;
  for (uint8_t at = 1; at <= TOGETHER; at++) {
    size += put_callback(bytes + size, at);
  }
  open_with_callbacks(&link);
  say(bytes, cut);
  WANT(rughvadi_link_serve(&link, 0));
  HOLD(count == cut / CALLBACK);
  say(bytes + cut, size - cut);
  WANT(rughvadi_link_serve(&link, 0));
  HOLD(count == TOGETHER);
  for (uint32_t at = 0; at < TOGETHER; at++) {
    HOLD(given_back[at] == at + 1);
  }
  end_inside(&link);
}

/* More come than are received at once, while a part of the first is there. Each is answered. */
static void many(void) {
  static rughvadi_link link;
  static uint8_t bytes[(MANY + 1) * CALLBACK];
  size_t size = 0, cut = CALLBACK - 1;
  for (int at = 0; at < MANY; at++) {
    size += put_callback(bytes + size, 1);
  }
  size += put_callback(bytes + size, 2);
  open_with_callbacks(&link);
  say(bytes, cut);
  WANT(rughvadi_link_serve(&link, 0));
  say(bytes + cut, size - cut);
  WANT(rughvadi_link_serve(&link, 0));
  HOLD(count == MANY + 1 && given_back[0] == 1 && given_back[MANY] == 2);
  end_inside(&link);
}

/* ---- what is no frame ---- */

static const struct {
  struct given given;
  uint32_t fault;
} all[] = {
    {{3, RUGHVADI_KIND_WELCOME, 0, {0}}, RUGHVADI_FRAME_VERSION},
    {{2, 99, 0, {0}}, RUGHVADI_FRAME_KIND},
    {{2, RUGHVADI_KIND_WELCOME, 1, {0}}, RUGHVADI_FRAME_LENGTH},
    {{2, RUGHVADI_KIND_CALLBACK, 12, {[3] = PAGES}}, RUGHVADI_FRAME_RANGE},
    /* A commit of page 1 and then of page 0, each by grant 1 and full of zeros. */
    {{2, RUGHVADI_KIND_COMMIT, 170,
      {[7] = 1, [9] = 2, [13] = 1, [21] = 1, [25] = SIZE, [101] = 1, [105] = SIZE}},
     RUGHVADI_FRAME_ORDER},
    {{2, RUGHVADI_KIND_HELLO, 0, {0}}, RUGHVADI_DONE},
};

/* What calls of the link say from now on. */
static void hold_all(rughvadi_link *link, uint32_t wanted) {
  uint8_t page[SIZE];
  uint64_t number;
  HOLD(rughvadi_link_serve(link, 0) == wanted);
  HOLD(rughvadi_link_fetch(link, 0, page, SIZE) == wanted);
  HOLD(rughvadi_link_put(link, 1, page, SIZE) == wanted);
  HOLD(rughvadi_link_commit(link, &number) == wanted);
  HOLD(rughvadi_link_begin(link) == wanted);
  HOLD(rughvadi_link_drop(link) == wanted);
}

static void end_by(const struct given *given, uint32_t fault) {
  static rughvadi_link link;
  uint8_t bytes[HEADER + ROOM];
  open_with_pages(&link, true);
  say(bytes, put(bytes, given));
  HOLD(rughvadi_link_serve(&link, 0) == fault);
  hold_all(&link, fault == RUGHVADI_DONE ? RUGHVADI_DONE : RUGHVADI_LINK_CLOSED);
  end_inside(&link);
}

/* ---- receipts that fail ---- */

static int fault_of_receipt; /* of the next one; 0: the connection has ended; below: none */

static ssize_t fail_once(void) {
  int fault = fault_of_receipt;
  fault_of_receipt = -1;
  errno = fault > 0 ? fault : errno;
  return fault > 0 ? -1 : fault < 0 ? 1 : 0;
}

/* Something has come, and its receipt fails so at first: what that call tells, and later ones. */
static void fail_by(int why, uint32_t fault) {
  static rughvadi_link link;
  uint8_t bytes[CALLBACK];
  open_with_pages(&link, true);
  say(bytes, put_callback(bytes, 1));
  fault_of_receipt = why;
  on_receive = fail_once;
  HOLD(rughvadi_link_serve(&link, 0) == fault);
  HOLD(fault != RUGHVADI_LINK_SYSTEM || errno == why);
  hold_all(&link, fault == RUGHVADI_DONE ? RUGHVADI_DONE : RUGHVADI_LINK_CLOSED);
  end_inside(&link);
}

static void failing_receipts(void) {
  fail_by(0, RUGHVADI_LINK_CLOSED);
  fail_by(ECONNRESET, RUGHVADI_LINK_CLOSED);
  fail_by(EIO, RUGHVADI_LINK_SYSTEM);
  fail_by(EINTR, RUGHVADI_DONE);
  fail_by(EAGAIN, RUGHVADI_DONE);
}

int main(void) {
  many();
  failing_receipts();
  for (size_t cut = 0; cut <= TOGETHER * CALLBACK; cut++) {
    cut_at(cut);
  }
  for (size_t at = 0; at < sizeof all / sizeof *all; at++) {
    end_by(&all[at].given, all[at].fault);
  }
  puts("frames at once and in pieces, bytes that are no frame, and receipts that fail");
  return 0;
}
