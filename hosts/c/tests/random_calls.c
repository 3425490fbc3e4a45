/* random_calls SEED CALLS: calls of every kind in any order, at a server and two clients, with
 * frames that are whole, cut, damaged, of others or of nobody. Each answers a number that there is,
 * and after each that is refused all is as it was. */
#include "parties.h"

static const rughvadi_limits limits = {4, 8, 64, 4, 1, 4, 1};
static rughvadi_handle handles[3];
static long seen[0x400];

static uint8_t said[1024];
static size_t said_len;

static uint32_t take(rughvadi_handle *h, const uint8_t *bytes, size_t len) {
  size_t used = 0;
  uint32_t fault = rughvadi_take(h, bytes, len, &used);
  HOLD(fault != RUGHVADI_DONE || (16 <= used && used <= len));
  return fault;
}

/* A header that might be one, and anything behind it. */
static uint32_t take_made_up(rughvadi_handle *h) {
  uint8_t bytes[128];
  size_t len = draw() % sizeof bytes;
  for (size_t at = 0; at < sizeof bytes; at++) {
    bytes[at] = (uint8_t)draw();
  }
  bytes[0] = (uint8_t)(1 + draw() % 2);
  bytes[1] = (uint8_t)(draw() % 9 + (draw() % 2 ? 64 : 0));
  memset(bytes + 2, 0, 14);
  bytes[3] = (uint8_t)(draw() % 5);
  bytes[11] = (uint8_t)(draw() % 3);
  bytes[15] = (uint8_t)(len > 16 ? len - 16 : 0);
  return take(h, bytes, len);
}

static uint32_t take_damaged(rughvadi_handle *h) {
  uint8_t bytes[sizeof said];
  memcpy(bytes, said, said_len);
  if (said_len > 0) {
    bytes[draw() % said_len] ^= (uint8_t)(1 << draw() % 8);
  }
  return take(h, bytes, draw() % 4 ? said_len : said_len / 2);
}

static uint32_t fetch(rughvadi_handle *h) {
  uint32_t client = 0;
  size_t room = draw() % 8 ? sizeof said : draw() % 20;
  uint32_t fault = rughvadi_next(h, said, room, &said_len, &client);
  if (fault != RUGHVADI_DONE) {
    said_len = 0;
    return fault;
  }
  if (draw() % 2) {
    take(h == handles ? &handles[1 + client % 2] : handles, said, said_len);
  }
  return fault;
}

/* All that can be asked of a handle with no change to it. */
struct look {
  uint32_t status, last, peeks[8], nexts[4];
  uint64_t number, incarnations[4];
  uint8_t bytes[8][64];
  bool may[8], can;
};

static void look_at(rughvadi_handle *h, struct look *look) {
  memset(look, 0, sizeof *look);
  look->status = rughvadi_client_status(h);
  look->last = rughvadi_client_last(h, &look->number);
  look->can = rughvadi_server_can_flush(h, 1);
  for (uint32_t page = 0; page < 8; page++) {
    look->peeks[page] = rughvadi_client_peek(h, page, look->bytes[page], 64);
    look->may[page] = rughvadi_client_may_write(h, page);
  }
  for (uint32_t client = 0; client < 4; client++) {
    look->nexts[client] = rughvadi_server_incarnation(h, client, &look->incarnations[client]);
  }
}

/* A new object in place of the old one; where that isn't let go it is held. */
static uint32_t renew(rughvadi_handle *h) {
  if (draw() % 200 != 0) {
    return RUGHVADI_DONE;
  }
  if (draw() % 8 == 0 && (rughvadi_client_status(h) != 0 || rughvadi_again(h) == RUGHVADI_DONE)) {
    uint32_t fault = rughvadi_server_new(&limits, h);
    HOLD(fault == RUGHVADI_HELD);
    return fault;
  }
  rughvadi_free(h);
  if (h == handles && draw() % 2) {
    return rughvadi_open_life(&limits, draw() % 5, draw() % 8 ? draw() % 4 : UINT64_MAX, h);
  }
  return h == handles ? rughvadi_server_new(&limits, h)
                      : rughvadi_client_new(&limits, (uint32_t)(draw() % 5), draw() % 4, h);
}

static uint32_t call(rughvadi_handle *h) {
  static uint64_t number;
  static uint8_t bytes[64];
  uint64_t version;
  size_t pages;
  uint32_t page;
  bool is;
  rughvadi_frame_head head;
  switch (draw() % 28) {
  case 0: case 1: return take_made_up(h);
  case 2: return take_damaged(h);
  case 3: case 4: return take(h, said, said_len);
  case 5: case 6: case 7: case 8: case 9: return fetch(h);
  case 10: return rughvadi_again(h);
  case 11: return rughvadi_client_hello(h);
  case 12: return rughvadi_client_begin(h, &number);
  case 13: return rughvadi_client_read(h, draw() % 10, bytes, draw() % 8 ? 64 : 63, &is);
  case 14: return rughvadi_client_want(h, draw() % 10, &is);
  case 15: return rughvadi_client_write(h, draw() % 10, bytes, draw() % 8 ? 64 : 0);
  case 16: return draw() % 3 ? rughvadi_client_finish(h) : rughvadi_client_drop(h);
  case 17: return rughvadi_server_batch(h, &number, &pages);
  case 18: return draw() % 2 ? rughvadi_server_page(h, draw() % 3, bytes, 64, &page, &version)
                             : rughvadi_server_forget(h, draw() % 4 ? number : draw());
  case 19: return rughvadi_server_flushed(h, draw() % 8 ? number : draw());
  case 20: return draw() % 20 ? RUGHVADI_DONE : rughvadi_server_leave(h, draw() % 6);
  case 21: return rughvadi_server_incarnation(h, draw() % 6, &version);
  case 22: return rughvadi_client_peek(h, draw() % 5000, bytes, draw() % 8 ? 64 : 65);
  case 23: return rughvadi_frame_read(&limits, said, draw() % (said_len + 1), &head);
  case 24: return rughvadi_open_row(h, draw() % 5, bytes, draw() % 8 ? 64 : 16);
  case 25: return rughvadi_open_serve(h);
  case 26:
    is = rughvadi_client_may_write(h, draw() % 5000) || rughvadi_server_can_flush(h, draw() % 9);
    return rughvadi_client_status(h) + rughvadi_client_last(h, &version) + is;
  default: return RUGHVADI_DONE;
  }
}

/* One call; where it is refused nothing has changed. */
static uint32_t looked_at_call(rughvadi_handle *h) {
  struct look before, after;
  look_at(h, &before);
  uint32_t fault = call(h);
  if (fault != RUGHVADI_DONE) {
    look_at(h, &after);
    HOLD(memcmp(&before, &after, sizeof before) == 0);
  }
  return fault;
}

int main(int argc, char **argv) {
  random_state += argc > 1 ? strtoull(argv[1], NULL, 10) * 0x9E3779B97F4A7C15u : 0;
  long calls = argc > 2 ? atol(argv[2]) : 1000000, kinds = 0;
  WANT(rughvadi_server_new(&limits, &handles[0]));
  WANT(rughvadi_client_new(&limits, 0, 1, &handles[1]));
  WANT(rughvadi_client_new(&limits, 1, 1, &handles[2]));
  for (long made = 0; made < calls; made++) {
    rughvadi_handle *h = &handles[draw() % 3];
    uint32_t answer = draw() % 28 == 0 ? renew(h) : looked_at_call(h);
    HOLD(answer < 0x400);
    seen[answer]++;
  }
  for (int at = 0; at < 0x400; at++) {
    kinds += seen[at] > 0;
  }
  printf("calls %ld, kinds of answers %ld: no fault of the program\n", calls, kinds);
  for (int at = 0; at < 3; at++) {
    rughvadi_free(&handles[at]);
  }
  return 0;
}
