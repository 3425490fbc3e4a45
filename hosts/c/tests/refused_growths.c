/* Each growth of a scene is refused in turn: the call answers that memory was, is made once more,
 * and all goes on as if nothing had been refused. At the end nothing is left of the heap. */
#include "heap.h"
#include "parties.h"

static long growths, refuse_at;

static bool is_refused(void) { return ++growths == refuse_at; }

/* ---- what the scene comes to, as a sum of all that was answered ---- */

static uint64_t sum;
static long refused;

static void mix(const void *bytes, size_t len) {
  for (const uint8_t *at = bytes; len > 0; at++, len--) {
    sum = (sum ^ *at) * 1099511628211u;
  }
}

static uint32_t answered(uint32_t fault) {
  mix(&fault, sizeof fault);
  return fault;
}

static bool is_refusal(uint32_t fault) {
  bool is = fault == RUGHVADI_MEMORY || fault == RUGHVADI_FRAME_MEMORY;
  refused += is;
  return is;
}

/* The call, and once more where memory was refused. */
#define TRY(call) answered(is_refusal(tried = (call)) ? (call) : tried)

static const rughvadi_limits limits = {2, 4, 64, 2, 1, 2, 0};
static rughvadi_handle server, clients[2];

static void take(rughvadi_handle *h, const uint8_t *bytes, size_t len) {
  uint32_t tried;
  size_t used = 0;
  TRY(rughvadi_take(h, bytes, len, &used));
  mix(&used, sizeof used);
}

static void deliver(void) {
  uint8_t room[512];
  size_t size = 0;
  uint32_t client = 0, tried;
  while (TRY(rughvadi_next(&server, room, sizeof room, &size, &client)) == RUGHVADI_DONE) {
    mix(room, size);
    take(&clients[client], room, size);
  }
}

static void hand_in(int no) {
  uint8_t room[512];
  size_t size = 0;
  uint32_t client = 0, tried;
  while (TRY(rughvadi_next(&clients[no], room, sizeof room, &size, &client)) == RUGHVADI_DONE) {
    mix(room, size);
    take(&server, room, size);
    deliver();
  }
}

static void count(rughvadi_handle *h) {
  uint8_t bytes[64] = {0};
  bool here = false, may = false;
  uint32_t tried;
  if (TRY(rughvadi_client_read(h, 0, bytes, 64, &here)) != RUGHVADI_DONE || !here) {
    return;
  }
  mix(bytes, 64);
  if (TRY(rughvadi_client_want(h, 0, &may)) != RUGHVADI_DONE || !may) {
    return;
  }
  bytes[0]++;
  TRY(rughvadi_client_write(h, 0, bytes, 64));
  TRY(rughvadi_client_finish(h));
}

static void turn(int no) {
  uint64_t txn = 0;
  uint32_t tried;
  switch (rughvadi_client_status(&clients[no])) {
  case RUGHVADI_STATUS_NOT_WELCOME: TRY(rughvadi_client_hello(&clients[no])); break;
  case RUGHVADI_STATUS_IDLE: TRY(rughvadi_client_begin(&clients[no], &txn)); break;
  case RUGHVADI_STATUS_OPEN: count(&clients[no]); break;
  default: break;
  }
}

static bool flush(void) {
  uint64_t number = 0, version = 0;
  size_t pages = 0;
  uint32_t page = 0, tried;
  uint8_t bytes[64];
  if (TRY(rughvadi_server_batch(&server, &number, &pages)) != RUGHVADI_DONE) {
    return false;
  }
  for (size_t at = 0; at < pages; at++) {
    TRY(rughvadi_server_page(&server, at, bytes, 64, &page, &version));
    mix(bytes, 64);
    mix(&version, 8);
  }
  TRY(rughvadi_server_flushed(&server, number));
  deliver();
  return true;
}

/* The server over rows; begun anew where that was refused, since the rows are gone then. */
static void open_server(void) {
  uint8_t bytes[64];
  uint32_t tried, fault;
  uint64_t before = sum;
  do {
    sum = before;
    TRY(rughvadi_open_life(&limits, 7, 1, &server));
    for (int page = 0; page < 4; page++) {
      memset(bytes, page, 64);
      TRY(rughvadi_open_row(&server, (uint64_t)page, bytes, 64));
    }
    fault = rughvadi_open_serve(&server);
  } while (is_refusal(fault));
  answered(fault);
}

static void scene(void) {
  int commits = 0;
  uint32_t tried;
  sum = 14695981039346656037u;
  refused = 0;
  open_server();
  TRY(rughvadi_client_new(&limits, 0, 1, &clients[0]));
  TRY(rughvadi_client_new(&limits, 1, 1, &clients[1]));
  for (int round = 0; round < 400 && commits < 6; round++) {
    turn(round & 1);
    hand_in(round & 1);
    hand_in(~round & 1);
    if (round % 7 == 6) {
      TRY(rughvadi_again(&server));
      deliver();
      TRY(rughvadi_again(&clients[round & 1]));
      hand_in(round & 1);
    }
    commits += flush();
  }
  TRY(rughvadi_server_leave(&server, 1));
  deliver();
  mix(&commits, sizeof commits);
  rughvadi_free(&server);
  rughvadi_free(&clients[0]);
  rughvadi_free(&clients[1]);
}

int main(void) {
  scene();
  uint64_t wanted = sum;
  long all = growths, wrong = 0, unnoticed = 0;
  HOLD(blocks == 0);
  for (refuse_at = 1; refuse_at <= all; refuse_at++) {
    growths = 0;
    scene();
    unnoticed += refused == 0;
    if (sum != wanted || blocks != 0) {
      wrong++;
      printf("growth %ld: %s, %ld blocks left\n", refuse_at, sum == wanted ? "same" : "differs",
             blocks);
      blocks = 0;
    }
  }
  printf("growths refused in turn %ld, wrong %ld, unnoticed %ld\n", all, wrong, unnoticed);
  return wrong != 0;
}
