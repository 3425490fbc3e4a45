/* turns_model CLIENTS ORDER SYNC KEEP WAY: clients that add one to two pages in each transaction,
 * by the library's server and clients and by the gateway's own code (window.c), over a clock of
 * its own. A frame takes 20 microseconds from a client to the gateway and from there to the
 * server, a batch SYNC microseconds, and a client as long as SLOW_STEP between its calls of the
 * library. By ORDER all take the same pages in one order (`same`), every second one in the
 * opposite order (`opposite`), or each has its own (`own`). KEEP is `keep_write`. By WAY the
 * gateway lets them in by turns (`turns`) or holds nothing back (`open`). It prints the commits of
 * a second, tries, the most tries of one commit, and the commits of the client with the fewest and
 * with the most. Nothing in it rests on how busy the machine is. */
#include <stdint.h>

static uint64_t clock_now, timer_at = UINT64_MAX;

#include <uv.h>
static uv_timer_cb timer_due;
#define uv_hrtime() clock_now
#define uv_timer_init(loop, timer) ((void)(loop))
#define uv_timer_start(timer, call, first, again) (timer_due = (call), start_timer())
#define uv_is_active(handle) (timer_at != UINT64_MAX)
#define uv_timer_stop(timer) (timer_at = UINT64_MAX)
static int start_timer(void) {
  timer_at = clock_now + 1000000;
  return 0;
}
#include "bytes.c"
#include "frame.c"
#include "window.c"

#include <rughvadi.h>
#include <stdio.h>
#include <string.h>

enum { PAGE = 64, FRAME = 256, MOST_EVENTS = 4096, SECOND = 1000000000 };
enum { WAY_TIME = 20000, SERVER_STEP = 5000, SLOW_STEP = 10000 };
enum what { TO_GATEWAY, TO_SERVER, FROM_SERVER, TO_CLIENT, STEP, SYNCED };

struct event {
  uint64_t time, place;
  enum what what;
  uint32_t client;
  size_t size;
  uint8_t frame[FRAME];
};

struct client {
  rughvadi_handle handle;
  uint32_t pages[2];
  int stage; /* of its transaction: which call is next */
  uint64_t commits, tries, row, longest;
};

static struct event events[MOST_EVENTS];
static size_t event_count;
static uint64_t places, free_at, sync_time, syncing;
static rughvadi_handle server;
static struct client clients[MOST_CLIENTS];
static struct window window;
static bool has_turns;

static void must(bool right, const char *what) {
  if (!right) {
    fprintf(stderr, "turns_model: %s\n", what);
    exit(1);
  }
}

static void later(uint64_t time, enum what what, uint32_t client, const uint8_t *frame,
                  size_t size) {
  must(event_count < MOST_EVENTS && size <= FRAME, "too much at once");
  struct event *event = &events[event_count++];
  *event = (struct event){.time = time, .place = places++, .what = what, .client = client,
                          .size = size};
  memcpy(event->frame, frame, size);
}

/* It happens later than it was to, and still before what was to come behind it. */
static void put_off(struct event *event, uint64_t time) {
  events[event_count] = *event;
  events[event_count++].time = time;
}

/* The event that comes next, taken out. */
static struct event next_event(void) {
  size_t first = 0;
  for (size_t at = 1; at < event_count; at++) {
    const struct event *each = &events[at], *best = &events[first];
    bool sooner = each->time != best->time ? each->time < best->time : each->place < best->place;
    first = sooner ? at : first;
  }
  struct event event = events[first];
  events[first] = events[--event_count];
  return event;
}

/* What an object said goes on its way. */
static void say(rughvadi_handle *handle, enum what what, uint64_t time) {
  uint8_t frame[FRAME];
  size_t size;
  uint32_t client;
  while (rughvadi_next(handle, frame, sizeof frame, &size, &client) == RUGHVADI_DONE) {
    later(time, what, client, frame, size);
  }
}

/* ---- clients ---- */

/* The next call of its transaction; false where it has to wait for an answer. */
static bool call(struct client *client) {
  static uint8_t page[PAGE];
  bool is_there = true;
  uint64_t txn;
  uint32_t which = client->pages[client->stage % 2];
  rughvadi_handle *handle = &client->handle;
  uint32_t fault = RUGHVADI_DONE;
  switch (client->stage) {
    case 0:
      client->tries++;
      client->row++;
      fault = rughvadi_client_begin(handle, &txn);
      break;
    case 1:
    case 2: fault = rughvadi_client_read(handle, which, page, PAGE, &is_there); break;
    case 3:
    case 4:
      fault = rughvadi_client_want(handle, which, &is_there);
      if (fault == RUGHVADI_DONE && is_there) {
        fault = rughvadi_client_write(handle, which, page, PAGE);
      }
      break;
    default: fault = rughvadi_client_finish(handle); break;
  }
  must(fault == RUGHVADI_DONE, "a call was refused");
  client->stage += is_there;
  return is_there && client->stage <= 5;
}

/* It goes on, if it has nothing to wait for. */
static void step(uint32_t number) {
  struct client *client = &clients[number];
  uint64_t commit;
  uint32_t status = rughvadi_client_status(&client->handle);
  if (status != RUGHVADI_STATUS_IDLE && status != RUGHVADI_STATUS_OPEN) {
    return;
  }
  if (client->stage > 0 && status == RUGHVADI_STATUS_IDLE) {
    if (rughvadi_client_last(&client->handle, &commit) == RUGHVADI_ENDED_COMMITTED) {
      client->longest = client->row > client->longest ? client->row : client->longest;
      client->commits++;
      client->row = 0;
    }
    client->stage = 0;
  }
  bool goes_further = call(client);
  say(&client->handle, TO_GATEWAY, clock_now + WAY_TIME);
  if (goes_further) {
    later(clock_now + SLOW_STEP, STEP, number, NULL, 0);
  }
}

/* A frame comes to a client. */
static void hear(const struct event *event) {
  size_t used;
  rughvadi_handle *handle = &clients[event->client].handle;
  uint32_t before = rughvadi_client_status(handle);
  must(rughvadi_take(handle, event->frame, event->size, &used) == RUGHVADI_DONE, "a client");
  say(handle, TO_GATEWAY, clock_now + WAY_TIME);
  if (rughvadi_client_status(handle) != before) {
    later(clock_now + SLOW_STEP, STEP, event->client, NULL, 0);
  }
}

/* ---- server and gateway ---- */

/* A batch is written, if one is due. */
static void write_batch(void) {
  size_t pages;
  if (syncing == 0 && rughvadi_server_batch(&server, &syncing, &pages) == RUGHVADI_DONE) {
    free_at = clock_now + sync_time;
    later(free_at, SYNCED, 0, NULL, 0);
  }
}

/* A frame comes to the server, which takes nothing while it writes. */
static void serve(struct event *event) {
  size_t used;
  if (clock_now < free_at) {
    put_off(event, free_at);
    return;
  }
  must(rughvadi_take(&server, event->frame, event->size, &used) == RUGHVADI_DONE, "the server");
  free_at = clock_now + SERVER_STEP;
  say(&server, FROM_SERVER, free_at + WAY_TIME);
  write_batch();
}

static void synced(void) {
  must(rughvadi_server_flushed(&server, syncing) == RUGHVADI_DONE, "flushed");
  must(rughvadi_server_forget(&server, syncing) == RUGHVADI_DONE, "forget");
  syncing = 0;
  say(&server, FROM_SERVER, clock_now + WAY_TIME);
}

static void let_in(void *owner, const uint8_t *ask, size_t size) {
  (void)owner;
  later(clock_now + WAY_TIME, TO_SERVER, header_at(ask).client, ask, size);
}

static void happen(struct event *event) {
  switch (event->what) {
    case TO_GATEWAY:
      if (!has_turns || window_take(&window, event->frame, event->size)) {
        later(clock_now + WAY_TIME, TO_SERVER, event->client, event->frame, event->size);
      }
      break;
    case TO_SERVER: serve(event); break;
    case FROM_SERVER:
      window_hear(&window, event->frame);
      later(clock_now + WAY_TIME, TO_CLIENT, event->client, event->frame, event->size);
      break;
    case TO_CLIENT: hear(event); break;
    case STEP: step(event->client); break;
    case SYNCED: synced(); break;
  }
}

/* Runs for so many seconds of its clock. */
static void run(uint64_t seconds) {
  for (uint64_t end = seconds * SECOND, tick = SECOND / 2; clock_now < end;) {
    must(event_count > 0 || timer_at != UINT64_MAX, "nothing goes on");
    if (clock_now >= tick) {
      window_tick(&window);
      tick += SECOND / 2;
    }
    struct event event = event_count > 0 ? next_event() : (struct event){.time = UINT64_MAX};
    if (timer_at <= event.time) {
      if (event.time != UINT64_MAX) {
        put_off(&event, event.time);
      }
      clock_now = timer_at;
      timer_at += SECOND / 1000;
      timer_due(&window.timer);
      continue;
    }
    clock_now = event.time > clock_now ? event.time : clock_now;
    happen(&event);
  }
}

static void begin(const char *order, uint64_t count, bool keeps) {
  rughvadi_limits limits = {count, MOST_CLIENTS * 2, PAGE, 8, 2, 4, keeps};
  must(rughvadi_server_new(&limits, &server) == RUGHVADI_DONE, "no server");
  window.let_in = let_in;
  window_begin(&window, NULL);
  window.timer.data = &window;
  for (uint32_t at = 0; at < count; at++) {
    bool has_own = strcmp(order, "own") == 0, turns = strcmp(order, "opposite") == 0;
    uint32_t first = has_own ? 2 * at : turns ? at % 2 : 0;
    clients[at].pages[0] = first ^ 1;
    clients[at].pages[1] = first;
    must(rughvadi_client_new(&limits, at, 1, &clients[at].handle) == RUGHVADI_DONE, "no client");
    must(rughvadi_client_hello(&clients[at].handle) == RUGHVADI_DONE, "hello");
    say(&clients[at].handle, TO_GATEWAY, 1000 * at);
  }
}

int main(int count, char **words) {
  enum { SECONDS = 4 };
  uint64_t number = count == 6 ? strtoull(words[1], NULL, 10) : 0;
  if (number < 1 || number > MOST_CLIENTS) {
    return 2;
  }
  sync_time = strtoull(words[3], NULL, 10) * 1000;
  has_turns = strcmp(words[5], "turns") == 0;
  begin(words[2], number, strcmp(words[4], "1") == 0);
  run(SECONDS);
  uint64_t commits = 0, tries = 0, longest = 0, least = UINT64_MAX, most = 0;
  for (size_t at = 0; at < number; at++) {
    const struct client *each = &clients[at];
    uint64_t row = each->row > each->longest ? each->row : each->longest;
    commits += each->commits;
    tries += each->tries;
    longest = row > longest ? row : longest;
    least = each->commits < least ? each->commits : least;
    most = each->commits > most ? each->commits : most;
  }
  printf("%llu %llu %llu %llu %llu\n", (unsigned long long)commits / SECONDS,
         (unsigned long long)tries / SECONDS, (unsigned long long)longest,
         (unsigned long long)least / SECONDS, (unsigned long long)most / SECONDS);
  return 0;
}
