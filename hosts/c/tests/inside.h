/* A link whose server is in the test's own process. What the link sends is taken by a `send` of the
 * test's, handed to the server, and answered into the link's socket before that returns. Time is
 * the test's, too: a wait for nothing takes none, and moves the clock. So no test rests on time or
 * on a schedule. A second client, `other`, talks to the server without a socket. */
#ifndef INSIDE_H
#define INSIDE_H

#include "parties.h"
#include "rughvadi_link.h"

#include <errno.h>
#include <poll.h>
#include <sys/socket.h>
#include <sys/syscall.h>
#include <time.h>
#include <unistd.h>

enum { OTHER = 0, OURS = 1, PAGES = 4, SIZE = 64, MOST = 1024 };

static const rughvadi_limits limits = {2, PAGES, SIZE, PAGES, 1, PAGES, 1};
static rughvadi_handle server, other;
static int ours, theirs; /* the two ends of the link's socket */
static int64_t clock_ns; /* what the clock shows */

/* What the test does with a frame's next bytes, before the server gets them: how many go, or below
 * 0 with errno. NULL: all go. */
static ssize_t (*on_send)(const uint8_t *bytes, size_t len, size_t before);
/* What the link sends doesn't arrive. */
static bool is_lost;
/* What runs is the server, its disk or the other client. */
static bool is_theirs;
/* What a receipt comes to, with errno, in place of what came. NULL, or above 0: what came. */
static ssize_t (*on_receive)(void);
/* What happens as the link waits for something, so many nanoseconds. NULL: nothing. */
static void (*on_wait)(int64_t wait_ns);
/* A wait until bytes go ends at once. Otherwise it is in vain. */
static bool has_room;

#define FOR_EVER INT64_MAX /* what a wait without a bound is given as */

/* ---- the server, its disk and the other client ---- */

static void deliver(void);

static void flush_all(void) {
  uint64_t number;
  size_t pages;
  if (rughvadi_server_batch(&server, &number, &pages) == RUGHVADI_DONE) {
    WANT(rughvadi_server_flushed(&server, number));
    WANT(rughvadi_server_forget(&server, number));
    deliver();
  }
}

/* Fetches all that was said. What the server says to the link goes into its socket. */
static size_t fetch_all(rughvadi_handle *from, uint8_t room[MOST]) {
  size_t count = 0, size;
  uint32_t client;
  while (rughvadi_next(from, room + count, MOST - count, &size, &client) == RUGHVADI_DONE) {
    if (from == &server && client == OURS) {
      HOLD(write(theirs, room + count, size) == (ssize_t)size);
    } else {
      count += size;
    }
  }
  HOLD(count <= MOST / 2);
  return count;
}

/* Hands the server what the other client says, until neither has more to say to each other. */
static void pass_other(void) {
  uint8_t room[MOST];
  size_t count = fetch_all(&other, room), used;
  for (size_t at = 0; at < count; at += used) {
    WANT(rughvadi_take(&server, room + at, count - at, &used));
    deliver();
    flush_all();
  }
}

/* Hands on what the server says: to the link by its socket, and then to the other client. */
static void deliver(void) {
  uint8_t room[MOST];
  size_t count = fetch_all(&server, room), used;
  for (size_t at = 0; at < count; at += used) {
    WANT(rughvadi_take(&other, room + at, count - at, &used));
    pass_other();
  }
}

/* ---- what the link calls in place of the system ---- */

static uint8_t sent[MOST]; /* of a frame that isn't whole yet */
static size_t sent_len;
static size_t lengths[256]; /* of the last frame of each kind, and how many there were */
static uint32_t counts[256];

/* The server takes what was sent, once it is a frame. */
static void serve_sent(void) {
  rughvadi_frame_head head;
  size_t used;
  if (rughvadi_frame_read(&limits, sent, sent_len, &head) != RUGHVADI_DONE) {
    return;
  }
  HOLD(head.length == sent_len);
  sent_len = 0;
  lengths[head.kind] = head.length;
  counts[head.kind]++;
  if (!is_lost) {
    WANT(rughvadi_take(&server, sent, head.length, &used));
    HOLD(used == head.length);
    deliver();
    flush_all();
  }
}

ssize_t send(int socket, const void *bytes, size_t len, int flags) {
  (void)flags;
  HOLD(socket == ours && sent_len + len <= sizeof sent);
  ssize_t goes = on_send != NULL ? on_send(bytes, len, sent_len) : (ssize_t)len;
  if (goes < 0) {
    return goes;
  }
  memcpy(sent + sent_len, bytes, (size_t)goes);
  sent_len += (size_t)goes;
  is_theirs = true;
  serve_sent();
  is_theirs = false;
  return goes;
}

ssize_t recv(int socket, void *room, size_t len, int flags) {
  ssize_t came = on_receive != NULL ? on_receive() : 1;
  return came > 0 ? recvfrom(socket, room, len, flags, NULL, NULL) : came;
}

int clock_gettime(clockid_t clock, struct timespec *time) {
  (void)clock;
  *time = (struct timespec){.tv_sec = clock_ns / 1000000000, .tv_nsec = clock_ns % 1000000000};
  return 0;
}

/* Stands in place of `ppoll`. What came lies in the socket. */
int watch_inside(struct pollfd *watched, nfds_t count, const struct timespec *most,
                 const sigset_t *signals) __asm__("ppoll");

int watch_inside(struct pollfd *watched, nfds_t count, const struct timespec *most,
                 const sigset_t *signals) {
  (void)signals;
  HOLD(count == 1 && watched->fd == ours);
  int64_t wait =
      most == NULL ? FOR_EVER : (int64_t)most->tv_sec * 1000000000 + most->tv_nsec;
  if (wait > 0 && on_wait != NULL) {
    on_wait(wait);
  }
  struct timespec none = {0};
  int ready = watched->events == POLLIN
                  ? (int)syscall(SYS_ppoll, watched, count, &none, NULL, 0)
                  : has_room;
  HOLD(ready > 0 || wait < FOR_EVER);
  clock_ns += ready == 0 ? wait : 0;
  return ready;
}

/* ---- a test's beginning and end ---- */

static void begin_inside(void) {
  int pair[2];
  HOLD(socketpair(AF_UNIX, SOCK_STREAM, 0, pair) == 0);
  ours = pair[0];
  theirs = pair[1];
  sent_len = 0;
  on_send = NULL;
  on_receive = NULL;
  on_wait = NULL;
  has_room = is_lost = false;
  WANT(rughvadi_server_new(&limits, &server));
  WANT(rughvadi_client_new(&limits, OTHER, 1, &other));
  WANT(rughvadi_client_hello(&other));
  pass_other();
}

static void end_inside(rughvadi_link *link) {
  rughvadi_link_close(link);
  rughvadi_free(&other);
  rughvadi_free(&server);
  close(ours);
  close(theirs);
}

/* The other client begins a transaction and reads a page; it may read it at once or later. */
static inline void other_reads(uint32_t page) {
  uint64_t txn;
  uint8_t room[SIZE];
  bool here = false;
  WANT(rughvadi_client_begin(&other, &txn));
  WANT(rughvadi_client_read(&other, page, room, SIZE, &here));
  pass_other();
}

/* The other client wants to write a page that it has read; it may at once or later. */
static inline void other_wants(uint32_t page) {
  uint8_t room[SIZE];
  bool here = false, may = false;
  WANT(rughvadi_client_read(&other, page, room, SIZE, &here));
  HOLD(here);
  WANT(rughvadi_client_want(&other, page, &may));
  pass_other();
}

static inline void other_drops(void) {
  WANT(rughvadi_client_drop(&other));
  pass_other();
}

#endif
