/* link: a link at a gateway and at a server, each a process: the greeting and its refusals, tokens,
 * signals, an answer that comes late, an end that reads nothing, and what is left of a client whose
 * connection ended, also of a page that it holds. */
#include "processes.h"

#include <errno.h>
#include <linux/sockios.h>
#include <poll.h>
#include <sched.h>
#include <sys/ioctl.h>
#include <sys/resource.h>

static int ours, theirs;
static int goes_on; /* the server waits there for a byte once it has welcomed a client */
static volatile sig_atomic_t signals;

static void count_signal(int signal) {
  (void)signal;
  signals = signals + 1;
}

/* ---- the other end ---- */

/* Signals to the parent, which waits, or soon does. */
static void disturb(void) {
  for (int times = 0; times < 20; times++) {
    HOLD(kill(getppid(), SIGUSR1) == 0);
    sched_yield();
  }
}

static void wait_once(void) {
  char byte;
  HOLD(read(goes_on, &byte, 1) == 1);
  behind_frame = NULL;
}

/* ---- this end ---- */

static pid_t forked(void) {
  int pair[2];
  HOLD(socketpair(AF_UNIX, SOCK_STREAM, 0, pair) == 0);
  ours = pair[0];
  theirs = pair[1];
  pid_t child = process();
  if (child == 0) {
    close(ours);
  }
  return child;
}

static void ended(pid_t child) {
  close(ours);
  close(theirs);
  ended_well(child);
}

static void greet(const uint8_t what[2], size_t count, uint32_t wanted) {
  uint8_t token[RUGHVADI_TOKEN];
  rughvadi_seat seat = {0};
  memset(token, 7, sizeof token);
  pid_t child = forked();
  if (child == 0) {
    answer(theirs, what, count);
    exit(0);
  }
  close(theirs);
  HOLD(rughvadi_greet(ours, token, "main", &seat) == wanted);
  bool right = seat.client == 1 && seat.incarnation == 9 && seat.limits.page_size == SIZE
               && seat.limits.kout == 4 && seat.limits.keep_write == 0;
  HOLD(wanted == RUGHVADI_DONE ? right : seat.incarnation == 0);
  theirs = -1;
  ended(child);
}

/* Waits until the other end has read what was sent. */
static void wait_until_read(int socket) {
  int left = 1;
  while (left > 0) {
    HOLD(ioctl(socket, SIOCOUTQ, &left) == 0);
    sched_yield();
  }
}

/* A connection ends before the greeting, or once it lies there and nobody has read it. */
static void ends_early(bool is_greeted) {
  uint8_t token[RUGHVADI_TOKEN] = {7};
  rughvadi_seat seat = {0};
  pid_t child = forked();
  if (child == 0) {
    struct pollfd greeting = {.fd = theirs, .events = POLLIN};
    HOLD(!is_greeted || poll(&greeting, 1, -1) == 1);
    exit(0);
  }
  close(theirs);
  if (!is_greeted) {
    ended_well(child);
  }
  HOLD(rughvadi_greet(ours, token, "main", &seat) == RUGHVADI_CONNECT_CLOSED);
  HOLD(errno == (is_greeted ? ECONNRESET : EPIPE) && seat.incarnation == 0);
  close(ours);
  if (is_greeted) {
    ended_well(child);
  }
}

/* Each number of an answer is where it belongs, also where its bytes come one by one. */
static void numbers(void) {
  uint8_t token[RUGHVADI_TOKEN], bytes[ANSWER] = {1, 0};
  rughvadi_seat seat = {0};
  memset(token, 7, sizeof token);
  for (uint8_t place = 2; place < ANSWER; place++) {
    bytes[place] = place;
  }
  pid_t child = forked();
  if (child == 0) {
    hear_greeting(theirs);
    for (int place = 0; place < ANSWER; place++) {
      HOLD(send(theirs, bytes + place, 1, MSG_NOSIGNAL) == 1);
      wait_until_read(theirs);
    }
    exit(0);
  }
  WANT(rughvadi_greet(ours, token, "main", &seat));
  HOLD(seat.client == 0x0203 && seat.incarnation == 0x0405060708090a0b);
  const rughvadi_limits wanted = {0x0c0d0e0f, 0x10111213, 0x14151617, 0x18191a1b,
                                  0x1c1d1e1f, 0x20212223, 0x24252627};
  HOLD(memcmp(&seat.limits, &wanted, sizeof wanted) == 0);
  ended(child);
}

static void greetings(void) {
  static const uint32_t wanted[] = {
      RUGHVADI_DONE,           RUGHVADI_CONNECT_GREETING, RUGHVADI_CONNECT_TOKEN,
      RUGHVADI_CONNECT_STORE,  RUGHVADI_CONNECT_CLIENT,   RUGHVADI_CONNECT_DOWN,
      RUGHVADI_CONNECT_GREETING};
  for (uint8_t what = 0; what < 7; what++) {
    greet((const uint8_t[]){1, what}, ANSWER, wanted[what]);
  }
  greet((const uint8_t[]){2, 0}, ANSWER, RUGHVADI_CONNECT_GREETING);
  greet((const uint8_t[]){1, 0}, ANSWER - 1, RUGHVADI_CONNECT_CLOSED);
}

static void put_digits(FILE *file, const char *two, int count) {
  for (int place = 0; place < count; place++) {
    fputs(two, file);
  }
}

static void tokens(void) {
  char path[] = "/tmp/rughvadi_tokens_XXXXXX";
  uint8_t token[RUGHVADI_TOKEN];
  FILE *file = fdopen(mkstemp(path), "w");
  HOLD(file != NULL);
  fputs("# of some clients\n\n0 00\n1 ", file);
  put_digits(file, "aB", RUGHVADI_TOKEN);
  fputs("\n3 ", file);
  put_digits(file, "-1", RUGHVADI_TOKEN);
  fputs("\n4 ", file);
  put_digits(file, "aB", RUGHVADI_TOKEN + 1);
  fputs("\n", file);
  HOLD(fclose(file) == 0);
  int before = open_files();
  WANT(rughvadi_token_read(path, 1, token));
  HOLD(token[0] == 0xab && token[RUGHVADI_TOKEN - 1] == 0xab);
  for (uint32_t client = 0; client < 5; client += client == 0 ? 2 : 1) {
    HOLD(rughvadi_token_read(path, client, token) == RUGHVADI_CONNECT_TOKEN);
  }
  unlink(path);
  HOLD(rughvadi_token_read(path, 1, token) == RUGHVADI_CONNECT_SYSTEM);
  HOLD(open_files() == before);
}

/* The connection ends, or a call of the system fails, amid a transaction that holds a page. */
static void gone(bool fails) {
  pid_t child = forked();
  if (child == 0) {
    serve(theirs);
    exit(0);
  }
  rughvadi_link link;
  uint8_t page[SIZE];
  uint64_t number;
  WANT(rughvadi_link_open(&link, &limits, 1, 9, ours));
  WANT(rughvadi_link_begin(&link));
  WANT(rughvadi_link_fetch(&link, 2, page, SIZE));
  WANT(rughvadi_link_put(&link, 2, page, SIZE));
  WANT(rughvadi_link_serve(&link, 0));
  if (fails) {
    /* No call may watch a file any more. */
    struct rlimit files, none;
    HOLD(getrlimit(RLIMIT_NOFILE, &files) == 0);
    none = (struct rlimit){0, files.rlim_max};
    HOLD(setrlimit(RLIMIT_NOFILE, &none) == 0);
    HOLD(rughvadi_link_serve(&link, 0) == RUGHVADI_LINK_SYSTEM);
    HOLD(setrlimit(RLIMIT_NOFILE, &files) == 0);
    shutdown(theirs, SHUT_RDWR);
  } else {
    shutdown(theirs, SHUT_RDWR);
    HOLD(rughvadi_link_serve(&link, 1000) == RUGHVADI_LINK_CLOSED);
  }
  HOLD(rughvadi_link_fetch(&link, 2, page, SIZE) == RUGHVADI_LINK_CLOSED);
  HOLD(rughvadi_link_want(&link, 2) == RUGHVADI_LINK_CLOSED);
  HOLD(rughvadi_link_put(&link, 2, page, SIZE) == RUGHVADI_LINK_CLOSED);
  HOLD(rughvadi_link_commit(&link, &number) == RUGHVADI_LINK_CLOSED);
  HOLD(rughvadi_link_drop(&link) == RUGHVADI_LINK_CLOSED);
  HOLD(rughvadi_link_begin(&link) == RUGHVADI_LINK_CLOSED);
  HOLD(rughvadi_link_serve(&link, 0) == RUGHVADI_LINK_CLOSED);
  rughvadi_link_close(&link);
  ended(child);
}

/* Signals come while an answer is awaited, and no wait ends by them. */
static void disturbed(void) {
  struct sigaction told = {.sa_handler = count_signal};
  HOLD(sigaction(SIGUSR1, &told, NULL) == 0);
  pid_t child = forked();
  if (child == 0) {
    before_sends = disturb;
    serve(theirs);
    exit(0);
  }
  rughvadi_link link;
  uint8_t page[SIZE];
  WANT(rughvadi_link_open(&link, &limits, 1, 9, ours));
  link.wait_ms = -1;
  link.tries = 0;
  WANT(rughvadi_link_begin(&link));
  WANT(rughvadi_link_fetch(&link, 2, page, SIZE));
  HOLD(signals > 0);
  rughvadi_link_close(&link);
  shutdown(ours, SHUT_RDWR);
  ended(child);
}

/* No answer comes: each call says so, and the last one gets the answer that comes late. */
static void silent(void) {
  int pair[2];
  HOLD(pipe(pair) == 0);
  pid_t child = forked();
  if (child == 0) {
    goes_on = pair[0];
    behind_frame = wait_once;
    serve(theirs);
    exit(0);
  }
  rughvadi_link link;
  uint8_t page[SIZE];
  WANT(rughvadi_link_open(&link, &limits, 1, 9, ours));
  link.wait_ms = link.tries = 0;
  WANT(rughvadi_link_begin(&link));
  HOLD(rughvadi_link_fetch(&link, 2, page, SIZE) == RUGHVADI_LINK_SILENT);
  HOLD(rughvadi_link_fetch(&link, 2, page, SIZE) == RUGHVADI_LINK_SILENT);
  HOLD(rughvadi_link_want(&link, 2) == RUGHVADI_LINK_SILENT);
  HOLD(write(pair[1], "", 1) == 1);
  link.wait_ms = -1;
  WANT(rughvadi_link_fetch(&link, 3, page, SIZE));
  WANT(rughvadi_link_fetch(&link, 2, page, SIZE));
  rughvadi_link_close(&link);
  close(pair[0]);
  close(pair[1]);
  shutdown(ours, SHUT_RDWR);
  ended(child);
}

/* The other end reads no more: what was begun can't be sent whole. */
static void stuffed(void) {
  int pair[2];
  HOLD(pipe(pair) == 0);
  pid_t child = forked();
  if (child == 0) {
    goes_on = pair[0];
    behind_frame = wait_once;
    serve(theirs);
    exit(0);
  }
  rughvadi_link link;
  WANT(rughvadi_link_open(&link, &limits, 1, 9, ours));
  link.wait_ms = link.tries = 1;
  /* The server waits, and what it doesn't read fills the socket, until no frame fits any more. */
  uint32_t fault;
  do {
    fault = rughvadi_link_begin(&link);
    fault = fault == RUGHVADI_DONE ? rughvadi_link_drop(&link) : fault;
    fault = fault == RUGHVADI_DONE ? rughvadi_link_serve(&link, 0) : fault; /* sends the Drop */
  } while (fault == RUGHVADI_DONE);
  HOLD(fault == RUGHVADI_LINK_SYSTEM && errno == ETIMEDOUT);
  HOLD(rughvadi_link_begin(&link) == RUGHVADI_LINK_CLOSED);
  rughvadi_link_close(&link);
  HOLD(write(pair[1], "", 1) == 1);
  close(pair[0]);
  close(pair[1]);
  ended(child);
}

/* A link that can't be opened is empty, and the socket stays the caller's. */
static void unopened(void) {
  rughvadi_limits none = limits;
  rughvadi_link link;
  uint64_t number;
  int pair[2];
  none.pages = 0;
  HOLD(socketpair(AF_UNIX, SOCK_STREAM, 0, pair) == 0);
  memset(&link, 0xa5, sizeof link);
  HOLD(rughvadi_link_open(&link, &none, 1, 9, pair[0]) == RUGHVADI_LIMIT_PAGES);
  HOLD(link.socket == -1 && link.out == NULL && link.in == NULL);
  HOLD(rughvadi_link_begin(&link) == RUGHVADI_LINK_CLOSED);
  HOLD(rughvadi_link_commit(&link, &number) == RUGHVADI_LINK_CLOSED);
  rughvadi_link_close(&link);
  close(pair[1]);
  memset(&link, 0xa5, sizeof link);
  HOLD(rughvadi_link_open(&link, &limits, 1, 9, pair[0]) == RUGHVADI_LINK_CLOSED);
  HOLD(link.socket == -1 && rughvadi_link_serve(&link, 0) == RUGHVADI_LINK_CLOSED);
  HOLD(close(pair[0]) == 0);
}

int main(void) {
  greetings();
  ends_early(false);
  ends_early(true);
  numbers();
  tokens();
  unopened();
  gone(false);
  gone(true);
  disturbed();
  silent();
  stuffed();
  puts("greetings, tokens, signals, a late answer, a stuffed socket, a held page that is gone");
  return 0;
}
