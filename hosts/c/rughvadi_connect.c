#include "rughvadi_connect.h"

#include "waiting.h"

#include <netdb.h>
#include <netinet/in.h>
#include <netinet/tcp.h>
#include <stdio.h>
#include <stdlib.h>
#include <string.h>
#include <sys/socket.h>
#include <sys/un.h>
#include <unistd.h>

/* The greeting, but for the store's name: 8 letters, the version, the name's length and a token. */
enum { LETTERS = 8, VERSION = 1, TOKEN_AT = 10, NAME_AT = TOKEN_AT + RUGHVADI_TOKEN, NAME = 63 };
enum { ANSWER = 40, ANSWERS = 6, DIGITS = 2 * RUGHVADI_TOKEN };
/* For so long a connection and the answer to a greeting are awaited. */
enum { CONNECT_MS = 5000, GREETING_MS = 10000 };
/* After so many seconds of silence the other end is asked whether it is there, and so often. */
enum { ASK_AFTER = 5, ASKS = 3 };
/* A host, a port, or a path has no more bytes than this. */
enum { ADDRESS = 256 };

static uint64_t number_at(const uint8_t *at, size_t count) {
  uint64_t number = 0;
  for (size_t place = 0; place < count; place++) {
    number = number << 8 | at[place];
  }
  return number;
}

/* ---- tokens ---- */

/* A token from its digits, which are hexadecimal and no more than it has. */
static bool token_of(uint8_t token[RUGHVADI_TOKEN], const char *digits) {
  static const char known[] = "0123456789abcdef0123456789ABCDEF";
  if (strlen(digits) != DIGITS) {
    return false;
  }
  for (size_t place = 0; place < DIGITS; place++) {
    const char *digit = strchr(known, digits[place]);
    if (digit == NULL) {
      return false;
    }
    token[place / 2] = (uint8_t)(token[place / 2] << 4 | (digit - known) % 16);
  }
  return true;
}

uint32_t rughvadi_token_read(const char *path, uint32_t client, uint8_t token[RUGHVADI_TOKEN]) {
  FILE *file = fopen(path, "re");
  if (file == NULL) {
    return RUGHVADI_CONNECT_SYSTEM;
  }
  char line[256], digits[DIGITS + 2];
  unsigned number;
  bool found = false;
  while (!found && fgets(line, sizeof line, file) != NULL) {
    found = sscanf(line, "%u %65s", &number, digits) == 2 && number == client
            && token_of(token, digits);
  }
  fclose(file);
  return found ? RUGHVADI_DONE : RUGHVADI_CONNECT_TOKEN;
}

/* ---- sockets ---- */

/* Closes a socket, and leaves errno as it was. */
static void let_go(int socket) {
  int fault = errno;
  close(socket);
  errno = fault;
}

static bool set(int socket, int level, int option, int value) {
  return setsockopt(socket, level, option, &value, sizeof value) == 0;
}

/* Bounds what the system waits for as it connects or sends; 0: there is no bound. */
static bool bound_sends(int socket, struct timespec most) {
  struct timeval bound = {.tv_sec = most.tv_sec, .tv_usec = most.tv_nsec / 1000};
  return setsockopt(socket, SOL_SOCKET, SO_SNDTIMEO, &bound, sizeof bound) == 0;
}

/* What is left until then, and never so little that it would be no bound. */
static struct timespec bound_until(moment until) {
  static const struct timespec unbounded = {0};
  struct timespec left = left_until(until);
  left.tv_nsec += left.tv_sec == 0 && left.tv_nsec < 1000 ? 1000 : 0;
  return until == NEVER ? unbounded : left;
}

/* Connects the socket within so many milliseconds: ETIMEDOUT. */
static bool connects(int socket, const struct addrinfo *to, int most_ms) {
  moment until = in_ms(most_ms);
  bool done;
  do {
    /* A signal ends the call, and the connection is made meanwhile: it is waited for again. */
    done = bound_sends(socket, bound_until(until))
           && connect(socket, to->ai_addr, to->ai_addrlen) == 0;
  } while (!done && errno == EINTR);
  if (!done && (errno == EAGAIN || errno == EINPROGRESS || errno == EALREADY)) {
    errno = ETIMEDOUT;
  }
  return done && bound_sends(socket, (struct timespec){0});
}

/* A socket that is connected; below 0 where it isn't. */
static int connected(const struct addrinfo *to, int most_ms) {
  int fd = socket(to->ai_family, SOCK_STREAM | SOCK_CLOEXEC, 0);
  if (fd >= 0 && !connects(fd, to, most_ms)) {
    let_go(fd);
    return -1;
  }
  return fd;
}

static int dial_local(const char *path, int most_ms) {
  struct sockaddr_un address = {.sun_family = AF_UNIX};
  if (strlen(path) >= sizeof address.sun_path) {
    errno = ENAMETOOLONG;
    return -1;
  }
  memcpy(address.sun_path, path, strlen(path) + 1);
  struct addrinfo to = {.ai_family = AF_UNIX,
                        .ai_addr = (struct sockaddr *)&address,
                        .ai_addrlen = sizeof address};
  return connected(&to, most_ms);
}

/* Connects to the first of these that answers. */
static int dial_first(const struct addrinfo *found, int most_ms) {
  int fd = -1;
  for (; found != NULL && fd < 0; found = found->ai_next) {
    fd = connected(found, most_ms);
  }
  return fd;
}

/* Nothing that is sent waits for more; that the other end is gone is found though nothing comes. */
static bool set_remote(int socket) {
  return set(socket, IPPROTO_TCP, TCP_NODELAY, 1) && set(socket, SOL_SOCKET, SO_KEEPALIVE, 1)
         && set(socket, IPPROTO_TCP, TCP_KEEPIDLE, ASK_AFTER)
         && set(socket, IPPROTO_TCP, TCP_KEEPINTVL, ASK_AFTER)
         && set(socket, IPPROTO_TCP, TCP_KEEPCNT, ASKS)
         && set(socket, IPPROTO_TCP, TCP_USER_TIMEOUT, (1 + ASKS) * ASK_AFTER * 1000);
}

/* The host's name and its port from HOST:PORT or [HOST]:PORT; false where it is neither. */
static bool split(const char *address, char host[ADDRESS], const char **port) {
  const char *colon = strrchr(address, ':');
  if (colon == NULL || colon - address >= ADDRESS) {
    errno = EINVAL;
    return false;
  }
  size_t size = (size_t)(colon - address);
  bool has_brackets = size > 2 && address[0] == '[' && colon[-1] == ']';
  size -= has_brackets ? 2 : 0;
  memcpy(host, address + (has_brackets ? 1 : 0), size);
  host[size] = 0;
  *port = colon + 1;
  return true;
}

static int dial_remote(const char *address, int most_ms) {
  char host[ADDRESS];
  const char *port;
  if (!split(address, host, &port)) {
    return -1;
  }
  struct addrinfo wanted = {.ai_socktype = SOCK_STREAM}, *found;
  if (getaddrinfo(host, port, &wanted, &found) != 0) {
    errno = EADDRNOTAVAIL;
    return -1;
  }
  int fd = dial_first(found, most_ms);
  freeaddrinfo(found);
  if (fd >= 0 && !set_remote(fd)) {
    let_go(fd);
    return -1;
  }
  return fd;
}

uint32_t rughvadi_dial_within(const char *address, int connect_ms, int *socket) {
  bool is_local = strchr(address, '/') != NULL;
  *socket = is_local ? dial_local(address, connect_ms) : dial_remote(address, connect_ms);
  return *socket >= 0 ? RUGHVADI_DONE : RUGHVADI_CONNECT_SYSTEM;
}

uint32_t rughvadi_dial(const char *address, int *socket) {
  return rughvadi_dial_within(address, CONNECT_MS, socket);
}

/* ---- the greeting ---- */

/* The fault after a system call that failed. */
static uint32_t failed(void) {
  return errno == EPIPE || errno == ECONNRESET ? RUGHVADI_CONNECT_CLOSED : RUGHVADI_CONNECT_SYSTEM;
}

/* A socket, and until when its other end is waited for. */
struct talk {
  int socket;
  moment until;
};

/* Waits for such an event: ETIMEDOUT. */
static uint32_t await(const struct talk *talk, short events) {
  struct pollfd watched = {.fd = talk->socket, .events = events};
  int ready = watch_on(&watched, talk->until);
  if (ready == 0) {
    errno = ETIMEDOUT;
  }
  return ready > 0 ? RUGHVADI_DONE : RUGHVADI_CONNECT_SYSTEM;
}

/* After a call that moved nothing: the fault, or none where it is to be made again. */
static uint32_t moved_none(const struct talk *talk, short events) {
  if (errno == EINTR) {
    return RUGHVADI_DONE;
  }
  return errno == EAGAIN || errno == EWOULDBLOCK ? await(talk, events) : failed();
}

static uint32_t send_all(const struct talk *talk, const uint8_t *bytes, size_t count) {
  uint32_t fault = RUGHVADI_DONE;
  while (count > 0 && fault == RUGHVADI_DONE) {
    ssize_t sent = send(talk->socket, bytes, count, MSG_NOSIGNAL | MSG_DONTWAIT);
    fault = sent < 0 ? moved_none(talk, POLLOUT) : RUGHVADI_DONE;
    bytes += sent > 0 ? sent : 0;
    count -= sent > 0 ? (size_t)sent : 0;
  }
  return fault;
}

static uint32_t receive_all(const struct talk *talk, uint8_t *bytes, size_t count) {
  uint32_t fault = RUGHVADI_DONE;
  while (count > 0 && fault == RUGHVADI_DONE) {
    ssize_t got = recv(talk->socket, bytes, count, MSG_DONTWAIT);
    if (got == 0) {
      return RUGHVADI_CONNECT_CLOSED;
    }
    fault = got < 0 ? moved_none(talk, POLLIN) : RUGHVADI_DONE;
    bytes += got > 0 ? got : 0;
    count -= got > 0 ? (size_t)got : 0;
  }
  return fault;
}

static rughvadi_seat seat_of(const uint8_t *answer) {
  uint64_t numbers[7];
  for (size_t place = 0; place < 7; place++) {
    numbers[place] = number_at(answer + 12 + 4 * place, 4);
  }
  return (rughvadi_seat){
      .client = (uint32_t)number_at(answer + 2, 2),
      .incarnation = number_at(answer + 4, 8),
      .limits = {numbers[0], numbers[1], numbers[2], numbers[3], numbers[4], numbers[5],
                 numbers[6]},
  };
}

uint32_t rughvadi_greet_within(int socket, const uint8_t token[RUGHVADI_TOKEN], const char *store,
                               int greeting_ms, rughvadi_seat *seat) {
  uint8_t greeting[NAME_AT + NAME] = "rughvadi", answer[ANSWER];
  struct talk talk = {.socket = socket, .until = in_ms(greeting_ms)};
  size_t size = strlen(store);
  if (size > NAME) {
    return RUGHVADI_CONNECT_GREETING;
  }
  greeting[LETTERS] = VERSION;
  greeting[LETTERS + 1] = (uint8_t)size;
  memcpy(greeting + TOKEN_AT, token, RUGHVADI_TOKEN);
  /* NOLINTNEXTLINE(bugprone-not-null-terminated-result): its length stands before it */
  memcpy(greeting + NAME_AT, store, size);
  uint32_t fault = send_all(&talk, greeting, NAME_AT + size);
  if (fault == RUGHVADI_DONE) {
    fault = receive_all(&talk, answer, ANSWER);
  }
  if (fault != RUGHVADI_DONE) {
    return fault;
  }
  if (answer[0] != VERSION || answer[1] >= ANSWERS) {
    return RUGHVADI_CONNECT_GREETING;
  }
  if (answer[1] != 0) {
    return RUGHVADI_CONNECT_GREETING + answer[1] - 1u;
  }
  *seat = seat_of(answer);
  return RUGHVADI_DONE;
}

uint32_t rughvadi_greet(int socket, const uint8_t token[RUGHVADI_TOKEN], const char *store,
                        rughvadi_seat *seat) {
  return rughvadi_greet_within(socket, token, store, GREETING_MS, seat);
}

/* ---- links ---- */

/* How many addresses a list has. */
static uint32_t count_of(const char *addresses) {
  uint32_t count = 1;
  for (const char *comma = strchr(addresses, ','); comma != NULL; count++) {
    comma = strchr(comma + 1, ',');
  }
  return count;
}

/* The address at this place of a list; false where it is longer than any. */
static bool address_at(const char *addresses, uint32_t place, char room[ADDRESS]) {
  for (; place > 0; place--) {
    addresses = strchr(addresses, ',') + 1;
  }
  size_t size = strcspn(addresses, ",");
  if (size >= ADDRESS) {
    errno = ENAMETOOLONG;
    return false;
  }
  memcpy(room, addresses, size);
  room[size] = 0;
  return true;
}

/* Whether the store may be served at another address after this fault. */
static bool goes_on(uint32_t fault) {
  return fault == RUGHVADI_CONNECT_SYSTEM || fault == RUGHVADI_CONNECT_CLOSED
         || fault == RUGHVADI_CONNECT_DOWN || fault == RUGHVADI_LINK_SILENT;
}

/* Greets over a socket that is connected, and opens a link that owns it; else it is closed. */
static uint32_t open_over(rughvadi_link *link, int socket, const rughvadi_gateways *gateways,
                          const uint8_t token[RUGHVADI_TOKEN], const char *store,
                          rughvadi_seat *seat) {
  int greeting_ms = gateways->greeting_ms != 0 ? gateways->greeting_ms : GREETING_MS;
  uint32_t fault = rughvadi_greet_within(socket, token, store, greeting_ms, seat);
  if (fault == RUGHVADI_DONE) {
    fault = rughvadi_link_open(link, &seat->limits, seat->client, seat->incarnation, socket);
  }
  link->owns = fault == RUGHVADI_DONE;
  if (fault != RUGHVADI_DONE) {
    let_go(socket);
  }
  return fault;
}

uint32_t rughvadi_link_connect_next(rughvadi_link *link, rughvadi_gateways *gateways,
                                    const uint8_t token[RUGHVADI_TOKEN], const char *store,
                                    rughvadi_seat *seat) {
  char address[ADDRESS];
  uint32_t count = count_of(gateways->addresses), fault = RUGHVADI_CONNECT_SYSTEM;
  int connect_ms = gateways->connect_ms != 0 ? gateways->connect_ms : CONNECT_MS;
  *link = (rughvadi_link){.socket = -1, .gone = true};
  for (uint32_t tries = 0; tries < count && goes_on(fault); tries++) {
    uint32_t place = gateways->next % count;
    int socket = -1;
    gateways->next = (place + 1) % count;
    fault = address_at(gateways->addresses, place, address)
                ? rughvadi_dial_within(address, connect_ms, &socket)
                : RUGHVADI_CONNECT_SYSTEM;
    if (fault == RUGHVADI_DONE) {
      fault = open_over(link, socket, gateways, token, store, seat);
    }
  }
  return fault;
}

uint32_t rughvadi_link_connect(rughvadi_link *link, const char *addresses,
                               const uint8_t token[RUGHVADI_TOKEN], const char *store,
                               rughvadi_seat *seat) {
  rughvadi_gateways gateways = {.addresses = addresses};
  return rughvadi_link_connect_next(link, &gateways, token, store, seat);
}
