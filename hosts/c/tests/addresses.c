/* addresses: a link connects to the first of several addresses that serves its store, and then to
 * the one behind it; each has a limit, for the connection and for the answer to the greeting.
 * Whatever fails, the link is empty and no socket stays open. */
#include "processes.h"

#include <arpa/inet.h>
#include <errno.h>
#include <netinet/tcp.h>
#include <stddef.h>
#include <sys/un.h>

enum { PATH = 128, LIST = 512, FULL = 16, LIMIT_MS = 50, FOREVER = -1 };

static char folder[] = "/tmp/rughvadi_addresses_XXXXXX";
static uint8_t token[RUGHVADI_TOKEN];

/* ---- the other ends ---- */

static struct sockaddr_un path_of(const char *name) {
  struct sockaddr_un address = {.sun_family = AF_UNIX};
  snprintf(address.sun_path, sizeof address.sun_path, "%s/%s", folder, name);
  return address;
}

static int listener(const struct sockaddr *address, socklen_t size, int backlog) {
  int fd = socket(address->sa_family, SOCK_STREAM, 0);
  HOLD(fd >= 0 && bind(fd, address, size) == 0 && listen(fd, backlog) == 0);
  return fd;
}

static int local(const char *name, int backlog) {
  struct sockaddr_un address = path_of(name);
  return listener((const struct sockaddr *)&address, sizeof address, backlog);
}

static int loopback(int backlog) {
  struct sockaddr_in address = {.sin_family = AF_INET, .sin_addr.s_addr = htonl(INADDR_LOOPBACK)};
  return listener((const struct sockaddr *)&address, sizeof address, backlog);
}

static unsigned port_of(int fd) {
  struct sockaddr_in address;
  socklen_t size = sizeof address;
  HOLD(getsockname(fd, (struct sockaddr *)&address, &size) == 0);
  return ntohs(address.sin_port);
}

/* A gateway that answers each greeting so, and serves where it answers 0. */
static pid_t gateway(int fd, uint8_t what) {
  pid_t child = process();
  for (int connection = -1; child == 0; close(connection)) {
    connection = accept(fd, NULL, NULL);
    answer(connection, (const uint8_t[]){1, what}, ANSWER);
    if (what == 0) {
      serve(connection);
    }
  }
  close(fd);
  return child;
}

static void end(pid_t child) {
  int status;
  HOLD(kill(child, SIGKILL) == 0 && waitpid(child, &status, 0) == child);
}

/* Connects to a listener, which takes nobody, until it lets no more wait. */
static void hold_full(const char *address) {
  int waiting[FULL], count = 0;
  while (rughvadi_dial_within(address, LIMIT_MS, &waiting[count]) == RUGHVADI_DONE) {
    count++;
    HOLD(count < FULL);
  }
  HOLD(errno == ETIMEDOUT && waiting[count] == -1);
  while (count > 0) {
    close(waiting[--count]);
  }
}

/* ---- this end ---- */

/* The addresses of these sockets in the folder. */
static const char *listed(const char *names) {
  static char list[LIST];
  char copy[LIST], *rest = NULL;
  size_t at = 0;
  snprintf(copy, sizeof copy, "%s", names);
  list[0] = 0;
  for (char *name = strtok_r(copy, " ", &rest); name != NULL; name = strtok_r(NULL, " ", &rest)) {
    at += (size_t)snprintf(list + at, sizeof list - at, "%s%s/%s", at > 0 ? "," : "", folder, name);
  }
  return list;
}

/* The link of which a call failed holds nothing, and may be closed. */
static void hold_empty(rughvadi_link *link) {
  uint8_t page[SIZE];
  HOLD(link->socket == -1 && link->out == NULL && link->in == NULL && !link->owns);
  HOLD(rughvadi_link_begin(link) == RUGHVADI_LINK_CLOSED);
  HOLD(rughvadi_link_fetch(link, 0, page, SIZE) == RUGHVADI_LINK_CLOSED);
  rughvadi_link_close(link);
  rughvadi_link_close(link);
}

/* Connects once, to a link that had something else in it; what came of it. */
static uint32_t connected(rughvadi_gateways *gateways) {
  rughvadi_link link;
  rughvadi_seat seat;
  int before = open_files();
  memset(&link, 0xa5, sizeof link);
  uint32_t fault = rughvadi_link_connect_next(&link, gateways, token, "main", &seat);
  if (fault == RUGHVADI_DONE) {
    uint8_t page[SIZE];
    WANT(rughvadi_link_begin(&link));
    WANT(rughvadi_link_fetch(&link, 1, page, SIZE));
    HOLD(open_files() == before + 1);
    rughvadi_link_close(&link);
  }
  int why = errno;
  hold_empty(&link);
  HOLD(open_files() == before);
  errno = why;
  return fault;
}

/* Of these sockets in the folder, which are tried in turn from the first on. */
static uint32_t connected_to(const char *names) {
  rughvadi_gateways gateways = {
      .addresses = listed(names), .connect_ms = FOREVER, .greeting_ms = FOREVER};
  return connected(&gateways);
}

/* ---- tests ---- */

/* Where nobody answers it takes its limit and no more, and goes on at the next one. */
static void limits_of_time(void) {
  int silent = local("silent", 1);
  rughvadi_gateways greets = {
      .addresses = listed("silent"), .connect_ms = FOREVER, .greeting_ms = LIMIT_MS};
  HOLD(connected(&greets) == RUGHVADI_CONNECT_SYSTEM && errno == ETIMEDOUT);
  greets.addresses = listed("silent absent");
  HOLD(connected(&greets) == RUGHVADI_CONNECT_SYSTEM && errno == ENOENT);
  /* Two have waited in vain, and no more may wait. */
  rughvadi_gateways dials = {
      .addresses = listed("silent"), .connect_ms = LIMIT_MS, .greeting_ms = FOREVER};
  HOLD(connected(&dials) == RUGHVADI_CONNECT_SYSTEM && errno == ETIMEDOUT);
  hold_full(path_of("silent").sun_path);
  pid_t child = gateway(local("later", 8), 0);
  dials.addresses = listed("silent later");
  WANT(connected(&dials));
  end(child);
  close(silent);
  char address[PATH];
  int remote = loopback(0);
  snprintf(address, sizeof address, "127.0.0.1:%u", port_of(remote));
  hold_full(address);
  close(remote);
}

/* It goes on where a store isn't served, and nowhere else; what was answered last is the fault. */
static void lists(void) {
  static const char *const names[] = {"up", "greeting", "token", "store", "client", "down"};
  pid_t children[6];
  for (uint8_t what = 0; what < 6; what++) {
    children[what] = gateway(local(names[what], 8), what);
  }
  WANT(connected_to("up"));
  WANT(connected_to("absent down up"));
  HOLD(connected_to("greeting up") == RUGHVADI_CONNECT_GREETING);
  HOLD(connected_to("token up") == RUGHVADI_CONNECT_TOKEN);
  HOLD(connected_to("store up") == RUGHVADI_CONNECT_STORE);
  HOLD(connected_to("client up") == RUGHVADI_CONNECT_CLIENT);
  HOLD(connected_to("absent down") == RUGHVADI_CONNECT_DOWN);
  HOLD(connected_to("down absent") == RUGHVADI_CONNECT_SYSTEM && errno == ENOENT);
  for (int at = 0; at < 6; at++) {
    end(children[at]);
  }
}

/* Each call begins behind the address that was tried last. */
static void turns(void) {
  pid_t one = gateway(local("one", 8), 0), two = gateway(local("two", 8), 0);
  rughvadi_gateways gateways = {
      .addresses = listed("one absent two"), .connect_ms = FOREVER, .greeting_ms = FOREVER};
  static const uint32_t behind[] = {1, 0, 1, 0};
  for (int at = 0; at < 4; at++) {
    WANT(connected(&gateways));
    HOLD(gateways.next == behind[at]);
  }
  end(two);
  for (int at = 0; at < 3; at++) {
    WANT(connected(&gateways));
    HOLD(gateways.next == 1);
  }
  end(one);
  HOLD(connected(&gateways) == RUGHVADI_CONNECT_SYSTEM && errno == ECONNREFUSED);
  HOLD(gateways.next == 1);
}

static int option(int fd, int level, int name) {
  int value = -1;
  socklen_t size = sizeof value;
  HOLD(getsockopt(fd, level, name, &value, &size) == 0);
  return value;
}

/* A link over TCP, to an address in brackets, finds that its other end is gone. */
static void over_tcp(void) {
  char addresses[2 * PATH];
  int fd = loopback(8);
  snprintf(addresses, sizeof addresses, "[127.0.0.1]:1,[127.0.0.1]:%u", port_of(fd));
  pid_t child = gateway(fd, 0);
  rughvadi_link link;
  rughvadi_seat seat;
  WANT(rughvadi_link_connect(&link, addresses, token, "main", &seat));
  HOLD(option(link.socket, SOL_SOCKET, SO_KEEPALIVE) == 1);
  HOLD(option(link.socket, IPPROTO_TCP, TCP_NODELAY) == 1);
  int idle = option(link.socket, IPPROTO_TCP, TCP_KEEPIDLE);
  int asks = option(link.socket, IPPROTO_TCP, TCP_KEEPCNT);
  HOLD(idle + asks * option(link.socket, IPPROTO_TCP, TCP_KEEPINTVL) == 20);
  HOLD(option(link.socket, IPPROTO_TCP, TCP_USER_TIMEOUT) == 20000);
  rughvadi_link_close(&link);
  end(child);
}

/* An IPv6 address; whether this machine has any. */
static bool over_ipv6(void) {
  char address[PATH];
  struct sockaddr_in6 here = {.sin6_family = AF_INET6, .sin6_addr = IN6ADDR_LOOPBACK_INIT};
  int fd = socket(AF_INET6, SOCK_STREAM, 0), socket;
  if (fd < 0 || bind(fd, (const struct sockaddr *)&here, sizeof here) != 0) {
    return false;
  }
  socklen_t size = sizeof here;
  HOLD(listen(fd, 8) == 0 && getsockname(fd, (struct sockaddr *)&here, &size) == 0);
  snprintf(address, sizeof address, "[::1]:%u", ntohs(here.sin6_port));
  WANT(rughvadi_dial(address, &socket));
  close(socket);
  close(fd);
  return true;
}

/* Text that is so long, with a '/' in front. */
static const char *long_path(size_t size) {
  static char path[LIST];
  memset(path, 'a', size);
  path[0] = '/';
  path[size] = 0;
  return path;
}

static void hold_undialled(const char *address, int why) {
  int fd = 0, before = open_files();
  HOLD(rughvadi_dial(address, &fd) == RUGHVADI_CONNECT_SYSTEM && fd == -1 && errno == why);
  HOLD(open_files() == before);
}

/* Paths and addresses that are too long or have no port aren't dialled. One of a list is passed
 * over. */
static void no_addresses(void) {
  const size_t most = sizeof(struct sockaddr_un) - offsetof(struct sockaddr_un, sun_path) - 1;
  hold_undialled(long_path(most), ENOENT);
  hold_undialled(long_path(most + 1), ENAMETOOLONG);
  hold_undialled("127.0.0.1", EINVAL);
  hold_undialled("127.0.0.1:no port", EADDRNOTAVAIL);
  char list[2 * LIST];
  snprintf(list, sizeof list, "%sa:1", long_path(256) + 1);
  hold_undialled(list, EINVAL);
  pid_t child = gateway(local("behind", 8), 0);
  snprintf(list, sizeof list, "%s,127.0.0.1,%s", long_path(256), listed("behind"));
  rughvadi_gateways gateways = {.addresses = list};
  WANT(connected(&gateways));
  end(child);
  gateways.addresses = long_path(256);
  HOLD(connected(&gateways) == RUGHVADI_CONNECT_SYSTEM && errno == ENAMETOOLONG);
}

/* The name of a store has up to 63 letters; of a longer one nothing is sent. */
static void names_of_stores(void) {
  int pair[2];
  rughvadi_seat seat;
  uint8_t came[LIST];
  HOLD(socketpair(AF_UNIX, SOCK_STREAM, 0, pair) == 0);
  const char *name = long_path(64);
  HOLD(rughvadi_greet(pair[0], token, name, &seat) == RUGHVADI_CONNECT_GREETING);
  HOLD(rughvadi_greet_within(pair[0], token, name + 1, 0, &seat) == RUGHVADI_CONNECT_SYSTEM);
  HOLD(errno == ETIMEDOUT && read(pair[1], came, sizeof came) == GREETING - 4 + 63);
  HOLD(came[9] == 63 && memcmp(came + GREETING - 4, name + 1, 63) == 0);
  close(pair[0]);
  close(pair[1]);
}

static void remove_all(void) {
  static const char *const names[] = {"silent", "later", "up",  "greeting", "token", "store",
                                      "client", "down",  "one", "two",      "behind"};
  for (size_t at = 0; at < sizeof names / sizeof names[0]; at++) {
    HOLD(unlink(path_of(names[at]).sun_path) == 0);
  }
  HOLD(rmdir(folder) == 0);
}

int main(void) {
  memset(token, 7, sizeof token);
  HOLD(mkdtemp(folder) != NULL);
  limits_of_time();
  lists();
  turns();
  no_addresses();
  names_of_stores();
  over_tcp();
  bool has_ipv6 = over_ipv6();
  remove_all();
  printf("lists, turns, limits and empty links; %s\n", has_ipv6 ? "IPv6" : "no IPv6 here");
  return 0;
}
