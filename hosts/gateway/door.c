/* Listeners, and greetings. A stranger takes no place of those who have a token: who came first and
 * hasn't greeted goes where too many wait, unless his greeting is there to be read. */
#include "gateway.h"
#include "listen.h"

#include <arpa/inet.h>
#include <netinet/in.h>
#include <stdio.h>
#include <string.h>
#include <sys/socket.h>

/* The greeting, but for the store's name: 8 letters, the version, the name's length and a token. */
enum { LETTERS = 8, NAME_SIZE_AT = 9, TOKEN_AT = 10, NAME_AT = TOKEN_AT + TOKEN, ANSWER = 40 };
enum { GREETING_VERSION = 1, GREETING_MOST = NAME_AT + 255 };

/* Between two lines that tell of refused greetings. */
enum { TOLD = 1000 };

static const char *const REASONS[REFUSALS] = {[NO_GREETING] = "no greeting",
                                              [NO_TOKEN] = "no such token",
                                              [NO_STORE] = "no such store",
                                              [NO_CLIENT] = "no such client in the store",
                                              [NOT_SERVED] = "the store isn't served",
                                              [SILENT] = "it doesn't greet",
                                              [CROWDED] = "too many greet at once"};

/* ---- those who are refused ---- */

/* One was: it is said at once, or counted where a line was said a moment ago. */
static void refused_note(struct connection *connection, enum refusal reason) {
  struct gateway *gateway = connection->gateway;
  struct refused *refused = &gateway->refused;
  refused->of[reason]++;
  if (refused->told == 0 || gateway_waited(gateway, refused->told, TOLD - 1)) {
    refused_tick(refused, gateway->now);
    log_line(LEVEL_WARNING, "a connection from %s: %s", connection->name, REASONS[reason]);
    refused->told = gateway->now;
    return;
  }
  refused->untold++;
  refused->reason = reason;
  memcpy(refused->name, connection->name, sizeof refused->name);
}

void refused_tick(struct refused *refused, uint64_t now) {
  if (refused->untold == 0 || now - refused->told < TOLD) {
    return;
  }
  log_line(LEVEL_WARNING, "%u more connections refused; the last from %s: %s", refused->untold,
           refused->name, REASONS[refused->reason]);
  refused->untold = 0;
  refused->told = now;
}

/* A connection that hasn't greeted goes. */
static void refuse(struct connection *connection, enum refusal reason) {
  refused_note(connection, reason);
  connection_cut(connection, NULL);
}

/* ---- who has greeted ---- */

void door_pass(struct connection *connection) {
  struct door *door = connection->door;
  if (door != NULL) {
    TAILQ_REMOVE(&door->ungreeted, connection, later);
    door->count--;
    connection->door = NULL;
  }
}

/* Answers a greeting; all but the first two bytes are zeros where it is refused. */
static void answer(struct connection *connection, enum refusal what) {
  uint8_t bytes[ANSWER] = {GREETING_VERSION, (uint8_t)what};
  door_pass(connection);
  if (what == WELCOME) {
    const struct limits *limits = &connection->store->place->limits;
    const uint32_t numbers[] = {limits->clients, limits->pages, limits->page_size, limits->slots,
                                limits->kin,     limits->kout,  limits->keep_write};
    put_16(bytes + 2, connection->client);
    put_64(bytes + 4, connection->incarnation);
    for (size_t place = 0; place < sizeof numbers / sizeof *numbers; place++) {
      put_32(bytes + 12 + 4 * place, numbers[place]);
    }
  } else {
    refused_note(connection, what);
  }
  if (!outgoing_put(&connection->out, bytes, sizeof bytes)) {
    connection_cut(connection, "memory was refused");
  } else if (what != WELCOME) {
    connection_finish(connection);
  }
}

static struct store *store_named(struct gateway *gateway, const uint8_t *name, size_t size) {
  for (size_t at = 0; at < gateway->places.count; at++) {
    const char *other = gateway->places.at[at].name;
    if (strlen(other) == size && memcmp(other, name, size) == 0) {
      return &gateway->stores[at];
    }
  }
  return NULL;
}

/* Takes a whole greeting. */
static void greeted(struct connection *connection, const uint8_t *greeting) {
  struct gateway *gateway = connection->gateway;
  int client = tokens_find(&gateway->tokens, greeting + TOKEN_AT);
  struct store *store = store_named(gateway, greeting + NAME_AT, greeting[NAME_SIZE_AT]);
  if (client < 0) {
    answer(connection, NO_TOKEN);
  } else if (store == NULL) {
    answer(connection, NO_STORE);
  } else if ((uint32_t)client >= store->place->limits.clients) {
    answer(connection, NO_CLIENT);
  } else if (!server_serves(&store->server)) {
    answer(connection, NOT_SERVED);
  } else {
    connection->client = (uint16_t)client;
    store_enter(store, connection);
    answer(connection, WELCOME);
  }
}

bool door_greet(struct connection *connection) {
  static const char letters[LETTERS + 1] = "rughvadi\001";
  const struct bytes *in = &connection->in;
  size_t count = in->size < sizeof letters ? in->size : sizeof letters;
  if (memcmp(in->at, letters, count) != 0) {
    answer(connection, NO_GREETING);
    return false;
  }
  if (in->size < TOKEN_AT || in->size < NAME_AT + (size_t)in->at[NAME_SIZE_AT]) {
    return false;
  }
  size_t size = NAME_AT + (size_t)in->at[NAME_SIZE_AT];
  greeted(connection, in->at);
  bytes_cut(&connection->in, size);
  return connection->store != NULL;
}

/* ---- who comes ---- */

/* The bytes by which an address is counted, and its name: of version 6 the network's 8 alone. */
static void name_address(struct connection *connection, const struct sockaddr_storage *from) {
  char text[INET6_ADDRSTRLEN] = "?";
  if (from->ss_family == AF_INET6) {
    const struct sockaddr_in6 *six = (const struct sockaddr_in6 *)(const void *)from;
    bool is_four = IN6_IS_ADDR_V4MAPPED(&six->sin6_addr);
    memcpy(connection->address, &six->sin6_addr, is_four ? ADDRESS : ADDRESS / 2);
    uv_ip6_name(six, text, sizeof text);
    snprintf(connection->name, sizeof connection->name, "[%s]:%u", text, ntohs(six->sin6_port));
  } else {
    const struct sockaddr_in *four = (const struct sockaddr_in *)(const void *)from;
    memset(connection->address + 10, 0xff, 2);
    memcpy(connection->address + 12, &four->sin_addr, 4);
    uv_ip4_name(four, text, sizeof text);
    snprintf(connection->name, sizeof connection->name, "%s:%u", text, ntohs(four->sin_port));
  }
}

/* Notes who is at the other end. */
static void name_peer(struct connection *connection) {
  struct sockaddr_storage from;
  int size = sizeof from;
  struct ucred who;
  socklen_t length = sizeof who;
  uv_os_fd_t fd;
  if (!connection->door->is_local) {
    if (uv_tcp_getpeername(&connection->peer.tcp, (struct sockaddr *)&from, &size) == 0) {
      name_address(connection, &from);
    }
  } else if (uv_fileno(&connection->peer.handle, &fd) == 0
             && getsockopt(fd, SOL_SOCKET, SO_PEERCRED, &who, &length) == 0) {
    snprintf(connection->name, sizeof connection->name, "process %d of user %u", (int)who.pid,
             who.uid);
  }
}

/* Reads what the system has of one that is to go; whether it has greeted by that. */
static bool greets_now(struct connection *connection) {
  uint8_t bytes[GREETING_MOST];
  uv_os_fd_t fd;
  if (uv_fileno(&connection->peer.handle, &fd) != 0) {
    return false;
  }
  ssize_t count = recv(fd, bytes, sizeof bytes, MSG_DONTWAIT);
  if (count > 0) {
    connection_take(connection, bytes, (size_t)count);
  }
  return connection->door == NULL;
}

/* The oldest that waits at a door, of this address where that is said. */
static struct connection *oldest(struct door *door, const uint8_t *address, unsigned *count) {
  struct connection *found = NULL, *each;
  *count = 0;
  TAILQ_FOREACH(each, &door->ungreeted, later) {
    if (address == NULL || memcmp(each->address, address, ADDRESS) == 0) {
      found = found == NULL ? each : found;
      ++*count;
    }
  }
  return found;
}

/* Where too many wait, the oldest goes. */
static void make_place(struct door *door, const uint8_t *address, unsigned most) {
  unsigned count;
  struct connection *first = oldest(door, address, &count);
  if (first != NULL && count > most && !greets_now(first)) {
    if (first->door != NULL) {
      refuse(first, CROWDED);
    }
  }
}

static void came(uv_stream_t *listener, int status) {
  struct door *door = listener->data;
  if (status < 0) {
    return;
  }
  struct connection *connection = connection_new(door);
  if (connection == NULL) {
    door->has_unaccepted = true;
    return;
  }
  TAILQ_INSERT_TAIL(&door->ungreeted, connection, later);
  door->count++;
  if (uv_accept(listener, &connection->peer.stream) != 0) {
    connection_cut(connection, NULL);
    return;
  }
  name_peer(connection);
  if (!door->is_local) {
    uv_tcp_nodelay(&connection->peer.tcp, 1);
    uv_tcp_keepalive(&connection->peer.tcp, 1, 30);
    make_place(door, connection->address, ADDRESS_MOST);
  }
  make_place(door, NULL, UNGREETED_MOST);
  connection_read(connection);
}

void door_tick(struct door *door) {
  struct gateway *gateway = door->gateway;
  struct connection *first;
  if (door->has_unaccepted && !gateway->is_stopping) {
    door->has_unaccepted = false;
    came(&door->listener.stream, 0);
  }
  while ((first = TAILQ_FIRST(&door->ungreeted)) != NULL
         && gateway_waited(gateway, first->began, gateway->greeting)) {
    refuse(first, SILENT);
  }
}

/* ---- listeners ---- */

void doors_begin(struct gateway *gateway) {
  for (size_t at = 0; at < DOORS; at++) {
    struct door *door = &gateway->doors[at];
    door->gateway = gateway;
    door->is_local = at == LOCAL;
    TAILQ_INIT(&door->ungreeted);
    if (door->is_local) {
      uv_pipe_init(gateway->loop, &door->listener.pipe, 0);
    } else {
      uv_tcp_init(gateway->loop, &door->listener.tcp);
    }
    door->listener.handle.data = door;
  }
}

bool door_open_local(struct door *door, const char *path) {
  int fault = listen_local(&door->listener.pipe, path, came);
  if (fault != 0) {
    log_line(LEVEL_ERROR, "cannot listen on %s: %s", path, uv_strerror(fault));
  }
  return fault == 0;
}

bool door_open_remote(struct door *door, const char *address, int port) {
  int fault = listen_remote(&door->listener.tcp, address, port, came);
  if (fault != 0) {
    log_line(LEVEL_ERROR, "cannot listen on %s port %d: %s", address, port, uv_strerror(fault));
  }
  return fault == 0;
}

void door_close(struct door *door) {
  struct connection *first;
  if (!uv_is_closing(&door->listener.handle)) {
    uv_close(&door->listener.handle, NULL);
  }
  while ((first = TAILQ_FIRST(&door->ungreeted)) != NULL) {
    connection_cut(first, NULL);
  }
}
