#include "gateway.h"

#include <time.h>

/* ---- frames to the server ---- */

/* Frames of clients are read while the server takes them. */
void store_moved(struct store *store) {
  size_t size = server_waiting(&store->server) + store->commits.held.size;
  bool pauses = store->has_paused ? size > TO_SERVER_MOST / 4 : size > TO_SERVER_MOST;
  if (pauses == store->has_paused || store->server.is_ending) {
    return;
  }
  store->has_paused = pauses;
  for (size_t client = 0; client < MOST_CLIENTS; client++) {
    if (store->clients[client] != NULL && pauses) {
      connection_pause(store->clients[client]);
    } else if (store->clients[client] != NULL) {
      connection_read(store->clients[client]);
    }
  }
}

/* A frame goes to the server, or to the commits that go there together. A server that is waited for
 * until it announces its life takes commits while others are on their way to disk, and gathers them
 * itself. */
static bool tell(struct store *store, const uint8_t *frame, size_t size) {
  bool gathers = header_at(frame).kind == KIND_COMMIT && !store->gateway->is_announced;
  bool put = gathers ? gather_put(&store->commits, frame, size)
                     : server_put(&store->server, frame, size);
  store_moved(store);
  return put;
}

bool store_put(struct store *store, const uint8_t *frame, size_t size) {
  if (!store->server.is_up) {
    return true;
  }
  metrics_take(&store->metrics, frame, size);
  if (window_take(&store->window, frame, size)) {
    return tell(store, frame, size);
  }
  metrics_hold(&store->metrics, frame);
  /* While it waits for its turn no commit of it comes. */
  gather_leave(&store->commits, header_at(frame).client);
  return true;
}

/* An ask that was held back goes. */
static void let_in(void *owner, const uint8_t *ask, size_t size) {
  struct store *store = owner;
  struct connection *connection = store->clients[header_at(ask).client];
  if (store->server.is_up && !tell(store, ask, size) && connection != NULL) {
    connection_cut(connection, "memory was refused");
  }
}

/* Commits that were gathered go. */
static bool send_commits(void *owner, const uint8_t *commits, size_t size) {
  struct store *store = owner;
  return server_put(&store->server, commits, size);
}

/* Tells the server of the clients that are to be left: by a Hello of a later incarnation. */
static void say_leaving(struct store *store) {
  for (uint16_t client = 0; client < store->place->limits.clients; client++) {
    struct header header = {2, KIND_HELLO, client, store->leaving[client], 0};
    if (store->leaving[client] != 0 && server_waiting(&store->server) < TO_SERVER_MOST
        && server_put_header(&store->server, &header)) {
      store->leaving[client] = 0;
    }
  }
}

void store_send(struct store *store) {
  if (store->server.is_up) {
    say_leaving(store);
    server_send(&store->server);
  }
}

/* ---- clients ---- */

uint64_t store_incarnation(struct store *store, uint16_t client) {
  struct timespec time;
  clock_gettime(CLOCK_REALTIME, &time);
  uint64_t now = (uint64_t)time.tv_sec * 1000000u + (uint64_t)time.tv_nsec / 1000u;
  uint64_t *last = &store->incarnations[client];
  *last = now > *last ? now : *last;
  *last = store->server.floor > *last ? store->server.floor : *last;
  return ++*last;
}

void store_enter(struct store *store, struct connection *connection) {
  uint16_t client = connection->client;
  if (store->clients[client] != NULL) {
    connection_cut(store->clients[client], "its client connected anew");
  }
  connection->store = store;
  connection->incarnation = store_incarnation(store, client);
  store->clients[client] = connection;
  store->metrics.of[client].is_seen = true;
  if (store->has_paused) {
    connection_pause(connection);
  }
}

void store_leave(struct store *store, struct connection *connection) {
  uint16_t client = connection->client;
  store->clients[client] = NULL;
  if (store->server.is_up) {
    store->leaving[client] = store_incarnation(store, client);
    say_leaving(store);
    gather_leave(&store->commits, client);
  }
  window_leave(&store->window, client);
  metrics_leave(&store->metrics, client);
}

void store_keep(struct store *store, const struct tokens *former) {
  for (unsigned client = 0; client < MOST_CLIENTS; client++) {
    if (store->clients[client] != NULL
        && !tokens_agree(former, &store->gateway->tokens, (uint16_t)client)) {
      connection_cut(store->clients[client], "its token was taken back");
    }
  }
}

const struct connection *store_welcomed(const struct store *store) {
  for (size_t client = 0; client < MOST_CLIENTS; client++) {
    const struct connection *connection = store->clients[client];
    if (connection != NULL && connection->is_welcomed) {
      return connection;
    }
  }
  return NULL;
}

/* ---- frames of the server ---- */

void store_hear(struct store *store, const uint8_t *frame, const struct header *header) {
  struct connection *connection = store->clients[header->client];
  store->is_done = store->is_done || header->kind == KIND_DONE;
  if (connection != NULL && connection->incarnation == header->incarnation) {
    connection->is_welcomed = connection->is_welcomed || header->kind == KIND_WELCOME;
    window_hear(&store->window, frame);
    metrics_hear(&store->metrics, frame, HEADER + (size_t)header->body);
    connection_put(connection, frame, HEADER + (size_t)header->body);
  }
}

void store_heard(struct store *store) {
  if (store->is_done) {
    store->is_done = false;
    gather_answered(&store->commits);
  }
}

void store_lose(struct store *store) {
  for (size_t client = 0; client < MOST_CLIENTS; client++) {
    store->leaving[client] = 0;
    if (store->clients[client] == NULL) {
      continue;
    }
    if (store->gateway->is_stopping) {
      connection_finish(store->clients[client]);
    } else {
      connection_end(store->clients[client]);
    }
  }
}

void store_renew(struct store *store) {
  for (size_t client = 0; client < MOST_CLIENTS; client++) {
    struct connection *connection = store->clients[client];
    if (connection != NULL && connection->incarnation <= store->server.floor) {
      connection_cut(connection, "its server began a later life");
    }
  }
}

void store_clear(struct store *store) {
  gather_clear(&store->commits);
  window_clear(&store->window);
  store->has_paused = store->is_done = false;
}

/* ---- its beginning and its end ---- */

void store_begin(struct store *store, struct gateway *gateway, const struct place *place) {
  store->gateway = gateway;
  store->place = place;
  store->commits.owner = store;
  store->commits.send = send_commits;
  gather_begin(&store->commits, gateway->loop);
  store->window.owner = store;
  store->window.let_in = let_in;
  window_begin(&store->window, gateway->loop);
  server_begin(&store->server, store);
}

void store_tick(struct store *store) {
  window_tick(&store->window);
  gather_tick(&store->commits);
  server_tick(&store->server);
}

void store_stop(struct store *store) {
  for (size_t client = 0; client < MOST_CLIENTS; client++) {
    if (store->clients[client] != NULL) {
      connection_pause(store->clients[client]);
    }
  }
  gather_send_all(&store->commits);
  say_leaving(store);
  server_stop(&store->server);
}
