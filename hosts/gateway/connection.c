#include "gateway.h"

#include <stdlib.h>
#include <string.h>

/* ---- its end ---- */

static void freed(uv_handle_t *handle) {
  struct connection *connection = handle->data;
  struct gateway *gateway = connection->gateway;
  LIST_REMOVE(connection, others);
  outgoing_free(&connection->out);
  bytes_free(&connection->in);
  owed_free(&connection->owed);
  free(connection);
  gateway_look(gateway);
}

/* Its store, or its door, gives the place away. */
static void let_go(struct connection *connection) {
  if (connection->store != NULL) {
    store_leave(connection->store, connection);
    connection->store = NULL;
  }
  door_pass(connection);
}

void connection_cut(struct connection *connection, const char *reason) {
  if (uv_is_closing(&connection->peer.handle)) {
    return;
  }
  if (reason != NULL && connection->store != NULL) {
    log_line(LEVEL_WARNING, "store %s, client %u, %s: %s", connection->store->place->name,
             connection->client, connection->name, reason);
  } else if (reason != NULL) {
    log_line(LEVEL_WARNING, "a connection from %s: %s", connection->name, reason);
  }
  let_go(connection);
  uv_close(&connection->peer.handle, freed);
}

void connection_finish(struct connection *connection) {
  if (connection->ending != 0 || uv_is_closing(&connection->peer.handle)) {
    return;
  }
  uv_read_stop(&connection->peer.stream);
  let_go(connection);
  connection->ending = connection->gateway->now;
  outgoing_send(&connection->out);
  if (outgoing_size(&connection->out) == 0) {
    connection_cut(connection, NULL);
  }
}

void connection_end(struct connection *connection) {
  outgoing_send(&connection->out);
  connection_cut(connection, NULL);
}

/* After a write: one that was to be closed then is. */
static void moved(struct outgoing *out, int status) {
  struct connection *connection = out->owner;
  if (status != 0 || (connection->ending != 0 && outgoing_size(out) == 0)) {
    connection_cut(connection, NULL);
  }
}

/* ---- frames ---- */

void connection_put(struct connection *connection, const uint8_t *frame, size_t size) {
  size_t waiting = outgoing_size(&connection->out);
  if (waiting > 0 && waiting + size > connection->gateway->buffer) {
    connection_cut(connection, "it reads too slowly");
  } else if (!owed_by(&connection->owed, frame, connection->gateway->now)
             || !outgoing_put(&connection->out, frame, size)) {
    connection_cut(connection, "memory was refused");
  }
}

/* Why a frame that begins so isn't taken, or NULL. */
static const char *fault_of(const struct connection *connection, const struct header *header) {
  if (!is_of_client(header, &connection->store->place->limits)) {
    return "a frame that is none";
  }
  if (header->client != connection->client || header->incarnation != connection->incarnation) {
    return "a frame of another client";
  }
  return NULL;
}

/* Takes a frame from so many bytes: how many it has, 0 where it isn't whole. */
static size_t take_frame(struct connection *connection, const uint8_t *bytes, size_t left) {
  if (left < HEADER) {
    return 0;
  }
  struct header header = header_at(bytes);
  const char *fault = fault_of(connection, &header);
  if (fault != NULL) {
    connection_cut(connection, fault);
    return 0;
  }
  size_t size = HEADER + (size_t)header.body;
  if (left < size) {
    return 0;
  }
  owed_answered(&connection->owed, bytes);
  if (!store_put(connection->store, bytes, size)) {
    connection_cut(connection, "memory was refused");
  }
  return size;
}

/* Takes each frame that is whole; how many bytes they have. */
static size_t take_frames(struct connection *connection, const uint8_t *bytes, size_t size) {
  size_t at = 0;
  while (connection->store != NULL && at < size) {
    size_t taken = take_frame(connection, bytes + at, size - at);
    if (taken == 0) {
      break;
    }
    at += taken;
  }
  return at;
}

/* Takes the frames of what it has; how many bytes they have. */
static size_t take_waiting(struct connection *connection) {
  if (connection->door != NULL && !door_greet(connection)) {
    return 0;
  }
  size_t taken = take_frames(connection, connection->in.at, connection->in.size);
  bytes_cut(&connection->in, taken);
  return taken;
}

void connection_take(struct connection *connection, const uint8_t *bytes, size_t size) {
  bool is_new = connection->in.size == 0 || connection->door != NULL;
  size_t taken = connection->in.size == 0 ? take_frames(connection, bytes, size) : 0;
  if (!bytes_put(&connection->in, bytes + taken, size - taken)) {
    connection_cut(connection, "memory was refused");
    return;
  }
  if (taken == 0) {
    taken = take_waiting(connection);
  }
  if (connection->in.size == 0) {
    connection->began = 0;
  } else if (connection->door == NULL && (is_new || taken > 0)) {
    connection->began = connection->gateway->now; /* its frame's first byte is new */
  }
}

/* ---- reading ---- */

static void room_for(uv_handle_t *handle, size_t wanted, uv_buf_t *buffer) {
  static char room[1 << 16];
  (void)handle;
  (void)wanted;
  *buffer = uv_buf_init(room, sizeof room);
}

static void came(uv_stream_t *stream, ssize_t count, const uv_buf_t *buffer) {
  struct connection *connection = stream->data;
  if (count < 0) {
    connection_cut(connection, NULL);
  } else if (count > 0) {
    connection_take(connection, (const uint8_t *)buffer->base, (size_t)count);
  }
}

void connection_read(struct connection *connection) {
  if (connection->ending == 0 && !uv_is_closing(&connection->peer.handle)) {
    uv_read_start(&connection->peer.stream, room_for, came);
  }
}

void connection_pause(struct connection *connection) {
  if (!uv_is_closing(&connection->peer.handle)) {
    uv_read_stop(&connection->peer.stream);
  }
}

/* ---- its beginning, and what it is waited for ---- */

struct connection *connection_new(struct door *door) {
  struct gateway *gateway = door->gateway;
  struct connection *connection = calloc(1, sizeof *connection);
  if (connection == NULL) {
    return NULL;
  }
  connection->gateway = gateway;
  connection->door = door;
  connection->out.stream = &connection->peer.stream;
  connection->out.moved = moved;
  connection->out.owner = connection;
  if (door->is_local) {
    uv_pipe_init(gateway->loop, &connection->peer.pipe, 0);
  } else {
    uv_tcp_init(gateway->loop, &connection->peer.tcp);
  }
  connection->peer.handle.data = connection;
  connection->began = gateway->now;
  memcpy(connection->name, "somebody", sizeof "somebody");
  LIST_INSERT_HEAD(&gateway->connections, connection, others);
  return connection;
}

void connection_tick(struct connection *connection) {
  const struct gateway *gateway = connection->gateway;
  struct store *store = connection->store;
  if (gateway_waited(gateway, connection->ending, gateway->patience)) {
    connection_cut(connection, NULL);
  } else if (store == NULL) {
    return; /* at a door, which looks after it */
  } else if (store->has_paused) {
    /* It isn't heard for now, whatever it says. */
    connection->began = connection->began == 0 ? 0 : gateway->now;
    owed_put_off(&connection->owed, gateway->now);
  } else if (gateway_waited(gateway, connection->began, gateway->patience)) {
    connection_cut(connection, "its frame isn't whole in time");
  } else if (gateway->silence != 0
             && gateway_waited(gateway, owed_since(&connection->owed), gateway->silence)) {
    connection_cut(connection, "it doesn't answer");
  }
}
