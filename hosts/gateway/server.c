#include "gateway.h"

#include <errno.h>
#include <fcntl.h>
#include <signal.h>
#include <stdio.h>
#include <stdlib.h>
#include <string.h>
#include <sys/file.h>
#include <unistd.h>

enum {
  LOCK_PAUSE = 100,  /* milliseconds until a store that another server holds is tried again */
  START_PAUSE = 200, /* doubled for each failure, it is the wait for the next start */
  START_PAUSE_MOST = 10000,
  PAUSES_MOST = 25, /* so many pauses the output of one that has ended is read */
  PIPE = 1 << 20    /* bytes on their way to it */
};

static void start(uv_timer_t *timer);

static const char *name_of(const struct server *server) { return server->store->place->name; }

bool server_serves(const struct server *server) { return server->is_up && server->is_serving; }

bool server_is_down(const struct server *server) { return server->handles == 0; }

size_t server_waiting(const struct server *server) { return outgoing_size(&server->to); }

/* ---- its end ---- */

/* Once nothing of it is left it is started again, unless all ends. */
static void closed(uv_handle_t *handle) {
  struct server *server = handle->data;
  server->handles--;
  if (server->handles > 0) {
    return;
  }
  outgoing_free(&server->to);
  bytes_free(&server->from);
  uv_timer_stop(&server->timer);
  store_clear(server->store);
  if (server->store->gateway->is_stopping) {
    gateway_look(server->store->gateway);
    return;
  }
  uint64_t pause = START_PAUSE << (server->failures < 6 ? server->failures : 6);
  uv_timer_start(&server->timer, start, pause < START_PAUSE_MOST ? pause : START_PAUSE_MOST, 0);
}

static void close_once(void *handle) {
  if (!uv_is_closing(handle)) {
    uv_close(handle, closed);
  }
}

/* It takes and says nothing any more. Before another one is started its clients go: who holds pages
 * of this one is to know that it is gone. */
static void go_down(struct server *server) {
  server->is_up = server->is_serving = server->has_spoken = false;
  store_lose(server->store);
  close_once(&server->input);
  close_once(&server->output);
}

/* Its process has ended, and its output hasn't, since a process of its own holds it: nothing comes
 * of it if nothing came in two pauses, between which it was looked at. What comes for long isn't
 * what the server said. */
static void abandon(uv_timer_t *timer) {
  struct server *server = timer->data;
  if (server->quiet++ > 0 || server->pauses++ > PAUSES_MOST) {
    go_down(server);
  }
}

/* Whether its process hasn't ended: else its number may be another's by now. */
static bool is_running(const struct server *server) {
  return uv_is_active((const uv_handle_t *)&server->process);
}

/* It had time enough. */
static void kill_server(uv_timer_t *timer) {
  struct server *server = timer->data;
  if (is_running(server)) {
    log_line(LEVEL_WARNING, "store %s: its server doesn't end, and is killed", name_of(server));
    uv_process_kill(&server->process, SIGKILL);
  }
}

/* It is killed unless it ends in so many milliseconds. Of one that has ended the output alone is
 * waited for, by a timer that runs already. */
static void end_in(struct server *server, uint64_t time) {
  if (is_running(server)) {
    uv_timer_start(&server->timer, kill_server, time, 0);
  }
}

/* Once all is out that was told to one that is to end, its input ends. */
static void end_input(struct server *server) {
  if (server->is_ending && outgoing_size(&server->to) == 0) {
    server->is_up = false;
    close_once(&server->input);
  }
}

static void exited(uv_process_t *process, int64_t status, int signal) {
  struct server *server = process->data;
  struct gateway *gateway = server->store->gateway;
  bool is_wrong = (status != 0 || signal != 0) && !(server->is_let_go && signal == SIGTERM);
  if (is_wrong || !gateway->is_stopping) {
    log_line(LEVEL_WARNING, "store %s: its server ended with status %d, signal %d", name_of(server),
             (int)status, signal);
  }
  if (gateway->is_stopping && is_wrong) {
    gateway->status = 1;
  }
  server->failures++;
  /* What it said comes to its end now, unless a process of its own holds the stream. */
  server->quiet = server->pauses = 0;
  uv_timer_start(&server->timer, abandon, START_PAUSE, START_PAUSE);
  close_once(process);
}

/* ---- frames to it ---- */

bool server_put(struct server *server, const uint8_t *frames, size_t size) {
  if (!server->is_up) {
    return true;
  }
  server->is_asked = true;
  if (header_at(frames).kind == KIND_HELLO && server->owes == 0) {
    server->owes = server->store->gateway->now;
  }
  return outgoing_put(&server->to, frames, size);
}

bool server_put_header(struct server *server, const struct header *header) {
  uint8_t frame[HEADER];
  header_to(frame, header);
  return server_put(server, frame, sizeof frame);
}

/* After a write to it. Where one fails it takes no more: what it said is heard to the end of its
 * output, which comes, or it is killed. */
static void moved(struct outgoing *out, int status) {
  struct server *server = out->owner;
  if (status == 0) {
    store_moved(server->store);
    end_input(server);
    return;
  }
  server->is_up = false;
  end_in(server, STOP);
}

void server_send(struct server *server) {
  if (server->is_up) {
    outgoing_send(&server->to);
    store_moved(server->store);
    end_input(server);
  }
}

/* ---- its silence ---- */

/* A Hello is always answered: whoever says nothing for long, though one was told, is of no use.
 * Where it is silent after other frames, whose answers may have to wait, a client that it knows is
 * greeted once more. */
static void look_for_silence(struct server *server) {
  struct gateway *gateway = server->store->gateway;
  if (gateway->server_silence == 0 || !server_serves(server) || server->is_ending) {
    return;
  }
  if (gateway_waited(gateway, server->owes, gateway->server_silence) && is_running(server)) {
    log_line(LEVEL_ERROR, "store %s: its server is silent, and is killed", name_of(server));
    uv_process_kill(&server->process, SIGKILL);
    server->owes = gateway->now; /* it ends at once, unless the system keeps it */
  } else if (server->owes == 0 && server->is_asked
             && gateway_waited(gateway, server->heard, gateway->server_silence / 2)) {
    const struct connection *client = store_welcomed(server->store);
    if (client != NULL) {
      struct header hello = {2, KIND_HELLO, client->client, client->incarnation, 0};
      server_put_header(server, &hello);
    }
  }
}

void server_tick(struct server *server) {
  if (!server_serves(server)) {
    return;
  }
  look_for_silence(server);
  uint8_t again[HEADER];
  header_to(again, &(struct header){2, KIND_AGAIN, 0, 0, 0});
  /* What waits may be the answer already. Where memory is refused the next tick says it. */
  if (outgoing_size(&server->to) == 0) {
    outgoing_put(&server->to, again, HEADER);
  }
}

/* ---- frames of it ---- */

/* What it says first where it announces its life: a header of kind 0, whose incarnation is the
 * life's floor. */
static bool is_announcement(const struct header *header) {
  return header->version == 2 && header->kind == KIND_AGAIN && header->client == 0
         && header->body == 0 && header->incarnation < LAST_INCARNATION;
}

/* From now on it serves the store, in a life from this floor on. */
static void serve(struct server *server, uint64_t floor) {
  server->is_serving = true;
  server->floor = floor;
  server->heard = server->store->gateway->now;
  server->owes = 0;
  server->is_asked = false;
}

/* Hands on all whole frames that it said; false where it says what is none. */
static bool hand_on_all(struct server *server) {
  size_t at = 0;
  const struct bytes *from = &server->from;
  while (from->size - at >= HEADER) {
    struct header header = header_at(from->at + at);
    size_t size = HEADER + (size_t)header.body;
    if (!server->has_spoken && is_announcement(&header)) {
      serve(server, header.incarnation);
      store_renew(server->store);
    } else if (!server->is_serving || !is_of_server(&header, &server->store->place->limits)) {
      return false;
    } else if (from->size - at < size) {
      break;
    } else {
      store_hear(server->store, from->at + at, &header);
    }
    server->has_spoken = true;
    at += size;
  }
  bytes_cut(&server->from, at);
  store_heard(server->store);
  return true;
}

static void room_for(uv_handle_t *handle, size_t wanted, uv_buf_t *buffer) {
  static char room[1 << 18];
  (void)handle;
  (void)wanted;
  *buffer = uv_buf_init(room, sizeof room);
}

static void said(uv_stream_t *stream, ssize_t count, const uv_buf_t *buffer) {
  struct server *server = stream->data;
  bool right = count >= 0 && bytes_put(&server->from, buffer->base, (size_t)count);
  if (right && count > 0) {
    server->quiet = server->failures = 0;
    server->heard = server->store->gateway->now;
    server->owes = 0;
    server->is_asked = false;
    right = hand_on_all(server);
  }
  if (right) {
    return;
  }
  if (count >= 0) {
    log_line(LEVEL_ERROR, "store %s: its server puts out no frames, or memory was refused",
             name_of(server));
  }
  go_down(server);
  end_in(server, count >= 0 ? 0 : STOP);
}

/* ---- its beginning ---- */

/* Locks the store, as long as this process or the server's runs; false where another has it.
 * Whoever keeps pages elsewhere than in a file has to see to it that one server writes them. */
static bool is_locked(struct server *server) {
  const struct place *place = server->store->place;
  if (server->lock >= 0 || !place->is_file) {
    return true;
  }
  char path[4096];
  int size = snprintf(path, sizeof path, "%s.lock", place->database);
  int fd = size < (int)sizeof path ? open(path, O_RDWR | O_CREAT | O_CLOEXEC, 0600) : -1;
  if (fd >= 0 && flock(fd, LOCK_EX | LOCK_NB) == 0) {
    server->lock = fd;
    return true;
  }
  if (!server->is_told) {
    log_line(LEVEL_WARNING, "store %s: %s: %s", name_of(server), path,
             fd >= 0 ? "another server has it; waiting" : strerror(errno));
    server->is_told = true;
  }
  if (fd >= 0) {
    close(fd);
  }
  return false;
}

/* A pipe to the server, for its end: what is written at once can be read at once, which it can't
 * from a socket. Libuv's fault, or 0. */
static int open_input(struct server *server, int *end) {
  int ends[2];
  if (pipe2(ends, O_CLOEXEC) != 0) {
    return uv_translate_sys_error(errno);
  }
  *end = ends[0];
  fcntl(ends[1], F_SETPIPE_SZ, PIPE); /* else it is shorter */
  int fault = uv_pipe_open(&server->input, ends[1]);
  if (fault != 0) {
    close(ends[0]);
    close(ends[1]);
  }
  return fault;
}

/* Starts the process by these words, whose standard input that is; 0 or libuv's fault. */
static int spawn(struct server *server, char **words, int input) {
  uv_stdio_container_t streams[] = {
      {.flags = UV_INHERIT_FD, .data.fd = input},
      {.flags = UV_CREATE_PIPE | UV_WRITABLE_PIPE, .data.stream = (uv_stream_t *)&server->output},
      {.flags = UV_INHERIT_FD, .data.fd = 2},
      {.flags = UV_INHERIT_FD, .data.fd = server->lock},
  };
  /* In a session of its own a signal of the terminal ends the gateway alone, in order. */
  uv_process_options_t options = {.file = words[0],
                                  .args = words,
                                  .exit_cb = exited,
                                  .flags = UV_PROCESS_DETACHED,
                                  .stdio = streams,
                                  .stdio_count = server->lock >= 0 ? 4 : 3};
  server->handles++;
  int fault = uv_spawn(server->store->gateway->loop, &server->process, &options);
  if (fault != 0) {
    close_once(&server->process);
  }
  return fault;
}

/* Starts it with its store's configuration and database behind the gateway's words. */
static int spawn_serve(struct server *server, int input) {
  char **serve = server->store->gateway->serve;
  size_t count = 0;
  while (serve[count] != NULL) {
    count++;
  }
  char **words = calloc(count + 3, sizeof *words);
  if (words == NULL) {
    return UV_ENOMEM;
  }
  memcpy(words, serve, count * sizeof *words);
  words[count] = server->store->place->config;
  words[count + 1] = server->store->place->database;
  int fault = spawn(server, words, input);
  free(words);
  return fault;
}

/* It begins with nothing told and nothing said. */
static int run(struct server *server) {
  struct gateway *gateway = server->store->gateway;
  uv_pipe_init(gateway->loop, &server->input, 0);
  uv_pipe_init(gateway->loop, &server->output, 0);
  server->input.data = server->output.data = server->process.data = server;
  server->handles = 2;
  server->to =
      (struct outgoing){.stream = (uv_stream_t *)&server->input, .moved = moved, .owner = server};
  int input = -1;
  int fault = open_input(server, &input);
  if (fault == 0) {
    fault = spawn_serve(server, input);
    close(input);
  }
  return fault;
}

/* Starts it, once no other has the store. */
static void start(uv_timer_t *timer) {
  struct server *server = timer->data;
  struct gateway *gateway = server->store->gateway;
  if (gateway->is_stopping) {
    return;
  }
  if (!is_locked(server)) {
    uv_timer_start(timer, start, LOCK_PAUSE, 0);
    return;
  }
  int fault = run(server);
  if (fault == 0) {
    server->is_up = true;
    server->store->metrics.starts++;
    if (!gateway->is_announced) {
      serve(server, 0);
    }
    uv_read_start((uv_stream_t *)&server->output, room_for, said);
    return;
  }
  log_line(LEVEL_ERROR, "store %s: cannot start %s: %s", name_of(server), gateway->serve[0],
           uv_strerror(fault));
  server->failures++;
  go_down(server);
}

void server_begin(struct server *server, struct store *store) {
  server->store = store;
  server->lock = -1;
  uv_timer_init(store->gateway->loop, &server->timer);
  server->timer.data = server;
  start(&server->timer);
}

void server_stop(struct server *server) {
  if (!server->is_up) {
    return;
  }
  if (!server->is_serving && is_running(server)) { /* it waits, and has nothing to write */
    server->is_let_go = true;
    uv_process_kill(&server->process, SIGTERM);
  }
  server->is_ending = true;
  server_send(server);
  end_in(server, STOP);
}
