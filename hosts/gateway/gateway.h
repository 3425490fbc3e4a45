/* A gateway: clients connect to it, and it hands their frames to the server of the store that each
 * names, and the server's frames back. It reads headers, and of short frames the page that they
 * name. docs/SERVING.md says how it is used, docs/FORMATS.md how it is greeted. */
#ifndef GATEWAY_H
#define GATEWAY_H

#include "gather.h"
#include "log.h"
#include "metrics.h"
#include "outgoing.h"
#include "owed.h"
#include "scrape.h"
#include "server.h"
#include "settings.h"
#include "window.h"

#include <sys/queue.h>
#include <uv.h>

enum {
  TICK = 500,          /* milliseconds: a server says again what may be lost, waits are looked at */
  STOP = 30000,        /* in so many the servers are to end, once they are told */
  UNGREETED_MOST = 64, /* so many connections of a listener may be about to greet, */
  ADDRESS_MOST = 32,   /* and so many of one address */
  ADDRESS = 16,        /* bytes of an address */
  NAME = 64            /* what a peer's name may take, with its end */
};

/* Why a connection goes that hasn't greeted; the first ones are told it by these numbers. */
enum refusal {
  WELCOME,
  NO_GREETING,
  NO_TOKEN,
  NO_STORE,
  NO_CLIENT,
  NOT_SERVED,
  SILENT,
  CROWDED,
  REFUSALS
};

struct gateway;
struct store;
struct door;

/* A client that is connected, or about to greet. */
struct connection {
  struct gateway *gateway;
  union {
    uv_handle_t handle;
    uv_stream_t stream;
    uv_pipe_t pipe;
    uv_tcp_t tcp;
  } peer;
  struct outgoing out;
  struct bytes in;     /* what came and isn't handed on */
  struct owed owed;    /* what it is to answer the server */
  struct door *door;   /* by which it came, while it is about to greet; then none */
  struct store *store; /* none until it has greeted, and once it was left */
  uint16_t client;
  uint64_t incarnation;
  bool is_welcomed; /* by the server */
  uint64_t began;   /* since when a greeting or the rest of a frame is awaited; 0: none is */
  uint64_t ending;  /* since when it is to be closed, once what waits is out; 0: it isn't */
  uint8_t address[ADDRESS]; /* whose count it is in; zeros where none is kept */
  char name[NAME];          /* what a line of the log calls its peer */
  LIST_ENTRY(connection) others;
  TAILQ_ENTRY(connection) later; /* at its door */
};

LIST_HEAD(connections, connection);
TAILQ_HEAD(ungreeted, connection);

/* A listener, and those who came by it and haven't greeted: the oldest first. */
struct door {
  struct gateway *gateway;
  union {
    uv_handle_t handle;
    uv_stream_t stream;
    uv_pipe_t pipe;
    uv_tcp_t tcp;
  } listener;
  bool is_local;       /* a Unix socket */
  bool has_unaccepted; /* memory was refused for a connection that came */
  unsigned count;
  struct ungreeted ungreeted;
};

enum { LOCAL, REMOTE, DOORS };

/* Greetings that were refused: a line a second tells of them. */
struct refused {
  uint64_t of[REFUSALS]; /* how many, by reason */
  unsigned untold;       /* how many no line told of, */
  enum refusal reason;   /* and why, and who, the last of them was */
  char name[NAME];
  uint64_t told; /* when the last line was said; 0: none was */
};

/* A store, its clients and its server. */
struct store {
  struct gateway *gateway;
  const struct place *place;
  struct connection *clients[MOST_CLIENTS];
  uint64_t incarnations[MOST_CLIENTS]; /* the last that was given to each */
  uint64_t leaving[MOST_CLIENTS];      /* the server is to hear of it, so that the former is left */
  struct metrics metrics;
  struct window window;
  struct gather commits;
  struct server server;
  bool has_paused; /* its clients aren't read */
  bool is_done;    /* a Done came among what was heard last */
};

struct gateway {
  uv_loop_t *loop;
  struct door doors[DOORS];
  uv_signal_t terminate, interrupt, hangup;
  uv_prepare_t prepare;
  uv_timer_t tick;
  uint64_t now; /* milliseconds that it has run, in ticks, and never 0: what all waits go by */
  const char *tokens_path;
  struct tokens tokens;
  struct places places;
  struct store stores[MOST_STORES];
  struct connections connections;
  struct refused refused;
  struct scrape scrape;
  char **serve;            /* the words that start a server, NULL behind them */
  uint64_t greeting;       /* milliseconds for a greeting, */
  uint64_t patience;       /* and for a frame, from its first byte */
  uint64_t silence;        /* milliseconds for an answer to the server; 0: for ever */
  uint64_t server_silence; /* milliseconds for what a server owes; 0: for ever */
  size_t buffer;           /* bytes that may wait for one client */
  bool is_announced;       /* its servers announce their lives, and serve from then on */
  bool is_stopping;
  int status;
};

/* ---- door.c: listeners, and greetings ---- */

/* Makes the listeners, which don't listen yet. */
void doors_begin(struct gateway *gateway);

/* Listens on a Unix socket, or at an address; false, with a line, where it can't. */
bool door_open_local(struct door *door, const char *path);
bool door_open_remote(struct door *door, const char *address, int port);

/* Listens no more, and cuts whoever hasn't greeted. */
void door_close(struct door *door);

/* Takes the greeting of a connection from what came; false where it isn't whole, or refused. */
bool door_greet(struct connection *connection);

/* The connection has greeted, or goes. */
void door_pass(struct connection *connection);

/* Tries again what memory was refused for, and ends those who don't greet in time. */
void door_tick(struct door *door);

/* Says the line of those that were refused since the last one. */
void refused_tick(struct refused *refused, uint64_t now);

/* ---- connection.c ---- */

/* A new one at a door, not yet open; NULL where memory was refused. */
struct connection *connection_new(struct door *door);

/* Ends it now: its client is left. With a reason, that is said on the standard error. */
void connection_cut(struct connection *connection, const char *reason);

/* Ends it once all that waits for it is out. */
void connection_finish(struct connection *connection);

/* Ends it now, with as much of what waits for it as goes out at once. */
void connection_end(struct connection *connection);

/* Hands a frame of the server to it. */
void connection_put(struct connection *connection, const uint8_t *frame, size_t size);

/* Takes what came behind what it had. */
void connection_take(struct connection *connection, const uint8_t *bytes, size_t size);

/* Reads it, or not for now. */
void connection_read(struct connection *connection);
void connection_pause(struct connection *connection);

/* Ends it if it was waited for too long. */
void connection_tick(struct connection *connection);

/* ---- store.c ---- */

/* Makes a store ready, and starts its server. */
void store_begin(struct store *store, struct gateway *gateway, const struct place *place);

/* An incarnation for a client: one above the clock's microseconds, the floor of its server's life
 * and the last that it had. */
uint64_t store_incarnation(struct store *store, uint16_t client);

/* Cuts each client whose token isn't the same any more. */
void store_keep(struct store *store, const struct tokens *former);

/* Gives a place to a connection; one that had it before is cut. */
void store_enter(struct store *store, struct connection *connection);

/* The connection goes: the server is told that its client has. */
void store_leave(struct store *store, struct connection *connection);

/* Hands a client's frame to the server; false where memory was refused. */
bool store_put(struct store *store, const uint8_t *frame, size_t size);

/* Sends what waits. */
void store_send(struct store *store);

/* Has the server say again what may be lost. */
void store_tick(struct store *store);

/* No more frames: the server is to write all and end. */
void store_stop(struct store *store);

/* A client that its server has welcomed, or NULL. */
const struct connection *store_welcomed(const struct store *store);

/* The server took some: clients are read, or not for now. */
void store_moved(struct store *store);

/* The server said a frame: it goes to its client, if that is there. */
void store_hear(struct store *store, const uint8_t *frame, const struct header *header);

/* All that came at once of the server was heard. */
void store_heard(struct store *store);

/* The server says nothing more: its clients hear what it said, and go. Unless all ends their
 * connections are closed at once, whatever still waits for them. */
void store_lose(struct store *store);

/* Its server announced its life: who came before with an incarnation of a former one is ended, and
 * may come again. */
void store_renew(struct store *store);

/* Nothing of the server is left: what it was to be told is let go. */
void store_clear(struct store *store);

/* ---- main.c ---- */

/* Ends the loop, if the gateway is stopping and nothing is left to wait for. */
void gateway_look(struct gateway *gateway);

/* Stops in order. */
void gateway_stop(struct gateway *gateway, int status);

/* Whether something was awaited for longer than that. */
bool gateway_waited(const struct gateway *gateway, uint64_t since, uint64_t most);

#endif
