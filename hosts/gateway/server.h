/* The server of a store: a process that takes frames on its standard input and says frames on its
 * standard output. It is started again where it ends. */
#ifndef GATEWAY_SERVER_H
#define GATEWAY_SERVER_H

#include "frame.h"
#include "outgoing.h"

#include <uv.h>

enum { TO_SERVER_MOST = 1 << 22 /* clients aren't read while it hasn't taken so many bytes */ };

struct store;

struct server {
  struct store *store;
  uv_process_t process;
  uv_pipe_t input, output; /* its own */
  uv_timer_t timer;        /* until it is started, or until it must have ended */
  struct outgoing to;
  struct bytes from;
  int lock;          /* a file that is locked as long as it runs; -1: none is */
  int handles;       /* how many of process, input and output are open */
  bool is_up;        /* it takes frames */
  bool is_serving;   /* it serves the store: at once, or once it has announced its life */
  bool has_spoken;   /* it said something since it was started */
  bool is_ending;    /* it is told no more, and is to end */
  bool is_let_go;    /* it was ended as it waited for its store */
  bool is_told;      /* that another server holds the store was said */
  unsigned failures; /* how often it ended since it last said anything */
  unsigned pauses;   /* since its process ended */
  unsigned quiet;    /* pauses since its process ended or it said something */
  uint64_t floor;    /* that of its life: incarnations are greater */
  bool is_asked;     /* clients told it something since it last said anything */
  uint64_t heard;    /* when it last said anything, or began to serve */
  uint64_t owes;     /* since when it owes a Welcome; 0: it doesn't */
};

/* Starts the server of a store. */
void server_begin(struct server *server, struct store *store);

/* Whether clients may come. */
bool server_serves(const struct server *server);

/* Tells it bytes of frames; false where memory was refused. What is told to one that takes nothing
 * is let go. */
bool server_put(struct server *server, const uint8_t *frames, size_t size);

/* Tells it a header alone; false where memory was refused. */
bool server_put_header(struct server *server, const struct header *header);

/* How many bytes it hasn't taken. */
size_t server_waiting(const struct server *server);

/* Sends what waits. */
void server_send(struct server *server);

/* Has it say again what may be lost, and ends it where it is silent. */
void server_tick(struct server *server);

/* It is told no more, and is to write all and end. */
void server_stop(struct server *server);

/* Whether nothing of it is left. */
bool server_is_down(const struct server *server);

#endif
