/* A listener that answers what was counted, by HTTP. */
#ifndef GATEWAY_SCRAPE_H
#define GATEWAY_SCRAPE_H

#include "outgoing.h"

enum { SCRAPERS = 8, REQUEST = 8192 };

struct gateway;
struct scrape;

/* Who asks. */
struct scraper {
  struct scrape *scrape;
  union {
    uv_handle_t handle;
    uv_stream_t stream;
    uv_pipe_t pipe;
    uv_tcp_t tcp;
  } peer;
  struct bytes in;
  struct outgoing out;
  bool is_open, is_answered;
  uint64_t began; /* when it came */
};

struct scrape {
  struct gateway *gateway;
  union {
    uv_handle_t handle;
    uv_stream_t stream;
    uv_pipe_t pipe;
    uv_tcp_t tcp;
  } listener;
  bool is_local, is_open;
  bool has_waiting; /* somebody came for whom there was no place */
  struct scraper of[SCRAPERS];
};

/* Listens at a path, or a port of 127.0.0.1; false, with a line, where it can't. */
bool scrape_begin(struct scrape *scrape, struct gateway *gateway, const char *place);

/* Ends those who take too long. */
void scrape_tick(struct scrape *scrape);

/* Listens no more. */
void scrape_close(struct scrape *scrape);

#endif
