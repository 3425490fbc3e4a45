#include "gateway.h"
#include "listen.h"

#include <stdio.h>
#include <stdlib.h>
#include <string.h>

static void connected(uv_stream_t *listener, int status);

/* Its place is free, for one who waits for it. */
static void freed(uv_handle_t *handle) {
  struct scraper *scraper = handle->data;
  struct scrape *scrape = scraper->scrape;
  bytes_free(&scraper->in);
  outgoing_free(&scraper->out);
  scraper->is_open = false;
  if (scrape->has_waiting && scrape->is_open) {
    scrape->has_waiting = false;
    connected(&scrape->listener.stream, 0);
  }
}

static void end(struct scraper *scraper) {
  if (!uv_is_closing(&scraper->peer.handle)) {
    uv_close(&scraper->peer.handle, freed);
  }
}

/* After a write: who has got all goes. */
static void moved(struct outgoing *out, int status) {
  struct scraper *scraper = out->owner;
  if (status != 0 || (scraper->is_answered && outgoing_size(out) == 0)) {
    end(scraper);
  }
}

/* Puts an answer of HTTP. */
static bool put_answer(struct scraper *scraper, const char *status, const struct bytes *text) {
  char head[256];
  int size = snprintf(head, sizeof head,
                      "HTTP/1.1 %s\r\nContent-Type: text/plain; version=0.0.4; charset=utf-8\r\n"
                      "Content-Length: %zu\r\nConnection: close\r\n\r\n",
                      status, text->size);
  return outgoing_put(&scraper->out, head, (size_t)size)
         && outgoing_put(&scraper->out, text->at, text->size);
}

/* Answers a whole request. */
static void answer(struct scraper *scraper) {
  static const char get[] = "GET /metrics";
  struct bytes text = {0};
  const char *request = (const char *)scraper->in.at;
  bool is_known = scraper->in.size > sizeof get && strncmp(request, get, sizeof get - 1) == 0
                  && strchr(" ?", request[sizeof get - 1]) != NULL;
  bool right = !is_known || metrics_put(scraper->scrape->gateway, &text);
  right = right && put_answer(scraper, is_known ? "200 OK" : "404 Not Found", &text);
  bytes_free(&text);
  if (!right) {
    end(scraper);
    return;
  }
  scraper->is_answered = true;
  uv_read_stop(&scraper->peer.stream);
  outgoing_send(&scraper->out);
  moved(&scraper->out, 0);
}

static void room_for(uv_handle_t *handle, size_t wanted, uv_buf_t *buffer) {
  static char room[REQUEST];
  (void)handle;
  (void)wanted;
  *buffer = uv_buf_init(room, sizeof room);
}

static void came(uv_stream_t *stream, ssize_t count, const uv_buf_t *buffer) {
  struct scraper *scraper = stream->data;
  struct bytes *in = &scraper->in;
  if (count < 0 || in->size + (size_t)count > REQUEST
      || !bytes_put(in, buffer->base, (size_t)count)) {
    end(scraper);
  } else if (memmem(in->at, in->size, "\r\n\r\n", 4) != NULL) {
    answer(scraper);
  }
}

/* A place for one more, or NULL: where all are taken the first that came gives its own away, a
 * moment later. */
static struct scraper *place_of(struct scrape *scrape) {
  struct scraper *first = &scrape->of[0];
  for (size_t at = 0; at < SCRAPERS; at++) {
    struct scraper *each = &scrape->of[at];
    if (!each->is_open) {
      return each;
    }
    first = each->began < first->began ? each : first;
  }
  end(first);
  return NULL;
}

static void connected(uv_stream_t *listener, int status) {
  struct scrape *scrape = listener->data;
  struct scraper *scraper = status == 0 ? place_of(scrape) : NULL;
  if (scraper == NULL) {
    scrape->has_waiting = status == 0;
    return;
  }
  *scraper =
      (struct scraper){.scrape = scrape,
                       .is_open = true,
                       .began = scrape->gateway->now,
                       .out = {.stream = &scraper->peer.stream, .moved = moved, .owner = scraper}};
  if (scrape->is_local) {
    uv_pipe_init(scrape->gateway->loop, &scraper->peer.pipe, 0);
  } else {
    uv_tcp_init(scrape->gateway->loop, &scraper->peer.tcp);
  }
  scraper->peer.handle.data = scraper;
  if (uv_accept(listener, &scraper->peer.stream) != 0) {
    end(scraper);
  } else {
    uv_read_start(&scraper->peer.stream, room_for, came);
  }
}

void scrape_tick(struct scrape *scrape) {
  for (size_t at = 0; at < SCRAPERS && scrape->is_open; at++) {
    struct scraper *each = &scrape->of[at];
    if (each->is_open && gateway_waited(scrape->gateway, each->began, scrape->gateway->patience)) {
      end(each);
    }
  }
}

bool scrape_begin(struct scrape *scrape, struct gateway *gateway, const char *place) {
  int fault;
  scrape->gateway = gateway;
  scrape->is_open = true;
  scrape->is_local = place[strspn(place, "0123456789")] != 0;
  if (scrape->is_local) {
    uv_pipe_init(gateway->loop, &scrape->listener.pipe, 0);
    fault = listen_local(&scrape->listener.pipe, place, connected);
  } else {
    uv_tcp_init(gateway->loop, &scrape->listener.tcp);
    fault = listen_remote(&scrape->listener.tcp, "127.0.0.1", atoi(place), connected);
  }
  scrape->listener.handle.data = scrape;
  if (fault != 0) {
    log_line(LEVEL_ERROR, "cannot listen on %s: %s", place, uv_strerror(fault));
  }
  return fault == 0;
}

void scrape_close(struct scrape *scrape) {
  for (size_t at = 0; at < SCRAPERS && scrape->is_open; at++) {
    if (scrape->of[at].is_open) {
      end(&scrape->of[at]);
    }
  }
  if (scrape->is_open && !uv_is_closing(&scrape->listener.handle)) {
    uv_close(&scrape->listener.handle, NULL);
  }
  scrape->is_open = false;
}
