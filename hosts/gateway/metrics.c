#include "metrics.h"

#include "gateway.h"

#include <inttypes.h>
#include <stdarg.h>
#include <stdio.h>
#include <string.h>

enum { LINE = 512 };

/* Seconds. */
static const double LIMITS[BUCKETS] = {0.0005, 0.001, 0.0025, 0.005, 0.01, 0.025, 0.05,
                                       0.1,    0.25,  0.5,    1,     2.5,  10};

/* ---- counting ---- */

static struct counts *of_frame(struct metrics *metrics, const uint8_t *frame) {
  return &metrics->of[header_at(frame).client % MOST_CLIENTS];
}

void metrics_take(struct metrics *metrics, const uint8_t *frame, size_t size) {
  struct counts *counts = of_frame(metrics, frame);
  uint8_t kind = header_at(frame).kind;
  counts->bytes_in += size;
  counts->read_asks += kind == KIND_ASK_READ;
  counts->write_asks += kind == KIND_ASK_WRITE;
  uint64_t txn = kind == KIND_COMMIT ? named_by(frame).txn : counts->committing;
  if (txn != counts->committing) { /* else it is said again */
    counts->committing = txn;
    counts->began = uv_hrtime();
  }
}

void metrics_hold(struct metrics *metrics, const uint8_t *frame) {
  of_frame(metrics, frame)->held_asks++;
}

/* A commit took from its Commit until now. */
static void answered(struct counts *counts) {
  uint64_t took = uv_hrtime() - counts->began;
  counts->committing = 0;
  counts->commits++;
  counts->waited += took;
  for (size_t at = 0; at < BUCKETS; at++) {
    if ((double)took / 1e9 <= LIMITS[at]) {
      counts->within[at]++;
      return;
    }
  }
}

void metrics_hear(struct metrics *metrics, const uint8_t *frame, size_t size) {
  struct counts *counts = of_frame(metrics, frame);
  uint8_t kind = header_at(frame).kind;
  counts->bytes_out += size;
  counts->read_grants += kind == KIND_GRANTED;
  counts->write_grants += kind == KIND_MAY_WRITE;
  counts->callbacks += kind == KIND_CALLBACK || kind == KIND_DOWNGRADE;
  counts->aborts += kind == KIND_ABORT_NOW;
  if (kind == KIND_DONE && counts->committing == named_by(frame).txn) {
    answered(counts);
  }
}

void metrics_leave(struct metrics *metrics, uint16_t client) {
  metrics->of[client % MOST_CLIENTS].committing = 0;
}

/* ---- telling ---- */

struct counter;

/* A text that grows; none once memory was refused. */
struct text {
  struct bytes *bytes;
  bool is_whole;
  const struct counter *counter; /* which one is put of each client */
};

__attribute__((format(printf, 2, 3))) static void put(struct text *text, const char *format, ...) {
  char line[LINE];
  va_list words;
  va_start(words, format);
  int size = vsnprintf(line, sizeof line, format, words);
  va_end(words);
  text->is_whole =
      text->is_whole && size >= 0 && size < LINE && bytes_put(text->bytes, line, (size_t)size);
}

static void put_head(struct text *text, const char *name, const char *type, const char *help) {
  put(text, "# HELP rughvadi_%s %s\n# TYPE rughvadi_%s %s\n", name, help, name, type);
}

/* A store's name as a label's value: quotes and backslashes stand behind a backslash. */
static const char *label_of(const struct store *store) {
  static char label[2 * MOST_NAME + 1];
  size_t size = 0;
  for (const char *at = store->place->name; *at != 0; at++) {
    if (*at == '"' || *at == '\\') {
      label[size++] = '\\';
    }
    label[size++] = *at;
  }
  label[size] = 0;
  return label;
}

/* Hands in each client that was ever connected, with its store. */
typedef void (*client_put)(struct text *text, const struct store *store, uint16_t client,
                           const struct counts *counts);

static void each_client(struct text *text, const struct gateway *gateway, client_put put_client) {
  for (size_t at = 0; at < gateway->places.count; at++) {
    const struct store *store = &gateway->stores[at];
    for (unsigned client = 0; client < MOST_CLIENTS; client++) {
      if (store->metrics.of[client].is_seen) {
        put_client(text, store, (uint16_t)client, &store->metrics.of[client]);
      }
    }
  }
}

static void put_connected(struct text *text, const struct store *store, uint16_t client,
                          const struct counts *counts) {
  (void)counts;
  put(text, "rughvadi_client_connected{store=\"%s\",client=\"%u\"} %d\n", label_of(store), client,
      store->clients[client] != NULL);
}

/* A counter of each client: its name, what it tells, a further label, and where its number is. */
struct counter {
  const char *name, *help, *label;
  size_t place;
};

static const struct counter COUNTERS[] = {
    {"asks_total", "Asks of clients, to read or to write a page.", ",kind=\"read\"",
     offsetof(struct counts, read_asks)},
    {"asks_total", NULL, ",kind=\"write\"", offsetof(struct counts, write_asks)},
    {"held_asks_total", "Asks that waited for a turn.", "", offsetof(struct counts, held_asks)},
    {"grants_total", "Pages that were granted, and permissions to write one.", ",kind=\"read\"",
     offsetof(struct counts, read_grants)},
    {"grants_total", NULL, ",kind=\"write\"", offsetof(struct counts, write_grants)},
    {"callbacks_total", "Pages and permissions that were called back.", "",
     offsetof(struct counts, callbacks)},
    {"aborts_total", "Transactions that were told to abort.", "", offsetof(struct counts, aborts)},
    {"commits_total", "Commits that were answered.", "", offsetof(struct counts, commits)},
    {"received_bytes_total", "Bytes of frames that came from clients.", "",
     offsetof(struct counts, bytes_in)},
    {"sent_bytes_total", "Bytes of frames that went to clients.", "",
     offsetof(struct counts, bytes_out)},
};

static void put_counter(struct text *text, const struct store *store, uint16_t client,
                        const struct counts *counts) {
  const struct counter *counter = text->counter;
  uint64_t number;
  memcpy(&number, (const char *)counts + counter->place, sizeof number);
  put(text, "rughvadi_%s{store=\"%s\",client=\"%u\"%s} %" PRIu64 "\n", counter->name,
      label_of(store), client, counter->label, number);
}

static void put_counters(struct text *text, const struct gateway *gateway) {
  for (size_t at = 0; at < sizeof COUNTERS / sizeof *COUNTERS; at++) {
    text->counter = &COUNTERS[at];
    if (text->counter->help != NULL) {
      put_head(text, text->counter->name, "counter", text->counter->help);
    }
    each_client(text, gateway, put_counter);
  }
}

static void put_times(struct text *text, const struct store *store, uint16_t client,
                      const struct counts *counts) {
  uint64_t sum = 0;
  for (size_t at = 0; at < BUCKETS; at++) {
    sum += counts->within[at];
    put(text, "rughvadi_commit_seconds_bucket{store=\"%s\",client=\"%u\",le=\"%g\"} %" PRIu64 "\n",
        label_of(store), client, LIMITS[at], sum);
  }
  put(text, "rughvadi_commit_seconds_bucket{store=\"%s\",client=\"%u\",le=\"+Inf\"} %" PRIu64 "\n",
      label_of(store), client, counts->commits);
  put(text, "rughvadi_commit_seconds_sum{store=\"%s\",client=\"%u\"} %.9f\n", label_of(store),
      client, (double)counts->waited / 1e9);
  put(text, "rughvadi_commit_seconds_count{store=\"%s\",client=\"%u\"} %" PRIu64 "\n",
      label_of(store), client, counts->commits);
}

static void put_servers(struct text *text, const struct gateway *gateway) {
  put_head(text, "server_up", "gauge", "Whether the store is served.");
  for (size_t at = 0; at < gateway->places.count; at++) {
    const struct store *store = &gateway->stores[at];
    put(text, "rughvadi_server_up{store=\"%s\"} %d\n", label_of(store),
        server_serves(&store->server));
  }
  put_head(text, "server_restarts_total", "counter", "Starts of the store's server but the first.");
  for (size_t at = 0; at < gateway->places.count; at++) {
    const struct store *store = &gateway->stores[at];
    uint64_t starts = store->metrics.starts;
    put(text, "rughvadi_server_restarts_total{store=\"%s\"} %" PRIu64 "\n", label_of(store),
        starts > 0 ? starts - 1 : 0);
  }
}

static void put_refused(struct text *text, const struct gateway *gateway) {
  static const char *const reasons[REFUSALS] = {
      [NO_GREETING] = "greeting", [NO_TOKEN] = "token",        [NO_STORE] = "store",
      [NO_CLIENT] = "client",     [NOT_SERVED] = "not_served", [SILENT] = "silent",
      [CROWDED] = "crowded"};
  put_head(text, "refused_greetings_total", "counter", "Connections that were refused.");
  for (size_t reason = NO_GREETING; reason < REFUSALS; reason++) {
    put(text, "rughvadi_refused_greetings_total{reason=\"%s\"} %" PRIu64 "\n", reasons[reason],
        gateway->refused.of[reason]);
  }
}

bool metrics_put(const struct gateway *gateway, struct bytes *bytes) {
  struct text text = {.bytes = bytes, .is_whole = true};
  put_head(&text, "client_connected", "gauge", "Whether the client is connected.");
  each_client(&text, gateway, put_connected);
  put_counters(&text, gateway);
  put_head(&text, "commit_seconds", "histogram", "Time from a Commit to its answer.");
  each_client(&text, gateway, put_times);
  put_servers(&text, gateway);
  put_refused(&text, gateway);
  return text.is_whole;
}
