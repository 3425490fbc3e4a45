#include "gateway.h"
#include "notify.h"
#include "words.h"

#include <signal.h>
#include <stdio.h>
#include <string.h>
#include <sys/resource.h>
#include <sys/stat.h>

enum {
  FILES = 32,        /* that the gateway itself has open, and a few to spare */
  FILES_OF_STORE = 8 /* a lock, a clock, two pipes, and what is open as a server starts */
};

/* ---- its end ---- */

static void close_all(uv_handle_t *handle, void *unused) {
  (void)unused;
  if (!uv_is_closing(handle)) {
    uv_close(handle, NULL);
  }
}

void gateway_look(struct gateway *gateway) {
  bool is_down = gateway->is_stopping && LIST_EMPTY(&gateway->connections);
  for (size_t at = 0; at < gateway->places.count; at++) {
    is_down = is_down && server_is_down(&gateway->stores[at].server);
  }
  if (is_down) {
    uv_walk(gateway->loop, close_all, NULL);
  }
}

void gateway_stop(struct gateway *gateway, int status) {
  if (gateway->is_stopping) {
    return;
  }
  gateway->is_stopping = true;
  gateway->status = status;
  notify("STOPPING=1");
  scrape_close(&gateway->scrape);
  for (size_t at = 0; at < DOORS; at++) {
    door_close(&gateway->doors[at]);
  }
  for (size_t at = 0; at < gateway->places.count; at++) {
    store_stop(&gateway->stores[at]);
  }
  gateway_look(gateway);
}

/* Reads the tokens again: who has none any more goes. Where they are wrong the former ones stay. */
static void reread(uv_signal_t *signal, int number) {
  struct gateway *gateway = signal->data;
  struct tokens former = gateway->tokens, read;
  bool is_right = tokens_read(&read, gateway->tokens_path);
  (void)number;
  gateway->tokens = is_right ? read : former;
  for (size_t at = 0; at < gateway->places.count && is_right; at++) {
    store_keep(&gateway->stores[at], &former);
  }
  explicit_bzero(&former, sizeof former);
  explicit_bzero(&read, sizeof read);
  log_line(is_right ? LEVEL_INFO : LEVEL_ERROR, "%s: the tokens %s", gateway->tokens_path,
           is_right ? "were read again" : "stay as they were");
}

static void signalled(uv_signal_t *signal, int number) {
  (void)number;
  gateway_stop(signal->data, 0);
}

/* ---- what it does now and then ---- */

static void before_wait(uv_prepare_t *prepare) {
  struct gateway *gateway = prepare->data;
  for (size_t at = 0; at < gateway->places.count; at++) {
    store_send(&gateway->stores[at]);
  }
  struct connection *connection;
  LIST_FOREACH(connection, &gateway->connections, others) { outgoing_send(&connection->out); }
}

bool gateway_waited(const struct gateway *gateway, uint64_t since, uint64_t most) {
  return since != 0 && gateway->now - since > most;
}

static void tick(uv_timer_t *timer) {
  struct gateway *gateway = timer->data;
  struct connection *connection;
  gateway->now += TICK;
  for (size_t at = 0; at < DOORS; at++) {
    door_tick(&gateway->doors[at]);
  }
  refused_tick(&gateway->refused, gateway->now);
  scrape_tick(&gateway->scrape);
  LIST_FOREACH(connection, &gateway->connections, others) { connection_tick(connection); }
  for (size_t at = 0; at < gateway->places.count && !gateway->is_stopping; at++) {
    store_tick(&gateway->stores[at]);
  }
}

/* ---- its beginning ---- */

static bool listen_all(struct gateway *gateway, const struct words *words) {
  return (words->socket == NULL || door_open_local(&gateway->doors[LOCAL], words->socket))
         && (words->metrics == NULL || scrape_begin(&gateway->scrape, gateway, words->metrics))
         && (words->tcp < 0
             || door_open_remote(&gateway->doors[REMOTE], words->address, (int)words->tcp));
}

static void begin(struct gateway *gateway) {
  /* A write to who is gone is a fault of that write alone. */
  signal(SIGPIPE, SIG_IGN);
  gateway->loop = uv_default_loop();
  LIST_INIT(&gateway->connections);
  gateway->now = TICK;
  doors_begin(gateway);
  uv_signal_init(gateway->loop, &gateway->terminate);
  uv_signal_init(gateway->loop, &gateway->interrupt);
  uv_signal_init(gateway->loop, &gateway->hangup);
  uv_prepare_init(gateway->loop, &gateway->prepare);
  uv_timer_init(gateway->loop, &gateway->tick);
  gateway->terminate.data = gateway->interrupt.data = gateway->hangup.data = gateway;
  gateway->prepare.data = gateway->tick.data = gateway;
  uv_signal_start(&gateway->terminate, signalled, SIGTERM);
  uv_signal_start(&gateway->interrupt, signalled, SIGINT);
  uv_signal_start(&gateway->hangup, reread, SIGHUP);
  uv_prepare_start(&gateway->prepare, before_wait);
  uv_timer_start(&gateway->tick, tick, TICK, TICK);
}

/* Lets so many files be open as listeners, stores and their clients need, or says that it can't. */
static void raise_files(const struct places *places) {
  struct rlimit limit;
  rlim_t needed = FILES + DOORS * (UNGREETED_MOST + 1);
  for (size_t at = 0; at < places->count; at++) {
    needed += FILES_OF_STORE + places->at[at].limits.clients;
  }
  if (getrlimit(RLIMIT_NOFILE, &limit) != 0 || limit.rlim_cur >= needed) {
    return;
  }
  limit.rlim_cur = needed < limit.rlim_max ? needed : limit.rlim_max;
  setrlimit(RLIMIT_NOFILE, &limit);
  if (limit.rlim_cur < needed) {
    log_line(LEVEL_WARNING, "only %ju files may be open, and all clients together may need %ju",
             (uintmax_t)limit.rlim_cur, (uintmax_t)needed);
  }
}

static int run(struct gateway *gateway, const struct words *words) {
  raise_files(&gateway->places);
  begin(gateway);
  if (listen_all(gateway, words)) {
    for (size_t at = 0; at < gateway->places.count; at++) {
      store_begin(&gateway->stores[at], gateway, &gateway->places.at[at]);
    }
    puts("ready");
    fflush(stdout);
    notify("READY=1");
  } else {
    gateway->places.count = 0;
    gateway_stop(gateway, 1);
  }
  uv_run(gateway->loop, UV_RUN_DEFAULT);
  uv_loop_close(gateway->loop);
  places_free(&gateway->places);
  return gateway->status;
}

/* Takes from the words how long it waits, and for what. */
static void take_words(struct gateway *gateway, const struct words *words) {
  gateway->serve = words->serve;
  gateway->tokens_path = words->tokens;
  gateway->greeting = (uint64_t)words->greeting * 1000;
  gateway->patience = (uint64_t)words->patience * 1000;
  gateway->silence = (uint64_t)words->silence * 1000;
  gateway->server_silence = (uint64_t)words->server_silence * 1000;
  gateway->buffer = (size_t)words->buffer;
  gateway->is_announced = words->is_announced;
}

int main(int count, char **text) {
  static struct gateway gateway;
  struct words words;
  umask(077); /* what it makes, and its servers make, is its owner's */
  if (!words_read(&words, count, text)) {
    return 2;
  }
  if (words.make > 0) {
    return tokens_make(words.tokens, (unsigned)words.make) ? 0 : 2;
  }
  take_words(&gateway, &words);
  notify_begin();
  bool right =
      tokens_read(&gateway.tokens, words.tokens)
      && (words.stores != NULL ? places_read(&gateway.places, words.stores)
                               : places_of_one(&gateway.places, words.config, words.database));
  return right ? run(&gateway, &words) : 2;
}
