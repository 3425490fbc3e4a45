/* speed SIZE: times a read of a held page beside a look-up in a hash table and a copy of as many
 * bytes, and a commit in one process (client, frames, server, no disk), for pages of so many bytes.
 * The table is uthash's where that is installed, else a chained one of 64-bit keys below. */
#include "parties.h"

#include <time.h>

#if defined(__has_include)
#if __has_include(<uthash.h>)
#include <uthash.h>
#define TABLE "uthash"
#endif
#endif

enum { PAGES = 512 };

static double now(void) {
  struct timespec time;
  clock_gettime(CLOCK_MONOTONIC, &time);
  return (double)time.tv_sec + (double)time.tv_nsec * 1e-9;
}

typedef struct entry {
  uint64_t key;
  uint8_t *bytes;
#ifdef TABLE
  UT_hash_handle hh;
#else
  struct entry *next;
#endif
} entry;

#ifdef TABLE
static entry *table;

static void add(entry *it) { HASH_ADD(hh, table, key, sizeof it->key, it); }

static entry *find(uint64_t key) {
  entry *it;
  HASH_FIND(hh, table, &key, sizeof key, it);
  return it;
}
#else
#define TABLE "a chained table"
static entry *table[1024];

static size_t place_of(uint64_t key) { return (key * 0x9E3779B97F4A7C15u) >> 54; }

static void add(entry *it) {
  it->next = table[place_of(it->key)];
  table[place_of(it->key)] = it;
}

static entry *find(uint64_t key) {
  entry *it = table[place_of(key)];
  while (it != NULL && it->key != key) {
    it = it->next;
  }
  return it;
}
#endif

static rughvadi_handle server, client;
static uint8_t *room;
static size_t room_size;

/* Hands on all that is said, until nothing is. */
static void settle(void) {
  for (bool more = true; more;) {
    size_t size, used;
    uint32_t whose;
    more = false;
    while (rughvadi_next(&client, room, room_size, &size, &whose) == RUGHVADI_DONE) {
      WANT(rughvadi_take(&server, room, size, &used));
      while (rughvadi_next(&server, room, room_size, &size, &whose) == RUGHVADI_DONE) {
        WANT(rughvadi_take(&client, room, size, &used));
        more = true;
      }
    }
  }
}

static void flush(uint8_t *bytes, size_t len) {
  uint64_t number, version;
  size_t pages, size, used;
  uint32_t page, whose;
  if (rughvadi_server_batch(&server, &number, &pages) != RUGHVADI_DONE) {
    return;
  }
  for (size_t at = 0; at < pages; at++) {
    WANT(rughvadi_server_page(&server, at, bytes, len, &page, &version));
  }
  WANT(rughvadi_server_flushed(&server, number));
  while (rughvadi_next(&server, room, room_size, &size, &whose) == RUGHVADI_DONE) {
    WANT(rughvadi_take(&client, room, size, &used));
  }
  settle();
}

static void read_page(uint32_t page, uint8_t *bytes, size_t len) {
  bool here = false;
  while (!here) {
    WANT(rughvadi_client_read(&client, page, bytes, len, &here));
    settle();
  }
}

static double time_reads(uint8_t *bytes, size_t len, long times) {
  bool here;
  double begun = now();
  for (long at = 0; at < times; at++) {
    WANT(rughvadi_client_read(&client, (uint32_t)(draw() % PAGES), bytes, len, &here));
  }
  return (now() - begun) / (double)times * 1e9;
}

static double time_table(uint8_t *bytes, size_t len, long times) {
  double begun = now();
  for (long at = 0; at < times; at++) {
    memcpy(bytes, find(draw() % PAGES)->bytes, len);
    __asm__ volatile("" : : "r"(bytes) : "memory");
  }
  return (now() - begun) / (double)times * 1e9;
}

static double time_commits(uint8_t *bytes, size_t len, long times) {
  uint64_t txn;
  bool may;
  double begun = now();
  for (long at = 0; at < times; at++) {
    WANT(rughvadi_client_begin(&client, &txn));
    read_page(0, bytes, len);
    for (may = false; !may; settle()) {
      WANT(rughvadi_client_want(&client, 0, &may));
    }
    bytes[0]++;
    WANT(rughvadi_client_write(&client, 0, bytes, len));
    WANT(rughvadi_client_finish(&client));
    settle();
    flush(bytes, len);
  }
  return (now() - begun) / (double)times * 1e6;
}

int main(int argc, char **argv) {
  size_t len = argc > 1 ? (size_t)atol(argv[1]) : 64;
  rughvadi_limits limits = {1, PAGES, len, PAGES, PAGES / 4, PAGES, 0};
  uint8_t *bytes = calloc(1, len);
  uint64_t txn;
  room_size = 4096 + 2 * len;
  room = malloc(room_size);
  WANT(rughvadi_server_new(&limits, &server));
  WANT(rughvadi_client_new(&limits, 0, 1, &client));
  WANT(rughvadi_client_hello(&client));
  settle();
  WANT(rughvadi_client_begin(&client, &txn));
  for (uint32_t page = 0; page < PAGES; page++) {
    read_page(page, bytes, len);
    entry *it = malloc(sizeof *it);
    *it = (entry){.key = page, .bytes = calloc(1, len)};
    add(it);
  }
  long times = len < 1024 ? 4000000 : 1000000;
  double best_read = 1e9, best_table = 1e9;
  for (int turn = 0; turn < 5; turn++) { /* in turn, so that both meet the same machine */
    double reads = time_reads(bytes, len, times / 5), found = time_table(bytes, len, times / 5);
    best_read = reads < best_read ? reads : best_read;
    best_table = found < best_table ? found : best_table;
  }
  WANT(rughvadi_client_drop(&client));
  settle();
  printf("%zu bytes: held read %.1f ns, %s and a copy %.1f ns, ratio %.2f; commit %.2f us\n", len,
         best_read, TABLE, best_table, best_read / best_table, time_commits(bytes, len, 20000));
  return 0;
}
