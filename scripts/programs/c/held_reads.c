/* held_reads FOLDER SIZE [REDIS]: times reads of what a process has at hand, in C.
 *
 * For values of so many bytes: a link of the library over a Unix socket, whose client holds the
 * pages, at a server in a process of its own; SQLite's library over files in FOLDER, one as it is
 * opened and one with a write-ahead log, with prepared statements; LMDB; and a GET of the Redis
 * server at the socket REDIS. All have 512 values, drawn evenly, and copy what they read. They take
 * forty short turns, so that all meet the same machine; each begins with reads that aren't counted,
 * and the fastest counts.
 *
 * A line for each: nanoseconds of a read within a transaction, of a transaction of one, and of one
 * of eight. That of the link drops. A Redis transaction of eight is an MGET. */
#include <rughvadi_link.h>

#include <lmdb.h>
#include <sqlite3.h>
#include <stdio.h>
#include <stdlib.h>
#include <string.h>
#include <sys/socket.h>
#include <sys/stat.h>
#include <sys/un.h>
#include <time.h>
#include <unistd.h>

enum { COUNT = 512, MOST = 65536, TURNS = 40, WAYS = 3, PARTIES = 5 };

/* Reads so many values in one transaction, beginning with that one. */
typedef void (*reader)(uint32_t from, int many);

static const int manys[WAYS] = {1000, 1, 8};
static size_t size;
static uint8_t room[8 * (MOST + 32) + 64];

static void want(bool right, const char *what) {
  if (!right) {
    fprintf(stderr, "held_reads: %s\n", what);
    exit(1);
  }
}

static double now(void) {
  struct timespec time;
  clock_gettime(CLOCK_MONOTONIC, &time);
  return (double)time.tv_sec * 1e9 + (double)time.tv_nsec;
}

static uint32_t draw(void) {
  static uint64_t state = 88172645463325252u;
  state ^= state << 13;
  state ^= state >> 7;
  state ^= state << 17;
  return (uint32_t)(state % COUNT);
}

/* ---- the library ---- */

static rughvadi_link link_;

static void read_link(uint32_t from, int many) {
  want(rughvadi_link_begin(&link_) == RUGHVADI_DONE, "begin");
  for (int at = 0; at < many; at++) {
    uint32_t page = (from ^ (uint32_t)at) % COUNT;
    want(rughvadi_link_fetch(&link_, page, room, size) == RUGHVADI_DONE, "fetch");
  }
  want(rughvadi_link_drop(&link_) == RUGHVADI_DONE, "drop");
}

/* Serves one client until its connection ends. */
static void serve(const rughvadi_limits *limits, int end) {
  rughvadi_handle server = RUGHVADI_EMPTY;
  static uint8_t came[2 * MOST];
  size_t len = 0, used, out;
  uint32_t client;
  want(rughvadi_server_new(limits, &server) == RUGHVADI_DONE, "a server");
  for (ssize_t got; (got = recv(end, came + len, sizeof came - len, 0)) > 0;) {
    len += (size_t)got;
    while (rughvadi_take(&server, came, len, &used) == RUGHVADI_DONE) {
      memmove(came, came + used, len -= used);
      while (rughvadi_next(&server, room, sizeof room, &out, &client) == RUGHVADI_DONE) {
        want(send(end, room, out, MSG_NOSIGNAL) == (ssize_t)out, "send");
      }
    }
  }
  rughvadi_free(&server);
}

static void open_link(void) {
  rughvadi_limits limits = {1, COUNT, size, COUNT, COUNT / 4, COUNT / 2, 0};
  int ends[2];
  want(socketpair(AF_UNIX, SOCK_STREAM, 0, ends) == 0, "a pair of sockets");
  if (fork() == 0) {
    close(ends[0]);
    serve(&limits, ends[1]);
    _exit(0);
  }
  close(ends[1]);
  want(rughvadi_link_open(&link_, &limits, 0, 1, ends[0]) == RUGHVADI_DONE, "a link");
  read_link(0, COUNT);
}

/* ---- SQLite ---- */

typedef struct {
  sqlite3 *database;
  sqlite3_stmt *begin, *end, *selected;
} tables;

static tables plain, logged;

static void run(sqlite3_stmt *statement) {
  want(sqlite3_step(statement) == SQLITE_DONE && sqlite3_reset(statement) == SQLITE_OK, "sqlite");
}

static void read_tables(tables *it, uint32_t from, int many) {
  if (many > 1) {
    run(it->begin);
  }
  for (int at = 0; at < many; at++) {
    sqlite3_bind_int(it->selected, 1, (int)((from ^ (uint32_t)at) % COUNT));
    want(sqlite3_step(it->selected) == SQLITE_ROW, "select");
    memcpy(room, sqlite3_column_blob(it->selected, 0), size);
    sqlite3_reset(it->selected);
  }
  if (many > 1) {
    run(it->end);
  }
}

static void read_plain(uint32_t from, int many) { read_tables(&plain, from, many); }

static void read_logged(uint32_t from, int many) { read_tables(&logged, from, many); }

static void open_tables(tables *it, const char *folder, const char *journal) {
  char path[4096], fill[512];
  snprintf(path, sizeof path, "%s/c_%zu_%s.db", folder, size, journal);
  snprintf(fill, sizeof fill,
           "PRAGMA journal_mode = %s; CREATE TABLE pages(page INTEGER PRIMARY KEY, data); "
           "WITH RECURSIVE n(p) AS (SELECT 0 UNION ALL SELECT p + 1 FROM n WHERE p < %d) "
           "INSERT INTO pages SELECT p, zeroblob(%zu) FROM n",
           journal, COUNT - 1, size);
  want(sqlite3_open(path, &it->database) == SQLITE_OK, path);
  want(sqlite3_exec(it->database, fill, NULL, NULL, NULL) == SQLITE_OK, "INSERT");
  const char *select = "SELECT data FROM pages WHERE page = ?";
  sqlite3_prepare_v2(it->database, "BEGIN", -1, &it->begin, NULL);
  sqlite3_prepare_v2(it->database, "COMMIT", -1, &it->end, NULL);
  sqlite3_prepare_v2(it->database, select, -1, &it->selected, NULL);
}

/* ---- LMDB ---- */

static MDB_env *store;
static MDB_txn *reading;
static MDB_dbi values;

static void read_lmdb(uint32_t from, int many) {
  want(mdb_txn_renew(reading) == 0, "mdb_txn_renew");
  for (int at = 0; at < many; at++) {
    uint32_t page = (from ^ (uint32_t)at) % COUNT;
    MDB_val key = {sizeof page, &page}, value;
    want(mdb_get(reading, values, &key, &value) == 0, "mdb_get");
    memcpy(room, value.mv_data, size);
  }
  mdb_txn_reset(reading);
}

static void open_lmdb(const char *folder) {
  char path[4096];
  MDB_txn *filling;
  snprintf(path, sizeof path, "%s/c_%zu.lmdb", folder, size);
  want(mkdir(path, 0700) == 0 && mdb_env_create(&store) == 0, path);
  mdb_env_set_mapsize(store, 1 << 26);
  want(mdb_env_open(store, path, 0, 0600) == 0, path);
  want(mdb_txn_begin(store, NULL, 0, &filling) == 0, "mdb_txn_begin");
  want(mdb_dbi_open(filling, NULL, MDB_INTEGERKEY, &values) == 0, "mdb_dbi_open");
  for (uint32_t page = 0; page < COUNT; page++) {
    MDB_val key = {sizeof page, &page}, value = {size, room};
    want(mdb_put(filling, values, &key, &value, 0) == 0, "mdb_put");
  }
  want(mdb_txn_commit(filling) == 0, "mdb_txn_commit");
  want(mdb_txn_begin(store, NULL, MDB_RDONLY, &reading) == 0, "mdb_txn_begin");
  mdb_txn_reset(reading);
}

/* ---- Redis ---- */

static int redis = -1;

/* Sends a command, and receives as many bytes as its answer has. */
static void ask(const char *command, size_t len, size_t answer) {
  want(send(redis, command, len, MSG_NOSIGNAL) == (ssize_t)len, "redis: send");
  for (size_t came = 0; came < answer;) {
    ssize_t got = recv(redis, room + came, sizeof room - came, 0);
    want(got > 0, "redis: recv");
    came += (size_t)got;
  }
}

static size_t digits(size_t number) { return (size_t)snprintf(NULL, 0, "%zu", number); }

static void read_redis(uint32_t from, int many) {
  int asked = many <= 8 ? many : 1, len;
  char command[1024];
  len = snprintf(command, sizeof command, "*%d\r\n%s", asked + 1,
                 asked == 1 ? "$3\r\nGET\r\n" : "$4\r\nMGET\r\n");
  for (int at = 0; at < asked; at++) {
    uint32_t page = (from ^ (uint32_t)at) % COUNT;
    len += snprintf(command + len, sizeof command - (size_t)len, "$%zu\r\n%zu:%03u\r\n",
                    digits(size) + 4, size, page);
  }
  size_t answer = (size_t)asked * (size + digits(size) + 5) + (asked == 1 ? 0 : 4);
  ask(command, (size_t)len, answer);
}

static void open_redis(const char *path) {
  struct sockaddr_un address = {.sun_family = AF_UNIX};
  static char command[MOST + 64];
  strncpy(address.sun_path, path, sizeof address.sun_path - 1);
  redis = socket(AF_UNIX, SOCK_STREAM, 0);
  want(connect(redis, (const struct sockaddr *)&address, sizeof address) == 0, path);
  for (uint32_t page = 0; page < COUNT; page++) {
    int len = snprintf(command, sizeof command, "*3\r\n$3\r\nSET\r\n$%zu\r\n%zu:%03u\r\n$%zu\r\n",
                       digits(size) + 4, size, page, size);
    memset(command + len, 0, size);
    memcpy(command + (size_t)len + size, "\r\n", 2);
    ask(command, (size_t)len + size + 2, 5);
  }
}

/* ---- all ---- */

/* Nanoseconds of a transaction of so many reads; of many a read, where they are a thousand. */
static double timed(reader reads, int many) {
  int times = many == 1 ? 400 : many == 8 ? 50 : reads == read_redis ? 400 : 1;
  double begun = 0;
  for (int at = -times; at < times; at++) {
    begun = at == 0 ? now() : begun;
    reads(draw(), many);
  }
  return (now() - begun) / times / (many > 8 && reads != read_redis ? many : 1);
}

int main(int argc, char **argv) {
  static const char *const names[PARTIES] = {"a link", "sqlite3", "sqlite3 with WAL", "lmdb",
                                             "a Redis GET"};
  static const reader readers[PARTIES] = {read_link, read_plain, read_logged, read_lmdb,
                                          read_redis};
  want(argc >= 3, "FOLDER SIZE [REDIS]");
  size = (size_t)atol(argv[2]);
  open_link();
  open_tables(&plain, argv[1], "DELETE");
  open_tables(&logged, argv[1], "WAL");
  open_lmdb(argv[1]);
  int parties = argc > 3 && argv[3][0] ? PARTIES : PARTIES - 1;
  if (parties == PARTIES) {
    open_redis(argv[3]);
  }
  double best[PARTIES][WAYS];
  for (int round = 0; round < TURNS * parties * WAYS; round++) {
    int party = round % parties, way = round / parties % WAYS;
    double took = timed(readers[party], manys[way]);
    bool is_first = round < parties * WAYS;
    best[party][way] = is_first || took < best[party][way] ? took : best[party][way];
  }
  for (int party = 0; party < parties; party++) {
    double *its = best[party];
    printf("C, %zu bytes, %s: read %.0f ns, transaction of 1 %.0f ns, of 8 %.0f ns, ", size,
           names[party], its[0], its[1], its[2]);
    printf("%.2f, %.2f, %.2f times the link\n", its[0] / best[0][0], its[1] / best[0][1],
           its[2] / best[0][2]);
  }
  return 0;
}
