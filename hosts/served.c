/* served SOCKET DATABASE CLIENTS PAGES PAGE_SIZE [KEEP]: a page server in a program of its own.
 *
 * An example for who embeds the server in a daemon: it waits by poll on a Unix socket, keeps the
 * pages in SQLite by that library's own calls, and writes what was committed in a round in one
 * transaction, which is synced once. Whoever may open the socket may be any client: a connection
 * speaks for the one that its first frame names. A header of kind 0 with a client's number, put in
 * front, is answered with one whose incarnation that client may have next. With a KEEP of 1 clients
 * keep write permissions. docs/EMBEDDING.md tells the duties of a host.
 *
 *   cc -O2 served.c -o served $(pkg-config --cflags --libs rughvadi) -lsqlite3
 */
#include <errno.h>
#include <fcntl.h>
#include <poll.h>
#include <rughvadi.h>
#include <signal.h>
#include <sqlite3.h>
#include <stdarg.h>
#include <stdio.h>
#include <stdlib.h>
#include <string.h>
#include <sys/file.h>
#include <sys/socket.h>
#include <sys/stat.h>
#include <sys/un.h>
#include <time.h>
#include <unistd.h>

enum {
  CONNECTIONS = 64, /* at most so many at once */
  MOST_CLIENTS = 32,
  NOBODY = -1,
  HEADER = 16,
  PART = 4096,        /* bytes of a page that are in one row */
  READ = 1 << 18,     /* bytes that are read at once */
  OUT_MOST = 1 << 22, /* bytes that may wait for one connection: one that reads slower is lost */
  AGAIN = 500,        /* milliseconds without a frame until what may be lost is said again */
  SILENT = 5000,      /* milliseconds that a connection has for its first frame */
  BUSY = 5000         /* for so long it waits for others who use the database, as to copy it */
};

/* Ends the program. Nothing is lost that a client was told of. */
static void die(const char *format, ...) {
  va_list words;
  va_start(words, format);
  fputs("served: ", stderr);
  vfprintf(stderr, format, words);
  fputc('\n', stderr);
  va_end(words);
  exit(1);
}

/* ---- bytes ---- */

#if defined(__GNUC__) && !defined(__clang__)
/* GCC 12 takes the bytes of a connection for lost where a variable says which one it is. */
#pragma GCC diagnostic ignored "-Wanalyzer-malloc-leak"
#endif

struct bytes {
  uint8_t *at;
  size_t size, room;
};

/* Makes room for so many more bytes behind the others. */
static void make_room(struct bytes *bytes, size_t more) {
  if (bytes->room - bytes->size >= more) {
    return;
  }
  size_t room = 2 * bytes->room > bytes->size + more ? 2 * bytes->room : bytes->size + more;
  uint8_t *larger = realloc(bytes->at, room);
  if (larger == NULL) {
    die("memory");
  }
  bytes->at = larger;
  bytes->room = room;
}

static void cut(struct bytes *bytes, size_t count) {
  memmove(bytes->at, bytes->at + count, bytes->size - count);
  bytes->size -= count;
}

static void let_go(struct bytes *bytes) {
  free(bytes->at);
  *bytes = (struct bytes){0};
}

/* ---- the store: the tables of docs/FORMATS.md ---- */

struct store {
  sqlite3 *database;
  sqlite3_stmt *begin, *commit, *mark, *version, *part, *raise;
  sqlite3_int64 floor, below; /* of this life, which ends as this server does */
};

/* By so much the bound is above what it was raised for. */
static const sqlite3_int64 LIFE_ROOM = 1 << 20;

/* Greetings from here on aren't taken: with them a client could leave no number for later lives. */
static const uint64_t MOST_INCARNATION = (UINT64_C(1) << 61) + (UINT64_C(1) << 60);

static const char TABLES[] =
    "CREATE TABLE mark2(id INTEGER PRIMARY KEY, commits INTEGER NOT NULL,"
    " page_size INTEGER NOT NULL, pages INTEGER NOT NULL) STRICT;"
    "CREATE TABLE page2(no INTEGER PRIMARY KEY, version INTEGER NOT NULL) STRICT;"
    "CREATE TABLE part(no INTEGER NOT NULL, place INTEGER NOT NULL, body BLOB NOT NULL,"
    " PRIMARY KEY(no, place)) STRICT;";

static const char LIVES[] =
    "CREATE TABLE IF NOT EXISTS life(id INTEGER PRIMARY KEY, floor INTEGER NOT NULL,"
    " below INTEGER NOT NULL) STRICT;";

/* A life begins at the bound of the one before, and is written before anybody is answered. Of
 * tables that a server served which kept no lives the first begins above what clocks gave. */
static const char LIFE[] =
    "INSERT OR IGNORE INTO life VALUES (1, 0, 1 << 61);"
    "UPDATE life SET floor = below, below = below + (1 << 20);"
    "COMMIT";

static void must(struct store *store, int code) {
  if (code != SQLITE_OK && code != SQLITE_DONE && code != SQLITE_ROW) {
    die("store: %s", sqlite3_errmsg(store->database));
  }
}

static void run(struct store *store, const char *text) {
  must(store, sqlite3_exec(store->database, text, NULL, NULL, NULL));
}

static sqlite3_stmt *prepared(struct store *store, const char *text) {
  sqlite3_stmt *statement;
  must(store, sqlite3_prepare_v2(store->database, text, -1, &statement, NULL));
  return statement;
}

/* Runs a statement that answers no rows. */
static void done(struct store *store, sqlite3_stmt *statement) {
  must(store, sqlite3_step(statement));
  must(store, sqlite3_reset(statement));
}

/* Runs one that changes a row, unless another life has begun. */
static void done_one(struct store *store, sqlite3_stmt *statement) {
  done(store, statement);
  if (sqlite3_changes(store->database) != 1) {
    die("store: another server has it");
  }
}

static size_t part_size(const rughvadi_limits *limits, size_t from) {
  size_t left = (size_t)limits->page_size - from;
  return left < PART ? left : PART;
}

/* Tables of zeros. */
static void make_tables(struct store *store, const rughvadi_limits *limits) {
  run(store, "BEGIN IMMEDIATE");
  run(store, TABLES);
  run(store, LIVES);
  run(store, "INSERT INTO life VALUES (1, 0, 1)");
  sqlite3_stmt *page = prepared(store, "INSERT INTO page2 VALUES (?1, 0)");
  sqlite3_stmt *part = prepared(store, "INSERT INTO part VALUES (?1, ?2, zeroblob(?3))");
  for (uint32_t no = 0; no < limits->pages; no++) {
    sqlite3_bind_int64(page, 1, no);
    done(store, page);
    for (size_t from = 0; from < limits->page_size; from += PART) {
      sqlite3_bind_int64(part, 1, no);
      sqlite3_bind_int64(part, 2, (sqlite3_int64)(from / PART));
      sqlite3_bind_int64(part, 3, (sqlite3_int64)part_size(limits, from));
      done(store, part);
    }
  }
  sqlite3_finalize(page);
  sqlite3_finalize(part);
  sqlite3_stmt *mark = prepared(store, "INSERT INTO mark2 VALUES (1, 0, ?1, ?2)");
  sqlite3_bind_int64(mark, 1, (sqlite3_int64)limits->page_size);
  sqlite3_bind_int64(mark, 2, (sqlite3_int64)limits->pages);
  done(store, mark);
  sqlite3_finalize(mark);
  run(store, "COMMIT");
}

static sqlite3_int64 one_number(struct store *store, const char *text) {
  sqlite3_stmt *statement = prepared(store, text);
  if (sqlite3_step(statement) != SQLITE_ROW) {
    die("store: a row is missing");
  }
  sqlite3_int64 number = sqlite3_column_int64(statement, 0);
  sqlite3_finalize(statement);
  return number;
}

/* One server for a store: a file beside it is locked until this process ends. The store itself
 * isn't, so that others may read and copy it by SQLite's means. */
static void lock(const char *path) {
  char beside[4096];
  if (snprintf(beside, sizeof beside, "%s.lock", path) >= (int)sizeof beside) {
    die("%s is too long", path);
  }
  int fd = open(beside, O_RDWR | O_CREAT | O_CLOEXEC, 0600);
  if (fd < 0 || flock(fd, LOCK_EX | LOCK_NB) != 0) {
    die("%s: %s", beside, fd < 0 ? strerror(errno) : "another server has it");
  }
}

static void store_open(struct store *store, const char *path, const rughvadi_limits *limits) {
  lock(path);
  if (sqlite3_open(path, &store->database) != SQLITE_OK) {
    die("cannot open %s", path);
  }
  must(store, sqlite3_busy_timeout(store->database, BUSY));
  run(store, "PRAGMA journal_mode = WAL; PRAGMA synchronous = FULL");
  if (one_number(store, "SELECT count(*) FROM sqlite_schema WHERE name = 'mark2'") == 0) {
    make_tables(store, limits);
  }
  if (one_number(store, "SELECT page_size FROM mark2") != (sqlite3_int64)limits->page_size
      || one_number(store, "SELECT pages FROM mark2") != (sqlite3_int64)limits->pages) {
    die("%s is a store with other limits", path);
  }
  run(store, "BEGIN IMMEDIATE");
  run(store, LIVES);
  run(store, LIFE);
  store->floor = one_number(store, "SELECT floor FROM life WHERE id = 1");
  store->below = one_number(store, "SELECT below FROM life WHERE id = 1");
  store->raise = prepared(store, "UPDATE life SET below = ?1 WHERE id = 1 AND floor = ?2");
  store->begin = prepared(store, "BEGIN IMMEDIATE");
  store->commit = prepared(store, "COMMIT");
  store->mark = prepared(store, "UPDATE mark2 SET commits = ?1 WHERE id = 1"
                                " AND EXISTS (SELECT 1 FROM life WHERE floor = ?2)");
  store->version = prepared(store, "UPDATE page2 SET version = ?2 WHERE no = ?1");
  store->part = prepared(store, "UPDATE part SET body = ?3 WHERE no = ?1 AND place = ?2");
}

static void store_close(struct store *store) {
  enum { STATEMENTS = 6 };
  sqlite3_stmt *const all[STATEMENTS] = {store->begin,   store->commit, store->mark,
                                         store->version, store->part,   store->raise};
  for (size_t at = 0; at < STATEMENTS; at++) {
    sqlite3_finalize(all[at]);
  }
  sqlite3_close(store->database);
}

/* The bound is above an incarnation before the server hears of it. */
static void raise_above(struct store *store, uint64_t incarnation) {
  if (incarnation < (uint64_t)store->below) {
    return;
  }
  store->below = (sqlite3_int64)incarnation + LIFE_ROOM;
  sqlite3_bind_int64(store->raise, 1, store->below);
  sqlite3_bind_int64(store->raise, 2, store->floor);
  done_one(store, store->raise);
}

static void write_page(struct store *store, const rughvadi_limits *limits, uint32_t no,
                       uint64_t version, const uint8_t *bytes) {
  sqlite3_bind_int64(store->version, 1, no);
  sqlite3_bind_int64(store->version, 2, (sqlite3_int64)version);
  done(store, store->version);
  for (size_t from = 0; from < limits->page_size; from += PART) {
    sqlite3_bind_int64(store->part, 1, no);
    sqlite3_bind_int64(store->part, 2, (sqlite3_int64)(from / PART));
    sqlite3_bind_blob(store->part, 3, bytes + from, (int)part_size(limits, from), SQLITE_STATIC);
    done(store, store->part);
  }
}

/* ---- the server, and who is connected ---- */

struct connection {
  int socket;
  int client;    /* that it speaks for, or NOBODY */
  int64_t began; /* when it came, in milliseconds */
  bool is_lost;
  struct bytes in, out;
};

struct host {
  rughvadi_limits limits;
  rughvadi_handle server;
  struct store store;
  int listener;
  struct connection connections[CONNECTIONS];
  size_t count;
  struct connection *of[MOST_CLIENTS]; /* whose connection it is */
  struct bytes frame;                  /* the frame that is fetched */
  uint8_t *page;
};

/* After a fault that none of a client's frames can cause. */
static void check(uint32_t fault) {
  if (fault != RUGHVADI_DONE) {
    die("fault 0x%x", fault);
  }
}

/* The server of this life over the rows of its store. */
static void open_server(struct host *host) {
  struct store *store = &host->store;
  check(rughvadi_open_life(&host->limits, (uint64_t)one_number(store, "SELECT commits FROM mark2"),
                           (uint64_t)store->floor, &host->server));
  sqlite3_stmt *rows = prepared(store,
                                "SELECT version, place, body FROM page2 JOIN part USING (no)"
                                " ORDER BY no, place");
  while (sqlite3_step(rows) == SQLITE_ROW) {
    size_t from = (size_t)sqlite3_column_int64(rows, 1) * PART;
    size_t size = (size_t)sqlite3_column_bytes(rows, 2);
    if (from >= host->limits.page_size || size != part_size(&host->limits, from)) {
      die("store: a part of a page has another size");
    }
    memcpy(host->page + from, sqlite3_column_blob(rows, 2), size);
    if (from + size == host->limits.page_size) {
      check(rughvadi_open_row(&host->server, (uint64_t)sqlite3_column_int64(rows, 0), host->page,
                              host->limits.page_size));
    }
  }
  sqlite3_finalize(rows);
  check(rughvadi_open_serve(&host->server));
}

/* Fetches what the server said, and puts it behind what waits for each client. */
static void fetch(struct host *host) {
  for (;;) {
    size_t size = 0;
    uint32_t client = 0;
    uint32_t fault = rughvadi_next(&host->server, host->frame.at, host->frame.room, &size, &client);
    if (fault == RUGHVADI_NOTHING) {
      return;
    }
    if (fault == RUGHVADI_ROOM) {
      make_room(&host->frame, size);
      continue;
    }
    check(fault);
    struct connection *connection = host->of[client];
    if (connection == NULL) {
      continue;
    }
    if (connection->out.size + size > OUT_MOST) {
      connection->is_lost = true;
    } else {
      make_room(&connection->out, size);
      memcpy(connection->out.at + connection->out.size, host->frame.at, size);
      connection->out.size += size;
    }
  }
}

/* Writes what was committed, synced, and only then lets the server tell its clients. */
static void flush(struct host *host) {
  uint64_t number = 0, version = 0;
  size_t pages = 0;
  uint32_t fault = rughvadi_server_batch(&host->server, &number, &pages);
  if (fault == RUGHVADI_NOTHING) {
    return;
  }
  check(fault);
  done(&host->store, host->store.begin);
  for (size_t at = 0; at < pages; at++) {
    uint32_t no = 0;
    check(
        rughvadi_server_page(&host->server, at, host->page, host->limits.page_size, &no, &version));
    write_page(&host->store, &host->limits, no, version, host->page);
  }
  sqlite3_bind_int64(host->store.mark, 1, (sqlite3_int64)number);
  sqlite3_bind_int64(host->store.mark, 2, host->store.floor);
  done_one(&host->store, host->store.mark);
  done(&host->store, host->store.commit);
  check(rughvadi_server_flushed(&host->server, number));
  check(rughvadi_server_forget(&host->server, number));
  fetch(host);
}

/* ---- frames that come ---- */

/* Whether the connection may speak for this client: it does already, or nobody does. */
static bool speaks_for(struct host *host, struct connection *connection, uint32_t client) {
  if (connection->client == NOBODY && host->of[client] == NULL) {
    connection->client = (int)client;
    host->of[client] = connection;
  }
  return host->of[client] == connection;
}

/* Whether bytes begin with a header of kind 0. */
static bool asks_incarnation(const uint8_t *bytes, size_t left) {
  static const uint8_t rest[HEADER - 4];
  return left >= HEADER && bytes[0] == 2 && bytes[1] == 0
         && memcmp(bytes + 4, rest, sizeof rest) == 0;
}

/* Answers which incarnation a client may have next: one that it never had, in no life. */
static bool tell_incarnation(struct host *host, struct connection *connection,
                             const uint8_t *asked) {
  uint64_t next = 0;
  uint32_t client = (uint32_t)asked[2] << 8 | asked[3];
  if (rughvadi_server_incarnation(&host->server, client, &next) != RUGHVADI_DONE
      || !speaks_for(host, connection, client)) {
    return false;
  }
  make_room(&connection->out, HEADER);
  uint8_t *header = connection->out.at + connection->out.size;
  memcpy(header, asked, HEADER);
  for (int place = 11; place >= 4; place--, next >>= 8) {
    header[place] = (uint8_t)next;
  }
  connection->out.size += HEADER;
  return true;
}

/* Whether the server is to hear of a frame; of a Hello only once the bound is above it. */
static bool has_room(struct host *host, const rughvadi_frame_head *head) {
  if (head->incarnation >= MOST_INCARNATION) {
    return false;
  }
  if (head->kind == RUGHVADI_KIND_HELLO) {
    raise_above(&host->store, head->incarnation);
  }
  return true;
}

/* Takes what the bytes begin with: how many there are of it, 0 where it isn't whole; -1 where it is
 * no frame, or another client's. */
static ssize_t take_one(struct host *host, struct connection *connection, const uint8_t *bytes,
                        size_t left) {
  size_t used = 0;
  rughvadi_frame_head head;
  if (asks_incarnation(bytes, left)) {
    return tell_incarnation(host, connection, bytes) ? HEADER : -1;
  }
  uint32_t fault = rughvadi_frame_read(&host->limits, bytes, left, &head);
  if (fault == RUGHVADI_FRAME_SHORT) {
    return 0;
  }
  if (fault != RUGHVADI_DONE || !speaks_for(host, connection, head.client)) {
    return -1;
  }
  if (has_room(host, &head)
      && rughvadi_take(&host->server, bytes, left, &used) != RUGHVADI_DONE) {
    return -1;
  }
  fetch(host);
  return (ssize_t)head.length;
}

/* Takes each whole frame that came; false where something is none, or another client's. */
static bool take_frames(struct host *host, struct connection *connection) {
  size_t at = 0;
  ssize_t used = 0;
  do {
    at += (size_t)used;
    used = take_one(host, connection, connection->in.at + at, connection->in.size - at);
  } while (used > 0);
  cut(&connection->in, at);
  return used == 0;
}

static void receive(struct host *host, struct connection *connection) {
  make_room(&connection->in, READ);
  ssize_t got = read(connection->socket, connection->in.at + connection->in.size, READ);
  if (got < 0 && (errno == EAGAIN || errno == EINTR)) {
    return;
  }
  connection->in.size += got > 0 ? (size_t)got : 0;
  if (got <= 0 || !take_frames(host, connection)) {
    connection->is_lost = true;
  }
}

static void send_waiting(struct connection *connection) {
  struct bytes *out = &connection->out;
  while (out->size > 0 && !connection->is_lost) {
    ssize_t sent = send(connection->socket, out->at, out->size, MSG_NOSIGNAL);
    if (sent < 0 && errno == EAGAIN) {
      return;
    }
    if (sent >= 0) {
      cut(out, (size_t)sent);
    } else if (errno != EINTR) {
      connection->is_lost = true;
    }
  }
}

/* ---- connections come and go ---- */

/* The milliseconds of a clock that nobody sets. */
static int64_t now(void) {
  struct timespec time;
  clock_gettime(CLOCK_MONOTONIC, &time);
  return (int64_t)time.tv_sec * 1000 + time.tv_nsec / 1000000;
}

/* Its client is left: else the others wait for what it holds. */
static void lose(struct host *host, struct connection *connection) {
  if (connection->client != NOBODY) {
    uint64_t next = 0;
    host->of[connection->client] = NULL;
    check(rughvadi_server_incarnation(&host->server, (uint32_t)connection->client, &next));
    raise_above(&host->store, next);
    check(rughvadi_server_leave(&host->server, (uint32_t)connection->client));
    fetch(host);
  }
  close(connection->socket);
  let_go(&connection->in);
  let_go(&connection->out);
  struct connection *last = &host->connections[--host->count];
  if (last != connection) {
    *connection = *last;
    if (connection->client != NOBODY) {
      host->of[connection->client] = connection;
    }
  }
}

/* The one that speaks for nobody and came first, or NULL. */
static struct connection *first_silent(struct host *host) {
  struct connection *first = NULL;
  for (size_t at = 0; at < host->count; at++) {
    struct connection *each = &host->connections[at];
    if (each->client == NOBODY && (first == NULL || each->began < first->began)) {
      first = each;
    }
  }
  return first;
}

/* Where all places are taken, the first that said nothing goes. */
static void accept_one(struct host *host) {
  int socket = accept(host->listener, NULL, NULL);
  if (socket < 0) {
    return;
  }
  struct connection *silent = host->count == CONNECTIONS ? first_silent(host) : NULL;
  if (silent != NULL) {
    lose(host, silent);
  }
  fcntl(socket, F_SETFL, O_NONBLOCK);
  host->connections[host->count++] =
      (struct connection){.socket = socket, .client = NOBODY, .began = now()};
}

/* ---- the loop ---- */

static volatile sig_atomic_t is_stopping;

static void stop(int signal) {
  (void)signal;
  is_stopping = 1;
}

/* Takes a socket away that a killed server left, and nobody listens to. A file of another kind
 * refuses a connection too, and stays. */
static void remove_left(const struct sockaddr_un *address) {
  struct stat state;
  if (lstat(address->sun_path, &state) != 0 || !S_ISSOCK(state.st_mode)) {
    return;
  }
  int probe = socket(AF_UNIX, SOCK_STREAM | SOCK_CLOEXEC, 0);
  if (probe >= 0 && connect(probe, (const struct sockaddr *)address, sizeof *address) != 0
      && errno == ECONNREFUSED) {
    unlink(address->sun_path);
  }
  if (probe >= 0) {
    close(probe);
  }
}

static void listen_on(struct host *host, const char *path) {
  struct sockaddr_un address = {.sun_family = AF_UNIX};
  if (strlen(path) >= sizeof address.sun_path) {
    die("%s is too long", path);
  }
  memcpy(address.sun_path, path, strlen(path));
  remove_left(&address);
  host->listener = socket(AF_UNIX, SOCK_STREAM, 0);
  if (host->listener < 0 || bind(host->listener, (const struct sockaddr *)&address, sizeof address)
      || listen(host->listener, CONNECTIONS)) {
    die("cannot listen on %s: %s", path, strerror(errno));
  }
}

/* Waits until something comes, and takes it; where nothing does, what may be lost is said again. */
static void wait_and_take(struct host *host) {
  struct pollfd watched[1 + CONNECTIONS] = {{.fd = host->listener, .events = POLLIN}};
  for (size_t at = 0; at < host->count; at++) {
    short out = host->connections[at].out.size > 0 ? POLLOUT : 0;
    watched[1 + at] = (struct pollfd){host->connections[at].socket, POLLIN | out, 0};
  }
  int ready = poll(watched, 1 + host->count, AGAIN);
  if (ready == 0) {
    check(rughvadi_again(&host->server));
    fetch(host);
  }
  for (size_t at = 0; at < host->count && ready > 0; at++) {
    if (watched[1 + at].revents & (POLLIN | POLLHUP | POLLERR)) {
      receive(host, &host->connections[at]);
    }
  }
  if (ready > 0 && watched[0].revents) {
    accept_one(host);
  }
}

/* One round: what came is taken, what was committed by it is written once, and answered. */
static void round_of(struct host *host) {
  wait_and_take(host);
  flush(host);
  for (size_t at = host->count; at > 0; at--) {
    struct connection *connection = &host->connections[at - 1];
    send_waiting(connection);
    bool is_silent = connection->client == NOBODY && now() - connection->began > SILENT;
    if (connection->is_lost || is_silent) {
      lose(host, connection);
    }
  }
}

static void begin(struct host *host, char **words) {
  host->limits = (rughvadi_limits){.clients = strtoul(words[3], NULL, 10),
                                   .pages = strtoul(words[4], NULL, 10),
                                   .page_size = strtoul(words[5], NULL, 10),
                                   .slots = 2,
                                   .kin = 1,
                                   .kout = 1,
                                   .keep_write = words[6] != NULL && strcmp(words[6], "0") != 0};
  if ((host->page = malloc(host->limits.page_size)) == NULL) {
    die("memory");
  }
  store_open(&host->store, words[2], &host->limits);
  open_server(host);
  sigaction(SIGTERM, &(struct sigaction){.sa_handler = stop}, NULL);
  sigaction(SIGINT, &(struct sigaction){.sa_handler = stop}, NULL);
  listen_on(host, words[1]);
  puts("ready");
  fflush(stdout);
}

static void end(struct host *host, const char *path) {
  while (host->count > 0) {
    lose(host, &host->connections[0]);
  }
  close(host->listener);
  unlink(path);
  store_close(&host->store);
  rughvadi_free(&host->server);
  let_go(&host->frame);
  free(host->page);
}

int main(int count, char **words) {
  if (count != 6 && count != 7) {
    fputs("served SOCKET DATABASE CLIENTS PAGES PAGE_SIZE [KEEP]\n", stderr);
    return 2;
  }
  static struct host host;
  umask(0177); /* the socket and the store's files are the owner's alone */
  begin(&host, words);
  while (!is_stopping) {
    round_of(&host);
  }
  end(&host, words[1]);
  return 0;
}
