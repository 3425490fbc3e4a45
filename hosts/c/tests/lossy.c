/* lossy SEED COMMITS [lives | new]: a server and two clients over frames of which a tenth each is
 * lost, repeated or late, while clients go away and come back. Each transaction reads every page
 * and moves an amount from one to another: so all it reads adds up to the same sum, whoever wrote
 * what when, if what it reads is what the store had at one moment. A page that is read twice is
 * the same twice, and who was told of commit n had read what commit n - 1 left. Where the seed is
 * odd, write permissions are kept.
 *
 * With a third word the server ends at drawn moments, too, and another is opened over the disk,
 * while frames to the former one and by it are still on the net, some for long. Clients go on in
 * their incarnation for a while; the next one is what the server tells, or that of a clock which
 * is set back and forth, if that is greater. With `lives` each server begins a life; with `new` it
 * knows no client, and takes what clients sent to a former one. */
#include "parties.h"

enum { CLIENTS = 2, PAGES = 8, SIZE = 64, SLOTS = 6, START = 1000, NET = 4096 };
enum { ROOM = 4, HOUR = 60 };    /* of incarnations: above a bound, and by which a clock is set */
enum { HELD_UP = 10000 };        /* so many steps at most a frame is held up */
enum { COMMITS_MOST = 1 << 16 }; /* commits whose reads are looked at */

static rughvadi_limits limits = {CLIENTS, PAGES, SIZE, SLOTS, 2, 8, 0};

typedef struct {
  int to; /* a client, or CLIENTS: the server */
  size_t len;
  uint8_t *bytes;
  long due; /* no sooner than at this step it comes */
} packet;

static packet net[NET];
static size_t on_net;
static long lost, repeated, late, reads, aborts, restarts, servers, steps;
static long commits = 1; /* the number of the last one that is on disk */

/* ---- pages: an amount, and bytes that follow from it, so that a torn page shows ---- */

static void spell(uint8_t *bytes, uint64_t amount) {
  memcpy(bytes, &amount, 8);
  for (int at = 8; at < SIZE; at++) {
    bytes[at] = (uint8_t)(amount * 31 + (uint64_t)at);
  }
}

static uint64_t amount_of(const uint8_t *bytes) {
  uint64_t amount;
  uint8_t whole[SIZE];
  memcpy(&amount, bytes, 8);
  spell(whole, amount);
  HOLD(memcmp(bytes, whole, SIZE) == 0);
  return amount;
}

/* ---- the net ---- */

static bool ends; /* the server does, and others follow */

static void send_all(rughvadi_handle *from, bool is_server) {
  uint8_t room[16 + 10 + PAGES * (16 + SIZE)];
  size_t size;
  uint32_t client;
  while (rughvadi_next(from, room, sizeof room, &size, &client) == RUGHVADI_DONE) {
    if (draw() % 10 == 0 || on_net == NET) {
      lost++;
      continue;
    }
    packet *sent = &net[on_net++];
    long due = steps + (ends && draw() % 20 == 0 ? (long)(draw() % HELD_UP) : 0);
    *sent = (packet){is_server ? (int)client : CLIENTS, size, malloc(size), due};
    HOLD(sent->bytes != NULL);
    memcpy(sent->bytes, room, size);
  }
}

static rughvadi_handle server, clients[CLIENTS];
static bool keeps_lives;
static bool is_former[CLIENTS]; /* the client's incarnation is of a former server */
static uint64_t bound = 1;      /* on disk: what each incarnation is below */

/* The bound is above an incarnation before the server hears of it. */
static void raise_above(uint64_t incarnation) {
  bound = incarnation >= bound ? incarnation + ROOM : bound;
}

static void raise_for(const packet *it) {
  rughvadi_frame_head head;
  WANT(rughvadi_frame_read(&limits, it->bytes, it->len, &head));
  if (head.kind == RUGHVADI_KIND_HELLO) {
    raise_above(head.incarnation);
  }
}

static void deliver(void) {
  if (on_net == 0) {
    return;
  }
  /* The oldest, mostly: else a later one overtakes it. */
  size_t at = 0;
  if (draw() % 10 == 0) {
    at = draw() % on_net;
  }
  while (at < on_net && net[at].due > steps) {
    at++;
  }
  if (at == on_net) {
    return;
  }
  late += at > 0;
  packet it = net[at];
  rughvadi_handle *to = it.to == CLIENTS ? &server : &clients[it.to];
  size_t used = 0;
  if (it.to == CLIENTS) {
    raise_for(&it);
  }
  uint32_t fault = rughvadi_take(to, it.bytes, it.len, &used);
  HOLD(fault == RUGHVADI_DONE && used == it.len);
  send_all(to, it.to == CLIENTS);
  if (draw() % 10 == 0) {
    repeated++;
    return;
  }
  free(it.bytes);
  memmove(&net[at], &net[at + 1], (on_net - at - 1) * sizeof net[0]);
  on_net--;
}

/* ---- clients ---- */

typedef struct {
  bool has[PAGES];
  uint64_t amount[PAGES];
  uint32_t from, to;
  uint64_t moved;
} transaction;

static transaction current[CLIENTS];

/* Reads a page; whether its bytes were here. */
static bool read_page(int no, uint32_t page) {
  uint8_t bytes[SIZE];
  bool here = false;
  uint32_t fault = rughvadi_client_read(&clients[no], page, bytes, SIZE, &here);
  HOLD(fault == RUGHVADI_DONE);
  send_all(&clients[no], false);
  if (!here) {
    return false;
  }
  transaction *txn = &current[no];
  uint64_t amount = amount_of(bytes);
  HOLD(!txn->has[page] || txn->amount[page] == amount);
  txn->has[page] = true;
  txn->amount[page] = amount;
  reads++;
  return true;
}

/* Whether the page may be written now. */
static bool may_write(int no, uint32_t page) {
  bool may = false;
  uint32_t fault = rughvadi_client_want(&clients[no], page, &may);
  if (fault == RUGHVADI_NOT_HERE) {
    read_page(no, page);
    return false;
  }
  HOLD(fault == RUGHVADI_DONE);
  send_all(&clients[no], false);
  return may;
}

static void put(int no, uint32_t page, uint64_t amount) {
  uint8_t bytes[SIZE];
  spell(bytes, amount);
  WANT(rughvadi_client_write(&clients[no], page, bytes, SIZE));
}

static void go_on(int no) {
  transaction *txn = &current[no];
  uint64_t sum = 0;
  for (uint32_t page = 0; page < PAGES; page++) {
    if (!txn->has[page]) {
      read_page(no, page);
      return;
    }
    sum += txn->amount[page];
  }
  HOLD(sum == PAGES * START);
  if (txn->from != txn->to && (!may_write(no, txn->from) || !may_write(no, txn->to))) {
    return;
  }
  if (txn->from != txn->to) {
    txn->moved = txn->amount[txn->from] < txn->moved ? txn->amount[txn->from] : txn->moved;
    put(no, txn->from, txn->amount[txn->from] - txn->moved);
    put(no, txn->to, txn->amount[txn->to] + txn->moved);
  }
  WANT(rughvadi_client_finish(&clients[no]));
  send_all(&clients[no], false);
}

/* What the commits of these numbers read and left, of those that a client was told of. */
static struct told {
  bool is_there;
  uint64_t read[PAGES], left[PAGES];
} told[COMMITS_MOST] = {[1] = {true, {0}, {0}}};

static void look_at_commit(const transaction *txn, uint64_t number) {
  HOLD(number < COMMITS_MOST - 1 && !told[number].is_there);
  struct told *it = &told[number];
  memcpy(it->read, txn->amount, sizeof it->read);
  memcpy(it->left, txn->amount, sizeof it->left);
  if (txn->from != txn->to) {
    it->left[txn->from] -= txn->moved;
    it->left[txn->to] += txn->moved;
  }
  it->is_there = true;
  HOLD(!it[-1].is_there || memcmp(it[-1].left, it->read, sizeof it->read) == 0);
  HOLD(!it[1].is_there || memcmp(it->left, it[1].read, sizeof it->left) == 0);
}

static void begin(int no) {
  uint64_t number;
  uint32_t how = rughvadi_client_last(&clients[no], &number);
  aborts += how == RUGHVADI_ENDED_ABORTED;
  if (how == RUGHVADI_ENDED_COMMITTED) {
    look_at_commit(&current[no], number);
  }
  WANT(rughvadi_client_begin(&clients[no], &number));
  current[no] = (transaction){.from = draw() % PAGES, .to = draw() % PAGES, .moved = draw() % 100};
}

static void turn(int no) {
  switch (rughvadi_client_status(&clients[no])) {
  case RUGHVADI_STATUS_NOT_WELCOME:
    WANT(rughvadi_client_hello(&clients[no]));
    break;
  case RUGHVADI_STATUS_IDLE:
    begin(no);
    break;
  case RUGHVADI_STATUS_OPEN:
    go_on(no);
    break;
  default:
    break;
  }
  send_all(&clients[no], false);
}

/* A client goes away in the middle of anything, and comes back in its next incarnation. */
static void restart(int no) {
  uint64_t incarnation, clock = 1 + (uint64_t)(steps / 1000) + draw() % 2 * HOUR;
  rughvadi_free(&clients[no]);
  WANT(rughvadi_server_incarnation(&server, (uint32_t)no, &incarnation));
  raise_above(incarnation);
  WANT(rughvadi_server_leave(&server, (uint32_t)no));
  send_all(&server, true);
  WANT(rughvadi_server_incarnation(&server, (uint32_t)no, &incarnation));
  incarnation = ends && clock > incarnation ? clock : incarnation;
  WANT(rughvadi_client_new(&limits, (uint32_t)no, incarnation, &clients[no]));
  is_former[no] = false;
  restarts++;
}

/* ---- the disk ---- */

static uint64_t disk[PAGES], versions[PAGES];

static void flush(void) {
  uint64_t number, version, sum = 0;
  size_t pages;
  uint32_t page;
  uint8_t bytes[SIZE];
  if (rughvadi_server_batch(&server, &number, &pages) != RUGHVADI_DONE) {
    return;
  }
  for (size_t at = 0; at < pages; at++) {
    WANT(rughvadi_server_page(&server, at, bytes, SIZE, &page, &version));
    HOLD(page < PAGES && version <= number);
    disk[page] = amount_of(bytes);
    versions[page] = version;
  }
  for (int at = 0; at < PAGES; at++) {
    sum += disk[at];
  }
  HOLD(sum == PAGES * START);
  WANT(rughvadi_server_flushed(&server, number));
  if (draw() % 2) {
    WANT(rughvadi_server_forget(&server, number));
  }
  commits = (long)number;
  send_all(&server, true);
}

/* A server over what is on disk: in the next life, or a new one. */
static void open_server(void) {
  uint8_t bytes[SIZE];
  if (keeps_lives) {
    WANT(rughvadi_open_life(&limits, (uint64_t)commits, bound, &server));
    bound += ROOM;
  } else {
    WANT(rughvadi_open_begin(&limits, (uint64_t)commits, &server));
  }
  for (int page = 0; page < PAGES; page++) {
    spell(bytes, disk[page]);
    WANT(rughvadi_open_row(&server, versions[page], bytes, SIZE));
  }
  WANT(rughvadi_open_serve(&server));
  servers++;
}

/* A server over a store that was written before, and clients. */
static void open_all(void) {
  for (int page = 0; page < PAGES; page++) {
    disk[page] = told[1].left[page] = START;
    versions[page] = 1;
  }
  open_server();
  for (int no = 0; no < CLIENTS; no++) {
    uint64_t incarnation;
    WANT(rughvadi_server_incarnation(&server, (uint32_t)no, &incarnation));
    WANT(rughvadi_client_new(&limits, (uint32_t)no, incarnation, &clients[no]));
  }
}

/* The server ends in the middle of anything: what isn't on disk is gone. */
static void serve_anew(void) {
  rughvadi_free(&server);
  open_server();
  for (int no = 0; no < CLIENTS; no++) {
    is_former[no] = true;
  }
}

/* Something happens. */
static void event(uint64_t what, int no) {
  if (ends && draw() % 3000 == 0) {
    serve_anew();
  } else if (is_former[no] && draw() % 400 == 0) {
    restart(no);
  } else if (what < 30) {
    turn(no);
  } else if (what < 90) {
    deliver();
  } else if (what < 94) {
    flush();
  } else if (what < 97) {
    WANT(rughvadi_again(&clients[no]));
    send_all(&clients[no], false);
  } else if (what < 99) {
    WANT(rughvadi_again(&server));
    send_all(&server, true);
  } else if (draw() % 20 == 0) {
    restart(no);
  }
}

static void free_all(void) {
  rughvadi_free(&server);
  for (int no = 0; no < CLIENTS; no++) {
    rughvadi_free(&clients[no]);
  }
  while (on_net > 0) {
    free(net[--on_net].bytes);
  }
}

int main(int argc, char **argv) {
  uint64_t seed = argc > 1 ? strtoull(argv[1], NULL, 10) : 0;
  random_state += seed * 0x9E3779B97F4A7C15u;
  limits.keep_write = seed % 2;
  long wanted = argc > 2 ? atol(argv[2]) : 2000;
  ends = argc > 3;
  keeps_lives = ends && strcmp(argv[3], "lives") == 0;
  open_all();
  for (; commits < wanted; steps++) {
    uint64_t what = draw() % 100;
    event(what, (int)(draw() % CLIENTS));
    HOLD(steps < 2000 * (wanted + 1000));
  }
  printf("commits %ld, pages read %ld, aborted %ld, restarts %ld, servers %ld; frames lost %ld, "
         "repeated %ld, late %ld: none broken\n",
         commits, reads, aborts, restarts, servers, lost, repeated, late);
  free_all();
  return 0;
}
