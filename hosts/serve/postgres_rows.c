#include "postgres.h"

#include <inttypes.h>
#include <stdio.h>
#include <stdlib.h>
#include <string.h>

enum { INT4 = 23, INT8 = 20, BYTEA = 17 }; /* PostgreSQL's numbers of these types */

/* A row is a part of a page. Alone on its 8 KB it has room for two later versions of it, so an
 * update neither touches an index nor waits for VACUUM. */
static const char TABLES[] =
    "DO $$ BEGIN PERFORM pg_advisory_xact_lock(7238114271);"
    " IF to_regclass('mark') IS NULL AND to_regclass('page') IS NULL THEN"
    "  CREATE TABLE mark(store text PRIMARY KEY, commits bigint NOT NULL, floor bigint NOT NULL,"
    "   below bigint NOT NULL, beat bigint NOT NULL, page_size int NOT NULL, pages int NOT NULL)"
    "   WITH (fillfactor = 10);"
    "  CREATE TABLE page(store text, no int, part int, version bigint NOT NULL,"
    "   body bytea NOT NULL, PRIMARY KEY(store, no, part)) WITH (fillfactor = 30);"
    "  ALTER TABLE page ALTER body SET STORAGE PLAIN;"
    " END IF; END $$";

/* One statement, so one transaction: with another life, or another last commit than $4, it changes
 * nothing, and answers no row; else one, with the number of the pages' rows that it wrote. READ
 * COMMITTED looks again at a row that it waited for. Without OFFSET 0 the planner may walk all rows
 * of the store for each one that is written, where it takes the store for small. */
const char rows_write[] =
    "WITH own AS (UPDATE mark SET commits = $3, below = $5, beat = beat + 1"
    "  WHERE store = $1 AND floor = $2 AND commits = $4"
    "  AND (NOT $10::boolean OR current_setting('synchronous_standby_names') <> '')"
    "  RETURNING store),"
    " written AS (UPDATE page SET version = b.version, body = b.body"
    "  FROM (SELECT own.store, b.* FROM own,"
    "   unnest($6::int[], $7::int[], $8::bigint[], $9::bytea[]) b(no, part, version, body)"
    "   OFFSET 0) b"
    "  WHERE page.store = b.store AND page.no = b.no AND page.part = b.part RETURNING 1)"
    "SELECT (SELECT count(*) FROM written) FROM own";

/* How many rows a page has. */
static size_t rows_of_page(const struct postgres *store) {
  return ((size_t)store->settings->limits.page_size - 1) / ROW_PART + 1;
}

static size_t row_size(const struct postgres *store, size_t part) {
  size_t left = (size_t)store->settings->limits.page_size - part * ROW_PART;
  return left < ROW_PART ? left : ROW_PART;
}

enum outcome rows_lay_out(struct postgres *store) {
  PGresult *result;
  enum outcome outcome;
  do {
    outcome = session_ask(store, TABLES, 0, NULL, &result);
    PQclear(result);
  } while (outcome == LOCKED && input_is_open());
  return outcome;
}

/* ---- a life begins ---- */

static enum outcome ask_nothing(struct postgres *store, const char *text) {
  PGresult *result;
  enum outcome outcome = session_ask(store, text, 0, NULL, &result);
  PQclear(result);
  return outcome;
}

/* Puts the rows of a store of zeros in, where it has none. */
static enum outcome put_zeros(struct postgres *store) {
  char pages[24], size[24], part[24];
  PGresult *result;
  snprintf(pages, sizeof pages, "%" PRIu64, store->settings->limits.pages);
  snprintf(size, sizeof size, "%" PRIu64, store->settings->limits.page_size);
  snprintf(part, sizeof part, "%d", ROW_PART);
  enum outcome outcome = session_ask(
      store,
      "WITH new AS (INSERT INTO mark VALUES ($1, 0, 0, 1, 0, $3::int, $2::int)"
      "  ON CONFLICT DO NOTHING RETURNING 1)"
      "INSERT INTO page SELECT $1, no, part, 0,"
      "   decode(repeat('00', least($4::int, $3::int - part * $4::int)), 'hex')"
      "  FROM new, generate_series(0, $2::int - 1) no,"
      "   generate_series(0, ($3::int - 1) / $4::int) part",
      4, (const char *const[]){store->store, pages, size, part}, &result);
  PQclear(result);
  return outcome;
}

static uint64_t number_in(const PGresult *row, int column) {
  return strtoull(PQgetvalue(row, 0, column), NULL, 10);
}

/* Sets the floor to the bound, raises the bound, and locks the row until the end. */
static enum outcome put_life(struct postgres *store, enum fault *fault) {
  char more[24];
  PGresult *row;
  snprintf(more, sizeof more, "%" PRIu64, LIFE_ROOM);
  enum outcome outcome = session_ask(
      store,
      "UPDATE mark SET floor = below, below = below + $2::bigint, beat = beat + 1"
      " WHERE store = $1 RETURNING floor, below, commits, page_size, pages",
      2, (const char *const[]){store->store, more}, &row);
  if (outcome != ASKED) {
    return outcome;
  }
  const rughvadi_limits *limits = &store->settings->limits;
  if (PQntuples(row) != 1 || number_in(row, 3) != limits->page_size
      || number_in(row, 4) != limits->pages || number_in(row, 0) > MOST_FLOOR) {
    *fault = FAULT_SHAPE;
  } else {
    store->life = (struct life){number_in(row, 0), number_in(row, 1)};
    store->last = number_in(row, 2);
  }
  PQclear(row);
  return *fault == NO_FAULT ? ASKED : REFUSED;
}

/* Where it is kept how a page is stored. */
static uint8_t *stored_page(const struct postgres *store, size_t no) {
  return store->stored + no * (size_t)store->settings->limits.page_size;
}

/* Room for all pages, where the rows of one have to be told apart. */
static bool has_room(struct postgres *store) {
  const rughvadi_limits *limits = &store->settings->limits;
  if (store->stored == NULL && rows_of_page(store) > 1) {
    store->stored = calloc((size_t)limits->pages, (size_t)limits->page_size);
  }
  return store->stored != NULL || rows_of_page(store) == 1;
}

/* Puts a page that was read into the handle. */
static enum fault take_page(struct postgres *store, size_t no, rughvadi_handle *rows) {
  if (store->stored != NULL) {
    memcpy(stored_page(store, no), store->body.at, store->body.size);
  }
  return fault_of(
      rughvadi_open_row(rows, store->version_0, store->body.at, store->body.size));
}

/* Takes the row that is the part of a page; the page is taken with its last one. */
static enum fault take_row(struct postgres *store, const PGresult *row, size_t at,
                           rughvadi_handle *rows) {
  size_t parts = rows_of_page(store), part = at % parts;
  size_t size = (size_t)PQgetlength(row, 0, 1);
  if (at / parts >= store->settings->limits.pages || size != row_size(store, part)) {
    return FAULT_SHAPE;
  }
  if (part == 0) {
    store->body.size = 0;
    store->version_0 = number_at((const uint8_t *)PQgetvalue(row, 0, 0), 8);
  }
  if (!bytes_put(&store->body, PQgetvalue(row, 0, 1), size)) {
    return FAULT_MEMORY;
  }
  return part + 1 < parts ? NO_FAULT : take_page(store, at / parts, rows);
}

/* Takes all rows, one after another as they come. */
static enum outcome take_rows(struct postgres *store, rughvadi_handle *rows, enum fault *fault) {
  size_t count = 0, all = (size_t)store->settings->limits.pages * rows_of_page(store);
  bool is_whole = false;
  PGresult *row;
  while ((row = session_next(store)) != NULL) {
    if (PQresultStatus(row) == PGRES_SINGLE_TUPLE && *fault == NO_FAULT) {
      *fault = take_row(store, row, count++, rows);
    }
    is_whole = PQresultStatus(row) == PGRES_TUPLES_OK;
    PQclear(row);
  }
  if (*fault == NO_FAULT && is_whole && count != all) {
    *fault = FAULT_SHAPE;
  }
  return *fault != NO_FAULT ? REFUSED : is_whole ? ASKED : LOST;
}

static enum outcome load(struct postgres *store, rughvadi_handle *rows, enum fault *fault) {
  const char *const values[] = {store->store};
  *fault = has_room(store) ? fault_of(rughvadi_open_life(&store->settings->limits, store->last,
                                                         store->life.floor, rows))
                           : FAULT_MEMORY;
  if (*fault != NO_FAULT) {
    return REFUSED;
  }
  bool is_sent = PQsendQueryParams(store->session,
                                   "SELECT version, body FROM page WHERE store = $1"
                                   " ORDER BY no, part",
                                   1, NULL, values, NULL, NULL, 1)
                 == 1;
  return is_sent && PQsetSingleRowMode(store->session) ? take_rows(store, rows, fault) : LOST;
}

/* What was read is safe once the raised bound has been committed, and nothing was warned of. */
enum outcome rows_begin(struct postgres *store, rughvadi_handle *rows, enum fault *fault) {
  enum outcome outcome = ask_nothing(store, "BEGIN");
  outcome = outcome == ASKED ? put_zeros(store) : outcome;
  outcome = outcome == ASKED ? put_life(store, fault) : outcome;
  outcome = outcome == ASKED ? load(store, rows, fault) : outcome;
  outcome = outcome == ASKED ? ask_nothing(store, "COMMIT") : outcome;
  if (outcome == ASKED && !store->was_warned) {
    return ASKED;
  }
  rughvadi_free(rows);
  if (store->session != NULL) {
    ask_nothing(store, "ROLLBACK");
  }
  return outcome == ASKED ? LOCKED : outcome;
}

/* ---- a batch ---- */

static bool put_number(struct bytes *bytes, uint32_t number) {
  uint8_t digits[4];
  put_32(digits, number);
  return bytes_put(bytes, digits, sizeof digits);
}

static bool put_long(struct bytes *bytes, uint64_t number) {
  uint8_t digits[8];
  put_64(digits, number);
  return bytes_put(bytes, digits, sizeof digits);
}

enum { COUNT_AT = 12 }; /* where an array says how many values it has */

/* The head of an array in PostgreSQL's binary form: how many dimensions it has, that none is null,
 * the type; and how many there are, which is set later, from place 1 on. */
static bool begin_array(struct bytes *bytes, uint32_t type, bool is_empty) {
  bytes->size = 0;
  bool is_put = put_number(bytes, !is_empty) && put_number(bytes, 0) && put_number(bytes, type);
  return is_put && (is_empty || (put_number(bytes, 0) && put_number(bytes, 1)));
}

static bool begin_arrays(struct postgres *store, bool are_empty) {
  store->rows = 0;
  return begin_array(&store->no, INT4, are_empty) && begin_array(&store->part, INT4, are_empty)
         && begin_array(&store->version, INT8, are_empty)
         && begin_array(&store->body, BYTEA, are_empty);
}

static void end_arrays(struct postgres *store) {
  struct bytes *const arrays[] = {&store->no, &store->part, &store->version, &store->body};
  for (size_t at = 0; at < 4 && store->rows > 0; at++) {
    put_32(arrays[at]->at + COUNT_AT, (uint32_t)store->rows);
  }
}

/* Puts a part of a page behind the others; each value has its size in front. */
static bool put_row(struct postgres *store, const struct page *page, const uint8_t *body,
                    size_t part) {
  size_t size = row_size(store, part);
  store->rows++;
  return put_number(&store->no, 4) && put_number(&store->no, page->no)
         && put_number(&store->part, 4) && put_number(&store->part, (uint32_t)part)
         && put_number(&store->version, 8) && put_long(&store->version, page->version)
         && put_number(&store->body, (uint32_t)size)
         && bytes_put(&store->body, body + part * ROW_PART, size);
}

/* Whether a part of a page is stored already. */
static bool is_stored(const struct postgres *store, const struct page *page, const uint8_t *body,
                      size_t part) {
  size_t from = part * ROW_PART;
  return memcmp(stored_page(store, page->no) + from, body + from, row_size(store, part)) == 0;
}

/* Puts the rows of a page: the first one, which has its version, and those whose bytes change. */
static bool put_page(struct postgres *store, const struct page *page, const uint8_t *body) {
  size_t parts = rows_of_page(store);
  bool is_put = put_row(store, page, body, 0);
  for (size_t part = 1; part < parts && is_put; part++) {
    is_put = is_stored(store, page, body, part) || put_row(store, page, body, part);
  }
  return is_put;
}

bool rows_gather(struct postgres *store, const struct batch *batch) {
  size_t page_size = (size_t)store->settings->limits.page_size;
  bool is_put = begin_arrays(store, batch->pages == 0);
  for (size_t at = 0; at < batch->pages && is_put; at++) {
    is_put = put_page(store, &batch->page[at], batch->bodies.at + at * page_size);
  }
  end_arrays(store);
  return is_put;
}

void rows_stored(struct postgres *store, const struct batch *batch) {
  size_t page_size = (size_t)store->settings->limits.page_size;
  for (size_t at = 0; at < batch->pages && store->stored != NULL; at++) {
    memcpy(stored_page(store, batch->page[at].no), batch->bodies.at + at * page_size, page_size);
  }
}
