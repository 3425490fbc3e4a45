#include "sqlite.h"

#include <errno.h>
#include <stdlib.h>
#include <string.h>

enum { BUSY = 5000 }; /* milliseconds: for so long it waits for others who use the database */

static struct sqlite *store_of(struct engine *engine) { return (struct sqlite *)engine; }

enum fault sqlite_fault(const struct sqlite *store, int code) {
  bool is_memory = (code & 0xff) == SQLITE_NOMEM || code == SQLITE_IOERR_NOMEM
                   || (store->database != NULL && (code & 0xff) == SQLITE_IOERR
                       && sqlite3_system_errno(store->database) == ENOMEM);
  return is_memory ? FAULT_MEMORY : FAULT_STORE;
}

enum fault sqlite_run(struct sqlite *store, const char *text) {
  int code = sqlite3_exec(store->database, text, NULL, NULL, NULL);
  return code == SQLITE_OK ? NO_FAULT : sqlite_fault(store, code);
}

enum fault sqlite_prepare(struct sqlite *store, const char *text, sqlite3_stmt **statement) {
  int code = sqlite3_prepare_v3(store->database, text, -1, SQLITE_PREPARE_PERSISTENT, statement,
                                NULL);
  return code == SQLITE_OK ? NO_FAULT : sqlite_fault(store, code);
}

enum fault sqlite_step(struct sqlite *store, sqlite3_stmt *statement) {
  int code = sqlite3_step(statement);
  enum fault fault = code == SQLITE_DONE ? NO_FAULT : sqlite_fault(store, code);
  sqlite3_reset(statement);
  return fault;
}

size_t part_size(const rughvadi_limits *limits, size_t from) {
  size_t left = (size_t)limits->page_size - from;
  return left < PART ? left : PART;
}

/* ---- opening ---- */

/* Has writes go to a log, which each commit syncs. What isn't a file can't have one. */
static enum fault set_modes(struct sqlite *store) {
  sqlite3_stmt *mode;
  enum fault fault = sqlite_prepare(store, "PRAGMA journal_mode = WAL", &mode);
  if (fault != NO_FAULT) {
    return fault;
  }
  int code = sqlite3_step(mode);
  const char *answer = code == SQLITE_ROW ? (const char *)sqlite3_column_text(mode, 0) : NULL;
  bool is_log = answer != NULL && strcmp(answer, "wal") == 0;
  sqlite3_finalize(mode);
  if (!is_log) {
    return code == SQLITE_ROW ? FAULT_STORE : sqlite_fault(store, code);
  }
  return sqlite_run(store, "PRAGMA synchronous = FULL");
}

static enum fault sqlite_open(const struct settings *settings, struct engine **engine) {
  const int flags = SQLITE_OPEN_READWRITE | SQLITE_OPEN_CREATE | SQLITE_OPEN_NOMUTEX
                    | SQLITE_OPEN_EXRESCODE;
  struct sqlite *store = calloc(1, sizeof *store);
  if (store == NULL) {
    return FAULT_MEMORY;
  }
  store->engine.calls = &sqlite_calls;
  store->limits = settings->limits;
  *engine = &store->engine;
  int code = sqlite3_open_v2(settings->database, &store->database, flags, NULL);
  if (code != SQLITE_OK) {
    return sqlite_fault(store, code);
  }
  sqlite3_busy_timeout(store->database, BUSY);
  return set_modes(store);
}

/* ---- a life ---- */

/* The bound that stands in the tables. */
static enum fault read_below(struct sqlite *store, uint64_t *below) {
  sqlite3_stmt *row;
  enum fault fault = sqlite_prepare(store, "SELECT below FROM life WHERE id = 1", &row);
  if (fault != NO_FAULT) {
    return fault;
  }
  int code = sqlite3_step(row);
  sqlite3_int64 found = code == SQLITE_ROW ? sqlite3_column_int64(row, 0) : 0;
  sqlite3_finalize(row);
  if (code != SQLITE_ROW && code != SQLITE_DONE) {
    return sqlite_fault(store, code);
  }
  *below = (uint64_t)found;
  return found >= 1 && *below <= MOST_FLOOR ? NO_FAULT : FAULT_SHAPE;
}

/* Begins a life at the bound of the one before. */
static enum fault put_life(struct sqlite *store) {
  sqlite3_stmt *row;
  uint64_t floor = 0;
  enum fault fault = read_below(store, &floor);
  if (fault == NO_FAULT) {
    fault = sqlite_prepare(
        store, "INSERT OR REPLACE INTO life (id, floor, below) VALUES (1, ?1, ?2)", &row);
  }
  if (fault != NO_FAULT) {
    return fault;
  }
  store->life = (struct life){floor, floor + LIFE_ROOM};
  sqlite3_bind_int64(row, 1, (sqlite3_int64)store->life.floor);
  sqlite3_bind_int64(row, 2, (sqlite3_int64)store->life.below);
  fault = sqlite_step(store, row);
  sqlite3_finalize(row);
  return fault;
}

/* The statements of a batch. The mark's changes nothing once another life has begun. */
static enum fault prepare_all(struct sqlite *store) {
  const struct {
    sqlite3_stmt **statement;
    const char *text;
  } all[] = {
      {&store->begin, "BEGIN IMMEDIATE"},
      {&store->commit, "COMMIT"},
      {&store->rollback, "ROLLBACK"},
      {&store->version, "UPDATE page2 SET version = ?2 WHERE no = ?1"},
      {&store->part, "UPDATE part SET body = ?3 WHERE no = ?1 AND place = ?2"},
      {&store->mark,
       "UPDATE mark2 SET commits = ?1 WHERE id = 1 AND commits = ?2"
       " AND EXISTS (SELECT 1 FROM life WHERE id = 1 AND floor = ?3)"},
      {&store->below, "UPDATE life SET below = ?1 WHERE id = 1"},
  };
  enum fault fault = NO_FAULT;
  for (size_t at = 0; at < sizeof all / sizeof *all && fault == NO_FAULT; at++) {
    fault = sqlite_prepare(store, all[at].text, all[at].statement);
  }
  return fault;
}

static enum fault sqlite_begin_life(struct engine *engine, rughvadi_handle *rows,
                                    struct life *life, uint64_t *last) {
  struct sqlite *store = store_of(engine);
  enum fault fault = sqlite_run(store, "BEGIN IMMEDIATE");
  if (fault != NO_FAULT) {
    return fault;
  }
  fault = tables_lay_out(store);
  fault = fault == NO_FAULT ? put_life(store) : fault;
  fault = fault == NO_FAULT ? tables_load(store, rows) : fault;
  fault = fault == NO_FAULT ? sqlite_run(store, "COMMIT") : fault;
  if (fault != NO_FAULT) {
    sqlite3_exec(store->database, "ROLLBACK", NULL, NULL, NULL);
    return fault;
  }
  *life = store->life;
  *last = store->last;
  return prepare_all(store);
}

/* ---- a batch ---- */

/* Runs an update of one row. */
static enum fault update_one(struct sqlite *store, sqlite3_stmt *statement, enum fault otherwise) {
  enum fault fault = sqlite_step(store, statement);
  return fault == NO_FAULT && sqlite3_changes(store->database) != 1 ? otherwise : fault;
}

static enum fault write_page(struct sqlite *store, const struct page *page, const uint8_t *body) {
  size_t from = 0;
  sqlite3_bind_int64(store->version, 1, page->no);
  sqlite3_bind_int64(store->version, 2, (sqlite3_int64)page->version);
  enum fault fault = update_one(store, store->version, FAULT_SHAPE);
  while (fault == NO_FAULT && from < store->limits.page_size) {
    size_t size = part_size(&store->limits, from);
    sqlite3_bind_int64(store->part, 1, page->no);
    sqlite3_bind_int64(store->part, 2, (sqlite3_int64)(from / PART));
    sqlite3_bind_blob(store->part, 3, body + from, (int)size, SQLITE_STATIC);
    fault = update_one(store, store->part, FAULT_SHAPE);
    from += size;
  }
  return fault;
}

static enum fault write_mark(struct sqlite *store, const struct batch *batch) {
  sqlite3_bind_int64(store->mark, 1, (sqlite3_int64)batch->number);
  sqlite3_bind_int64(store->mark, 2, (sqlite3_int64)store->last);
  sqlite3_bind_int64(store->mark, 3, (sqlite3_int64)store->life.floor);
  enum fault fault = update_one(store, store->mark, FAULT_FENCED);
  if (fault != NO_FAULT || batch->below == store->life.below) {
    return fault;
  }
  sqlite3_bind_int64(store->below, 1, (sqlite3_int64)batch->below);
  return update_one(store, store->below, FAULT_SHAPE);
}

static enum fault sqlite_write(struct engine *engine, const struct batch *batch) {
  struct sqlite *store = store_of(engine);
  enum fault fault = sqlite_step(store, store->begin);
  if (fault != NO_FAULT) {
    return fault;
  }
  for (size_t at = 0; at < batch->pages && fault == NO_FAULT; at++) {
    fault = write_page(store, &batch->page[at],
                       batch->bodies.at + at * (size_t)store->limits.page_size);
  }
  fault = fault == NO_FAULT ? write_mark(store, batch) : fault;
  uint64_t begun = clock_now();
  fault = fault == NO_FAULT ? sqlite_step(store, store->commit) : fault;
  engine->synced = clock_now() - begun;
  if (fault != NO_FAULT) {
    sqlite3_step(store->rollback);
    sqlite3_reset(store->rollback);
    return fault;
  }
  store->last = batch->number;
  store->life.below = batch->below;
  return NO_FAULT;
}

static void sqlite_close(struct engine *engine) {
  struct sqlite *store = store_of(engine);
  sqlite3_finalize(store->begin);
  sqlite3_finalize(store->commit);
  sqlite3_finalize(store->rollback);
  sqlite3_finalize(store->mark);
  sqlite3_finalize(store->version);
  sqlite3_finalize(store->part);
  sqlite3_finalize(store->below);
  sqlite3_close(store->database);
  free(store);
}

const struct engine_calls sqlite_calls = {
    .open = sqlite_open,
    .begin_life = sqlite_begin_life,
    .write = sqlite_write,
    .close = sqlite_close,
};
