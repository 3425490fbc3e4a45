#include "sqlite.h"

#include <stdlib.h>
#include <string.h>

/* The statements that make the tables; others find a text by its bytes. */
static const char *const NEW_TABLES[] = {
    "CREATE TABLE mark2(id INTEGER PRIMARY KEY, commits INTEGER NOT NULL,"
    " page_size INTEGER NOT NULL, pages INTEGER NOT NULL) STRICT",
    "CREATE TABLE page2(no INTEGER PRIMARY KEY, version INTEGER NOT NULL) STRICT",
    "CREATE TABLE part(no INTEGER NOT NULL, place INTEGER NOT NULL, body BLOB NOT NULL,"
    " PRIMARY KEY(no, place)) STRICT",
};

static const char LIFE[] =
    "CREATE TABLE IF NOT EXISTS life(id INTEGER PRIMARY KEY, floor INTEGER NOT NULL,"
    " below INTEGER NOT NULL) STRICT";

/* Copies the older generation, where a page was one part, and takes its rows away. */
static const char COPY[] =
    "INSERT INTO page2 SELECT no, version FROM page;"
    "INSERT INTO part SELECT no, 0, body FROM page;"
    "INSERT INTO mark2 SELECT id, commits, page_size, (SELECT count(*) FROM page) FROM mark;"
    "DELETE FROM page; DELETE FROM mark";

static const sqlite3_int64 MOST_NUMBER = (INT64_C(1) << 62) - 1;

/* ---- which tables there are ---- */

/* Whether a SELECT is accepted. */
static enum fault is_there(struct sqlite *store, const char *text, bool *there) {
  sqlite3_stmt *statement = NULL;
  int code = sqlite3_prepare_v2(store->database, text, -1, &statement, NULL);
  sqlite3_finalize(statement);
  *there = code == SQLITE_OK;
  return code == SQLITE_OK || (code & 0xff) == SQLITE_ERROR ? NO_FAULT : sqlite_fault(store, code);
}

/* How many of these SELECTs are accepted. */
static enum fault count_there(struct sqlite *store, const char *const *texts, size_t count,
                              size_t *found) {
  enum fault fault = NO_FAULT;
  *found = 0;
  for (size_t at = 0; at < count && fault == NO_FAULT; at++) {
    bool there = false;
    fault = is_there(store, texts[at], &there);
    *found += there;
  }
  return fault;
}

/* The number that a SELECT answers. */
static enum fault ask_number(struct sqlite *store, const char *text, sqlite3_int64 *number) {
  sqlite3_stmt *statement;
  enum fault fault = sqlite_prepare(store, text, &statement);
  if (fault != NO_FAULT) {
    return fault;
  }
  int code = sqlite3_step(statement);
  *number = sqlite3_column_int64(statement, 0);
  fault = code == SQLITE_ROW ? NO_FAULT : sqlite_fault(store, code);
  sqlite3_finalize(statement);
  return fault;
}

/* What there is of a generation of tables. */
enum generation { NO_TABLES, NO_ROWS, ROWS };

/* Of the older one; its tables are both there, or neither. */
static enum fault look_for_old(struct sqlite *store, enum generation *old) {
  static const char *const texts[] = {"SELECT no, version, body FROM page",
                                      "SELECT id, commits, page_size FROM mark"};
  size_t found;
  sqlite3_int64 rows = 0;
  enum fault fault = count_there(store, texts, 2, &found);
  if (fault == NO_FAULT && found == 1) {
    fault = FAULT_SHAPE;
  }
  if (fault == NO_FAULT && found == 2) {
    fault = ask_number(store, "SELECT (SELECT count(*) FROM page) + (SELECT count(*) FROM mark)",
                       &rows);
  }
  *old = found < 2 ? NO_TABLES : rows > 0 ? ROWS : NO_ROWS;
  return fault;
}

static enum fault has_new(struct sqlite *store, bool *are_there) {
  static const char *const texts[] = {"SELECT id, commits, page_size, pages FROM mark2",
                                      "SELECT no, version FROM page2",
                                      "SELECT no, place, body FROM part"};
  size_t found;
  enum fault fault = count_there(store, texts, 3, &found);
  *are_there = found == 3;
  return fault == NO_FAULT && found % 3 != 0 ? FAULT_SHAPE : fault;
}

/* ---- making them ---- */

/* Puts the rows of a store of zeros in. */
static enum fault put_zeros(struct sqlite *store) {
  static const char texts[] =
      "WITH RECURSIVE pages(no) AS (VALUES(0) UNION ALL SELECT no + 1 FROM pages"
      "  WHERE no + 1 < %llu)"
      " INSERT INTO page2 SELECT no, 0 FROM pages;"
      "WITH RECURSIVE pages(no) AS (VALUES(0) UNION ALL SELECT no + 1 FROM pages"
      "  WHERE no + 1 < %llu),"
      " places(place) AS (VALUES(0) UNION ALL SELECT place + 1 FROM places"
      "  WHERE (place + 1) * %d < %llu)"
      " INSERT INTO part SELECT no, place, zeroblob(min(%d, %llu - place * %d))"
      "  FROM pages, places ORDER BY no, place;"
      "INSERT INTO mark2 VALUES (1, 0, %llu, %llu)";
  unsigned long long pages = store->limits.pages, size = store->limits.page_size;
  char *text = sqlite3_mprintf(texts, pages, pages, PART, size, PART, size, PART, size, pages);
  enum fault fault = text == NULL ? FAULT_MEMORY : sqlite_run(store, text);
  sqlite3_free(text);
  return fault;
}

/* Copies the rows of the older generation; what the new tables refuse is no store. */
static enum fault copy_old(struct sqlite *store) {
  if (store->limits.page_size > PART) {
    return FAULT_SHAPE;
  }
  int code = sqlite3_exec(store->database, COPY, NULL, NULL, NULL);
  if (code == SQLITE_OK) {
    return NO_FAULT;
  }
  return (code & 0xff) == SQLITE_CONSTRAINT ? FAULT_SHAPE : sqlite_fault(store, code);
}

/* Makes the table of lives, with a row of this bound. */
static enum fault put_unserved(struct sqlite *store, uint64_t below) {
  char *text = sqlite3_mprintf("%s; INSERT OR REPLACE INTO life (id, floor, below)"
                               " VALUES (1, 0, %llu)", LIFE, (unsigned long long)below);
  enum fault fault = text == NULL ? FAULT_MEMORY : sqlite_run(store, text);
  sqlite3_free(text);
  return fault;
}

/* The first life begins at 1, unless somebody may have served the tables that these are copied
 * from. */
static enum fault make(struct sqlite *store, bool copies) {
  enum fault fault = put_unserved(store, copies ? UNKEPT_FLOOR : 1);
  for (size_t at = 0; at < sizeof NEW_TABLES / sizeof *NEW_TABLES && fault == NO_FAULT; at++) {
    fault = sqlite_run(store, NEW_TABLES[at]);
  }
  if (fault != NO_FAULT) {
    return fault;
  }
  return copies ? copy_old(store) : put_zeros(store);
}

enum fault tables_lay_out(struct sqlite *store) {
  enum generation old = NO_TABLES;
  bool new_there = false;
  enum fault fault = look_for_old(store, &old);
  fault = fault == NO_FAULT ? has_new(store, &new_there) : fault;
  bool is_mixed = new_there ? old == ROWS : old == NO_ROWS;
  if (fault == NO_FAULT && is_mixed) {
    fault = FAULT_SHAPE;
  }
  if (fault == NO_FAULT && !new_there) {
    return make(store, old == ROWS);
  }
  bool keeps_lives = false;
  fault = fault == NO_FAULT ? is_there(store, "SELECT below FROM life", &keeps_lives) : fault;
  return fault == NO_FAULT && !keeps_lives ? put_unserved(store, UNKEPT_FLOOR) : fault;
}

/* ---- reading ---- */

/* Whether a column is a whole number from 0 to the most. */
static bool is_number(sqlite3_stmt *row, int column, sqlite3_int64 most) {
  return sqlite3_column_type(row, column) == SQLITE_INTEGER
         && sqlite3_column_int64(row, column) >= 0 && sqlite3_column_int64(row, column) <= most;
}

/* Whether a column is this number. */
static bool is_just(sqlite3_stmt *row, int column, uint64_t number) {
  return is_number(row, column, (sqlite3_int64)number)
         && sqlite3_column_int64(row, column) == (sqlite3_int64)number;
}

/* Reads the one row of the mark. */
static enum fault load_mark(struct sqlite *store) {
  sqlite3_stmt *row;
  enum fault fault =
      sqlite_prepare(store, "SELECT id, commits, page_size, pages FROM mark2", &row);
  if (fault != NO_FAULT) {
    return fault;
  }
  int code = sqlite3_step(row);
  bool is_right = code == SQLITE_ROW && is_just(row, 0, 1) && is_number(row, 1, MOST_NUMBER)
                  && is_just(row, 2, store->limits.page_size)
                  && is_just(row, 3, store->limits.pages);
  store->last = is_right ? (uint64_t)sqlite3_column_int64(row, 1) : 0;
  if (is_right) {
    code = sqlite3_step(row); /* there is no other */
    is_right = code == SQLITE_DONE;
  }
  sqlite3_finalize(row);
  if (code != SQLITE_ROW && code != SQLITE_DONE) {
    return sqlite_fault(store, code);
  }
  return is_right ? NO_FAULT : FAULT_SHAPE;
}

/* What is read of a page. */
struct reading {
  sqlite3_stmt *versions, *parts;
  uint8_t *body;
};

/* The next row of each kind. */
static enum fault next_row(struct sqlite *store, sqlite3_stmt *rows) {
  int code = sqlite3_step(rows);
  return code == SQLITE_ROW    ? NO_FAULT
         : code == SQLITE_DONE ? FAULT_SHAPE
                               : sqlite_fault(store, code);
}

/* Reads the part of a page from there on. */
static enum fault load_part(struct sqlite *store, const struct reading *reading, uint64_t no,
                            size_t from) {
  sqlite3_stmt *row = reading->parts;
  size_t size = part_size(&store->limits, from);
  enum fault fault = next_row(store, row);
  if (fault != NO_FAULT) {
    return fault;
  }
  if (!is_just(row, 0, no) || !is_just(row, 1, from / PART)
      || sqlite3_column_type(row, 2) != SQLITE_BLOB) {
    return FAULT_SHAPE;
  }
  const void *body = sqlite3_column_blob(row, 2);
  if (sqlite3_column_bytes(row, 2) != (int)size) {
    return FAULT_SHAPE;
  }
  if (body == NULL) {
    return FAULT_MEMORY;
  }
  memcpy(reading->body + from, body, size);
  return NO_FAULT;
}

static enum fault load_page(struct sqlite *store, const struct reading *reading, uint64_t no,
                            rughvadi_handle *rows) {
  enum fault fault = next_row(store, reading->versions);
  if (fault == NO_FAULT
      && !(is_just(reading->versions, 0, no)
           && is_number(reading->versions, 1, (sqlite3_int64)store->last))) {
    fault = FAULT_SHAPE;
  }
  for (size_t from = 0; from < store->limits.page_size && fault == NO_FAULT; from += PART) {
    fault = load_part(store, reading, no, from);
  }
  if (fault != NO_FAULT) {
    return fault;
  }
  uint64_t version = (uint64_t)sqlite3_column_int64(reading->versions, 1);
  return fault_of(rughvadi_open_row(rows, version, reading->body, store->limits.page_size));
}

/* Reads all pages; no row is left behind them. */
static enum fault load_pages(struct sqlite *store, const struct reading *reading,
                             rughvadi_handle *rows) {
  enum fault fault = fault_of(
      rughvadi_open_life(&store->limits, store->last, store->life.floor, rows));
  for (uint64_t no = 0; no < store->limits.pages && fault == NO_FAULT; no++) {
    fault = load_page(store, reading, no, rows);
  }
  if (fault != NO_FAULT) {
    return fault;
  }
  bool has_more = sqlite3_step(reading->versions) == SQLITE_ROW
                  || sqlite3_step(reading->parts) == SQLITE_ROW;
  return has_more ? FAULT_SHAPE : NO_FAULT;
}

enum fault tables_load(struct sqlite *store, rughvadi_handle *rows) {
  struct reading reading = {NULL, NULL, malloc((size_t)store->limits.page_size)};
  enum fault fault = reading.body == NULL ? FAULT_MEMORY : load_mark(store);
  if (fault == NO_FAULT) {
    fault = sqlite_prepare(store, "SELECT no, version FROM page2 ORDER BY no", &reading.versions);
  }
  if (fault == NO_FAULT) {
    fault = sqlite_prepare(store, "SELECT no, place, body FROM part ORDER BY no, place",
                           &reading.parts);
  }
  fault = fault == NO_FAULT ? load_pages(store, &reading, rows) : fault;
  sqlite3_finalize(reading.versions);
  sqlite3_finalize(reading.parts);
  free(reading.body);
  return fault;
}
