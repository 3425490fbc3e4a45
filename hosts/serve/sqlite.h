/* The engine over SQLite's own library: its parts. */
#ifndef SERVE_SQLITE_H
#define SERVE_SQLITE_H

#include "engine.h"

#include <sqlite3.h>

enum { PART = 4096 }; /* bytes of a page that are in one row */

struct sqlite {
  struct engine engine;
  rughvadi_limits limits;
  sqlite3 *database;
  sqlite3_stmt *begin, *commit, *rollback, *mark, *version, *part, *below;
  struct life life;
  uint64_t last; /* the number of the last commit */
};

/* The fault behind a code that isn't OK, ROW or DONE. */
enum fault sqlite_fault(const struct sqlite *store, int code);

/* Runs statements that answer nothing. */
enum fault sqlite_run(struct sqlite *store, const char *text);

/* Prepares a statement. */
enum fault sqlite_prepare(struct sqlite *store, const char *text, sqlite3_stmt **statement);

/* Runs a prepared statement that answers nothing, and makes it ready to be run again. */
enum fault sqlite_step(struct sqlite *store, sqlite3_stmt *statement);

/* The bytes of a page that are in the part from there on. */
size_t part_size(const rughvadi_limits *limits, size_t from);

/* Within a transaction: makes the tables where there are none, copies those of the older
 * generation, and adds the table of lives. FAULT_SHAPE where they aren't of such a store. */
enum fault tables_lay_out(struct sqlite *store);

/* Within a transaction: puts the rows into the empty handle. FAULT_SHAPE where they are no store of
 * these limits. */
enum fault tables_load(struct sqlite *store, rughvadi_handle *rows);

#endif
