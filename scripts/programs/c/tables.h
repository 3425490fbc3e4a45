/* A store's tables by SQLite's own library, as a shelf makes them, and the statements by which a
 * shelf sets pages: what the programs in C that stand beside a shelf share. */
#include <errno.h>
#include <sqlite3.h>
#include <stdint.h>
#include <stdio.h>
#include <stdlib.h>
#include <string.h>
#include <time.h>

enum { PART = 4096 };

static sqlite3 *db;
static sqlite3_stmt *begin, *commit, *mark, *version, *part;

static void must(int wrong) {
  if (wrong) {
    fprintf(stderr, "%s; %s\n", strerror(errno), db ? sqlite3_errmsg(db) : "no database");
    exit(1);
  }
}

static void run(const char *text) { must(sqlite3_exec(db, text, NULL, NULL, NULL)); }

static sqlite3_stmt *prepared(const char *text) {
  sqlite3_stmt *made;
  must(sqlite3_prepare_v2(db, text, -1, &made, NULL));
  return made;
}

static void done(sqlite3_stmt *it) {
  must(sqlite3_step(it) != SQLITE_DONE);
  sqlite3_reset(it);
}

/* Seconds of a clock that only goes forth. */
static double now(void) {
  struct timespec time;
  clock_gettime(CLOCK_MONOTONIC, &time);
  return (double)time.tv_sec + (double)time.tv_nsec / 1e9;
}

/* A new store of zeros: a write-ahead log, each commit on disk. The statements are prepared. */
static void make_store(const char *path, int pages, size_t page_size) {
  char text[200];
  must(sqlite3_open(path, &db));
  run("PRAGMA journal_mode = WAL; PRAGMA synchronous = FULL; BEGIN;"
      "CREATE TABLE mark2(id INTEGER PRIMARY KEY, commits INTEGER NOT NULL, page_size INTEGER NOT "
      "NULL, pages INTEGER NOT NULL) STRICT;"
      "CREATE TABLE page2(no INTEGER PRIMARY KEY, version INTEGER NOT NULL) STRICT;"
      "CREATE TABLE part(no INTEGER NOT NULL, place INTEGER NOT NULL, body BLOB NOT NULL, PRIMARY "
      "KEY(no, place)) STRICT");
  for (int no = 0; no < pages; no++) {
    snprintf(text, sizeof text, "INSERT INTO page2 VALUES (%d, 0)", no);
    run(text);
    for (size_t from = 0; from < page_size; from += PART) {
      size_t size = page_size - from < PART ? page_size - from : PART;
      snprintf(text, sizeof text, "INSERT INTO part VALUES (%d, %zu, zeroblob(%zu))", no,
               from / PART, size);
      run(text);
    }
  }
  snprintf(text, sizeof text, "INSERT INTO mark2 VALUES (1, 0, %zu, %d); COMMIT", page_size, pages);
  run(text);
  begin = prepared("BEGIN IMMEDIATE");
  commit = prepared("COMMIT");
  mark = prepared("UPDATE mark2 SET commits = ?1 WHERE id = 1");
  version = prepared("UPDATE page2 SET version = ?2 WHERE no = ?1");
  part = prepared("UPDATE part SET body = ?3 WHERE no = ?1 AND place = ?2");
}

/* Sets a page's version and its bytes. */
static void put_page(int64_t no, int64_t number, const uint8_t *body, size_t page_size) {
  sqlite3_bind_int64(version, 1, no);
  sqlite3_bind_int64(version, 2, number);
  done(version);
  for (size_t from = 0; from < page_size; from += PART) {
    size_t size = page_size - from < PART ? page_size - from : PART;
    sqlite3_bind_int64(part, 1, no);
    sqlite3_bind_int64(part, 2, (int64_t)(from / PART));
    sqlite3_bind_blob(part, 3, body + from, (int)size, SQLITE_STATIC);
    done(part);
  }
}

/* Sets the number of the last commit, and ends the transaction. */
static void commit_as(int64_t number) {
  sqlite3_bind_int64(mark, 1, number);
  done(mark);
  done(commit);
}

/* Whether the store is closed well. */
static int closed(void) {
  for (sqlite3_stmt *it; (it = sqlite3_next_stmt(db, NULL)) != NULL;) {
    sqlite3_finalize(it);
  }
  return sqlite3_close(db) == SQLITE_OK;
}
