/* The engine over PostgreSQL: its parts. What is safe in it doesn't hang on its lock, nor on any
 * clock: each statement that writes changes nothing unless the store's life and last commit are
 * those that this process knows, and nothing is taken for written before a statement of this
 * process has committed after it. */
#ifndef SERVE_POSTGRES_H
#define SERVE_POSTGRES_H

#include "engine.h"

#include <libpq-fe.h>

enum {
  ROW_PART = 2048, /* bytes of a page that are in one row */
  MOST_HOSTS = 16,
  MOST_STORE = 63, /* bytes of a store's name */
  BEAT = 1000,     /* milliseconds: at least so often the row of a store is written */
  PAUSE = 50       /* milliseconds until a primary that wasn't there is looked for again */
};

/* A server of the list; NULL: what libpq takes where nothing is said. */
struct host {
  char *name, *address, *port;
};

struct postgres {
  struct engine engine;
  const struct settings *settings;
  struct host hosts[MOST_HOSTS];
  size_t host_count;
  char store[MOST_STORE + 1]; /* its name: the application_name */
  PGconn *session;            /* with the primary; NULL: there is none */
  size_t host;                /* of the session */
  bool was_warned;            /* the database said a warning since the last statement began */
  struct life life;
  uint64_t last; /* the number of the last commit */
  struct bytes no, part, version, body; /* the arrays of a batch, */
  size_t rows;                          /* and how many rows they have */
  uint8_t *stored;    /* all pages as they are stored, where a page has several rows */
  uint64_t version_0; /* of the page that is being read: its first row's */
};

/* What a statement came to. */
enum outcome {
  ASKED,  /* it was answered */
  LOCKED, /* it has to be tried again: a lock, or somebody who cancelled it */
  LOST,   /* the session is of no use any more, or there is none */
  REFUSED /* said already */
};

/* What the row of a store says. */
struct mark {
  uint64_t floor, below, commits, beat;
};

/* ---- postgres_session.c ---- */

/* Finds out the servers of the list, and the store's name. */
enum fault session_know(struct postgres *store);

/* Looks for the one server of the list that can be written to, and opens a session with it. Where
 * there is none the session is NULL, and that is no fault. */
enum fault session_find(struct postgres *store);

/* Prepares the statements of a batch; false where the session is of no use. */
bool session_prepare(struct postgres *store);

/* Runs a statement, with texts in and out. The result is to be cleared; NULL but where ASKED. */
enum outcome session_ask(struct postgres *store, const char *text, int count,
                         const char *const *values, PGresult **result);

/* The next result of what was sent; NULL where there is none, or the session is of no use. */
PGresult *session_next(struct postgres *store);

/* Runs the prepared statement of a batch, and asks behind its commit whether a standby is named
 * still, where one is required: what was committed meanwhile waited for none if it is alone. */
enum outcome session_write(struct postgres *store, const char *const *values, const int *lengths,
                           PGresult **result, bool *is_alone);

/* Ends the session. */
void session_end(struct postgres *store);

/* Lets go what is known of the servers. */
void session_forget(struct postgres *store);

/* ---- postgres_lock.c ---- */

/* Waits until this process has the store's lock, and so may begin a life: as long as the input is
 * open. */
enum fault lock_await(struct postgres *store);

/* Looks for the store again, whose session was lost, and for its lock. FAULT_FENCED where another
 * life has begun. */
enum fault lock_again(struct postgres *store);

/* Reads the row of the store. */
enum outcome mark_read(struct postgres *store, struct mark *mark);

/* ---- postgres_rows.c ---- */

/* Makes the tables where they aren't there. */
enum outcome rows_lay_out(struct postgres *store);

/* Begins a life, and puts the rows into the empty handle. */
enum outcome rows_begin(struct postgres *store, rughvadi_handle *rows, enum fault *fault);

/* Gathers the arrays of a batch: of each page the first row, and those whose bytes change; false
 * where memory was refused. */
bool rows_gather(struct postgres *store, const struct batch *batch);

/* The batch is stored. */
void rows_stored(struct postgres *store, const struct batch *batch);

extern const char rows_write[];
enum { WRITE_VALUES = 10 };

/* Whether the input goes on, or has bytes that wait. */
bool input_is_open(void);

void pause_for(int milliseconds);

#endif
