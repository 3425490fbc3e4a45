#include "postgres.h"

#include <inttypes.h>
#include <poll.h>
#include <stdio.h>
#include <stdlib.h>
#include <time.h>
#include <unistd.h>

enum {
  PATIENCE = 4000,  /* for so long a beat may be away until a waiting process takes the store */
  GRACE = 1000,     /* so long it leaves the lock of a new primary to whom it was with before */
  LOST_MOST = 60000 /* for so long a primary is looked for once the session is lost */
};

/* The milliseconds of a clock that nobody sets. */
static int64_t now(void) {
  struct timespec time;
  clock_gettime(CLOCK_MONOTONIC, &time);
  return (int64_t)time.tv_sec * 1000 + time.tv_nsec / 1000000;
}

void pause_for(int milliseconds) { poll(NULL, 0, milliseconds); }

bool input_is_open(void) {
  struct pollfd input = {.fd = STDIN_FILENO, .events = POLLIN};
  return poll(&input, 1, 0) <= 0 || (input.revents & POLLIN) != 0
         || (input.revents & (POLLHUP | POLLERR | POLLNVAL)) == 0;
}

/* ---- the row of a store ---- */

enum outcome mark_read(struct postgres *store, struct mark *mark) {
  PGresult *row;
  enum outcome outcome =
      session_ask(store, "SELECT floor, below, commits, beat FROM mark WHERE store = $1", 1,
                  (const char *const[]){store->store}, &row);
  *mark = (struct mark){0};
  if (outcome == ASKED && PQntuples(row) == 1) {
    *mark = (struct mark){strtoull(PQgetvalue(row, 0, 0), NULL, 10),
                          strtoull(PQgetvalue(row, 0, 1), NULL, 10),
                          strtoull(PQgetvalue(row, 0, 2), NULL, 10),
                          strtoull(PQgetvalue(row, 0, 3), NULL, 10)};
  }
  PQclear(row);
  return outcome;
}

/* ---- the lock: it only tells whose turn it is ---- */

#define KEY "hashtextextended('rughvadi ' || $1, 0)"

static enum outcome ask_of_store(struct postgres *store, const char *text) {
  PGresult *result;
  enum outcome outcome =
      session_ask(store, text, 1, (const char *const[]){store->store}, &result);
  PQclear(result);
  return outcome;
}

/* Waits half a second for the lock, which ends with the session. */
static enum outcome take_lock(struct postgres *store) {
  return ask_of_store(store, "SELECT pg_advisory_lock(" KEY ")");
}

/* Ends the session that has the lock in this database: its process, or machine, or network stands
 * still. One whose commit waits for a standby is left alone: another session would wait as well.
 * One that is in a transaction has a minute, since it may be reading a large store. */
static enum outcome end_holder(struct postgres *store) {
  PGresult *ended;
  enum outcome outcome =
      session_ask(store,
                  "SELECT pg_terminate_backend(pid) FROM pg_locks JOIN pg_stat_activity USING (pid)"
                  " WHERE locktype = 'advisory' AND granted AND objsubid = 1"
                  " AND database = (SELECT oid FROM pg_database WHERE datname = current_database())"
                  " AND (classid::bigint << 32 | objid::bigint) = " KEY
                  " AND wait_event IS DISTINCT FROM 'SyncRep'"
                  " AND coalesce(xact_start, '-infinity')"
                  "  < clock_timestamp() - interval '1 minute'",
                  1, (const char *const[]){store->store}, &ended);
  if (outcome == ASKED && PQntuples(ended) > 0) {
    tell("store %s: its holder was silent, and lost it", store->store);
  }
  PQclear(ended);
  return outcome;
}

/* What a waiting process has seen of the one that has the store. */
struct watch {
  uint64_t beat;
  int64_t since; /* it was seen */
  bool was_found; /* a primary was, before */
};

/* Finds the primary; a new one is left for a moment to the process that has the store. */
static enum fault find(struct postgres *store, struct watch *watch) {
  enum fault fault = session_find(store);
  if (fault != NO_FAULT || store->session == NULL) {
    pause_for(PAUSE);
    return fault;
  }
  pause_for(watch->was_found ? GRACE : 0);
  watch->was_found = true;
  watch->since = now();
  return rows_lay_out(store) == REFUSED ? FAULT_STORE : NO_FAULT;
}

/* One try to get the lock; LOCKED where another has it. */
static enum outcome try_lock(struct postgres *store, struct watch *watch) {
  struct mark mark;
  enum outcome outcome = take_lock(store);
  if (outcome != LOCKED) {
    return outcome;
  }
  outcome = mark_read(store, &mark);
  if (outcome == ASKED && mark.beat != watch->beat) {
    watch->beat = mark.beat;
    watch->since = now();
  } else if (outcome == ASKED && now() - watch->since > PATIENCE) {
    outcome = end_holder(store);
    watch->since = now();
  }
  return outcome == ASKED ? LOCKED : outcome;
}

enum fault lock_await(struct postgres *store) {
  struct watch watch = {.since = now()};
  enum outcome outcome = LOST;
  while (outcome != ASKED) {
    enum fault fault = store->session == NULL ? find(store, &watch) : NO_FAULT;
    if (fault != NO_FAULT) {
      return fault;
    }
    outcome = try_lock(store, &watch);
    if (outcome == REFUSED) {
      return FAULT_STORE;
    }
    if (outcome != ASKED && !input_is_open()) {
      return FAULT_GONE;
    }
  }
  return session_prepare(store) ? NO_FAULT : FAULT_STORE;
}

/* One try to have the store again. */
static enum outcome try_again(struct postgres *store, enum fault *fault) {
  struct mark mark;
  if (store->session == NULL) {
    *fault = session_find(store);
    pause_for(store->session == NULL ? PAUSE : 0);
  }
  enum outcome outcome = *fault == NO_FAULT ? mark_read(store, &mark) : REFUSED;
  if (outcome == ASKED && mark.floor != store->life.floor) {
    *fault = FAULT_FENCED;
    return REFUSED;
  }
  return outcome == ASKED ? take_lock(store) : outcome;
}

enum fault lock_again(struct postgres *store) {
  int64_t since = now();
  enum fault fault = NO_FAULT;
  enum outcome outcome = LOST;
  tell("store %s: lost the database, looks for it", store->store);
  while (outcome != ASKED) {
    outcome = try_again(store, &fault);
    if (outcome == REFUSED) {
      return fault != NO_FAULT ? fault : FAULT_STORE;
    }
    if (outcome != ASKED && now() - since > LOST_MOST) {
      tell("store %s: no primary", store->store);
      return FAULT_STORE;
    }
  }
  if (!session_prepare(store)) {
    session_end(store);
    return NO_FAULT; /* the next statement finds that it is lost */
  }
  tell("store %s: has it again after %" PRId64 " ms", store->store, now() - since);
  return NO_FAULT;
}
