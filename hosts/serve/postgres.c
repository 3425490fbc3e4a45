#include "postgres.h"

#include <inttypes.h>
#include <stdio.h>
#include <stdlib.h>

static struct postgres *store_of(struct engine *engine) { return (struct postgres *)engine; }

static enum fault postgres_open(const struct settings *settings, struct engine **engine) {
  struct postgres *store = calloc(1, sizeof *store);
  if (store == NULL) {
    return FAULT_MEMORY;
  }
  store->engine.calls = &postgres_calls;
  store->settings = settings;
  *engine = &store->engine;
  enum fault fault = session_know(store);
  return fault == NO_FAULT ? lock_await(store) : fault;
}

static enum fault postgres_begin_life(struct engine *engine, rughvadi_handle *rows,
                                      struct life *life, uint64_t *last) {
  struct postgres *store = store_of(engine);
  enum fault fault = NO_FAULT;
  enum outcome outcome = LOCKED;
  while (outcome == LOCKED && input_is_open()) {
    outcome = rows_begin(store, rows, &fault);
  }
  *life = store->life;
  *last = store->last;
  if (outcome == ASKED) {
    return NO_FAULT;
  }
  return outcome == LOCKED ? FAULT_GONE : fault != NO_FAULT ? fault : FAULT_STORE;
}

/* ---- a batch ---- */

/* What is written next: all of a batch, or, where all of it is there, its number alone, so that
 * this commit waits for what the other may not have waited for. */
struct writing {
  const struct batch *batch;
  uint64_t before; /* the last commit that has to be there */
};

static enum fault begin_writing(struct postgres *store, struct writing *writing, bool is_whole) {
  const struct batch *batch = writing->batch;
  const struct batch number_alone = {.number = batch->number, .below = batch->below};
  writing->before = is_whole ? store->last : batch->number;
  return rows_gather(store, is_whole ? batch : &number_alone) ? NO_FAULT : FAULT_MEMORY;
}

/* Whether the result says that it was written. */
static bool is_written(const PGresult *result, size_t rows, bool *is_misshapen) {
  bool has_mark = PQntuples(result) == 1;
  *is_misshapen = has_mark && strtoull(PQgetvalue(result, 0, 0), NULL, 10) != rows;
  return has_mark;
}

/* Writes once. LOCKED where it isn't known to be safe. */
static enum outcome write_once(struct postgres *store, const struct writing *writing,
                               enum fault *fault) {
  char floor[24], number[24], before[24], below[24];
  snprintf(floor, sizeof floor, "%" PRIu64, store->life.floor);
  snprintf(number, sizeof number, "%" PRIu64, writing->batch->number);
  snprintf(before, sizeof before, "%" PRIu64, writing->before);
  snprintf(below, sizeof below, "%" PRIu64, writing->batch->below);
  const struct bytes *arrays[] = {&store->no, &store->part, &store->version, &store->body};
  const char *values[WRITE_VALUES] = {store->store, floor, number, before, below};
  int lengths[WRITE_VALUES] = {0};
  for (size_t at = 0; at < 4; at++) {
    values[5 + at] = (const char *)arrays[at]->at;
    lengths[5 + at] = (int)arrays[at]->size;
  }
  values[9] = store->settings->needs_standby ? "t" : "f";
  PGresult *result;
  bool is_misshapen = false, is_alone = false;
  enum outcome outcome = session_write(store, values, lengths, &result, &is_alone);
  bool is_there = outcome == ASKED && is_written(result, store->rows, &is_misshapen);
  PQclear(result);
  *fault = is_misshapen ? FAULT_SHAPE : NO_FAULT;
  if (is_alone) {
    tell("store %s: no synchronous standby is named any more", store->store);
    *fault = FAULT_UNSAFE;
  }
  return *fault != NO_FAULT                                     ? REFUSED
         : outcome == ASKED && (!is_there || store->was_warned) ? LOCKED
                                                                : outcome;
}

/* Finds out what is there after a write that may have been done or not, and what is to be written
 * then. */
static enum fault look(struct postgres *store, struct writing *writing) {
  struct mark mark;
  enum outcome outcome = mark_read(store, &mark);
  if (outcome != ASKED) {
    return outcome == REFUSED ? FAULT_STORE : NO_FAULT;
  }
  if (mark.floor != store->life.floor) {
    return FAULT_FENCED;
  }
  /* In this life nobody else writes: so it is the write before, whose answer didn't come. */
  if (mark.commits == writing->batch->number) {
    return begin_writing(store, writing, mark.commits == store->last);
  }
  if (mark.commits == store->last) {
    return begin_writing(store, writing, true);
  }
  tell("store %s: it has commit %" PRIu64 " in place of %" PRIu64, store->store, mark.commits,
       store->last);
  return FAULT_STORE;
}

static enum fault postgres_write(struct engine *engine, const struct batch *batch) {
  struct postgres *store = store_of(engine);
  struct writing writing = {.batch = batch};
  enum outcome outcome = LOCKED;
  uint64_t begun = clock_now();
  enum fault fault = begin_writing(store, &writing, true);
  while (fault == NO_FAULT && outcome != ASKED) {
    outcome = write_once(store, &writing, &fault);
    if (outcome == REFUSED) {
      return fault != NO_FAULT ? fault : FAULT_STORE;
    }
    if (outcome == LOST) {
      fault = lock_again(store);
    }
    if (outcome != ASKED && fault == NO_FAULT) {
      fault = look(store, &writing);
    }
  }
  if (fault == NO_FAULT) {
    rows_stored(store, batch);
    store->last = batch->number;
    store->life.below = batch->below;
  }
  engine->synced = clock_now() - begun;
  return fault;
}

static void postgres_close(struct engine *engine) {
  struct postgres *store = store_of(engine);
  session_end(store);
  session_forget(store);
  bytes_free(&store->no);
  bytes_free(&store->part);
  bytes_free(&store->version);
  bytes_free(&store->body);
  free(store->stored);
  free(store);
}

const struct engine_calls postgres_calls = {
    .open = postgres_open,
    .begin_life = postgres_begin_life,
    .write = postgres_write,
    .beat = BEAT,
    .close = postgres_close,
};
