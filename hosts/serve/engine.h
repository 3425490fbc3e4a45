/* What keeps the pages of a store. An engine is used by one thread at a time, and may block. */
#ifndef SERVE_ENGINE_H
#define SERVE_ENGINE_H

#include "bytes.h"
#include "fault.h"
#include "settings.h"

#include <rughvadi.h>

/* A life of a store: the time from one start of a server to the next. Each client's incarnations
 * are in it from the floor up to below the bound; a life begins at the bound of the one before. */
struct life {
  uint64_t floor, below;
};

/* By so much a bound is above what it was raised for. */
#define LIFE_ROOM (UINT64_C(1) << 20)
/* No life begins above this: incarnations are below 2^62. */
#define MOST_FLOOR ((UINT64_C(1) << 62) - 1 - LIFE_ROOM)
/* The first life of tables begins here that a server served which kept no lives: of its clients'
 * incarnations nothing is known but that clocks gave them. */
#define UNKEPT_FLOOR (UINT64_C(1) << 61)

/* What is written in one transaction. Without pages, and with the number that is there, it raises
 * the bound or only shows that the life goes on. */
struct batch {
  uint64_t number; /* of the last commit in it */
  uint64_t below;  /* the life's bound from then on */
  size_t pages;
  struct page {
    uint32_t no;
    uint64_t version;
  } *page;
  struct bytes bodies; /* of all pages, one after another */
};

struct engine;

struct engine_calls {
  /* Opens a store, once no other has it, as far as the engine can tell. It may wait for that as
   * long as the input is open; FAULT_GONE where it isn't any more. The engine is to be closed
   * where one is told, whatever the fault. */
  enum fault (*open)(const struct settings *settings, struct engine **engine);

  /* Begins a life, in one transaction that is on disk at the end: makes the store where it isn't
   * there, sets the floor to the bound and raises the bound, and puts the rows into the empty
   * handle. *last is the number of the last commit. */
  enum fault (*begin_life)(struct engine *engine, rughvadi_handle *rows, struct life *life,
                           uint64_t *last);

  /* Writes a batch in one transaction. It is on disk, and no later life has begun before, once this
   * returns without a fault. */
  enum fault (*write)(struct engine *engine, const struct batch *batch);

  /* Milliseconds: so often something is to be written; 0: there is no need. */
  int beat;

  void (*close)(struct engine *engine);
};

/* Each engine's own struct begins with it. */
struct engine {
  const struct engine_calls *calls;
  uint64_t synced; /* nanoseconds that the last write waited for its commit, as far as is known */
};

extern const struct engine_calls sqlite_calls, postgres_calls;

#endif
