/* Which transactions are let in where clients fight for pages, in turns.
 *
 * A transaction that reads a page and then asks to write it is aborted if another does the same: so
 * where many want the same pages most tries are in vain. A page is *fought for* once an ask for it
 * was answered by AbortNow. Pages that the same transactions ask for are one *fight*. In a fight
 * one client has the turn, and others' asks for its pages wait here, until the turn is theirs. A
 * turn is some transactions long, since each change of turns costs a try and takes the pages to
 * another client. Whoever asks for no such page isn't looked at, nor who only reads them.
 *
 * A frame may be late, as on any network; so what is held back costs no more than time. No client
 * waits for good. An ask is held only of a transaction that has no permission to write, no ask at
 * the server, and told nobody that it uses a page. So the server knows of nobody that waits for it.
 * As soon as its client says that a page is in use, for which another then waits, the ask goes on.
 * And whoever has the turn and does nothing loses it. */
#ifndef GATEWAY_WINDOW_H
#define GATEWAY_WINDOW_H

#include "frame.h"

#include <uv.h>

enum { MOST_PAGES = 4096, FIGHTS = MOST_CLIENTS, ASK_MOST = HEADER + 20 };

/* A client, and the latest transaction that it named. Times are in nanoseconds. */
struct fighter {
  uint64_t txn;
  bool is_live;       /* it hasn't ended */
  bool is_in;         /* its asks go on: it was let in, asked to write, or uses a page of others */
  bool is_committing; /* its Commit went */
  bool is_done;       /* the one before it was committed */
  bool has_asked;     /* it asked to write a page that is fought for */
  bool writes;        /* the client's transactions write such pages, as far as is known */
  uint32_t asked;     /* the page of an ask that isn't answered, or NO_PAGE */
  uint64_t active;    /* when a frame of it came or went last */
  uint64_t began, ended;  /* when it began, or the one before ended */
  uint64_t took, rests;   /* how long one takes, and how long it is to the next, as it was lately */
  uint8_t held[ASK_MOST]; /* the ask that is held back, */
  size_t size;            /* its bytes, 0 if none is, */
  uint64_t place;         /* and its place in the order of those that wait */
  uint64_t served;        /* how many transactions it committed in its turns */
  uint8_t fight;          /* for whose turn it waits, or whose turn it has; 0: none */
};

/* Pages that are fought for. */
struct fight {
  int holder;       /* who has the turn, or NOBODY */
  unsigned waiting; /* how many asks wait */
  unsigned count;   /* transactions that ended in this turn */
  uint64_t began;   /* when it began */
  uint64_t served;  /* how many who was let in last had committed */
  uint64_t fought;  /* when it was last seen that clients fight; 0: the fight isn't one */
};

struct window {
  struct fighter clients[MOST_CLIENTS];
  struct fight fights[FIGHTS + 1]; /* from 1 on */
  uint8_t fight_of[MOST_PAGES];    /* 0: the page isn't fought for */
  uint64_t places;                 /* how many asks were held back so far */
  uv_timer_t timer;                /* while asks wait */
  void (*let_in)(void *owner, const uint8_t *ask, size_t size);
  void *owner;
};

void window_begin(struct window *window, uv_loop_t *loop);

/* A frame of a client came: whether it goes on now. Else it is held back, and let in later. */
bool window_take(struct window *window, const uint8_t *frame, size_t size);

/* A frame goes to a client. */
void window_hear(struct window *window, const uint8_t *frame);

/* Whether an ask of the client waits. */
bool window_holds(const struct window *window, uint16_t client);

/* A client is gone. */
void window_leave(struct window *window, uint16_t client);

/* Fights that are over are forgotten: once in a while. */
void window_tick(struct window *window);

/* Forgets all, as the server ends. */
void window_clear(struct window *window);

#endif
