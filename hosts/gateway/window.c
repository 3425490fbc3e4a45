#include "window.h"

#include <string.h>

enum { NOBODY = -1 };

/* A turn has so many transactions; or fewer, if it lasts so long. */
enum { TURN = 16, TURN_LEAST = 6 };

/* Nanoseconds. */
#define MILLISECOND UINT64_C(1000000)
static const uint64_t TURN_TIME = 20 * MILLISECOND;
static const uint64_t IDLE = 10 * MILLISECOND; /* so long an open transaction may do nothing, */
static const uint64_t IDLE_MOST = 100 * MILLISECOND; /* or as long as one takes, up to that */
static const uint64_t LONGEST = 250 * MILLISECOND;   /* so long a turn may be at all */
static const uint64_t REST_MOST = 10 * MILLISECOND;
static const uint64_t REST_LEAST = MILLISECOND / 5;
static const uint64_t PEACE = 2000 * MILLISECOND; /* after that a fight is over */

static void look(struct window *window, uint8_t fight);

/* Lately it was so: a mean of what was and what is. */
static void note(uint64_t *mean, uint64_t now) { *mean = *mean == 0 ? now : (3 * *mean + now) / 4; }

/* A client rested so long. One long rest of one who is mostly quick costs it no turns: a rest
 * counts up to a bound, and a shorter one for more than a longer one. */
static void note_rest(struct fighter *fighter, uint64_t now) {
  if (now < fighter->rests) {
    fighter->rests = (fighter->rests + now) / 2;
  } else {
    note(&fighter->rests, now < REST_MOST ? now : REST_MOST);
  }
}

/* ---- turns ---- */

/* For so long it is waited for who has the turn and no transaction: as long as that seems to cost
 * less than to take the pages to another. */
static uint64_t rest_of(const struct fighter *fighter) {
  uint64_t most = fighter->took / 2 < REST_MOST ? fighter->took / 2 : REST_MOST;
  if (fighter->rests > most) {
    return 0;
  }
  uint64_t twice = 2 * fighter->rests;
  return twice > REST_LEAST ? twice : REST_LEAST;
}

/* Whether who has the turn has begun something and does nothing. */
static bool is_idle(const struct fighter *holder, uint64_t now) {
  uint64_t most = holder->took < IDLE_MOST ? holder->took : IDLE_MOST;
  most = most > IDLE ? most : IDLE;
  return holder->asked == NO_PAGE && !holder->is_committing && now - holder->active > most;
}

/* Whether the turn goes to another. */
static bool is_over(const struct window *window, const struct fight *fight, uint64_t now) {
  if (fight->holder == NOBODY || now - fight->began > LONGEST) {
    return true;
  }
  const struct fighter *holder = &window->clients[fight->holder];
  if (holder->is_live) {
    return is_idle(holder, now);
  }
  bool is_used_up =
      fight->count >= TURN || (fight->count >= TURN_LEAST && now - fight->began > TURN_TIME);
  return is_used_up || now - holder->ended > rest_of(holder);
}

/* Whether one that waits comes before another: who committed less, or waits longer. */
static bool is_before(const struct fighter *one, const struct fighter *other) {
  return one->served != other->served ? one->served < other->served : one->place < other->place;
}

/* The next one of those that wait, or NOBODY. */
static int first_of(const struct window *window, uint8_t fight) {
  int first = NOBODY;
  for (int client = 0; client < MOST_CLIENTS; client++) {
    const struct fighter *each = &window->clients[client];
    if (each->size > 0 && each->fight == fight
        && (first == NOBODY || is_before(each, &window->clients[first]))) {
      first = client;
    }
  }
  return first;
}

/* Who had the turn has it no more. What it has begun goes on. */
static void end_turn(struct window *window, struct fight *fight) {
  if (fight->holder != NOBODY) {
    window->clients[fight->holder].fight = 0;
    fight->holder = NOBODY;
  }
}

/* The turn is that client's. */
static void begin_turn(struct window *window, uint8_t number, uint16_t client) {
  struct fight *fight = &window->fights[number];
  end_turn(window, fight);
  fight->holder = client;
  fight->began = uv_hrtime();
  fight->count = 0;
  window->clients[client].fight = number;
  window->clients[client].is_in = true;
}

/* An ask goes to the server. */
static void goes_on(struct fighter *fighter, const uint8_t *ask) {
  fighter->asked = named_by(ask).page;
  fighter->is_in = fighter->is_in || header_at(ask).kind == KIND_ASK_WRITE;
}

/* The ask that is held back goes on now. */
static void release(struct window *window, struct fighter *fighter) {
  size_t size = fighter->size;
  struct fight *fight = &window->fights[fighter->fight];
  fight->waiting--;
  fighter->size = 0;
  fighter->is_in = true;
  fighter->began = uv_hrtime();
  if (fight->holder == NOBODY || &window->clients[fight->holder] != fighter) {
    fighter->fight = 0;
  }
  goes_on(fighter, fighter->held);
  window->let_in(window->owner, fighter->held, size);
}

/* Gives the turn away, if it is over and somebody waits. */
static void look(struct window *window, uint8_t number) {
  struct fight *fight = &window->fights[number];
  while (fight->waiting > 0 && is_over(window, fight, uv_hrtime())) {
    int client = first_of(window, number);
    if (client == NOBODY) {
      return;
    }
    fight->served = window->clients[client].served;
    begin_turn(window, number, (uint16_t)client);
    release(window, &window->clients[client]);
  }
}

static void is_time(uv_timer_t *timer) {
  struct window *window = timer->data;
  unsigned waiting = 0;
  for (unsigned number = 1; number <= FIGHTS; number++) {
    look(window, (uint8_t)number);
    waiting += window->fights[number].waiting;
  }
  if (waiting == 0) {
    uv_timer_stop(timer);
  }
}

/* ---- fights ---- */

/* Both are one from now on, under the first one's number. */
static void merge(struct window *window, uint8_t first, uint8_t second) {
  struct fight *gone = &window->fights[second];
  end_turn(window, gone);
  window->fights[first].waiting += gone->waiting;
  *gone = (struct fight){.holder = NOBODY};
  for (size_t page = 0; page < MOST_PAGES; page++) {
    window->fight_of[page] = window->fight_of[page] == second ? first : window->fight_of[page];
  }
  for (size_t client = 0; client < MOST_CLIENTS; client++) {
    struct fighter *each = &window->clients[client];
    each->fight = each->fight == second ? first : each->fight;
  }
}

/* A number that no fight has; the last one where all are taken. */
static uint8_t free_number(const struct window *window) {
  uint8_t number = 1;
  while (number < FIGHTS && window->fights[number].fought != 0) {
    number++;
  }
  return number;
}

/* Clients fight for that page. */
static void is_fought(struct window *window, uint32_t page) {
  if (page >= MOST_PAGES) {
    return;
  }
  if (window->fight_of[page] == 0) {
    window->fight_of[page] = free_number(window);
  }
  window->fights[window->fight_of[page]].fought = uv_hrtime();
}

/* ---- frames ---- */

/* A transaction ended, and a turn may end with it. */
static void end_transaction(struct window *window, struct fighter *fighter, bool is_done) {
  if (!fighter->is_live) {
    return;
  }
  fighter->ended = uv_hrtime();
  fighter->is_done = is_done;
  if (is_done) {
    note(&fighter->took, fighter->ended - fighter->began);
    fighter->writes = fighter->writes && (fighter->has_asked || !fighter->is_in);
  }
  fighter->is_live = fighter->is_in = fighter->is_committing = fighter->has_asked = false;
  fighter->asked = NO_PAGE;
  if (fighter->fight != 0) {
    window->fights[fighter->fight].count++;
    fighter->served += is_done;
    look(window, fighter->fight);
  }
}

/* What was held back of a transaction that goes on no more is let go. */
static void let_go(struct window *window, struct fighter *fighter) {
  if (fighter->size > 0) {
    window->fights[fighter->fight].waiting--;
    fighter->size = 0;
    fighter->fight = 0;
  }
}

/* The transaction that a frame names is the client's latest; false where it was over before. */
static bool name_transaction(struct window *window, struct fighter *fighter, uint64_t txn) {
  if (txn < fighter->txn || (txn == fighter->txn && !fighter->is_live)) {
    return false;
  }
  fighter->active = uv_hrtime();
  if (txn > fighter->txn) {
    let_go(window, fighter);
    end_transaction(window, fighter, false);
    fighter->txn = txn;
    fighter->is_live = true;
    fighter->began = fighter->active;
    if (fighter->is_done) {
      note_rest(fighter, fighter->began - fighter->ended);
    }
  }
  return true;
}

/* Whether an ask for a page that is fought for goes on now: its transaction does already, or only
 * reads, or has the turn. */
static bool may_go_on(struct window *window, uint16_t client, uint8_t number) {
  struct fighter *fighter = &window->clients[client];
  struct fight *fight = &window->fights[number];
  if (fighter->fight != 0 && fighter->fight != number) {
    merge(window, fighter->fight, number); /* its turn is for this page, too */
  } else if (fighter->fight == 0 && !fighter->is_in && fighter->writes) {
    if (fight->waiting > 0 || !is_over(window, fight, uv_hrtime())) {
      return false;
    }
    begin_turn(window, number, client);
  }
  fighter->is_in = fighter->is_in || fighter->fight != 0;
  return true;
}

/* Holds an ask back. */
static void hold(struct window *window, uint16_t client, const uint8_t *frame, uint8_t number) {
  struct fighter *fighter = &window->clients[client];
  size_t size = HEADER + (size_t)header_at(frame).body;
  memcpy(fighter->held, frame, size);
  fighter->size = size;
  fighter->fight = number;
  fighter->place = window->places++;
  struct fight *fight = &window->fights[number];
  fight->waiting++;
  fight->fought = uv_hrtime();
  /* Who comes new, or comes back, gets no more than a turn in advance. */
  uint64_t least = fight->served > TURN ? fight->served - TURN : 0;
  fighter->served = fighter->served > least ? fighter->served : least;
  if (!uv_is_active((const uv_handle_t *)&window->timer)) {
    uv_timer_start(&window->timer, is_time, 1, 1);
  }
}

/* An ask came: whether it goes on now. */
static bool take_ask(struct window *window, uint16_t client, const uint8_t *frame, uint8_t kind) {
  struct fighter *fighter = &window->clients[client];
  uint32_t page = named_by(frame).page;
  uint8_t number = page < MOST_PAGES ? window->fight_of[page] : 0;
  if (fighter->size > 0) {
    return false; /* it waits already, and this says it again */
  }
  if (number != 0 && kind == KIND_ASK_WRITE) {
    fighter->writes = fighter->has_asked = true;
  }
  if (number != 0 && !may_go_on(window, client, number)) {
    hold(window, client, frame, number);
    return false;
  }
  goes_on(fighter, frame);
  return true;
}

bool window_take(struct window *window, const uint8_t *frame, size_t size) {
  struct header header = header_at(frame);
  struct named named = named_by(frame);
  struct fighter *fighter = &window->clients[header.client % MOST_CLIENTS];
  if (named.txn == 0 || !name_transaction(window, fighter, named.txn)) {
    return true;
  }
  switch (header.kind) {
    case KIND_ASK_READ:
    case KIND_ASK_WRITE:
      return size > ASK_MOST || take_ask(window, header.client % MOST_CLIENTS, frame, header.kind);
    case KIND_IN_USE:
      fighter->is_in = true;
      if (fighter->size > 0) {
        is_fought(window, named.page);
        release(window, fighter);
      }
      return true;
    case KIND_COMMIT: fighter->is_committing = true; return true;
    case KIND_DROP:
      let_go(window, fighter);
      end_transaction(window, fighter, false);
      return true;
    default: return true;
  }
}

void window_hear(struct window *window, const uint8_t *frame) {
  struct header header = header_at(frame);
  struct named named = named_by(frame);
  struct fighter *fighter = &window->clients[header.client % MOST_CLIENTS];
  fighter->active = uv_hrtime();
  switch (header.kind) {
    case KIND_GRANTED:
    case KIND_MAY_WRITE:
      fighter->asked = fighter->asked == named.page ? NO_PAGE : fighter->asked;
      break;
    case KIND_ABORT_NOW:
      if (named.txn == fighter->txn) {
        is_fought(window, fighter->asked);
        fighter->asked = NO_PAGE;
      }
      break;
    case KIND_DONE:
      if (named.txn == fighter->txn) {
        end_transaction(window, fighter, true);
      }
      break;
    default: break;
  }
}

bool window_holds(const struct window *window, uint16_t client) {
  return window->clients[client % MOST_CLIENTS].size > 0;
}

/* ---- its beginning and its end ---- */

void window_leave(struct window *window, uint16_t client) {
  struct fighter *fighter = &window->clients[client % MOST_CLIENTS];
  let_go(window, fighter);
  uint8_t number = fighter->fight;
  if (number != 0) {
    end_turn(window, &window->fights[number]);
  }
  *fighter = (struct fighter){.asked = NO_PAGE};
  if (number != 0) {
    look(window, number);
  }
}

/* Nobody fights for its pages any more. */
static void end_fight(struct window *window, uint8_t number) {
  struct fight *fight = &window->fights[number];
  end_turn(window, fight);
  *fight = (struct fight){.holder = NOBODY};
  for (size_t page = 0; page < MOST_PAGES; page++) {
    window->fight_of[page] = window->fight_of[page] == number ? 0 : window->fight_of[page];
  }
}

void window_tick(struct window *window) {
  uint64_t now = uv_hrtime();
  for (unsigned number = 1; number <= FIGHTS; number++) {
    const struct fight *fight = &window->fights[number];
    if (fight->fought != 0 && fight->waiting == 0 && now - fight->fought > PEACE) {
      end_fight(window, (uint8_t)number);
    }
  }
}

void window_clear(struct window *window) {
  for (unsigned number = 1; number <= FIGHTS; number++) {
    window->fights[number] = (struct fight){.holder = NOBODY};
  }
  for (size_t client = 0; client < MOST_CLIENTS; client++) {
    window->clients[client] = (struct fighter){.asked = NO_PAGE};
  }
  memset(window->fight_of, 0, sizeof window->fight_of);
  uv_timer_stop(&window->timer);
}

void window_begin(struct window *window, uv_loop_t *loop) {
  uv_timer_init(loop, &window->timer);
  window->timer.data = window;
  window_clear(window);
}
