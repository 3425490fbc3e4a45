#include "owed.h"

#include <stdlib.h>
#include <string.h>

/* The place of a page's answer; the count where none is owed. */
static size_t place_of(const struct owed *owed, uint32_t page) {
  size_t at = 0;
  while (at < owed->count && owed->at[at].page != page) {
    at++;
  }
  return at;
}

static void take_out(struct owed *owed, size_t at) {
  owed->count--;
  memmove(owed->at + at, owed->at + at + 1, (owed->count - at) * sizeof *owed->at);
}

static bool make_room(struct owed *owed) {
  if (owed->count < owed->room) {
    return true;
  }
  size_t room = 2 * owed->room + 4;
  struct answer *larger = realloc(owed->at, room * sizeof *larger);
  if (larger == NULL) {
    return false;
  }
  owed->at = larger;
  owed->room = room;
  return true;
}

bool owed_by(struct owed *owed, const uint8_t *frame, uint64_t now) {
  struct named named = named_by(frame);
  uint8_t kind = header_at(frame).kind;
  bool is_abort = kind == KIND_ABORT_NOW;
  if (!is_abort && kind != KIND_CALLBACK && kind != KIND_DOWNGRADE) {
    return true;
  }
  if (is_abort && named.txn <= owed->dropped) {
    return true; /* the Drop crossed it */
  }
  uint64_t grant = is_abort ? named.txn : named.grant;
  size_t at = place_of(owed, named.page);
  if (at < owed->count && owed->at[at].grant == grant) {
    return true; /* it is said again */
  }
  if (at < owed->count) {
    take_out(owed, at);
  }
  if (!make_room(owed)) {
    return false;
  }
  owed->at[owed->count++] = (struct answer){grant, now, named.page};
  return true;
}

/* Transactions up to that one are over. */
static void ended(struct owed *owed, uint64_t txn) {
  size_t at = place_of(owed, NO_PAGE);
  owed->dropped = txn > owed->dropped ? txn : owed->dropped;
  if (at < owed->count && owed->at[at].grant <= txn) {
    take_out(owed, at);
  }
}

void owed_answered(struct owed *owed, const uint8_t *frame) {
  struct named named = named_by(frame);
  uint8_t kind = header_at(frame).kind;
  if (kind == KIND_GIVE_BACK || kind == KIND_IN_USE || kind == KIND_DOWNGRADED) {
    size_t at = place_of(owed, named.page);
    if (at < owed->count && owed->at[at].grant == named.grant) {
      take_out(owed, at);
    }
  }
  if (named.txn > 0) {
    /* A transaction that is named begins as the one before ends. */
    ended(owed, kind == KIND_DROP ? named.txn : named.txn - 1);
  }
}

uint64_t owed_since(const struct owed *owed) { return owed->count > 0 ? owed->at[0].since : 0; }

void owed_put_off(struct owed *owed, uint64_t now) {
  for (size_t at = 0; at < owed->count; at++) {
    owed->at[at].since = now;
  }
}

void owed_free(struct owed *owed) {
  free(owed->at);
  *owed = (struct owed){0};
}
