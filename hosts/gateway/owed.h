/* What a client owes the server: an answer to each Callback and Downgrade, by its page and grant,
 * and to an AbortNow. An answer counts once it came, and no other byte does. A client that keeps
 * the protocol answers each of them, also one that crossed its own message. */
#ifndef GATEWAY_OWED_H
#define GATEWAY_OWED_H

#include "frame.h"

/* An answer to a page's Callback or Downgrade; or to an AbortNow, of the page NO_PAGE, whose grant
 * is the transaction. */
struct answer {
  uint64_t grant, since;
  uint32_t page;
};

/* One a page, and one besides: the one that is owed longest is the first. */
struct owed {
  struct answer *at;
  size_t count, room;
  uint64_t dropped; /* the last transaction that is known to be over */
};

/* A frame goes to the client; false where memory was refused. */
bool owed_by(struct owed *owed, const uint8_t *frame, uint64_t now);

/* A frame came of it. */
void owed_answered(struct owed *owed, const uint8_t *frame);

/* Since when an answer is owed; 0: none is. */
uint64_t owed_since(const struct owed *owed);

/* All are owed since then at the earliest: the client wasn't heard. */
void owed_put_off(struct owed *owed, uint64_t now);

void owed_free(struct owed *owed);

#endif
