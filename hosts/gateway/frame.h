/* The headers of frames, and the limits of a store. docs/FORMATS.md has both. */
#ifndef GATEWAY_FRAME_H
#define GATEWAY_FRAME_H

#include "bytes.h"

enum { HEADER = 16, MOST_CLIENTS = 32 };

/* The greatest that an incarnation may be. */
#define LAST_INCARNATION ((UINT64_C(1) << 62) - 1)

/* The kinds that the gateway knows by name. */
enum {
  KIND_AGAIN = 0,
  KIND_HELLO = 1,
  KIND_ASK_READ = 2,
  KIND_ASK_WRITE = 3,
  KIND_GIVE_BACK = 4,
  KIND_IN_USE = 5,
  KIND_COMMIT = 6,
  KIND_DROP = 7,
  KIND_DOWNGRADED = 8,
  KIND_WELCOME = 65,
  KIND_GRANTED = 66,
  KIND_MAY_WRITE = 67,
  KIND_CALLBACK = 68,
  KIND_DONE = 69,
  KIND_ABORT_NOW = 70,
  KIND_DOWNGRADE = 71
};

struct limits {
  uint32_t clients, pages, page_size, slots, kin, kout, keep_write;
};

struct header {
  uint8_t version, kind;
  uint16_t client;
  uint64_t incarnation;
  uint32_t body; /* how many bytes follow the header */
};

struct header header_at(const uint8_t *bytes);
void header_to(uint8_t *bytes, const struct header *header);

/* Whether a client's frame can begin so. */
bool is_of_client(const struct header *header, const struct limits *limits);

/* Whether a server's frame can begin so. */
bool is_of_server(const struct header *header, const struct limits *limits);

/* What the body of a whole frame names: a transaction, a page and a grant. Where it has none of
 * one, that is 0, and the page NO_PAGE. What a Downgrade or Downgraded names besides is a tag, and
 * no transaction. */
enum { NO_PAGE = 0xffff };

struct named {
  uint64_t txn, grant;
  uint32_t page;
};

struct named named_by(const uint8_t *frame);

#endif
