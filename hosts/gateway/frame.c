#include "frame.h"

enum { COMMIT_HEAD = 10, LAST_KIND = 71 };

struct header header_at(const uint8_t *bytes) {
  return (struct header){
      .version = bytes[0],
      .kind = bytes[1],
      .client = (uint16_t)number_at(bytes + 2, 2),
      .incarnation = number_at(bytes + 4, 8),
      .body = (uint32_t)number_at(bytes + 12, 4),
  };
}

void header_to(uint8_t *bytes, const struct header *header) {
  bytes[0] = header->version;
  bytes[1] = header->kind;
  put_16(bytes + 2, header->client);
  put_64(bytes + 4, header->incarnation);
  put_32(bytes + 12, header->body);
}

/* Whether a commit can have so many bytes: its head, and as many pages as a transaction writes. */
static bool is_commit(const struct header *header, const struct limits *limits) {
  uint32_t page = limits->page_size + (header->version == 1 ? 14 : 16);
  uint32_t most = limits->slots < limits->pages ? limits->slots : limits->pages;
  return header->body >= COMMIT_HEAD && (header->body - COMMIT_HEAD) % page == 0
         && (header->body - COMMIT_HEAD) / page <= most;
}

bool is_of_client(const struct header *header, const struct limits *limits) {
  /* The bodies of the kinds 1 to 8; a commit's has no one length. */
  static const uint32_t bodies[] = {0, 0, 12, 20, 12, 20, 0, 8, 20};
  uint8_t last = header->version == 1 ? 7 : 8;
  bool known = header->version == 2 || (header->version == 1 && limits->page_size <= 4096);
  if (!known || header->kind < KIND_HELLO || header->kind > last) {
    return false;
  }
  return header->kind == KIND_COMMIT ? is_commit(header, limits)
                                     : header->body == bodies[header->kind];
}

bool is_of_server(const struct header *header, const struct limits *limits) {
  /* The bodies of the kinds from Welcome on; a granted page's bytes come on top. */
  static const uint32_t bodies[] = {0, 24, 20, 12, 16, 8, 20};
  if (header->version != 2 || header->kind < KIND_WELCOME || header->kind > LAST_KIND) {
    return false;
  }
  uint32_t page = header->kind == KIND_GRANTED ? limits->page_size : 0;
  return header->client < limits->clients
         && header->body == bodies[header->kind - KIND_WELCOME] + page;
}

struct named named_by(const uint8_t *frame) {
  /* Where each stands in the frame, 0 where the kind has none. */
  static const struct {
    uint8_t txn, page, grant;
  } places[LAST_KIND + 1] = {
      [KIND_ASK_READ] = {16, 24, 0},   [KIND_ASK_WRITE] = {16, 24, 28},
      [KIND_GIVE_BACK] = {0, 16, 20},  [KIND_IN_USE] = {16, 24, 28},
      [KIND_COMMIT] = {16, 0, 0},      [KIND_DROP] = {16, 0, 0},
      [KIND_DOWNGRADED] = {0, 16, 20}, [KIND_GRANTED] = {0, 16, 20},
      [KIND_MAY_WRITE] = {16, 24, 28}, [KIND_CALLBACK] = {0, 16, 20},
      [KIND_DONE] = {16, 0, 0},        [KIND_ABORT_NOW] = {16, 0, 0},
      [KIND_DOWNGRADE] = {0, 16, 20},
  };
  struct named named = {.page = NO_PAGE};
  uint8_t kind = frame[1];
  if (kind > LAST_KIND) {
    return named;
  }
  size_t txn = places[kind].txn, page = places[kind].page, grant = places[kind].grant;
  named.txn = txn != 0 ? number_at(frame + txn, 8) : 0;
  named.page = page != 0 ? (uint32_t)number_at(frame + page, 4) : NO_PAGE;
  named.grant = grant != 0 ? number_at(frame + grant, 8) : 0;
  return named;
}
