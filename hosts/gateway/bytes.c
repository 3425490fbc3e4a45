#include "bytes.h"

#include <stdlib.h>
#include <string.h>

/* So much room is kept. What is beyond it goes once no more than a quarter of the room is used. */
enum { KEPT = 1 << 16 };

bool bytes_reserve(struct bytes *bytes, size_t more) {
  if (more <= bytes->room - bytes->size) {
    return true;
  }
  size_t needed = bytes->size + more;
  size_t room = needed > 2 * bytes->room ? needed : 2 * bytes->room;
  uint8_t *larger = realloc(bytes->at, room);
  if (larger == NULL) {
    return false;
  }
  bytes->at = larger;
  bytes->room = room;
  return true;
}

bool bytes_put(struct bytes *bytes, const void *more, size_t count) {
  if (!bytes_reserve(bytes, count)) {
    return false;
  }
  if (count > 0) {
    memcpy(bytes->at + bytes->size, more, count);
    bytes->size += count;
  }
  return true;
}

/* Gives back the room that isn't used. */
static void shrink(struct bytes *bytes) {
  size_t room = 2 * bytes->size > KEPT ? 2 * bytes->size : KEPT;
  uint8_t *smaller = realloc(bytes->at, room);
  if (smaller != NULL) {
    bytes->at = smaller;
    bytes->room = room;
  }
}

void bytes_cut(struct bytes *bytes, size_t count) {
  bytes->size -= count;
  if (bytes->size > 0 && count > 0) {
    memmove(bytes->at, bytes->at + count, bytes->size);
  }
  if (bytes->room > KEPT && bytes->size <= bytes->room / 4) {
    shrink(bytes);
  }
}

void bytes_free(struct bytes *bytes) {
  free(bytes->at);
  *bytes = (struct bytes){0};
}

uint64_t number_at(const uint8_t *at, size_t count) {
  uint64_t number = 0;
  for (size_t place = 0; place < count; place++) {
    number = number << 8 | at[place];
  }
  return number;
}

void put_16(uint8_t *at, uint16_t number) {
  at[0] = (uint8_t)(number >> 8);
  at[1] = (uint8_t)number;
}

void put_32(uint8_t *at, uint32_t number) {
  put_16(at, (uint16_t)(number >> 16));
  put_16(at + 2, (uint16_t)number);
}

void put_64(uint8_t *at, uint64_t number) {
  put_32(at, (uint32_t)(number >> 32));
  put_32(at + 4, (uint32_t)number);
}
