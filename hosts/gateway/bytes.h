/* Bytes that grow at the end and are taken from the front. */
#ifndef GATEWAY_BYTES_H
#define GATEWAY_BYTES_H

#include <stdbool.h>
#include <stddef.h>
#include <stdint.h>

struct bytes {
  uint8_t *at;
  size_t size, room;
};

/* Makes room for so many behind the others; false where memory was refused. */
bool bytes_reserve(struct bytes *bytes, size_t more);

/* Puts some behind the others; false, and nothing changes, where memory was refused. */
bool bytes_put(struct bytes *bytes, const void *more, size_t count);

/* Takes so many from the front. */
void bytes_cut(struct bytes *bytes, size_t count);

/* Lets all of them go. */
void bytes_free(struct bytes *bytes);

/* Numbers have their highest byte first. */
uint64_t number_at(const uint8_t *at, size_t count);
void put_16(uint8_t *at, uint16_t number);
void put_32(uint8_t *at, uint32_t number);
void put_64(uint8_t *at, uint64_t number);

#endif
