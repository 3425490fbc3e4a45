/* room_model: how much room the gateway's bytes keep (bytes.c): once a megabyte came, then all but
 * 100 bytes were taken; once those were, too; and once ten megabytes came and half of them was
 * taken. */
#include "bytes.c"

#include <stdio.h>

static size_t room_after(struct bytes *bytes, size_t come, size_t go) {
  static const uint8_t some[10 << 20];
  if (!bytes_put(bytes, some, come)) {
    return 0;
  }
  bytes_cut(bytes, go);
  return bytes->room;
}

int main(void) {
  struct bytes bytes = {0};
  size_t first = room_after(&bytes, 1 << 20, (1 << 20) - 100);
  size_t second = room_after(&bytes, 0, 100);
  size_t third = room_after(&bytes, 10 << 20, 5 << 20);
  printf("%zu %zu %zu\n", first, second, third);
  bytes_free(&bytes);
  return 0;
}
