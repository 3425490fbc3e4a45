/* gather_cases [clockless] STEP..: which commits the gateway sends together, by its own code
 * (gather.c) over a clock of its own, or without a clock. For each batch that goes it prints a line
 * with its clients, and commas between them. A step is a letter, mostly with a number behind it:
 *
 *   cN, hN, bN  client N commits a little, as much as half a round, a byte more than that
 *   lN          client N leaves
 *   a           the server answers
 *   tN          N microseconds pass
 *   k           the gateway's tick, where it has no clock
 *   s, x        all that wait go; all is forgotten
 *   p           the microseconds that others are waited for yet are printed, or - if nobody is */
#include "gather_clock.h"

#include <stdio.h>
#include <stdlib.h>
#include <string.h>

static bool taken(void *owner, const uint8_t *bytes, size_t size) {
  (void)owner;
  for (size_t at = 0; at < size; at += HEADER + header_at(bytes + at).body) {
    printf("%s%u", at == 0 ? "" : ",", (unsigned)header_at(bytes + at).client);
  }
  puts("");
  return true;
}

static void commit(struct gather *gather, uint64_t client, uint32_t size) {
  static uint8_t frame[ROUND];
  header_to(frame, &(struct header){2, KIND_COMMIT, (uint16_t)client, 1, size - HEADER});
  gather_put(gather, frame, size);
}

static void pass(struct gather *gather, uint64_t microseconds) {
  uint64_t until = clock_now + microseconds * 1000;
  while (timer_at <= until) {
    go_on(gather);
  }
  clock_now = until;
}

static void show(const struct gather *gather) {
  if (gather->is_armed && !gather->is_out) {
    printf("%llu\n", (unsigned long long)(timer_at - clock_now) / 1000);
  } else {
    puts("-");
  }
}

static void step(struct gather *gather, char letter, uint64_t number) {
  switch (letter) {
  case 'c': commit(gather, number, 100); break;
  case 'h': commit(gather, number, ROUND / 2); break;
  case 'b': commit(gather, number, ROUND / 2 + 1); break;
  case 'l': gather_leave(gather, (uint16_t)number); break;
  case 'a': gather_answered(gather); break;
  case 't': pass(gather, number); break;
  case 'k': gather_tick(gather); break;
  case 's': gather_send_all(gather); break;
  case 'x': gather_clear(gather); break;
  case 'p': show(gather); break;
  default: exit(2);
  }
}

int main(int count, char **words) {
  struct gather gather = {.send = taken};
  is_clockless = count > 1 && strcmp(words[1], "clockless") == 0;
  timer_at = NEVER;
  gather_begin(&gather, NULL);
  for (int at = is_clockless ? 2 : 1; at < count; at++) {
    step(&gather, words[at][0], strtoull(words[at] + 1, NULL, 10));
  }
  gather_clear(&gather);
  return 0;
}
