/* A server and clients in one process, for the tests. */
#ifndef PARTIES_H
#define PARTIES_H

#include "rughvadi.h"

#include <stdio.h>
#include <stdlib.h>
#include <string.h>

static inline const char *text_of(uint32_t fault) {
  static uint8_t room[65];
  size_t size = 0;
  if (rughvadi_fault_text(fault, room, sizeof room - 1, &size) != RUGHVADI_DONE) {
    size = 0;
  }
  room[size] = 0;
  return (const char *)room;
}

/* Ends the test where a call is refused that may not be. */
#define WANT(call)                                                                          \
  do {                                                                                      \
    uint32_t fault_ = (call);                                                               \
    if (fault_ != RUGHVADI_DONE) {                                                          \
      fprintf(stderr, "%s:%d: %s: 0x%x %s\n", __FILE__, __LINE__, #call, fault_,            \
              text_of(fault_));                                                             \
      exit(1);                                                                              \
    }                                                                                       \
  } while (0)

#define HOLD(fact)                                                                          \
  do {                                                                                      \
    if (!(fact)) {                                                                          \
      fprintf(stderr, "%s:%d: not so: %s\n", __FILE__, __LINE__, #fact);                    \
      exit(1);                                                                              \
    }                                                                                       \
  } while (0)

/* Numbers that look random, always the same for a seed. */
static uint64_t random_state = 88172645463325252u;
static inline uint64_t draw(void) {
  random_state ^= random_state << 13;
  random_state ^= random_state >> 7;
  return random_state ^= random_state << 17;
}

#endif
