#include "fault.h"

#include <rughvadi.h>
#include <stdarg.h>
#include <stdio.h>
#include <time.h>

int fault_said(enum fault fault) {
  static const struct {
    int status;
    const char *line;
  } endings[FAULTS] = {
      [NO_FAULT] = {0, NULL},
      [FAULT_WORDS] = {2, NULL},
      [FAULT_SHAPE] = {3, "store: Shape"},
      [FAULT_STORE] = {3, "store: Store"},
      [FAULT_EXHAUSTED] = {3, "store: Exhausted"},
      [FAULT_FENCED] = {3, "store: Fenced"},
      [FAULT_UNSAFE] = {3, "store: Unsafe"},
      [FAULT_NO_FRAME] = {3, "input: no frame"},
      [FAULT_CUT] = {3, "input: frame cut"},
      [FAULT_INPUT] = {3, "input: cannot read"},
      [FAULT_MEMORY] = {4, "memory"},
      [FAULT_OUTPUT] = {5, "cannot write"},
      [FAULT_CLOSED] = {5, NULL},
      [FAULT_GONE] = {0, NULL},
  };
  if (endings[fault].line != NULL) {
    fprintf(stderr, "%s\n", endings[fault].line);
  }
  return endings[fault].status;
}

enum fault fault_of(uint32_t answer) {
  switch (answer) {
    case RUGHVADI_DONE: return NO_FAULT;
    case RUGHVADI_MEMORY:
    case RUGHVADI_FRAME_MEMORY: return FAULT_MEMORY;
    case RUGHVADI_EXHAUSTED: return FAULT_EXHAUSTED;
    case RUGHVADI_ROOM:
    case RUGHVADI_RANGE: return FAULT_SHAPE; /* of rows that are opened */
    default: tell("the library answered 0x%x", answer); return FAULT_STORE;
  }
}

uint64_t clock_now(void) {
  struct timespec time;
  clock_gettime(CLOCK_MONOTONIC, &time);
  return (uint64_t)time.tv_sec * 1000000000 + (uint64_t)time.tv_nsec;
}

void tell(const char *format, ...) {
  va_list words;
  va_start(words, format);
  fputs("rughvadi-serve: ", stderr);
  vfprintf(stderr, format, words);
  fputc('\n', stderr);
  va_end(words);
}
