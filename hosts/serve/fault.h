/* How a service ends that doesn't end with its input: docs/FORMATS.md has the lines. */
#ifndef SERVE_FAULT_H
#define SERVE_FAULT_H

#include <stdint.h>

enum fault {
  NO_FAULT = 0,
  FAULT_WORDS,     /* they are wrong, which is said already */
  FAULT_SHAPE,     /* the tables aren't of a store of these limits */
  FAULT_STORE,     /* the engine refused otherwise */
  FAULT_EXHAUSTED, /* no number is left */
  FAULT_FENCED,    /* another life of the store has begun */
  FAULT_UNSAFE,    /* what is committed might be lost */
  FAULT_NO_FRAME,  /* a header that no frame has */
  FAULT_CUT,       /* the input ended within a frame */
  FAULT_INPUT,     /* the input can't be read */
  FAULT_MEMORY,
  FAULT_OUTPUT, /* the output can't be written */
  FAULT_CLOSED, /* the output is closed */
  FAULT_GONE,   /* the input ended before the store was to be had: nothing was served */
  FAULTS
};

/* Says its line on the standard error, if it has one, and answers its status. */
int fault_said(enum fault fault);

/* The fault behind a number that the library answered; none may stand that a host can avoid. */
enum fault fault_of(uint32_t answer);

/* Says a line of more detail on the standard error. */
__attribute__((format(printf, 1, 2))) void tell(const char *format, ...);

/* The nanoseconds of a clock that nobody sets. */
uint64_t clock_now(void);

#endif
