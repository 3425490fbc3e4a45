/* A heap for the library that refuses a growth where the test says so. */
#ifndef HEAP_H
#define HEAP_H

#include <stdbool.h>
#include <stddef.h>
#include <stdlib.h>

typedef struct {
  bool ok;
  void *at;
} rattle_tried;

/* Whether this growth is refused. */
static bool is_refused(void);

static max_align_t nowhere;
static long blocks; /* that are there */

rattle_tried rattle_alloc(size_t size, size_t align) {
  void *at = is_refused() ? NULL : malloc(size != 0 ? size : align);
  if (at == NULL) {
    return (rattle_tried){false, &nowhere};
  }
  blocks++;
  return (rattle_tried){true, at};
}

rattle_tried rattle_realloc(void *old, size_t kept, size_t size, size_t align) {
  (void)kept;
  void *at = is_refused() ? NULL : realloc(old, size != 0 ? size : align);
  return at == NULL ? (rattle_tried){false, &nowhere} : (rattle_tried){true, at};
}

void rattle_dealloc(void *at) {
  blocks--;
  free(at);
}

#endif
