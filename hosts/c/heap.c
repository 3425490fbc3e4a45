/* The heap that the library takes its memory from: the C library's. Each function is weak, so that
 * a host may define one of its own, as one that counts, or refuses. */
#include <stdbool.h>
#include <stddef.h>
#include <stdlib.h>

typedef struct {
  bool ok;  /* false where memory was refused */
  void *at; /* never null */
} rattle_tried;

/* What is pointed at where memory was refused. */
static max_align_t nowhere;

static rattle_tried tried(void *at) {
  return at != NULL ? (rattle_tried){true, at} : (rattle_tried){false, &nowhere};
}

/* `align` is at most 16, as malloc aligns. */
__attribute__((weak)) rattle_tried rattle_alloc(size_t size, size_t align) {
  return tried(malloc(size != 0 ? size : align));
}

/* Where it is refused the old block is as it was. */
/* NOLINTNEXTLINE(bugprone-easily-swappable-parameters): the library calls it so */
__attribute__((weak)) rattle_tried rattle_realloc(void *old, size_t kept, size_t size,
                                                  size_t align) {
  (void)kept;
  return tried(realloc(old, size != 0 ? size : align));
}

__attribute__((weak)) void rattle_dealloc(void *at) { free(at); }
