// Counts the growths of a program, refuses one of them, and tells at the end how many there were.
//
// Loaded before the C library (LD_PRELOAD). REFUSED is the number of the growth that is refused,
// counted from 1; with 0 none is. REFUSED_THREAD is that of the thread that can't be made. The last
// line on the standard error is the count of growths.
#define _GNU_SOURCE
#include <dlfcn.h>
#include <errno.h>
#include <pthread.h>
#include <stdatomic.h>
#include <stdio.h>
#include <stdlib.h>
#include <sys/syscall.h>
#include <unistd.h>

static atomic_ulong growths, threads;
static unsigned long refused, refused_thread;

__attribute__((constructor)) static void begin(void) {
  const char *number = getenv("REFUSED"), *thread = getenv("REFUSED_THREAD");
  refused = number ? strtoul(number, NULL, 10) : 0;
  refused_thread = thread ? strtoul(thread, NULL, 10) : 0;
  growths = 0;
}

__attribute__((destructor)) static void end(void) {
  char line[32];
  int length = snprintf(line, sizeof line, "%lu\n", atomic_load(&growths));
  if (write(2, line, length) != length) abort();
}

// A program that may start threads ends so, and no destructor runs.
void _exit(int status) {
  end();
  for (;;) syscall(SYS_exit_group, status);
}

static int is_refused(void) {
  if (++growths != refused) return 0;
  errno = ENOMEM;
  return 1;
}

void *malloc(size_t size) {
  static void *(*real)(size_t);
  if (!real) real = dlsym(RTLD_NEXT, "malloc");
  return is_refused() ? NULL : real(size);
}

void *realloc(void *old, size_t size) {
  static void *(*real)(void *, size_t);
  if (!real) real = dlsym(RTLD_NEXT, "realloc");
  return is_refused() ? NULL : real(old, size);
}

void *calloc(size_t count, size_t size) {
  static void *(*real)(size_t, size_t);
  if (!real) real = dlsym(RTLD_NEXT, "calloc");
  return is_refused() ? NULL : real(count, size);
}

void *aligned_alloc(size_t alignment, size_t size) {
  static void *(*real)(size_t, size_t);
  if (!real) real = dlsym(RTLD_NEXT, "aligned_alloc");
  return is_refused() ? NULL : real(alignment, size);
}

int pthread_create(pthread_t *made, const pthread_attr_t *how, void *(*begins)(void *), void *it) {
  static int (*real)(pthread_t *, const pthread_attr_t *, void *(*)(void *), void *);
  if (!real) real = dlsym(RTLD_NEXT, "pthread_create");
  return ++threads == refused_thread ? EAGAIN : real(made, how, begins, it);
}
