// Loaded before a program (LD_PRELOAD), it makes each sync of a file take longer: by the
// microseconds of SYNC_MICROSECONDS, as on a slower disk; and while there is a FIFO that HELD_SYNC
// names, from when that is opened for writing until it is closed.
#define _GNU_SOURCE
#include <dlfcn.h>
#include <fcntl.h>
#include <stdlib.h>
#include <time.h>
#include <unistd.h>

static int (*begun(const char *name))(int) {
  const char *told = getenv("SYNC_MICROSECONDS"), *path = getenv("HELD_SYNC");
  long microseconds = told ? atol(told) : 0;
  struct timespec time = {microseconds / 1000000, microseconds % 1000000 * 1000};
  nanosleep(&time, NULL);
  int fifo = path ? open(path, O_RDONLY | O_CLOEXEC) : -1;
  char byte;
  if (fifo >= 0) {
    while (read(fifo, &byte, 1) > 0) {
    }
    close(fifo);
  }
  return (int (*)(int))dlsym(RTLD_NEXT, name);
}

int fsync(int file) { return begun("fsync")(file); }

int fdatasync(int file) { return begun("fdatasync")(file); }
