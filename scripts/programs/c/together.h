/* What the client processes of a served store share: they begin at once, and hand on what each of
 * them counted. */
#include <rughvadi_connect.h>

#include <stdio.h>
#include <stdlib.h>
#include <string.h>
#include <sys/wait.h>
#include <time.h>
#include <unistd.h>

static void must(uint32_t fault, const char *what) {
  if (fault != RUGHVADI_DONE) {
    fprintf(stderr, "%s: fault 0x%x\n", what, fault);
    exit(1);
  }
}

/* Seconds of a clock that only goes forth. */
static double now(void) {
  struct timespec time;
  clock_gettime(CLOCK_MONOTONIC, &time);
  return (double)time.tv_sec + (double)time.tv_nsec / 1e9;
}

/* So many bytes go to a stream, or come from it. */
static void whole(int fd, void *bytes, size_t size, bool sends) {
  for (size_t at = 0; at < size;) {
    ssize_t moved = sends ? write(fd, (char *)bytes + at, size - at)
                          : read(fd, (char *)bytes + at, size - at);
    must(moved <= 0, "a stream");
    at += (size_t)moved;
  }
}

/* What a client does. */
struct party {
  void (*open)(char **words, uint32_t client);
  void (*work)(uint32_t client, void *count); /* once all are open */
  void (*add)(const void *count);             /* in the first process, of each client */
  size_t size;                                /* of a count, in bytes */
};

static void be_client(const struct party *party, char **words, uint32_t client, int ready,
                      int start, int counts) {
  uint64_t count[8] = {0};
  char none;
  party->open(words, client);
  whole(ready, &(char){1}, 1, true);
  must(read(start, &none, 1) != 0, "start");
  party->work(client, count);
  whole(counts, count, party->size, true);
  _exit(0);
}

/* Runs so many clients, each in a process of its own; 1 where one failed. */
static int together(const struct party *party, char **words, int processes) {
  int ready[2], start[2], counts[2], status, failed = 0;
  uint64_t count[8];
  must(pipe(ready) || pipe(start) || pipe(counts), "pipe");
  for (int client = 0; client < processes; client++) {
    if (fork() == 0) {
      close(start[1]);
      be_client(party, words, (uint32_t)client, ready[1], start[0], counts[1]);
    }
  }
  /* Where one fails, what the others say isn't waited for. */
  close(ready[1]);
  close(counts[1]);
  for (int client = 0; client < processes; client++) {
    whole(ready[0], count, 1, false);
  }
  close(start[1]);
  for (int client = 0; client < processes; client++) {
    whole(counts[0], count, party->size, false);
    party->add(count);
  }
  while (wait(&status) > 0) {
    failed |= status;
  }
  return failed != 0;
}
