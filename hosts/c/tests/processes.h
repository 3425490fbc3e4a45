/* The other end of a link, in a process of its own: a server with no disk, a gateway's answer. */
#ifndef PROCESSES_H
#define PROCESSES_H

#include "parties.h"
#include "rughvadi_connect.h"

#include <fcntl.h>
#include <signal.h>
#include <sys/prctl.h>
#include <sys/socket.h>
#include <sys/wait.h>
#include <unistd.h>

enum { SIZE = 64, GREETING = 8 + 1 + 1 + RUGHVADI_TOKEN + 4, ANSWER = 40, FILES = 64 };

static const rughvadi_limits limits = {2, 4, SIZE, 4, 1, 4, 0};

/* What a server does besides, where it isn't NULL: before it sends, and behind each frame taken. */
static void (*before_sends)(void);
static void (*behind_frame)(void);

static inline void send_said(rughvadi_handle *server, int to) {
  uint8_t room[1024];
  size_t size;
  uint32_t client;
  if (before_sends != NULL) {
    before_sends();
  }
  while (rughvadi_next(server, room, sizeof room, &size, &client) == RUGHVADI_DONE) {
    HOLD(send(to, room, size, MSG_NOSIGNAL) == (ssize_t)size);
  }
}

/* Takes each whole frame; how many bytes are left. */
static inline size_t take_frames(rughvadi_handle *server, int connection, uint8_t *came,
                                 size_t count) {
  size_t used;
  while (rughvadi_take(server, came, count, &used) == RUGHVADI_DONE) {
    count -= used;
    memmove(came, came + used, count);
    send_said(server, connection);
    if (behind_frame != NULL) {
      behind_frame();
    }
  }
  return count;
}

/* Serves one connection until it ends. */
static inline void serve(int connection) {
  rughvadi_handle server = RUGHVADI_EMPTY;
  uint8_t came[4096];
  size_t count = 0;
  WANT(rughvadi_server_new(&limits, &server));
  ssize_t got = read(connection, came, sizeof came);
  while (got > 0) {
    count = take_frames(&server, connection, came, count + (size_t)got);
    got = read(connection, came + count, sizeof came - count);
  }
  rughvadi_free(&server);
}

/* A gateway hears a greeting. */
static inline void hear_greeting(int connection) {
  uint8_t greeting[GREETING];
  HOLD(recv(connection, greeting, sizeof greeting, MSG_WAITALL) == GREETING);
  HOLD(memcmp(greeting, "rughvadi\1\4", 10) == 0 && memcmp(greeting + 42, "main", 4) == 0);
  for (int place = 0; place < RUGHVADI_TOKEN; place++) {
    HOLD(greeting[10 + place] == 7);
  }
}

/* A gateway that answers a greeting, with so many bytes of the answer. */
static inline void answer(int connection, const uint8_t what[2], size_t count) {
  uint8_t bytes[ANSWER] = {what[0], what[1], 0, 1};
  hear_greeting(connection);
  static const uint8_t numbers[] = {2, 4, SIZE, 4, 1, 4, 0};
  for (int place = 0; place < 7 && what[1] == 0; place++) {
    bytes[15 + 4 * place] = numbers[place];
  }
  bytes[11] = what[1] == 0 ? 9 : 0;
  HOLD(send(connection, bytes, count, MSG_NOSIGNAL) == (ssize_t)count);
}

/* A process that ends with the test, however that ends: 0 in it. */
static inline pid_t process(void) {
  pid_t parent = getpid(), child = fork();
  HOLD(child >= 0);
  if (child == 0) {
    HOLD(prctl(PR_SET_PDEATHSIG, SIGKILL) == 0 && getppid() == parent);
  }
  return child;
}

/* How many files this process has open, of the first few. */
static inline int open_files(void) {
  int count = 0;
  for (int fd = 0; fd < FILES; fd++) {
    count += fcntl(fd, F_GETFD) >= 0;
  }
  return count;
}

/* Waits for a process, which ends well. */
static inline void ended_well(pid_t child) {
  int status;
  HOLD(waitpid(child, &status, 0) == child && status == 0);
}

#endif
