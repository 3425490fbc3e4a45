#include "listen.h"

#include <errno.h>
#include <string.h>
#include <sys/socket.h>
#include <sys/stat.h>
#include <sys/un.h>
#include <unistd.h>

enum {
  BACKLOG = 1024, /* connections that the system accepts beforehand */
  TRIES = 40,     /* how often a socket's place is tried */
  PAUSE = 25      /* from one try to the next, in milliseconds */
};

/* Takes a socket away that an ended process left, and nobody listens to. A file of another kind
 * refuses a connection too, and stays. */
static void remove_left(const char *path) {
  struct stat state;
  struct sockaddr_un address = {.sun_family = AF_UNIX};
  if (lstat(path, &state) != 0 || !S_ISSOCK(state.st_mode)) {
    return;
  }
  memcpy(address.sun_path, path, strlen(path));
  int fd = socket(AF_UNIX, SOCK_STREAM | SOCK_CLOEXEC | SOCK_NONBLOCK, 0);
  if (fd >= 0 && connect(fd, (const struct sockaddr *)&address, sizeof address) != 0
      && errno == ECONNREFUSED) {
    unlink(path);
  }
  if (fd >= 0) {
    close(fd);
  }
}

/* Binds to the socket's place. While somebody else listens there it tries again: a process that a
 * killed gateway was beginning has its listener until it is the server's program. */
static int bind_local(uv_pipe_t *listener, const char *path) {
  int fault = UV_EADDRINUSE;
  for (int tries = 0; fault == UV_EADDRINUSE && tries < TRIES; tries++) {
    uv_sleep(tries > 0 ? PAUSE : 0);
    remove_left(path);
    fault = uv_pipe_bind(listener, path);
  }
  return fault;
}

int listen_local(uv_pipe_t *listener, const char *path, uv_connection_cb came) {
  if (strlen(path) >= sizeof((struct sockaddr_un *)0)->sun_path) {
    return UV_ENAMETOOLONG; /* libuv would cut it */
  }
  mode_t before = umask(0177);
  int fault = bind_local(listener, path);
  umask(before);
  return fault != 0 ? fault : uv_listen((uv_stream_t *)listener, BACKLOG, came);
}

int listen_remote(uv_tcp_t *listener, const char *address, int port, uv_connection_cb came) {
  struct sockaddr_storage to;
  int fault = uv_ip4_addr(address, port, (struct sockaddr_in *)&to);
  if (fault != 0) {
    fault = uv_ip6_addr(address, port, (struct sockaddr_in6 *)&to);
  }
  if (fault == 0) {
    fault = uv_tcp_bind(listener, (const struct sockaddr *)&to, 0);
  }
  return fault != 0 ? fault : uv_listen((uv_stream_t *)listener, BACKLOG, came);
}
