#include "notify.h"

#include <stddef.h>
#include <stdlib.h>
#include <string.h>
#include <sys/socket.h>
#include <sys/un.h>
#include <unistd.h>

static struct sockaddr_un manager;
static socklen_t manager_size; /* 0: there is none */

void notify_begin(void) {
  const char *path = getenv("NOTIFY_SOCKET");
  size_t size = path != NULL ? strlen(path) : 0;
  if (size > 1 && size < sizeof manager.sun_path && (*path == '/' || *path == '@')) {
    manager.sun_family = AF_UNIX;
    memcpy(manager.sun_path, path, size);
    if (*path == '@') {
      manager.sun_path[0] = '\0'; /* an abstract one begins so */
    }
    manager_size = (socklen_t)(offsetof(struct sockaddr_un, sun_path) + size);
  }
  unsetenv("NOTIFY_SOCKET");
}

void notify(const char *state) {
  int fd = manager_size > 0 ? socket(AF_UNIX, SOCK_DGRAM | SOCK_CLOEXEC, 0) : -1;
  if (fd >= 0) {
    /* Who doesn't listen isn't told. */
    (void)!sendto(fd, state, strlen(state), MSG_NOSIGNAL, (const struct sockaddr *)&manager,
                  manager_size);
    close(fd);
  }
}
