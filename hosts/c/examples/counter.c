/* counter SOCKET CLIENT COUNT: adds one to the counter of page 5, so many times. */
#include <rughvadi_link.h>

#include <stdio.h>
#include <stdlib.h>
#include <string.h>
#include <sys/socket.h>
#include <sys/un.h>
#include <unistd.h>

enum { PAGE = 5, SIZE = 64 };

static const rughvadi_limits limits = {
    .clients = 8, .pages = 16, .page_size = SIZE, .slots = 8, .kin = 2, .kout = 4};

/* In a transaction that is open; it is called anew where that is aborted. */
static uint32_t count(rughvadi_link *link, void *context) {
  uint8_t page[SIZE];
  (void)context;
  uint32_t fault = rughvadi_link_fetch(link, PAGE, page, SIZE);
  if (fault != RUGHVADI_DONE) {
    return fault;
  }
  uint64_t number;
  memcpy(&number, page, sizeof number);
  number++;
  memcpy(page, &number, sizeof number);
  return rughvadi_link_put(link, PAGE, page, SIZE);
}

static int connected(const char *path) {
  struct sockaddr_un address = {.sun_family = AF_UNIX};
  strncpy(address.sun_path, path, sizeof address.sun_path - 1);
  int fd = socket(AF_UNIX, SOCK_STREAM, 0);
  if (fd < 0 || connect(fd, (const struct sockaddr *)&address, sizeof address) != 0) {
    perror(path);
    exit(1);
  }
  return fd;
}

/* Asks the server for an incarnation that no earlier one of this client had. */
static uint64_t asked(int fd, const char *client) {
  uint8_t header[16] = {2, 0, 0, (uint8_t)atoi(client)};
  uint64_t incarnation = 0;
  if (write(fd, header, 16) != 16 || recv(fd, header, 16, MSG_WAITALL) != 16) {
    perror("incarnation");
    exit(1);
  }
  for (int at = 4; at < 12; at++) {
    incarnation = incarnation << 8 | header[at];
  }
  return incarnation;
}

int main(int argc, char **argv) {
  if (argc != 4) {
    return 2;
  }
  rughvadi_link link;
  uint32_t client = (uint32_t)atoi(argv[2]);
  int fd = connected(argv[1]);
  uint32_t fault = rughvadi_link_open(&link, &limits, client, asked(fd, argv[2]), fd);
  int times = atoi(argv[3]);
  for (int at = 0; at < times && fault == RUGHVADI_DONE; at++) {
    uint64_t number;
    fault = rughvadi_link_run(&link, count, NULL, &number);
  }
  if (fault != RUGHVADI_DONE) {
    fprintf(stderr, "fault 0x%x\n", fault);
    return 1;
  }
  rughvadi_link_close(&link);
  printf("counted %d\n", times);
  return 0;
}
