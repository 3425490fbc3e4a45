/* plain_server SOCKET DATABASE PAGES PAGE_SIZE: what a server does with no protocol. A frame is a
 * page's number (4 bytes) and its bytes; all that came in a round are written in one SQLite
 * transaction, with version and number, and 8 bytes answer each. */
#include "tables.h"

#include <poll.h>
#include <sys/socket.h>
#include <sys/un.h>
#include <unistd.h>

enum { MOST = 64 };

struct peer {
  int fd;
  size_t size;
  uint8_t in[4 + 65536];
};

static struct peer peers[MOST];
static int count;
static size_t page_size;
static int64_t number;

/* Reads what came; whether a frame is whole. A peer that went is forgotten by its number. */
static int receive(struct peer *peer) {
  ssize_t got = read(peer->fd, peer->in + peer->size, 4 + page_size - peer->size);
  if (got <= 0) {
    close(peer->fd);
    peer->fd = -1;
    return 0;
  }
  peer->size += (size_t)got;
  return peer->size == 4 + page_size;
}

static void one_round(int listener) {
  struct pollfd watched[MOST + 1] = {{.fd = listener, .events = POLLIN}};
  int whole[MOST], wholes = 0;
  for (int at = 0; at < count; at++)
    watched[at + 1] = (struct pollfd){peers[at].fd, POLLIN, 0};
  must(poll(watched, (nfds_t)count + 1, -1) < 0);
  for (int at = 0; at < count; at++)
    if (watched[at + 1].revents && receive(&peers[at]))
      whole[wholes++] = at;
  if (wholes > 0) {
    done(begin);
    for (int at = 0; at < wholes; at++) {
      uint32_t no;
      memcpy(&no, peers[whole[at]].in, sizeof no);
      put_page(no, ++number, peers[whole[at]].in + 4, page_size);
    }
    commit_as(number);
  }
  for (int at = 0; at < wholes; at++) {
    must(write(peers[whole[at]].fd, &number, sizeof number) != sizeof number);
    peers[whole[at]].size = 0;
  }
  if (watched[0].revents && count < MOST)
    peers[count++] = (struct peer){.fd = accept(listener, NULL, NULL)};
}

int main(int words, char **text) {
  if (words != 5)
    return 2;
  page_size = strtoul(text[4], NULL, 10);
  make_store(text[2], atoi(text[3]), page_size);
  struct sockaddr_un address = {.sun_family = AF_UNIX};
  strncpy(address.sun_path, text[1], sizeof address.sun_path - 1);
  int listener = socket(AF_UNIX, SOCK_STREAM, 0);
  must(bind(listener, (struct sockaddr *)&address, sizeof address) || listen(listener, MOST));
  puts("ready");
  fflush(stdout);
  for (;;)
    one_round(listener);
}
