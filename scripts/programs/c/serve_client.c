/* Client processes that commit for some seconds, each on a page of its own:
 *
 *   serve_client gateway ADDRESS TOKENS STORE[,STORE..] PROCESSES SECONDS
 *   serve_client served SOCKET CLIENTS PAGES PAGE_SIZE KEEP PROCESSES SECONDS
 *   serve_client plain SOCKET PAGE_SIZE PROCESSES SECONDS
 *
 * It prints how many commits there were a second. `plain` sends a page and waits for the answer. */
#include "together.h"

static uint8_t token[RUGHVADI_TOKEN], page[65536];
static size_t page_size;
static double seconds;
static rughvadi_link own_link;
static int plain = -1; /* the stream, where it is no link */
static uint64_t all;

/* Adds one to the counter of a page of the client's own. */
static uint32_t count_up(rughvadi_link *link, void *own) {
  uint32_t fault = rughvadi_link_fetch(link, *(uint32_t *)own, page, page_size);
  if (fault == RUGHVADI_DONE) {
    ++*(uint64_t *)page;
    fault = rughvadi_link_put(link, *(uint32_t *)own, page, page_size);
  }
  return fault;
}

static uint64_t by_link(rughvadi_link *link, uint32_t own) {
  uint64_t number, count = 0;
  for (double end = now() + seconds; now() < end; count++) {
    must(rughvadi_link_run(link, count_up, &own, &number), "commit");
  }
  return count;
}

static uint64_t by_frames(int fd, uint32_t own) {
  uint64_t count = 0, number;
  static uint8_t frame[4 + sizeof page];
  memcpy(frame, &own, sizeof own);
  for (double end = now() + seconds; now() < end; count++) {
    ++*(uint64_t *)page;
    memcpy(frame + 4, page, page_size);
    whole(fd, frame, 4 + page_size, true);
    whole(fd, &number, sizeof number, false);
  }
  return count;
}

/* The name at this place of a list, as often round as needed. */
static char *named(char *list, uint32_t place) {
  char *names[64], *rest = NULL;
  uint32_t count = 0;
  for (char *name = strtok_r(list, ",", &rest); name != NULL && count < 64; count++) {
    names[count] = name;
    name = strtok_r(NULL, ",", &rest);
  }
  return names[place % count];
}

static void by_gateway(rughvadi_link *link, char **words, uint32_t client) {
  rughvadi_seat seat;
  must(rughvadi_token_read(words[3], client, token), "token");
  must(rughvadi_link_connect(link, words[2], token, named(words[4], client), &seat), "connect");
  page_size = (size_t)seat.limits.page_size;
}

/* The incarnation that the host says this client may have. */
static uint64_t asked_incarnation(int fd, uint32_t client) {
  uint8_t header[16] = {2, 0, (uint8_t)(client >> 8), (uint8_t)client};
  uint64_t incarnation = 0;
  whole(fd, header, sizeof header, true);
  whole(fd, header, sizeof header, false);
  for (size_t place = 4; place < 12; place++) {
    incarnation = incarnation << 8 | header[place];
  }
  return incarnation;
}

static void by_served(rughvadi_link *link, char **words, uint32_t client) {
  int fd;
  rughvadi_limits limits = {strtoul(words[3], NULL, 10), strtoul(words[4], NULL, 10),
                            strtoul(words[5], NULL, 10), 16, 4, 8, strtoul(words[6], NULL, 10)};
  page_size = (size_t)limits.page_size;
  must(rughvadi_dial(words[2], &fd), "dial");
  uint64_t incarnation = asked_incarnation(fd, client);
  must(rughvadi_link_open(link, &limits, client, incarnation, fd), "open");
}

static void open_one(char **words, uint32_t client) {
  if (strcmp(words[1], "plain") == 0) {
    page_size = strtoul(words[3], NULL, 10);
    must(rughvadi_dial(words[2], &plain), "dial");
  } else {
    (strcmp(words[1], "gateway") == 0 ? by_gateway : by_served)(&own_link, words, client);
  }
}

static void work(uint32_t client, void *count) {
  *(uint64_t *)count = plain >= 0 ? by_frames(plain, client) : by_link(&own_link, client);
}

static void add_count(const void *count) { all += *(const uint64_t *)count; }

int main(int count, char **words) {
  static const struct party party = {open_one, work, add_count, sizeof all};
  if (count < 6) {
    return 2;
  }
  seconds = atof(words[count - 1]);
  int failed = together(&party, words, atoi(words[count - 2]));
  printf("%.0f\n", (double)all / seconds);
  return failed;
}
