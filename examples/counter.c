/* counter ADDRESSES TOKENS CLIENT TIMES: adds one to a counter that many processes share, so often.
 *
 * ADDRESSES are those of the store's gateways, with commas between them: where a connection ends it
 * goes on at the next one. Page 0 of the store has the counter, and behind it how often each client
 * has added to it. By its own number a client that had to connect anew knows whether its last
 * commit was done, though no answer came. So the counter is right whatever is killed meanwhile.
 */
#include <rughvadi_connect.h>

#include <stdio.h>
#include <stdlib.h>
#include <string.h>
#include <time.h>

enum { PAGE = 0, MOST_SIZE = 65536 };

struct work {
  uint32_t client;
  size_t page_size;
  uint64_t counter, added; /* as they stand after the last transaction */
  uint64_t wanted;         /* how often this client is to have added; 0: isn't known yet */
};

static uint64_t number_at(const uint8_t *page, size_t place) {
  uint64_t number;
  memcpy(&number, page + 8 * place, sizeof number);
  return number;
}

static uint64_t add_one(uint8_t *page, size_t place) {
  uint64_t number = number_at(page, place) + 1;
  memcpy(page + 8 * place, &number, sizeof number);
  return number;
}

/* In a transaction that is open: adds one, unless that was done often enough. */
static uint32_t add(rughvadi_link *link, void *context) {
  struct work *work = context;
  uint8_t page[MOST_SIZE];
  uint32_t fault = rughvadi_link_fetch(link, PAGE, page, work->page_size);
  if (fault != RUGHVADI_DONE) {
    return fault;
  }
  work->counter = number_at(page, 0);
  work->added = number_at(page, 1 + work->client);
  if (work->wanted == 0 || work->added == work->wanted) {
    return RUGHVADI_DONE;
  }
  work->counter = add_one(page, 0);
  work->added = add_one(page, 1 + work->client);
  return rughvadi_link_put(link, PAGE, page, work->page_size);
}

/* Adds until it is enough, or the connection ends. */
static uint32_t add_all(rughvadi_link *link, struct work *work, uint64_t times) {
  uint64_t number;
  uint32_t fault = rughvadi_link_run(link, add, work, &number);
  if (fault == RUGHVADI_DONE && work->wanted == 0) {
    work->wanted = work->added + times;
  }
  while (fault == RUGHVADI_DONE && work->added != work->wanted) {
    fault = rughvadi_link_run(link, add, work, &number);
  }
  return fault;
}

/* Connects once, and adds. */
static uint32_t visit(rughvadi_gateways *gateways, const uint8_t *token, struct work *work,
                      uint64_t times) {
  rughvadi_link link;
  rughvadi_seat seat;
  uint32_t fault = rughvadi_link_connect_next(&link, gateways, token, "main", &seat);
  if (fault != RUGHVADI_DONE) {
    return fault;
  }
  work->client = seat.client;
  work->page_size = (size_t)seat.limits.page_size;
  if (work->page_size < 8 * (2 + (size_t)seat.client)) {
    fault = RUGHVADI_WRONG_LENGTH;
  } else {
    fault = add_all(&link, work, times);
  }
  rughvadi_link_close(&link);
  return fault;
}

/* Whether a server may be there in a moment, here or at another address. */
static bool is_gone(uint32_t fault) {
  return fault == RUGHVADI_LINK_CLOSED || fault == RUGHVADI_LINK_SYSTEM
         || fault == RUGHVADI_LINK_SILENT || fault == RUGHVADI_CONNECT_DOWN;
}

int main(int count, char **words) {
  if (count != 5) {
    fputs("counter ADDRESSES TOKENS CLIENT TIMES\n", stderr);
    return 2;
  }
  uint8_t token[RUGHVADI_TOKEN];
  struct work work = {0};
  rughvadi_gateways gateways = {.addresses = words[1]};
  uint32_t fault = rughvadi_token_read(words[2], (uint32_t)atoi(words[3]), token);
  for (int tries = 0; fault == RUGHVADI_DONE; tries++) {
    fault = visit(&gateways, token, &work, strtoull(words[4], NULL, 10));
    if (!is_gone(fault) || tries == 100) {
      break;
    }
    nanosleep(&(struct timespec){.tv_nsec = 100000000}, NULL);
    fault = RUGHVADI_DONE;
  }
  if (fault != RUGHVADI_DONE) {
    fprintf(stderr, "counter: fault 0x%x\n", fault);
    return 1;
  }
  printf("client %u added %s, the counter is %llu\n", work.client, words[4],
         (unsigned long long)work.counter);
  return 0;
}
