/* fighters ADDRESS TOKENS STORE PROCESSES SECONDS ORDER: client processes that add one to
 * the counters of two pages in each transaction. By ORDER all take the same pages in the same
 * order (`same`), or every second one in the opposite order (`opposite`), or each has pages of its
 * own (`own`). It prints how many commits there were, and tries; the most tries of one commit; and
 * the commits of the client with the fewest and with the most. */
#include "together.h"

/* What a client counts. */
struct count {
  uint64_t commits, tries, longest;
};

static rughvadi_link own_link;
static uint8_t page[65536];
static size_t page_size;
static uint32_t pages[2];
static double seconds;
static struct count all;
static uint64_t least = UINT64_MAX, most;

/* Both pages are read, then written. */
static uint32_t add(rughvadi_link *link) {
  uint64_t numbers[2];
  uint32_t fault = rughvadi_link_begin(link);
  for (int at = 0; at < 2 && fault == RUGHVADI_DONE; at++) {
    fault = rughvadi_link_fetch(link, pages[at], page, page_size);
    memcpy(&numbers[at], page, sizeof numbers[at]);
  }
  for (int at = 0; at < 2 && fault == RUGHVADI_DONE; at++) {
    numbers[at]++;
    memcpy(page, &numbers[at], sizeof numbers[at]);
    fault = rughvadi_link_put(link, pages[at], page, page_size);
  }
  return fault != RUGHVADI_DONE ? fault : rughvadi_link_commit(link, &numbers[0]);
}

static struct count fight(rughvadi_link *link) {
  struct count count = {0, 0, 0};
  uint64_t tries = 0;
  for (double end = now() + seconds; now() < end;) {
    uint32_t fault = add(link);
    count.tries++;
    tries++;
    if (fault == RUGHVADI_LINK_ABORTED) {
      continue;
    }
    must(fault, "a transaction");
    count.longest = tries > count.longest ? tries : count.longest;
    count.commits++;
    tries = 0;
  }
  count.longest = tries > count.longest ? tries : count.longest;
  return count;
}

static void open_link(char **words, uint32_t client) {
  rughvadi_seat seat;
  uint8_t token[RUGHVADI_TOKEN];
  must(rughvadi_token_read(words[2], client, token), "token");
  must(rughvadi_link_connect(&own_link, words[1], token, words[3], &seat), "connect");
  page_size = (size_t)seat.limits.page_size;
  bool has_own = strcmp(words[6], "own") == 0, turns = strcmp(words[6], "opposite") == 0;
  pages[0] = has_own ? 2 * client : turns && client % 2 == 1;
  pages[1] = pages[0] ^ 1;
}

static void work(uint32_t client, void *count) {
  (void)client;
  *(struct count *)count = fight(&own_link);
}

static void add_count(const void *count) {
  const struct count *each = count;
  all.commits += each->commits;
  all.tries += each->tries;
  all.longest = each->longest > all.longest ? each->longest : all.longest;
  least = each->commits < least ? each->commits : least;
  most = each->commits > most ? each->commits : most;
}

int main(int count, char **words) {
  static const struct party party = {open_link, work, add_count, sizeof(struct count)};
  int processes = count == 7 ? atoi(words[4]) : 0;
  if (processes < 1) {
    return 2;
  }
  seconds = atof(words[5]);
  int failed = together(&party, words, processes);
  printf("%llu %llu %llu %llu %llu\n", (unsigned long long)all.commits,
         (unsigned long long)all.tries, (unsigned long long)all.longest, (unsigned long long)least,
         (unsigned long long)most);
  return failed;
}
