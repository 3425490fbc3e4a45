/* gather_model CLIENTS SYNC EACH BETWEEN THINK [CLOCKLESS]: how many commits go together, by the
 * gateway's own code (gather.c) over a clock of its own. A batch takes the server SYNC
 * microseconds, however long it is, and EACH more for each commit. After its answer its clients'
 * next commits come BETWEEN apart, each later by a drawn time whose mean is THINK. It prints how
 * many commits there were a second, and how many in a batch. With CLOCKLESS the gateway has no
 * clock but its ticks, and what client 0 commits alone is never answered. Nothing in it rests on
 * how busy the machine is. */
#include "gather_clock.h"

#include <math.h>
#include <stdio.h>

enum { BODY = 4122, TICK = 500000000 };
static uint64_t next_of[MOST_CLIENTS], answer_at, tick_at = TICK, sync_time, each_time;
static unsigned out[MOST_CLIENTS], out_count;
static uint64_t batches, commits;

static bool taken(void *owner, const uint8_t *bytes, size_t size) {
  (void)owner;
  for (size_t at = 0; at < size; at += HEADER + BODY) {
    out[out_count++] = header_at(bytes + at).client;
  }
  batches++;
  commits += out_count;
  answer_at = clock_now + sync_time + each_time * out_count;
  if (is_clockless && out_count == 1 && out[0] == 0) {
    out_count = 0;
    answer_at = NEVER;
  }
  return true;
}

/* A drawn time whose mean this is. */
static uint64_t drawn(uint64_t mean) {
  static uint64_t state = 1;
  state = state * 6364136223846793005 + 1442695040888963407;
  return (uint64_t)(-log(((double)(state >> 11) + 1) / 9007199254740993.0) * (double)mean);
}

static void answer(struct gather *gather, uint64_t between, uint64_t think) {
  for (unsigned at = 0; at < out_count; at++) {
    next_of[out[at]] = clock_now + between * (at + 1) + drawn(think);
  }
  out_count = 0;
  answer_at = NEVER;
  gather_answered(gather);
}

static void commit(struct gather *gather, unsigned client) {
  static uint8_t frame[HEADER + BODY];
  header_to(frame, &(struct header){2, KIND_COMMIT, (uint16_t)client, 1, BODY});
  next_of[client] = NEVER;
  gather_put(gather, frame, sizeof frame);
}

/* What comes next: the time that the gateway set, the server's answer, or a commit. */
static void step(struct gather *gather, unsigned clients, uint64_t between, uint64_t think) {
  unsigned first = 0;
  for (unsigned client = 1; client < clients; client++) {
    first = next_of[client] < next_of[first] ? client : first;
  }
  if (tick_at <= next_of[first] && tick_at <= timer_at && tick_at <= answer_at) {
    clock_now = tick_at;
    tick_at += TICK;
    gather_tick(gather);
  } else if (timer_at <= next_of[first] && timer_at <= answer_at) {
    go_on(gather);
  } else if (answer_at <= next_of[first]) {
    clock_now = answer_at;
    answer(gather, between, think);
  } else {
    clock_now = next_of[first];
    commit(gather, first);
  }
}

int main(int count, char **words) {
  struct gather gather = {.send = taken};
  uint64_t numbers[5];
  is_clockless = count == 7;
  if (count != 6 && count != 7) {
    return 2;
  }
  for (int at = 0; at < 5; at++) {
    numbers[at] = strtoul(words[1 + at], NULL, 10) * (at == 0 ? 1 : 1000);
  }
  unsigned clients = numbers[0] < MOST_CLIENTS ? (unsigned)numbers[0] : MOST_CLIENTS;
  sync_time = numbers[1];
  each_time = numbers[2];
  gather_begin(&gather, NULL);
  answer_at = timer_at = NEVER;
  for (unsigned client = 0; client < MOST_CLIENTS; client++) {
    next_of[client] = client < clients ? drawn(sync_time) : NEVER;
  }
  while (commits < 20000) {
    step(&gather, clients, numbers[3], numbers[4]);
  }
  printf("%.0f commits a second, %.1f a batch\n", (double)commits * 1e9 / (double)clock_now,
         (double)commits / (double)batches);
  gather_clear(&gather);
  return 0;
}
