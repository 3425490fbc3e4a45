/* pace_model CLIENTS SYNC EACH HOP THINK: how many commits go together at rughvadi-serve, by its
 * own code (pace.c) over a clock of its own. A batch takes SYNC microseconds, and EACH more for
 * each commit. A gateway hands its Dones on one after another, HOP apart, and the next commits
 * likewise, each of which a client makes in 15 microseconds and a drawn time whose mean is THINK;
 * it reaches the server 10 microseconds later. It prints how many commits there were a second, and
 * how many in a batch. Nothing in it rests on how busy the machine is. */
#define clock_now model_clock
#include "pace.c"

#include <math.h>
#include <stdio.h>
#include <stdlib.h>

enum { CLIENT = 15000, WAY = 10000, COMMITS = 60000 };

static const uint64_t NEVER = UINT64_MAX;
static struct {
  uint64_t now, written, timer; /* when the batch is on disk, and a wait is over */
  uint64_t made[MOST_CLIENTS];  /* when a client's next commit is, */
  uint64_t come[MOST_CLIENTS];  /* and when it is at the server */
  uint64_t handed_on;           /* when the gateway has nothing left to do */
  uint64_t sync, each, hop, think;
  uint64_t commits, batches;
  uint32_t waiting, out; /* whose commits wait, or are in the batch, a bit for each client */
} model = {.now = 1000000};

uint64_t model_clock(void) { return model.now; }

/* A drawn time whose mean this is. */
static uint64_t drawn(uint64_t mean) {
  static uint64_t state = 1;
  state = state * 6364136223846793005 + 1442695040888963407;
  return (uint64_t)(-log(((double)(state >> 11) + 1) / 9007199254740993.0) * (double)mean);
}

static unsigned first_of(const uint64_t *times) {
  unsigned first = 0;
  for (unsigned client = 1; client < MOST_CLIENTS; client++) {
    first = times[client] < times[first] ? client : first;
  }
  return first;
}

/* The gateway hands one more frame on: when that is done. */
static uint64_t hand_on(void) {
  model.handed_on = (model.now > model.handed_on ? model.now : model.handed_on) + model.hop;
  return model.handed_on;
}

static void send_batch(struct pace *pace) {
  pace_sent(pace);
  unsigned count = (unsigned)__builtin_popcount(model.waiting);
  model.out = model.waiting;
  model.waiting = 0;
  model.written = model.now + model.sync + model.each * count;
  model.commits += count;
  model.batches++;
}

/* What the server does once something came, or is done. */
static void look(struct pace *pace) {
  if (model.out != 0 || model.waiting == 0) {
    return;
  }
  uint64_t patience = pace_patience(pace);
  model.timer = patience > 0 ? model.now + patience : NEVER;
  if (patience == 0) {
    send_batch(pace);
  }
}

static void answer(struct pace *pace) {
  model.written = NEVER;
  pace_done(pace, model.sync);
  for (unsigned client = 0; client < MOST_CLIENTS; client++) {
    if ((model.out >> client & 1) != 0) {
      model.made[client] = hand_on() + CLIENT + drawn(model.think);
    }
  }
  model.out = 0;
}

/* What comes next: a batch is done, a commit is at the server or at the gateway, a wait is over. */
static void step(struct pace *pace) {
  unsigned coming = first_of(model.come), making = first_of(model.made);
  uint64_t first = lesser(lesser(model.written, model.timer),
                          lesser(model.come[coming], model.made[making]));
  model.now = first;
  if (first == model.written) {
    answer(pace);
  } else if (first == model.come[coming]) {
    model.come[coming] = NEVER;
    model.waiting |= UINT32_C(1) << coming;
    pace_commit(pace, coming);
  } else if (first == model.made[making]) {
    model.made[making] = NEVER;
    model.come[making] = hand_on() + WAY;
  } else {
    model.timer = NEVER;
  }
  look(pace);
}

int main(int count, char **words) {
  struct pace pace = {0};
  if (count != 6) {
    return 2;
  }
  unsigned clients = (unsigned)strtoul(words[1], NULL, 10);
  uint64_t *const times[] = {&model.sync, &model.each, &model.hop, &model.think};
  for (int at = 0; at < 4; at++) {
    *times[at] = (uint64_t)(strtod(words[2 + at], NULL) * 1000);
  }
  model.written = model.timer = NEVER;
  for (unsigned client = 0; client < MOST_CLIENTS; client++) {
    model.made[client] = client < clients ? model.now + drawn(model.sync) : NEVER;
    model.come[client] = NEVER;
  }
  pace_begin(&pace);
  while (model.commits < COMMITS) {
    step(&pace);
  }
  printf("%.0f commits a second, %.1f a batch\n",
         (double)model.commits * 1e9 / (double)model.now,
         (double)model.commits / (double)model.batches);
  return 0;
}
