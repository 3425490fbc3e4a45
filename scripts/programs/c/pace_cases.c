/* pace_cases STEP..: for how long rughvadi-serve lets a batch wait, by its own code (pace.c) over a
 * clock of its own. A step is a letter, mostly with a number behind it:
 *
 *   cN, lN   client N has a commit that waits; it leaves
 *   b, dN    a batch of all that wait goes; it is on disk, after a sync of N microseconds
 *   tN       N microseconds pass
 *   p        the microseconds that the next batch is to wait yet are printed */
#define clock_now model_clock
#include "pace.c"

#include <stdio.h>
#include <stdlib.h>

static uint64_t now = 1000000;

uint64_t model_clock(void) { return now; }

static void step(struct pace *pace, char letter, uint64_t number) {
  uint64_t time = number * 1000;
  switch (letter) {
  case 'c': pace_commit(pace, (uint32_t)number); break;
  case 'l': pace_leave(pace, (uint32_t)number); break;
  case 'b': pace_sent(pace); break;
  case 'd': now += time; pace_done(pace, time); break;
  case 't': now += time; break;
  case 'p': printf("%llu\n", (unsigned long long)pace_patience(pace) / 1000); break;
  default: exit(2);
  }
}

int main(int count, char **words) {
  struct pace pace = {0};
  pace_begin(&pace);
  for (int at = 1; at < count; at++) {
    step(&pace, words[at][0], strtoull(words[at] + 1, NULL, 10));
  }
  return 0;
}
