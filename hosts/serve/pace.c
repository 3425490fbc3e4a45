#include "pace.h"

#include "fault.h"

/* Nanoseconds. A sync that takes less than that is fast. */
static const uint64_t SECOND = 1000000000, WAIT_MOST = 10000000, FAST = 300000;

/* For so many batches it is tried whether waits pay. What is better stays for as many, then for
 * twice as many, and so on. */
enum { TRIAL = 16, COURSE_MOST = 512 };

/* After waits in vain, one after another, nobody is waited for: for 0, 2, 6 and 14 batches. */
enum { SKIPS_MOST = 15, MOST_CLIENTS = 32 };

void pace_commit(struct pace *pace, uint32_t client) {
  pace->waiting |= UINT32_C(1) << client % MOST_CLIENTS;
}

void pace_leave(struct pace *pace, uint32_t client) {
  uint32_t others = ~(UINT32_C(1) << client % MOST_CLIENTS);
  pace->newest &= others;
  pace->former &= others;
}

/* The wait for others is over. */
static void end_wait(struct pace *pace) {
  bool in_vain = pace->waiting == pace->before;
  unsigned more = 2 * pace->pause + 1;
  pace->pause = !in_vain ? 0 : more < SKIPS_MOST ? more : SKIPS_MOST;
  pace->skips = pace->pause;
  pace->is_waiting = false;
}

void pace_sent(struct pace *pace) {
  if (pace->is_waiting) {
    end_wait(pace);
  }
  pace->former = pace->newest;
  pace->newest = pace->waiting;
  pace->waiting = 0;
  pace->sent = clock_now();
}

static uint64_t lesser(uint64_t one, uint64_t other) { return one < other ? one : other; }

void pace_begin(struct pace *pace) {
  pace->is_patient = true;
  pace->left = pace->course = TRIAL;
}

/* After a trial the better way goes on. Waits are kept where both are alike. */
static void end_trial(struct pace *pace) {
  const uint64_t *rates = pace->rates;
  bool is_patient = rates[true] + rates[true] / 16 >= rates[false];
  bool is_new = is_patient == pace->is_patient;
  unsigned longer = 2 * pace->course;
  pace->course = is_new ? TRIAL : longer < COURSE_MOST ? longer : COURSE_MOST;
  pace->is_patient = is_patient;
  pace->left = pace->course;
}

/* It was so for long enough: the other way is tried, or the trial ends. */
static void change(struct pace *pace) {
  uint64_t *rate = &pace->rates[pace->is_patient];
  uint64_t now = pace->commits * SECOND / (pace->time + 1);
  *rate = *rate == 0 ? now : (*rate + now) / 2;
  pace->commits = pace->time = 0;
  pace->is_trial = !pace->is_trial;
  if (pace->is_trial) {
    pace->is_patient = !pace->is_patient;
    pace->left = TRIAL;
  } else {
    end_trial(pace);
  }
}

void pace_done(struct pace *pace, uint64_t synced) {
  uint64_t former = pace->done;
  pace->synced = synced;
  pace->done = clock_now();
  pace->skips -= pace->skips > 0;
  if (synced >= FAST) {
    return;
  }
  /* A time in which nobody commits says nothing. */
  pace->time += lesser(pace->done - former, 4 * (pace->done - pace->sent));
  pace->commits += (unsigned)__builtin_popcount(pace->newest);
  if (--pace->left == 0) {
    change(pace);
  }
}

/* For so long others are waited for at most. */
static uint64_t longest_wait(const struct pace *pace) {
  uint64_t synced = pace->synced;
  return synced >= FAST ? lesser(synced / 2, WAIT_MOST) : pace->is_patient ? synced : 0;
}

uint64_t pace_patience(struct pace *pace) {
  uint32_t missing = (pace->newest | pace->former) & ~pace->waiting;
  uint64_t most = longest_wait(pace);
  uint64_t waited = clock_now() - pace->done;
  if (pace->waiting == 0 || missing == 0 || pace->skips > 0 || waited >= most) {
    return 0;
  }
  if (!pace->is_waiting) {
    pace->is_waiting = true;
    pace->before = pace->waiting;
  }
  return most - waited;
}
