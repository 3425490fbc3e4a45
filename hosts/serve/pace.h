/* When the next batch goes to disk. A batch takes one sync, whatever is in it, so it may pay to
 * wait for clients that will commit again in a moment; but nothing is written meanwhile. Where
 * syncs are fast it may be better that some clients' commits go while others make theirs.
 *
 * All who were in the last two batches are waited for: for half as long as the last batch waited
 * for its sync at most, and ten milliseconds; and not for a while where nobody came. Where the sync
 * took less than 0.3 milliseconds, it is tried whether that pays: now and then a few batches go
 * without waits, or with waits as long as a sync, and what gives more commits in a time stays; the
 * longer, the oftener it was the better. */
#ifndef SERVE_PACE_H
#define SERVE_PACE_H

#include <stdbool.h>
#include <stdint.h>

struct pace {
  uint32_t waiting;        /* whose commits wait, a bit for each client */
  uint32_t newest, former; /* whose were in the last batch, and in the one before */
  uint32_t before;         /* whose waited as the wait for others began */
  bool is_waiting;
  unsigned skips, pause; /* for so many batches nobody is waited for, and were after a vain wait */
  uint64_t sent, done; /* nanoseconds: when the last batch went, and when it was on disk, */
  uint64_t synced;     /* and how long it waited for its sync */
  bool is_patient;        /* others are waited for, where syncs are fast */
  bool is_trial;          /* that, or the opposite, is tried */
  unsigned left, course;  /* for so many batches yet; and after a trial it stays for so many */
  uint64_t commits, time; /* what went since, and how long it took */
  uint64_t rates[2];      /* commits a second: without waits, and with them */
};

/* Begins with waits. */
void pace_begin(struct pace *pace);

/* A client's commit waits for the next batch. */
void pace_commit(struct pace *pace, uint32_t client);

/* A client greeted: by the incarnation that it had it commits no more. */
void pace_leave(struct pace *pace, uint32_t client);

/* A batch of all that wait goes to disk. */
void pace_sent(struct pace *pace);

/* It is there, and waited for its sync for so many nanoseconds. */
void pace_done(struct pace *pace, uint64_t synced);

/* Nanoseconds for which the next batch is to wait yet; 0: it may go. */
uint64_t pace_patience(struct pace *pace);

#endif
