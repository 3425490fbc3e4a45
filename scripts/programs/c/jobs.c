/* jobs STORE COUNT [CLIENTS]: the same jobs by SQLite's library alone: each adds one to the
 * counters of two pages. A transaction has a job of each of so many clients, with two pages each:
 * of one if CLIENTS isn't said. */
#include "tables.h"

enum { SIZE = 16 };

/* Counts a page up, by this job. */
static void count_up(sqlite3_stmt *body, int page, long job) {
  uint8_t bytes[SIZE];
  sqlite3_bind_int(body, 1, page);
  must(sqlite3_step(body) != SQLITE_ROW);
  memcpy(bytes, sqlite3_column_blob(body, 0), SIZE);
  sqlite3_reset(body);
  for (int at = 7; at >= 0 && ++bytes[at] == 0; at--) {
  }
  put_page(page, job, bytes, SIZE);
}

int main(int count, char **words) {
  if (count != 3 && count != 4) {
    return 2;
  }
  long jobs = atol(words[2]), clients = count == 4 ? atol(words[3]) : 1;
  make_store(words[1], (int)(2 * clients), SIZE);
  sqlite3_stmt *body = prepared("SELECT body FROM part WHERE no = ?1 AND place = 0");
  for (long job = clients; job <= jobs; job += clients) {
    done(begin);
    for (int page = 0; page < 2 * clients; page++) {
      count_up(body, page, job - clients + 1 + page / 2);
    }
    commit_as(job);
  }
  return !closed();
}
