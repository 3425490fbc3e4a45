/* database_commits FILE PAGES CHANGED SECONDS: sets pages by SQLite's library in C alone, as the
 * program of the same name does by the database's library. Each transaction sets PAGES pages of
 * 4,096 bytes, of which the first CHANGED are others than before, their versions and the number of
 * the last commit. It prints how many pages it set a second. */
#include "tables.h"

int main(int count, char **words) {
  static uint8_t body[4096];
  if (count != 5) {
    return 2;
  }
  make_store(words[1], 64, sizeof body);
  int pages = atoi(words[2]), changed = atoi(words[3]), seconds = atoi(words[4]);
  int64_t number = 0;
  for (double end = now() + seconds; now() < end;) {
    number++;
    for (int at = 0; at < changed; at++) {
      body[at]++;
    }
    done(begin);
    for (int no = 0; no < pages; no++) {
      put_page(no, number, body, sizeof body);
    }
    commit_as(number);
  }
  printf("%lld\n", (long long)number * pages / (seconds > 0 ? seconds : 1));
  return !closed();
}
