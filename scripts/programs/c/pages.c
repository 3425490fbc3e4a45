/* pages FILE PAGES SIZE COUNT: sets batches of pages in a shelf's tables by a shelf's statements,
 * each time with other bytes, by SQLite's library, and reads the pages back. It prints how many
 * microseconds each took. */
#include "tables.h"

static void load(const char *path, int pages, size_t size) {
  double start = now();
  must(sqlite3_open(path, &db));
  sqlite3_stmt *all = prepared("SELECT no, version FROM page2 ORDER BY no");
  long sum = 0;
  while (sqlite3_step(all) == SQLITE_ROW) {
    sum += sqlite3_column_int64(all, 1);
  }
  sqlite3_stmt *parts = prepared("SELECT no, place, body FROM part ORDER BY no, place");
  uint8_t *copy = malloc((size_t)pages * size);
  for (size_t at = 0; sqlite3_step(parts) == SQLITE_ROW; at += size) {
    memcpy(copy + at, sqlite3_column_blob(parts, 2), size);
  }
  printf("load %.0f\n", (now() - start) * 1e6);
}

int main(int argc, char **argv) {
  if (argc != 5) {
    return 2;
  }
  int pages = atoi(argv[2]), count = atoi(argv[4]);
  size_t size = strtoul(argv[3], NULL, 10);
  uint8_t *body = malloc(size);
  make_store(argv[1], pages, size);
  for (int number = 1; number <= 21; number++) {
    memset(body, number, size);
    double start = now();
    done(begin);
    for (int no = 0; no < count; no++) {
      put_page(no, number, body, size);
    }
    commit_as(number);
    printf("write %d %.0f\n", count, (now() - start) * 1e6);
  }
  must(!closed());
  load(argv[1], pages, size);
  return 0;
}
