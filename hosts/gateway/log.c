#include "log.h"

#include <stdarg.h>
#include <stdbool.h>
#include <stdint.h>
#include <stdio.h>
#include <stdlib.h>
#include <string.h>
#include <sys/stat.h>
#include <time.h>
#include <unistd.h>

enum { LINE = 1024 };

/* Whether the standard error is the journal's, which notes the time itself. */
static bool is_journal(void) {
  const char *named = getenv("JOURNAL_STREAM");
  char own[64];
  struct stat state;
  if (named == NULL || fstat(STDERR_FILENO, &state) != 0) {
    return false;
  }
  snprintf(own, sizeof own, "%ju:%ju", (uintmax_t)state.st_dev, (uintmax_t)state.st_ino);
  return strcmp(named, own) == 0;
}

/* How a line begins; so many bytes it has. */
static size_t put_head(char *line, size_t room, enum level level) {
  if (is_journal()) {
    return (size_t)snprintf(line, room, "<%d>", (int)level);
  }
  static const char *const names[] = {
      [LEVEL_ERROR] = "error", [LEVEL_WARNING] = "warning", [LEVEL_INFO] = "info"};
  struct timespec now;
  struct tm parts;
  char time[32];
  clock_gettime(CLOCK_REALTIME, &now);
  gmtime_r(&now.tv_sec, &parts);
  strftime(time, sizeof time, "%Y-%m-%dT%H:%M:%S", &parts);
  return (size_t)snprintf(line, room, "%s.%03ldZ gateway %s: ", time, now.tv_nsec / 1000000,
                          names[level]);
}

void log_line(enum level level, const char *format, ...) {
  char line[LINE];
  size_t size = put_head(line, sizeof line, level);
  va_list words;
  va_start(words, format);
  int more = vsnprintf(line + size, sizeof line - size, format, words);
  va_end(words);
  size += more > 0 ? (size_t)more : 0;
  size = size < sizeof line - 1 ? size : sizeof line - 1;
  line[size++] = '\n';
  /* In one piece, since servers say their lines there too. What can't be said is lost. */
  ssize_t written = write(STDERR_FILENO, line, size);
  (void)written;
}
