#include "settings.h"

#include "fault.h"

#include <ctype.h>
#include <errno.h>
#include <getopt.h>
#include <stdio.h>
#include <stdlib.h>
#include <string.h>

enum { WRONG = 2 };

/* ---- words ---- */

bool is_conninfo(const char *database) {
  return strstr(database, "://") != NULL || database[strcspn(database, "/=")] == '=';
}

static int usage(void) {
  fputs("rughvadi-serve [--announce] [--standby required] CONFIG DATABASE\n", stderr);
  return WRONG;
}

int words_read(struct settings *settings, int count, char **words) {
  static const struct option options[] = {
      {"announce", no_argument, NULL, 'a'}, {"standby", required_argument, NULL, 's'}, {0}};
  int option;
  while ((option = getopt_long(count, words, "", options, NULL)) != -1) {
    if (option == 'a') {
      settings->announces = true;
    } else if (option == 's' && strcmp(optarg, "required") == 0) {
      settings->needs_standby = true;
    } else {
      return usage();
    }
  }
  if (count - optind != 2) {
    return usage();
  }
  settings->config = words[optind];
  settings->database = words[optind + 1];
  if (settings->needs_standby && !is_conninfo(settings->database)) {
    fputs("rughvadi-serve: a file has no standby\n", stderr);
    return WRONG;
  }
  return 0;
}

/* ---- the configuration ---- */

enum { CLIENTS, PAGES, PAGE_SIZE, SLOTS, KIN, KOUT, JOBS, KEEP_WRITE, LIVES, KEYS };

enum { MOST_KEY = 64, MOST_JOBS = 100000 };

static const uint64_t MOST_NUMBER = (UINT64_C(1) << 62) - 1;

static const char *const NAMES[KEYS] = {"clients", "pages", "page_size", "slots",
                                        "kin",     "kout",  "jobs",      "keep_write", "lives"};

struct config {
  bool is_there[KEYS];
  bool is_whole[KEYS]; /* its number is one that counts */
  uint64_t numbers[KEYS];
  char unknown[MOST_KEY]; /* the first in the order of bytes; empty: none is */
};

static size_t blanks(const char *text) { return strspn(text, " \t"); }

/* Reads decimal digits of a number below 2^63, without zeros in front; how many, or 0. */
static size_t number_read(const char *text, uint64_t *number) {
  size_t size = strspn(text, "0123456789");
  if (size > 1 && *text == '0') {
    return 0;
  }
  *number = strtoull(text, NULL, 10);
  return *number <= INT64_MAX ? size : 0;
}

/* Takes the number of a key; false where it was there before. */
static bool take_number(struct config *config, const char *name, uint64_t number) {
  for (size_t key = 0; key < KEYS; key++) {
    if (strcmp(name, NAMES[key]) == 0) {
      bool is_new = !config->is_there[key];
      config->is_there[key] = true;
      config->is_whole[key] = number <= MOST_NUMBER;
      config->numbers[key] = number;
      return is_new;
    }
  }
  if (*config->unknown == 0 || strcmp(name, config->unknown) < 0) {
    strcpy(config->unknown, name);
  }
  return true;
}

/* Takes a line `KEY = NUMBER`, an empty one or a remark; false where it is none. */
static bool take_line(struct config *config, const char *line) {
  char name[MOST_KEY];
  uint64_t number = 0;
  line += blanks(line);
  if (*line == 0 || *line == '#') {
    return true;
  }
  size_t size = 0;
  while (isalnum((unsigned char)line[size]) || line[size] == '_' || line[size] == '-') {
    size++;
  }
  if (size == 0 || size >= sizeof name) {
    return false;
  }
  memcpy(name, line, size);
  name[size] = 0;
  line += size + blanks(line + size);
  if (*line != '=') {
    return false;
  }
  line += 1 + blanks(line + 1);
  size = number_read(line, &number);
  line += size + blanks(line + size);
  return size > 0 && (*line == 0 || *line == '#') && take_number(config, name, number);
}

/* Reads a code point in UTF-8, in the one form that it has; how many bytes those are, or 0. */
static size_t code_point_read(const unsigned char *at, uint32_t *point) {
  static const uint32_t least[] = {0, 0x80, 0x800, 0x10000};
  size_t more = *at < 0xc0 ? 0 : *at < 0xe0 ? 1 : *at < 0xf0 ? 2 : 3;
  if ((*at >= 0x80 && *at < 0xc0) || *at >= 0xf8) {
    return 0;
  }
  *point = more == 0 ? *at : *at & (0x3fU >> more);
  for (size_t place = 1; place <= more; place++) {
    if ((at[place] & 0xc0) != 0x80) {
      return 0;
    }
    *point = *point << 6 | (at[place] & 0x3fU);
  }
  bool is_one = *point >= least[more] && *point <= 0x10ffff && (*point < 0xd800 || *point > 0xdfff);
  return is_one ? more + 1 : 0;
}

/* Whether a line is text of TOML: UTF-8 without control characters but tabs. */
static bool is_text(const char *line) {
  const unsigned char *at = (const unsigned char *)line;
  while (*at != 0) {
    uint32_t point = 0;
    size_t size = code_point_read(at, &point);
    if (size == 0 || (point < ' ' && point != '\t') || point == 0x7f) {
      return false;
    }
    at += size;
  }
  return true;
}

/* How many bytes a line has without its end. */
static size_t without_end(const char *line, size_t size) {
  if (size == 0 || line[size - 1] != '\n') {
    return size;
  }
  return size - (size > 1 && line[size - 2] == '\r' ? 2 : 1);
}

/* Takes all lines; 0 or a status, which is said. */
static int take_lines(struct config *config, FILE *file) {
  char *line = NULL;
  size_t room = 0;
  bool is_right = true;
  ssize_t size;
  errno = 0;
  while (is_right && (size = getline(&line, &room, file)) >= 0) {
    size_t end = without_end(line, (size_t)size);
    line[end] = 0;
    is_right = strlen(line) == end && is_text(line) && take_line(config, line);
  }
  bool is_refused = line == NULL || errno == ENOMEM;
  free(line);
  if (is_refused) {
    return fault_said(FAULT_MEMORY);
  }
  if (!is_right) {
    fputs("config: text\n", stderr);
  }
  return is_right ? 0 : WRONG;
}

/* Whether each key is as it should be; else that is said. */
static bool has_keys(const struct config *config) {
  if (*config->unknown != 0) {
    fprintf(stderr, "config: unknown %s\n", config->unknown);
    return false;
  }
  for (size_t key = 0; key < KEYS; key++) {
    if (!config->is_there[key] && key <= SLOTS) {
      fprintf(stderr, "config: missing %s\n", NAMES[key]);
      return false;
    }
    if (config->is_there[key] && !config->is_whole[key]) {
      fprintf(stderr, "config: %s is not a whole number\n", NAMES[key]);
      return false;
    }
  }
  return true;
}

/* A number, or its share of the slots, which is at least 1. */
static uint64_t or_share(const struct config *config, size_t key) {
  static const uint64_t parts[KEYS] = {[KIN] = 4, [KOUT] = 2};
  if (config->is_there[key]) {
    return config->numbers[key];
  }
  uint64_t share = config->numbers[SLOTS] / parts[key];
  return share > 0 ? share : 1;
}

/* Whether the numbers are in range; else that is said. */
static bool in_range(const struct config *config, const rughvadi_limits *limits) {
  static const char *const names[] = {"Clients", "Pages", "PageSize", "Slots", "Kin", "Kout"};
  rughvadi_frame_head head;
  uint32_t fault = rughvadi_frame_read(limits, (const uint8_t *)"", 0, &head);
  if (fault >= RUGHVADI_LIMIT_CLIENTS && fault <= RUGHVADI_LIMIT_KOUT) {
    uint32_t place = fault - RUGHVADI_LIMIT_CLIENTS;
    fprintf(stderr, "config: limit %u %s\n", place + 1, names[place]);
    return false;
  }
  const char *wrong = config->numbers[JOBS] > MOST_JOBS ? "jobs"
                      : config->numbers[KEEP_WRITE] > 1 ? "keep_write"
                      : config->numbers[LIVES] > 1      ? "lives"
                                                        : NULL;
  if (wrong != NULL) {
    fprintf(stderr, "config: %s\n", wrong);
  }
  return wrong == NULL;
}

int config_read(struct settings *settings) {
  struct config config = {.unknown = ""};
  FILE *file = fopen(settings->config, "re");
  if (file == NULL && errno == ENOMEM) {
    return fault_said(FAULT_MEMORY);
  }
  if (file == NULL) {
    fprintf(stderr, "cannot read %s\n", settings->config);
    return WRONG;
  }
  int status = take_lines(&config, file);
  bool is_cut = ferror(file) != 0;
  fclose(file);
  if (is_cut) {
    fprintf(stderr, "cannot read %s\n", settings->config);
    return WRONG;
  }
  if (status != 0) {
    return status;
  }
  const uint64_t *numbers = config.numbers;
  settings->limits = (rughvadi_limits){numbers[CLIENTS],
                                       numbers[PAGES],
                                       numbers[PAGE_SIZE],
                                       numbers[SLOTS],
                                       or_share(&config, KIN),
                                       or_share(&config, KOUT),
                                       numbers[KEEP_WRITE]};
  return has_keys(&config) && in_range(&config, &settings->limits) ? 0 : WRONG;
}
