#include "settings.h"

#include "log.h"

#include <errno.h>
#include <fcntl.h>
#include <stdio.h>
#include <stdlib.h>
#include <string.h>
#include <sys/random.h>
#include <sys/stat.h>
#include <unistd.h>

enum { MOST_LINE = 4096 };

/* Takes a line of a file; false where it is wrong. */
typedef bool (*line_taker)(void *into, char *line);

static FILE *opened(const char *path) {
  FILE *file = fopen(path, "re");
  if (file == NULL) {
    log_line(LEVEL_ERROR, "cannot read %s: %s", path, strerror(errno));
  }
  return file;
}

/* Hands in each line of a file that isn't empty or a remark, without its end; closes the file. */
static bool each_line(FILE *file, const char *path, line_taker take, void *into) {
  char line[MOST_LINE];
  bool right = true;
  for (int number = 1; right && fgets(line, sizeof line, file) != NULL; number++) {
    size_t size = strcspn(line, "\r\n");
    bool whole = line[size] != 0 || feof(file);
    line[size] = 0;
    char *text = line + strspn(line, " \t");
    right = whole && (*text == 0 || *text == '#' || take(into, text));
    if (!right) {
      log_line(LEVEL_ERROR, "%s: line %d is wrong", path, number);
    }
  }
  if (right && ferror(file)) {
    log_line(LEVEL_ERROR, "cannot read %s: %s", path, strerror(errno));
    right = false;
  }
  fclose(file);
  return right;
}

/* ---- tokens ---- */

static int digit(char c) {
  if (c >= '0' && c <= '9') {
    return c - '0';
  }
  c |= 0x20;
  return c >= 'a' && c <= 'f' ? c - 'a' + 10 : -1;
}

static bool token_of(uint8_t *token, const char *text) {
  for (size_t place = 0; place < TOKEN; place++) {
    int high = digit(text[2 * place]);
    int low = high < 0 ? -1 : digit(text[2 * place + 1]);
    if (low < 0) {
      return false;
    }
    token[place] = (uint8_t)(high << 4 | low);
  }
  return text[(size_t)2 * TOKEN] == 0;
}

static bool take_token(void *into, char *line) {
  struct tokens *tokens = into;
  char *end;
  unsigned long client = strtoul(line, &end, 10);
  if (*line < '0' || *line > '9' || client >= MOST_CLIENTS || tokens->is_there[client]) {
    return false;
  }
  size_t gap = strspn(end, " \t");
  uint8_t token[TOKEN];
  if (gap == 0 || !token_of(token, end + gap) || tokens_find(tokens, token) >= 0) {
    return false;
  }
  memcpy(tokens->of[client], token, TOKEN);
  tokens->is_there[client] = true;
  return true;
}

bool tokens_read(struct tokens *tokens, const char *path) {
  struct stat state;
  *tokens = (struct tokens){0};
  FILE *file = opened(path);
  if (file == NULL) {
    return false;
  }
  bool is_known = fstat(fileno(file), &state) == 0;
  if (!is_known || (state.st_mode & 077) != 0 || (state.st_uid != 0 && state.st_uid != geteuid())) {
    log_line(LEVEL_ERROR,
             "%s: root or the gateway's user has to own it, and nobody else may use it (chmod 600)",
             path);
    fclose(file);
    return false;
  }
  return each_line(file, path, take_token, tokens);
}

int tokens_find(const struct tokens *tokens, const uint8_t *token) {
  int found = -1;
  for (int client = 0; client < MOST_CLIENTS; client++) {
    volatile uint8_t differs = !tokens->is_there[client];
    for (size_t place = 0; place < TOKEN; place++) {
      differs |= tokens->of[client][place] ^ token[place];
    }
    found = differs == 0 ? client : found;
  }
  return found;
}

bool tokens_agree(const struct tokens *first, const struct tokens *second, uint16_t client) {
  return first->is_there[client] == second->is_there[client]
         && memcmp(first->of[client], second->of[client], TOKEN) == 0;
}

/* Writes the lines of new tokens. */
static bool put_tokens(FILE *file, unsigned count) {
  for (unsigned client = 0; client < count; client++) {
    uint8_t token[TOKEN];
    if (getrandom(token, sizeof token, 0) != TOKEN) {
      return false;
    }
    fprintf(file, "%u ", client);
    for (size_t place = 0; place < TOKEN; place++) {
      fprintf(file, "%02x", token[place]);
    }
    fputc('\n', file);
  }
  return true;
}

bool tokens_make(const char *path, unsigned count) {
  int fd = open(path, O_WRONLY | O_CREAT | O_EXCL | O_CLOEXEC, 0600);
  FILE *file = fd < 0 ? NULL : fdopen(fd, "w");
  bool made = file != NULL && put_tokens(file, count);
  if (file != NULL) {
    made = fclose(file) == 0 && made;
  } else if (fd >= 0) {
    close(fd);
  }
  if (!made) {
    log_line(LEVEL_ERROR, "cannot make %s: %s", path, strerror(errno));
  }
  return made;
}

/* ---- configurations ---- */

struct key {
  const char *name;
  uint32_t least, most;
  bool is_required, is_there;
  uint32_t number;
};

enum { CLIENTS, PAGES, PAGE_SIZE, SLOTS, KIN, KOUT, JOBS, KEEP_WRITE, LIVES, KEYS };

struct config {
  struct key keys[KEYS];
};

/* A line `KEY = NUMBER`, with a remark behind it or not. */
static bool take_setting(void *into, char *line) {
  struct config *config = into;
  size_t size = strcspn(line, " \t=");
  char *text = line + size + strspn(line + size, " \t");
  for (struct key *key = config->keys; key < config->keys + KEYS; key++) {
    if (strlen(key->name) != size || memcmp(line, key->name, size) != 0) {
      continue;
    }
    if (*text != '=' || key->is_there) {
      return false;
    }
    text += 1 + strspn(text + 1, " \t");
    char *end;
    unsigned long number = strtoul(text, &end, 10);
    end += strspn(end, " \t");
    bool right = *text >= '0' && *text <= '9' && (*end == 0 || *end == '#');
    key->is_there = right && number >= key->least && number <= key->most;
    key->number = (uint32_t)number;
    return key->is_there;
  }
  return false;
}

/* What an optional key is where it isn't there. */
static void fill_in(struct key *key, uint32_t number) {
  if (!key->is_there) {
    key->number = number > 0 ? number : 1;
  }
}

static bool limits_read(struct limits *limits, const char *path) {
  struct config config = {{
      [CLIENTS] = {"clients", 1, MOST_CLIENTS, true, false, 0},
      [PAGES] = {"pages", 1, 4096, true, false, 0},
      [PAGE_SIZE] = {"page_size", 16, 65536, true, false, 0},
      [SLOTS] = {"slots", 2, 1024, true, false, 0},
      [KIN] = {"kin", 1, 1023, false, false, 0},
      [KOUT] = {"kout", 1, 4096, false, false, 0},
      [JOBS] = {"jobs", 0, 100000, false, false, 0}, /* of a run: it counts for nothing here */
      [KEEP_WRITE] = {"keep_write", 0, 1, false, false, 0},
      [LIVES] = {"lives", 0, 1, false, false, 0}, /* of a played schedule: nor does this */
  }};
  FILE *file = opened(path);
  if (file == NULL || !each_line(file, path, take_setting, &config)) {
    return false;
  }
  for (struct key *key = config.keys; key < config.keys + KEYS; key++) {
    if (key->is_required && !key->is_there) {
      log_line(LEVEL_ERROR, "%s: missing %s", path, key->name);
      return false;
    }
  }
  struct key *keys = config.keys;
  fill_in(&keys[KIN], keys[SLOTS].number / 4);
  fill_in(&keys[KOUT], keys[SLOTS].number / 2);
  if (keys[PAGE_SIZE].number % 16 != 0 || keys[KIN].number >= keys[SLOTS].number) {
    log_line(LEVEL_ERROR, "%s: page_size or kin is out of range", path);
    return false;
  }
  *limits = (struct limits){keys[CLIENTS].number,   keys[PAGES].number, keys[PAGE_SIZE].number,
                            keys[SLOTS].number,     keys[KIN].number,   keys[KOUT].number,
                            keys[KEEP_WRITE].number};
  return true;
}

/* ---- stores ---- */

/* A URI has its scheme in front, a conninfo a key and `=`; with a `/` before it that is a path. */
static bool is_file(const char *database) {
  size_t key = strcspn(database, "=/");
  return strstr(database, "://") == NULL && database[key] != '=';
}

/* Whether a password stands in a URI or conninfo: behind a URI's user, or as a key. */
static bool has_password(const char *database) {
  const char *host = strstr(database, "://");
  if (host != NULL) {
    size_t user = strcspn(host + 3, "@/");
    if (host[3 + user] == '@' && memchr(host + 3, ':', user) != NULL) {
      return true;
    }
  }
  const char *key = database;
  while ((key = strcasestr(key, "password")) != NULL) {
    key += strlen("password");
    if (key[strspn(key, " \t")] == '=') {
      return true;
    }
  }
  return false;
}

static bool add_place(struct places *places, const char *name, const char *config,
                      const char *database) {
  if (places->count == MOST_STORES || strlen(name) > MOST_NAME) {
    return false;
  }
  struct place *place = &places->at[places->count++];
  place->name = strdup(name);
  place->config = strdup(config);
  place->database = strdup(database);
  place->is_file = is_file(database);
  if (!place->is_file && has_password(database)) {
    log_line(LEVEL_ERROR, "store %s: others could read its password: put it into a file", name);
    return false;
  }
  return place->name != NULL && place->config != NULL && place->database != NULL
         && limits_read(&place->limits, config);
}

static bool is_named(const struct places *places, const char *name) {
  for (size_t at = 0; at < places->count; at++) {
    if (strcmp(places->at[at].name, name) == 0) {
      return true;
    }
  }
  return false;
}

/* The next word of a line, which goes on behind it: up to a blank, or what stands in quotes, of
 * either kind. NULL where there is none, or a quote without its end. */
static char *next_word(char **line) {
  char *word = *line + strspn(*line, " \t");
  char quote[] = {*word, 0};
  bool is_quoted = *word == '"' || *word == '\'';
  word += is_quoted ? 1 : 0;
  char *end = word + strcspn(word, is_quoted ? quote : " \t");
  bool is_whole = is_quoted ? *end != 0 && strchr(" \t", end[1]) != NULL : end != word;
  if (!is_whole) {
    return NULL;
  }
  *line = *end == 0 ? end : end + 1;
  *end = 0;
  return word;
}

static bool take_place(void *into, char *line) {
  const char *name = next_word(&line);
  const char *config = name != NULL ? next_word(&line) : NULL;
  const char *database = config != NULL ? next_word(&line) : NULL;
  bool three = database != NULL && line[strspn(line, " \t")] == 0;
  return three && !is_named(into, name) && add_place(into, name, config, database);
}

bool places_read(struct places *places, const char *path) {
  *places = (struct places){0};
  FILE *file = opened(path);
  if (file == NULL || !each_line(file, path, take_place, places)) {
    return false;
  }
  if (places->count == 0) {
    log_line(LEVEL_ERROR, "%s: it names no store", path);
  }
  return places->count > 0;
}

bool places_of_one(struct places *places, const char *config, const char *database) {
  *places = (struct places){0};
  return add_place(places, "main", config, database);
}

void places_free(struct places *places) {
  for (size_t at = 0; at < places->count; at++) {
    free(places->at[at].name);
    free(places->at[at].config);
    free(places->at[at].database);
  }
  places->count = 0;
}
