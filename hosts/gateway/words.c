#include "words.h"

#include <errno.h>
#include <getopt.h>
#include <limits.h>
#include <stddef.h>
#include <stdio.h>
#include <stdlib.h>
#include <string.h>

enum { DAY = 86400, CLIENTS = 32, PORT = 65535 };

static const char USAGE[] =
    "gateway --tokens FILE (--unix PATH | --tcp PORT [--address ADDRESS]) [OPTION ..]\n"
    "        (CONFIG DATABASE | --stores FILE) [-- SERVE ..]\n"
    "gateway --make-tokens COUNT --tokens FILE\n"
    "\n"
    "Clients connect to it by the tokens of FILE, and it hands their frames to the server of the\n"
    "store that each names: SERVE CONFIG DATABASE, where SERVE is `cb_play serve --announce` if\n"
    "not said.\n"
    "\n"
    "  --unix PATH               listen on a Unix socket, which its owner alone may use\n"
    "  --tcp PORT                listen on a TCP port, of 127.0.0.1 if no address is said\n"
    "  --stores FILE             lines of a name, a configuration and a database; else one store,\n"
    "                            `main`\n"
    "  --greeting SECONDS        for a greeting (2)\n"
    "  --patience SECONDS        for a frame, from its first byte (10)\n"
    "  --silence SECONDS         for a client's answer to the server; 0 for ever (30)\n"
    "  --server-silence SECONDS  for a server's answer to a greeting; 0 for ever (60)\n"
    "  --announced               nobody is served before a server has announced its life\n"
    "  --metrics PATH|PORT       answer what is counted, by HTTP, at a Unix socket or of "
    "127.0.0.1\n"
    "  --buffer BYTES            that may wait for one client (4194304)\n";

/* An option with a number, and where that goes. */
struct number {
  int letter;
  size_t place;
  long least, most;
};

static const struct number NUMBERS[] = {
    {'t', offsetof(struct words, tcp), 1, PORT},
    {'m', offsetof(struct words, make), 1, CLIENTS},
    {'g', offsetof(struct words, greeting), 1, DAY},
    {'p', offsetof(struct words, patience), 1, DAY},
    {'l', offsetof(struct words, silence), 0, DAY},
    {'r', offsetof(struct words, server_silence), 0, DAY},
    {'b', offsetof(struct words, buffer), 1, LONG_MAX},
};

/* Takes an option with a number; false where it is none, or out of range. */
static bool take_number(struct words *words, int letter, const char *text) {
  for (size_t at = 0; at < sizeof NUMBERS / sizeof *NUMBERS; at++) {
    const struct number *option = &NUMBERS[at];
    if (option->letter != letter) {
      continue;
    }
    char *end;
    errno = 0;
    long number = strtol(text, &end, 10);
    memcpy((char *)words + option->place, &number, sizeof number);
    return errno == 0 && *text != 0 && *end == 0 && number >= option->least
           && number <= option->most;
  }
  return false;
}

/* Whether that is a path, or a port if it has digits alone. */
static bool is_path_or_port(const char *text) {
  bool is_path = text[strspn(text, "0123456789")] != 0;
  long port = is_path ? 1 : strtol(text, NULL, 10);
  return *text != 0 && port >= 1 && port <= PORT;
}

static bool take_option(struct words *words, int letter, const char *text) {
  switch (letter) {
    case 'k': words->tokens = text; return true;
    case 's': words->stores = text; return true;
    case 'a': words->address = text; return true;
    case 'u': words->socket = text; return true;
    case 'e': words->metrics = text; return is_path_or_port(text);
    case 'n': return words->is_announced = true;
    default: return text != NULL && take_number(words, letter, text);
  }
}

/* Reads the options; how many words there are up to the first that is none, or -1. */
static int take_options(struct words *words, int count, char **text) {
  static const struct option options[] = {
      {"tokens", 1, NULL, 'k'},      {"stores", 1, NULL, 's'},  {"address", 1, NULL, 'a'},
      {"unix", 1, NULL, 'u'},        {"tcp", 1, NULL, 't'},     {"greeting", 1, NULL, 'g'},
      {"patience", 1, NULL, 'p'},    {"silence", 1, NULL, 'l'}, {"server-silence", 1, NULL, 'r'},
      {"make-tokens", 1, NULL, 'm'}, {"buffer", 1, NULL, 'b'},  {"announced", 0, NULL, 'n'},
      {"metrics", 1, NULL, 'e'},     {NULL, 0, NULL, 0},
  };
  for (;;) {
    int letter = getopt_long(count, text, "+", options, NULL);
    if (letter == -1) {
      return words->tokens != NULL ? optind : -1;
    }
    if (!take_option(words, letter, optarg)) {
      return -1;
    }
  }
}

/* The words behind the options: the one store, and what starts a server. */
static bool take_rest(struct words *words, char **rest) {
  static char *usual[] = {"cb_play", "serve", "--announce", NULL};
  int count = 0;
  while (rest[count] != NULL && strcmp(rest[count], "--") != 0) {
    count++;
  }
  words->serve = rest[count] != NULL ? rest + count + 1 : usual;
  if (count == 2) {
    words->config = rest[0];
    words->database = rest[1];
  }
  bool listens = words->socket != NULL || words->tcp >= 0;
  return listens && words->serve[0] != NULL && count == (words->stores != NULL ? 0 : 2);
}

bool words_read(struct words *words, int count, char **text) {
  *words = (struct words){.tcp = -1,
                          .address = "127.0.0.1",
                          .greeting = 2,
                          .patience = 10,
                          .silence = 30,
                          .server_silence = 60,
                          .buffer = 1 << 22};
  int first = take_options(words, count, text);
  if (first >= 0 && words->make > 0) {
    return true;
  }
  /* getopt passes over a `--` that stands before the first word. */
  bool is_served = first > 0 && strcmp(text[first - 1], "--") == 0;
  if (first < 0 || !take_rest(words, text + first - is_served)) {
    fputs(USAGE, stderr);
    return false;
  }
  return true;
}
