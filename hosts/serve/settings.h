/* What the program is told: its words, and the configuration. */
#ifndef SERVE_SETTINGS_H
#define SERVE_SETTINGS_H

#include <rughvadi.h>
#include <stdbool.h>

struct settings {
  rughvadi_limits limits;
  const char *config, *database;
  bool announces;    /* its life is announced before any frame */
  bool needs_standby; /* a commit is one once a standby has it, too */
};

/* Reads the words; 0, or the status to end with, which is said. */
int words_read(struct settings *settings, int count, char **words);

/* Reads the configuration; 0, or the status to end with, which is said. */
int config_read(struct settings *settings);

/* Whether the database is a conninfo or a URI of PostgreSQL, and no path. */
bool is_conninfo(const char *database);

#endif
