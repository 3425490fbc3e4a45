/* The files that the gateway reads before it serves. Each reader says on the standard error what is
 * wrong with a file. */
#ifndef GATEWAY_SETTINGS_H
#define GATEWAY_SETTINGS_H

#include "frame.h"

enum { TOKEN = 32, MOST_STORES = 64, MOST_NAME = 63 };

/* The token of each client. */
struct tokens {
  bool is_there[MOST_CLIENTS];
  uint8_t of[MOST_CLIENTS][TOKEN];
};

/* Reads a file of tokens, which this user or root owns and none else may use: a line for each
 * client, with its number and 64 hexadecimal digits. No two clients have one token. */
bool tokens_read(struct tokens *tokens, const char *path);

/* Whose token it is, or -1. It takes as long whatever the token. */
int tokens_find(const struct tokens *tokens, const uint8_t *token);

/* Whether a client has the same token in both, or in neither one. */
bool tokens_agree(const struct tokens *first, const struct tokens *second, uint16_t client);

/* Writes a new file of so many tokens, drawn by the system. */
bool tokens_make(const char *path, unsigned count);

/* A store: how it is called, and what its server is given. */
struct place {
  char *name, *config, *database;
  bool is_file; /* the database is a file's path, and no URI or conninfo */
  struct limits limits;
};

struct places {
  struct place at[MOST_STORES];
  size_t count;
};

/* Reads a file of stores: a line for each, with its name, configuration and database, each of which
 * may stand in quotes; and their configurations. A database that is no path has no password in it:
 * others could read it in the list of processes. */
bool places_read(struct places *places, const char *path);

/* One store, by the name `main`. */
bool places_of_one(struct places *places, const char *config, const char *database);

void places_free(struct places *places);

#endif
