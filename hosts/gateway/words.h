/* The words that the gateway is started with. */
#ifndef GATEWAY_WORDS_H
#define GATEWAY_WORDS_H

#include <stdbool.h>

struct words {
  const char *tokens, *stores, *address, *socket, *metrics;
  long tcp, make, greeting, patience, silence, server_silence, buffer; /* tcp: -1 if not said */
  bool is_announced;
  const char *config, *database; /* of one store; none with `stores` */
  char **serve;                  /* what starts a server, NULL behind it */
};

/* Reads them; false, with how the gateway is used, where they are wrong. */
bool words_read(struct words *words, int count, char **text);

#endif
