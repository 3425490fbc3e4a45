/* Connecting to a gateway, for clients in C. It is plain C, and no part of what is proved.
 *
 * A gateway serves stores by name. A client that connects shows a token, and is told its number,
 * its incarnation and the limits, which rughvadi_link_open needs.
 */
#ifndef RUGHVADI_CONNECT_H
#define RUGHVADI_CONNECT_H

#include "rughvadi_link.h"

#ifdef __cplusplus
extern "C" {
#endif

enum { RUGHVADI_TOKEN = 32 };

enum {
  RUGHVADI_CONNECT_SYSTEM = RUGHVADI_LINK_SYSTEM, /* a system call failed: errno says how */
  RUGHVADI_CONNECT_CLOSED = RUGHVADI_LINK_CLOSED, /* the connection ended before the answer */
  RUGHVADI_CONNECT_GREETING = 0x501, /* no gateway of this version, or the name is too long */
  RUGHVADI_CONNECT_TOKEN = 0x502,    /* no client has this token */
  RUGHVADI_CONNECT_STORE = 0x503,    /* no store has this name */
  RUGHVADI_CONNECT_CLIENT = 0x504,   /* the store has no client with the token's number */
  RUGHVADI_CONNECT_DOWN = 0x505      /* the store isn't served at the moment: try again later */
};

/* What a client is told as it connects. */
typedef struct {
  uint32_t client;
  uint64_t incarnation;
  rughvadi_limits limits;
} rughvadi_seat;

/* Reads the token of a client from a file of lines: a client's number and 64 hexadecimal digits.
 * CONNECT_SYSTEM, CONNECT_TOKEN. */
uint32_t rughvadi_token_read(const char *path, uint32_t client, uint8_t token[RUGHVADI_TOKEN]);

/* Connects a socket to HOST:PORT, with an IPv6 address in brackets, or to the path of a Unix
 * socket, which is a name with a '/' in it. The socket is the caller's, to be closed after the
 * link. Over TCP the system notices within 20 seconds that the other end is gone, even if nothing
 * is sent; the next call then returns RUGHVADI_LINK_SYSTEM.
 * CONNECT_SYSTEM; with ETIMEDOUT if an IP address or a path is silent for five seconds. */
uint32_t rughvadi_dial(const char *address, int *socket);

/* The same, with connect_ms milliseconds for each IP address; below 0: as long as the system waits.
 * The look-up of a name has no bound. */
uint32_t rughvadi_dial_within(const char *address, int connect_ms, int *socket);

/* Greets a gateway. If it is refused, the socket is of no use any more.
 * CONNECT_..; CONNECT_SYSTEM with ETIMEDOUT if the answer isn't complete after ten seconds. */
uint32_t rughvadi_greet(int socket, const uint8_t token[RUGHVADI_TOKEN], const char *store,
                        rughvadi_seat *seat);

/* The same, within greeting_ms milliseconds; below 0: forever. */
uint32_t rughvadi_greet_within(int socket, const uint8_t token[RUGHVADI_TOKEN], const char *store,
                               int greeting_ms, rughvadi_seat *seat);

/* Dials, greets and opens a link, which owns the socket and closes it. Several addresses are
 * separated by commas, and tried in turn from the first on. The next one is tried if nobody answers
 * in time, the connection ends, or the store isn't served there (CONNECT_DOWN, LINK_SILENT). The
 * last fault is returned. After each fault the link is empty.
 * CONNECT_.., and the faults of rughvadi_link_open. */
uint32_t rughvadi_link_connect(rughvadi_link *link, const char *addresses,
                               const uint8_t token[RUGHVADI_TOKEN], const char *store,
                               rughvadi_seat *seat);

/* Where a store is served, for a program that connects again once its link is gone. Set all fields
 * but the first to 0 at first. */
typedef struct {
  const char *addresses; /* as above; it is read by each call */
  uint32_t next;         /* the place in the list, from 0, of the address that is tried next */
  int connect_ms;        /* for rughvadi_dial_within; 0: as rughvadi_dial */
  int greeting_ms;       /* for rughvadi_greet_within; 0: as rughvadi_greet */
  uint32_t reserved[4];
} rughvadi_gateways;

/* As rughvadi_link_connect, but it begins with the address behind the one that was tried last, and
 * tries each once. A program whose link is gone therefore goes on at the next address. */
uint32_t rughvadi_link_connect_next(rughvadi_link *link, rughvadi_gateways *gateways,
                                    const uint8_t token[RUGHVADI_TOKEN], const char *store,
                                    rughvadi_seat *seat);

#ifdef __cplusplus
}
#endif

#endif
