/* A client over a connected stream socket, for hosts that may block. It is plain C over rughvadi.h,
 * and no part of what is proved: read it, change it, or write one of your own.
 *
 * A link is used by one thread at a time, as a handle is. Each call returns RUGHVADI_DONE, a fault
 * of rughvadi.h, or one of the faults below. After RUGHVADI_MEMORY and RUGHVADI_FRAME_MEMORY the
 * same call may be made again. After RUGHVADI_LINK_SYSTEM, _CLOSED and each other RUGHVADI_FRAME_..
 * the client is gone: each later call returns RUGHVADI_LINK_CLOSED, even for a page that the client
 * holds. The client is also gone if a call was left while a frame had been sent in part, for
 * example by a jump out of a signal's handler. Then close the link, and open another one in the
 * client's next incarnation.
 *
 * A link that couldn't be opened is empty, as after rughvadi_link_close: it holds nothing, each
 * call returns RUGHVADI_LINK_CLOSED, and closing it does nothing.
 */
#ifndef RUGHVADI_LINK_H
#define RUGHVADI_LINK_H

#include "rughvadi.h"

#ifdef __cplusplus
extern "C" {
#endif

enum {
  RUGHVADI_LINK_SYSTEM = 0x401,  /* a system call failed: errno says how; ETIMEDOUT if the other
                                    end took no byte for as long as an answer is awaited */
  RUGHVADI_LINK_CLOSED = 0x402,  /* the server closed the connection */
  RUGHVADI_LINK_ABORTED = 0x403, /* the transaction was the victim of a deadlock: begin again */
  RUGHVADI_LINK_SILENT = 0x404   /* no answer came, however often the link asked */
};

typedef struct {
  rughvadi_handle client;
  int socket;
  bool gone;   /* the connection is of no use any more */
  int wait_ms; /* how long it waits for an answer before it resends what may be lost; below 0:
                  forever */
  int tries;   /* how often it waits that long before it returns RUGHVADI_LINK_SILENT */
  size_t page_size;
  uint8_t *out; /* the frame that is being sent */
  size_t out_size;
  uint8_t *in; /* what came and isn't taken yet */
  size_t in_size, in_len;
  bool owns;      /* the socket is closed with the link */
  bool is_silent; /* the transaction has sent nothing yet */
  uint64_t draws; /* the numbers from which pauses are drawn */
  uint64_t late;  /* bytes of a Drop at the front of `out`, which goes out before anything else */
  uint64_t reserved[3];
} rughvadi_link;

/* Opens a link over a connected socket, greets the server and waits until the client is welcome.
 * The socket stays the caller's, to be closed after the link. If this fails, the link is empty. */
uint32_t rughvadi_link_open(rughvadi_link *link, const rughvadi_limits *limits, uint32_t client,
                            uint64_t incarnation, int socket);

/* Frees everything, and closes a socket that rughvadi_link_connect opened; the link is empty then.
 * A socket that the caller opened stays in link->socket. */
void rughvadi_link_close(rughvadi_link *link);

/* Begins a transaction. */
uint32_t rughvadi_link_begin(rughvadi_link *link);

/* Reads a page, and waits for it if it isn't here. A page that is here costs no message. After
 * RUGHVADI_LINK_SILENT the ask still has no answer. Call this again, or _want: both wait for that
 * answer first. Or drop the transaction. */
uint32_t rughvadi_link_fetch(rughvadi_link *link, uint32_t page, uint8_t *room, size_t len);

/* Waits until the transaction may write the page, which it has read. */
uint32_t rughvadi_link_want(rughvadi_link *link, uint32_t page);

/* Writes a page that the transaction has read, once it may write it. */
uint32_t rughvadi_link_put(rughvadi_link *link, uint32_t page, const uint8_t *bytes, size_t len);

/* Commits the transaction, and waits until it is on disk; *number is its number. After
 * RUGHVADI_LINK_SILENT it may be committed or not: call this again, which waits for the answer. */
uint32_t rughvadi_link_commit(rughvadi_link *link, uint64_t *number);

/* Ends the transaction without a commit. It may have been aborted before. If it read only pages
 * that the client held, nothing is sent now: its Drop goes out before the link's next frame. */
uint32_t rughvadi_link_drop(rughvadi_link *link);

/* Takes what came, and waits for at most that many milliseconds if nothing did. Call it while the
 * client has nothing to do: others wait for the pages that it holds until it answers. */
uint32_t rughvadi_link_serve(rughvadi_link *link, int wait_ms);

/* What a job does in an open transaction. It returns RUGHVADI_DONE to have it committed. */
typedef uint32_t (*rughvadi_link_job)(rughvadi_link *link, void *context);

/* Begins a transaction, does the job in it and commits. It begins again as often as the transaction
 * is aborted or the job returns RUGHVADI_LINK_ABORTED. Between two tries it pauses, and takes what
 * comes. The pause is drawn evenly between 0 and a bound, which is half a millisecond at first and
 * doubles after each try, up to a tenth of a second. If the job returns another fault, the
 * transaction is dropped, and that fault is returned. */
uint32_t rughvadi_link_run(rughvadi_link *link, rughvadi_link_job job, void *context,
                           uint64_t *number);

/* How long rughvadi_link_run_within goes on. A field that is 0 sets no bound. */
typedef struct {
  uint32_t tries;   /* the most tries */
  uint32_t time_ms; /* no try but the first begins later after the call than this */
} rughvadi_link_bound;

/* The same within a bound. RUGHVADI_LINK_ABORTED if it is reached; nothing is committed then. */
uint32_t rughvadi_link_run_within(rughvadi_link *link, rughvadi_link_job job, void *context,
                                  const rughvadi_link_bound *bound, uint64_t *number);

#ifdef __cplusplus
}
#endif

#endif
