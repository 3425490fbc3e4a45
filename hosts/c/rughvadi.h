/* Rughvadi for C: a page server, and clients that keep their pages across transactions. What a
 * client reads is current, until the server restarts or is told that the client left.
 *
 * The library does no input or output, starts no thread, takes no lock, reads no clock and never
 * aborts. The host hands frames in (rughvadi_take), fetches those that are to be sent
 * (rughvadi_next), and writes the server's pages to disk (rughvadi_server_batch and the calls
 * after it).
 *
 * A handle. `rughvadi_handle h = RUGHVADI_EMPTY;` is empty. rughvadi_server_new,
 * rughvadi_open_begin, rughvadi_open_life and rughvadi_client_new put an object into an empty
 * handle, and rughvadi_free takes it out again. A handle is never copied. Its fields are the
 * library's: the host neither reads nor writes them. Make one call at a time on a handle. A handle
 * may go to another thread, with what it holds, if the host orders the calls: by a lock, a thread's
 * start or join, or a sequentially consistent atomic. A call that takes a const handle changes
 * nothing that other calls show. It counts as a call all the same. The handle itself is never
 * const, since such a call takes the object out and puts it back.
 *
 * Frames that go out. A call may send frames: the server's answers, a client's asks. They are kept
 * in the handle until rughvadi_next has fetched each of them, the oldest first. Until then every
 * call that may send more is refused with RUGHVADI_UNFETCHED. Fetch them all after each such call.
 *
 * Results. Unless its comment says otherwise, a call returns RUGHVADI_DONE (0), or the number of a
 * fault. After a fault everything is as it was before: the object, the buffers, and what the
 * pointers to numbers point to. There are two exceptions: rughvadi_open_serve, and the size that
 * rughvadi_next and rughvadi_fault_text tell with RUGHVADI_ROOM. If several faults apply, the call
 * returns the one that its comment lists first; of a client's own faults (1 to 12), the lowest.
 * RUGHVADI_MEMORY and RUGHVADI_FRAME_MEMORY come last, and only if malloc or realloc refused. The
 * same call may then be made again.
 *
 * Pointers. Each is valid for its length, and no two of a call overlap. None is null; for a buffer
 * of length 0 any other pointer will do. The library keeps none of them after the call.
 *
 * Sizes. A frame has at most rughvadi_frame_most(&limits) bytes.
 *
 * Versions. RUGHVADI_VERSION is the version of these headers, and the number behind the shared
 * object's name, librughvadi.so.1. Within a version calls and numbers keep their meaning, and
 * structs their sizes and fields. Calls and numbers may be added. Fields may replace `reserved`
 * ones, and 0 then asks for nothing new. A program therefore runs with each later library of the
 * version that it was compiled for, and may meet numbers that it doesn't know. An earlier library
 * may lack a call that the program makes; the linker says so. Any other change gets a new number.
 */
#ifndef RUGHVADI_H
#define RUGHVADI_H

#include <stdbool.h>
#include <stddef.h>
#include <stdint.h>

#ifdef __cplusplus
extern "C" {
#endif

/* The version of this interface; rughvadi_version() returns the library's. */
#define RUGHVADI_VERSION 1

/* The limits of one store, which its server and its clients share, except for slots, kin and kout:
 * each client has its own. A server doesn't use these three, but refuses values out of range. */
typedef struct {
  uint64_t clients;    /* 1 to 32; they are numbered from 0 */
  uint64_t pages;      /* 1 to 4,096; they are numbered from 0 */
  uint64_t page_size;  /* bytes: 16 to 65,536 by steps of 16 */
  uint64_t slots;      /* pages in a client's pool: 2 to 1,024 */
  uint64_t kin;        /* 1 to slots - 1: with more new pages in the pool, one of these goes */
  uint64_t kout;       /* 1 to 4,096: how many new pages that went are remembered */
  uint64_t keep_write; /* other than 0: clients keep write permissions between transactions */
} rughvadi_limits;

/* Holds nothing, the rows of a store that is being opened, a server or a client. */
typedef struct {
  bool live;
  void *at;
} rughvadi_handle;

#ifdef __cplusplus
#define RUGHVADI_EMPTY rughvadi_handle{}
#else
#define RUGHVADI_EMPTY {0}
#endif

enum {
  RUGHVADI_DONE = 0,
  /* a client's */
  RUGHVADI_NOT_WELCOME = 1,      /* the server's Welcome has not come */
  RUGHVADI_NO_TRANSACTION = 2,   /* none is open: none was begun, or it was aborted */
  RUGHVADI_TRANSACTION_OPEN = 3, /* one is, or it is committing */
  RUGHVADI_COMMITTING = 4,
  RUGHVADI_WAITING = 5,          /* an ask has no answer yet: go on handing frames in */
  RUGHVADI_PAGE_RANGE = 6,       /* there is no such page */
  RUGHVADI_NOT_READ = 7,         /* the transaction has not read the page */
  RUGHVADI_NOT_HERE = 8,         /* the page's bytes left the pool: read it again */
  RUGHVADI_NOT_WRITABLE = 9,     /* want it first */
  RUGHVADI_WRONG_LENGTH = 10,    /* the bytes aren't as long as a page */
  RUGHVADI_POOL_FULL = 11,       /* every page in the pool is being written: use more slots */
  /* a client's or a server's */
  RUGHVADI_EXHAUSTED = 12,       /* no transaction, grant or commit number is left (2^62 - 1) */
  RUGHVADI_MEMORY = 13,
  /* of the bytes of a frame */
  RUGHVADI_FRAME_SHORT = 0x101,  /* there are fewer bytes than the frame has: more may come */
  RUGHVADI_FRAME_VERSION = 0x102,
  RUGHVADI_FRAME_KIND = 0x103,
  RUGHVADI_FRAME_LENGTH = 0x104,
  RUGHVADI_FRAME_RANGE = 0x105,
  RUGHVADI_FRAME_ORDER = 0x106,  /* a commit's pages don't rise */
  RUGHVADI_FRAME_MEMORY = 0x107,
  /* of the limits: which of them is out of range */
  RUGHVADI_LIMIT_CLIENTS = 0x201,
  RUGHVADI_LIMIT_PAGES = 0x202,
  RUGHVADI_LIMIT_PAGE_SIZE = 0x203,
  RUGHVADI_LIMIT_SLOTS = 0x204,
  RUGHVADI_LIMIT_KIN = 0x205,
  RUGHVADI_LIMIT_KOUT = 0x206,
  /* of the handle and the other arguments */
  RUGHVADI_OTHER_KIND = 0x301,   /* the handle is empty, or what it holds has no such call */
  RUGHVADI_UNFETCHED = 0x302,    /* first fetch the frames that wait, by rughvadi_next */
  RUGHVADI_NOTHING = 0x303,      /* nothing to fetch, to write or to show */
  RUGHVADI_ROOM = 0x304,         /* the buffer doesn't have the length that is needed */
  RUGHVADI_RANGE = 0x305,        /* a number is out of range */
  RUGHVADI_HELD = 0x306          /* the handle holds an object already */
};

/* What a client reports about itself. */
enum {
  RUGHVADI_STATUS_NONE = 0, /* there is no client in the handle */
  RUGHVADI_STATUS_NOT_WELCOME = 1,
  RUGHVADI_STATUS_IDLE = 2,
  RUGHVADI_STATUS_OPEN = 3,
  RUGHVADI_STATUS_WAITING = 4,
  RUGHVADI_STATUS_COMMITTING = 5
};

/* How a transaction ended. */
enum {
  RUGHVADI_ENDED_NONE = 0, /* none did yet */
  RUGHVADI_ENDED_COMMITTED = 1,
  RUGHVADI_ENDED_DROPPED = 2,
  RUGHVADI_ENDED_ABORTED = 3 /* the victim of a deadlock: begin again */
};

/* The kinds of frames: the first eight go to the server, the others to a client. */
enum {
  RUGHVADI_KIND_HELLO = 1,
  RUGHVADI_KIND_ASK_READ = 2,
  RUGHVADI_KIND_ASK_WRITE = 3,
  RUGHVADI_KIND_GIVE_BACK = 4,
  RUGHVADI_KIND_IN_USE = 5,
  RUGHVADI_KIND_COMMIT = 6,
  RUGHVADI_KIND_DROP = 7,
  RUGHVADI_KIND_DOWNGRADED = 8,
  RUGHVADI_KIND_WELCOME = 65,
  RUGHVADI_KIND_GRANTED = 66,
  RUGHVADI_KIND_MAY_WRITE = 67,
  RUGHVADI_KIND_CALLBACK = 68,
  RUGHVADI_KIND_DONE = 69,
  RUGHVADI_KIND_ABORT_NOW = 70,
  RUGHVADI_KIND_DOWNGRADE = 71
};

/* What the header of a frame says. */
typedef struct {
  uint64_t length;      /* the frame's bytes, the header's 16 among them */
  uint32_t client;      /* that it comes from or goes to */
  uint32_t kind;        /* RUGHVADI_KIND_.. */
  uint64_t incarnation; /* the client's */
} rughvadi_frame_head;

/* The most bytes that a frame of this store has: a commit that writes each page. */
static inline size_t rughvadi_frame_most(const rughvadi_limits *limits) {
  return (size_t)(16 + 10 + limits->pages * (16 + limits->page_size));
}

/* ---- calls that need no handle ---- */

/* The version of the library's interface: RUGHVADI_VERSION. */
uint32_t rughvadi_version(void);

/* Writes the meaning of a fault's number to the room, in English, without a 0 behind it. *size is
 * how many bytes the text has, at most 64, also if the room is too short.
 * ROOM: the room is too short; nothing is written to it. */
uint32_t rughvadi_fault_text(uint32_t fault, uint8_t *room, size_t len, size_t *size);

/* Reads the frame at the front of the bytes. By this call a host cuts a stream into frames, and
 * learns whose they are before it hands them in. Nothing else happens.
 * LIMIT_..: a limit is out of range. FRAME_SHORT: more bytes are needed. FRAME_..: no frame begins
 * with these bytes, whatever follows. */
uint32_t rughvadi_frame_read(const rughvadi_limits *limits, const uint8_t *bytes, size_t len,
                             rughvadi_frame_head *head);

/* ---- calls of a server or a client ---- */

/* Takes the frame at the front of the bytes, whatever follows it; *used is how many bytes it has. A
 * frame that is late, repeated or of another incarnation is taken too, and has no effect.
 * OTHER_KIND, UNFETCHED, FRAME_.. (FRAME_MEMORY only for a commit or a granted page), EXHAUSTED
 * (from a server: no number is left for an ask to read or a commit), MEMORY. */
uint32_t rughvadi_take(rughvadi_handle *h, const uint8_t *bytes, size_t len, size_t *used);

/* Fetches the oldest frame that waits, to the front of the room. *size is how many bytes it has.
 * *client is the client that a server's frame goes to, or the number of the client that sends it.
 * OTHER_KIND. NOTHING: no frame waits. MEMORY. ROOM: the room is too short; *size is the length
 * that is needed, and the frame stays. */
uint32_t rughvadi_next(rughvadi_handle *h, uint8_t *room, size_t len, size_t *size,
                       uint32_t *client);

/* Resends what may have been lost. Call it if an answer hasn't come for a while. It does no harm if
 * nothing was lost.
 * OTHER_KIND, UNFETCHED, MEMORY. */
uint32_t rughvadi_again(rughvadi_handle *h);

/* Frees what the handle holds, and leaves it empty. The handle may be empty already. */
void rughvadi_free(rughvadi_handle *h);

/* ---- a server ---- */

/* Makes a server over a store of zeros, for the first time that a store is used.
 * HELD, LIMIT_.., MEMORY. */
uint32_t rughvadi_server_new(const rughvadi_limits *limits, rughvadi_handle *h);

/* Makes a server over a store that was written before, in three steps. The first tells how large
 * the store is, and the number of the last commit that is on disk.
 * HELD, LIMIT_... RANGE: no commit can have this number. MEMORY. */
uint32_t rughvadi_open_begin(const rughvadi_limits *limits, uint64_t last_commit,
                             rughvadi_handle *h);

/* The first step for a host that keeps lives: the server begins a life with this floor. It knows
 * the floor as each client's incarnation, and ignores every frame of a lower one, whenever that
 * comes. The host keeps a bound on disk, which is above every incarnation that a former server
 * heard of. The floor is that bound, and the next bound has to be on disk before the server takes
 * anything. A floor of 0 stands for no life: the call is then rughvadi_open_begin.
 * HELD, LIMIT_... RANGE: no commit can have this number, or the floor is above 2^62 - 1. MEMORY. */
uint32_t rughvadi_open_life(const rughvadi_limits *limits, uint64_t last_commit, uint64_t floor,
                            rughvadi_handle *h);

/* The second step, once for each page, by rising number: the version that rughvadi_server_page told
 * when the page was written, and its bytes, which are copied. For a page that was never written the
 * version is 0, and so are the bytes.
 * OTHER_KIND. ROOM: the bytes aren't as long as a page, or each page has its row already. RANGE:
 * the version is above the last commit. MEMORY. */
uint32_t rughvadi_open_row(rughvadi_handle *h, uint64_t version, const uint8_t *bytes, size_t len);

/* The third step, after which the handle holds the server. All that it has counts as on disk. It
 * knows no client, or in a life the floor of each.
 * OTHER_KIND. ROOM: a page has no row. MEMORY: the rows are gone then, and the handle is empty, so
 * begin again. No other call does that. */
uint32_t rughvadi_open_serve(rughvadi_handle *h);

/* Makes the batch that is to be written next: every page that was changed by a commit which isn't
 * on disk yet. *number is the last commit in it, *pages how many pages it has.
 * The host writes these pages, and the number, in one transaction of its store, and syncs it. Only
 * then does it call rughvadi_server_flushed with the number.
 * OTHER_KIND. NOTHING: every commit is on disk. MEMORY. */
uint32_t rughvadi_server_batch(rughvadi_handle *h, uint64_t *number, size_t *pages);

/* Tells a page of the batch, by its place from 0: its number, its version, and its bytes, which go
 * to the room.
 * OTHER_KIND. NOTHING: there is no batch, or no such place. ROOM: the room isn't as long as a
 * page. */
uint32_t rughvadi_server_page(const rughvadi_handle *h, size_t at, uint8_t *room, size_t len,
                              uint32_t *page, uint64_t *version);

/* Whether that commit was made and isn't on disk yet, so that rughvadi_server_flushed takes it. */
bool rughvadi_server_can_flush(const rughvadi_handle *h, uint64_t number);

/* Reports that the commits up to this number are on disk now, synced. Their clients are told.
 * OTHER_KIND, UNFETCHED. RANGE: rughvadi_server_can_flush is false for the number. MEMORY. */
uint32_t rughvadi_server_flushed(rughvadi_handle *h, uint64_t number);

/* Drops the commits up to this number, which are on disk, from the server's memory. Call it after
 * rughvadi_server_flushed with the same number, or now and then; without it the memory grows with
 * each commit. Its cost depends on what it drops, and on nothing else.
 * OTHER_KIND. RANGE: no commit has this number, or not all up to it are on disk. */
uint32_t rughvadi_server_forget(rughvadi_handle *h, uint64_t number);

/* Tells the server that a client went away and won't come back in its present incarnation. The
 * server takes back what the client held, and those who waited for it go on. Its commits that were
 * applied stand. One of the frames that go out is a Welcome to that client, which nobody awaits.
 * Without this call the other clients may wait for it forever.
 * OTHER_KIND, UNFETCHED. RANGE: there is no such client, or no incarnation is left. MEMORY. */
uint32_t rughvadi_server_leave(rughvadi_handle *h, uint32_t client);

/* Tells the incarnation with which the client may greet next. It is one more than the greater of
 * two: the last incarnation that this server heard of, and the floor of its life. A new server
 * without a life has heard of none, so the host has to keep the number.
 * OTHER_KIND. RANGE: there is no such client, or no incarnation is left. */
uint32_t rughvadi_server_incarnation(const rughvadi_handle *h, uint32_t client,
                                     uint64_t *incarnation);

/* ---- a client ---- */

/* Makes a client at the start of an incarnation. No earlier client of its number may have had that
 * incarnation: else this one takes frames that were meant for the other.
 * HELD, LIMIT_... RANGE: there is no such client or incarnation (1 to 2^62 - 1). MEMORY. */
uint32_t rughvadi_client_new(const rughvadi_limits *limits, uint32_t client, uint64_t incarnation,
                             rughvadi_handle *h);

/* Greets the server. Send this first. The client is welcome once it has taken the answer.
 * OTHER_KIND, UNFETCHED. */
uint32_t rughvadi_client_hello(rughvadi_handle *h);

/* Begins a transaction; *txn is its number. It sends no frame.
 * OTHER_KIND, NOT_WELCOME, TRANSACTION_OPEN, EXHAUSTED. */
uint32_t rughvadi_client_begin(rughvadi_handle *h, uint64_t *txn);

/* Reads a page in the open transaction. If *here is true, its bytes are in the room, and no frame
 * goes out. Nobody writes the page before the transaction ends, unless the server restarts or is
 * told that the client left. If *here is false, an ask goes out: fetch it, send it, hand in what
 * comes until the status isn't WAITING any more, and read again.
 * OTHER_KIND. RANGE: no store has such a page (4,096 and more). UNFETCHED. ROOM: the room isn't as
 * long as a page. NOT_WELCOME. NO_TRANSACTION, which may have been aborted meanwhile. COMMITTING,
 * WAITING, PAGE_RANGE, POOL_FULL. */
uint32_t rughvadi_client_read(rughvadi_handle *h, uint32_t page, uint8_t *room, size_t len,
                              bool *here);

/* Asks to write a page that the transaction has read. If *may is true, it may be written now. If it
 * is false, an ask goes out, as with a read; make this call again after the answer.
 * OTHER_KIND, RANGE, UNFETCHED, NOT_WELCOME, NO_TRANSACTION, COMMITTING, WAITING, PAGE_RANGE,
 * NOT_READ, NOT_HERE (read it again first). */
uint32_t rughvadi_client_want(rughvadi_handle *h, uint32_t page, bool *may);

/* Writes a page that the transaction has read and may write. Until the commit it changes in this
 * client's pool alone. The bytes are copied. It sends no frame.
 * OTHER_KIND, RANGE, NOT_WELCOME, NO_TRANSACTION, COMMITTING, WAITING, PAGE_RANGE, NOT_READ,
 * NOT_HERE, NOT_WRITABLE, WRONG_LENGTH. */
uint32_t rughvadi_client_write(rughvadi_handle *h, uint32_t page, const uint8_t *bytes, size_t len);

/* Commits the transaction. It is done, and on disk, once the status isn't COMMITTING any more and
 * rughvadi_client_last says that it committed.
 * OTHER_KIND, UNFETCHED, NOT_WELCOME, NO_TRANSACTION, COMMITTING, WAITING, MEMORY (only if it
 * wrote). */
uint32_t rughvadi_client_finish(rughvadi_handle *h);

/* Ends the transaction without a commit: what it wrote is undone.
 * OTHER_KIND, UNFETCHED, NOT_WELCOME, NO_TRANSACTION, COMMITTING, MEMORY. */
uint32_t rughvadi_client_drop(rughvadi_handle *h);

/* What the client reports about itself: RUGHVADI_STATUS_.. */
uint32_t rughvadi_client_status(const rughvadi_handle *h);

/* How the last transaction ended: RUGHVADI_ENDED_... *number is its commit's number, or 0. */
uint32_t rughvadi_client_last(const rughvadi_handle *h, uint64_t *number);

/* Tells the bytes of the client's copy of a page, in a transaction or not. It isn't a read, and
 * locks nothing. The bytes are the store's, or those that this client's transaction wrote, until
 * the server restarts or is told that the client left.
 * OTHER_KIND, RANGE. NOTHING: it has none. ROOM: the room isn't as long as a page. */
uint32_t rughvadi_client_peek(const rughvadi_handle *h, uint32_t page, uint8_t *room, size_t len);

/* Whether the open transaction may write the page now, without an ask. */
bool rughvadi_client_may_write(const rughvadi_handle *h, uint32_t page);

#ifdef __cplusplus
}
#endif

#endif
