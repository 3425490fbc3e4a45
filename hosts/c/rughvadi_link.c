#include "rughvadi_link.h"

#include "waiting.h"

#include <stdlib.h>
#include <string.h>
#include <sys/random.h>
#include <sys/socket.h>
#include <unistd.h>

/* Between two tries of a job at most so many nanoseconds pass, at first and in the end. */
enum { FIRST_PAUSE = 500000, LONGEST_PAUSE = 100000000 };

/* Makes a buffer at least so large; false where memory was refused. */
static bool make_room(uint8_t **buffer, size_t *size, size_t needed) {
  if (*size >= needed) {
    return true;
  }
  uint8_t *larger = realloc(*buffer, needed);
  if (larger == NULL) {
    return false;
  }
  *buffer = larger;
  *size = needed;
  return true;
}

/* Whether the connection is of no use after this fault. */
static bool is_last(uint32_t fault) {
  return fault == RUGHVADI_LINK_SYSTEM || fault == RUGHVADI_LINK_CLOSED
         || (fault >= RUGHVADI_FRAME_VERSION && fault <= RUGHVADI_FRAME_ORDER);
}

/* The fault, after which the link is gone, if it is the last. */
static uint32_t noted(rughvadi_link *link, uint32_t fault) {
  link->gone = link->gone || is_last(fault);
  return fault;
}

/* Until when the other end may do nothing. */
static moment patience(const rughvadi_link *link) {
  bool endless = link->wait_ms < 0 || link->tries < 0;
  return in_ms(endless ? -1 : ((int64_t)link->tries + 1) * link->wait_ms);
}

/* Waits until the socket takes bytes again, no longer than for an answer: ETIMEDOUT. */
static uint32_t await_room(const rughvadi_link *link) {
  struct pollfd watched = {.fd = link->socket, .events = POLLOUT};
  int ready = watch_on(&watched, patience(link));
  if (ready == 0) {
    errno = ETIMEDOUT;
  }
  return ready > 0 ? RUGHVADI_DONE : RUGHVADI_LINK_SYSTEM;
}

/* Sends so many bytes of the frame that was fetched. */
static uint32_t send_frame(const rughvadi_link *link, size_t len) {
  uint32_t fault = RUGHVADI_DONE;
  for (size_t at = 0; at < len && fault == RUGHVADI_DONE;) {
    ssize_t sent = send(link->socket, link->out + at, len - at, MSG_NOSIGNAL | MSG_DONTWAIT);
    if (sent >= 0) {
      at += (size_t)sent;
    } else if (errno == EAGAIN || errno == EWOULDBLOCK) {
      fault = await_room(link);
    } else if (errno == EPIPE || errno == ECONNRESET) {
      fault = RUGHVADI_LINK_CLOSED;
    } else if (errno != EINTR) {
      fault = RUGHVADI_LINK_SYSTEM;
    }
  }
  return fault;
}

/* Fetches the oldest frame that was said. */
static uint32_t fetch_oldest(rughvadi_link *link, size_t *size) {
  uint32_t client = 0;
  return rughvadi_next(&link->client, link->out, link->out_size, size, &client);
}

/* Sends a Drop that waits, else the oldest frame that was said, which it fetches: RUGHVADI_NOTHING
 * where all is sent. From before it is fetched until it is sent whole the link is gone. So it
 * stays, whatever ends this early: a jump out of a signal's handler and the thread's end, too. */
static uint32_t send_oldest(rughvadi_link *link) {
  if (link->gone) {
    return RUGHVADI_LINK_CLOSED;
  }
  size_t size = (size_t)link->late;
  link->gone = true;
  link->late = 0;
  uint32_t fault = size > 0 ? RUGHVADI_DONE : fetch_oldest(link, &size);
  if (fault == RUGHVADI_DONE) {
    link->is_silent = false;
    fault = send_frame(link, size);
  }
  link->gone = is_last(fault);
  if (fault != RUGHVADI_ROOM) {
    return fault;
  }
  return make_room(&link->out, &link->out_size, size) ? RUGHVADI_DONE : RUGHVADI_MEMORY;
}

/* Fetches and sends all that the client said. */
static uint32_t send_said(rughvadi_link *link) {
  uint32_t fault;
  do {
    fault = send_oldest(link);
  } while (fault == RUGHVADI_DONE);
  return fault == RUGHVADI_NOTHING ? RUGHVADI_DONE : fault;
}

/* Takes each whole frame that came, and sends what is said to it. */
static uint32_t take_frames(rughvadi_link *link) {
  size_t at = 0;
  uint32_t fault = RUGHVADI_DONE;
  while (at < link->in_len && fault == RUGHVADI_DONE) {
    size_t used = 0;
    fault = rughvadi_take(&link->client, link->in + at, link->in_len - at, &used);
    at += used;
    if (fault == RUGHVADI_DONE) {
      fault = send_said(link);
    }
  }
  if (at > 0) {
    memmove(link->in, link->in + at, link->in_len - at);
    link->in_len -= at;
  }
  return fault == RUGHVADI_FRAME_SHORT ? RUGHVADI_DONE : noted(link, fault);
}

/* Receives what is there and takes it. What was received has to be noted, as a frame that was
 * fetched has to be sent: until then the link is gone. */
static uint32_t receive(rughvadi_link *link) {
  if (link->gone) {
    return RUGHVADI_LINK_CLOSED;
  }
  if (!make_room(&link->in, &link->in_size, link->in_len + 65536)) {
    return RUGHVADI_MEMORY;
  }
  link->gone = true;
  ssize_t got = recv(link->socket, link->in + link->in_len, link->in_size - link->in_len,
                     MSG_DONTWAIT);
  if (got == 0 || (got < 0 && errno == ECONNRESET)) {
    return RUGHVADI_LINK_CLOSED;
  }
  if (got < 0 && errno != EINTR && errno != EAGAIN && errno != EWOULDBLOCK) {
    return RUGHVADI_LINK_SYSTEM;
  }
  link->in_len += got > 0 ? (size_t)got : 0;
  link->gone = false;
  return got > 0 ? take_frames(link) : RUGHVADI_DONE;
}

/* Receives all that comes until then; a signal ends the wait where nothing came yet. */
static uint32_t receive_all(rughvadi_link *link, moment until) {
  struct pollfd watched = {.fd = link->socket, .events = POLLIN};
  int ready = watch(&watched, until);
  while (ready > 0) {
    uint32_t fault = receive(link);
    if (fault != RUGHVADI_DONE) {
      return fault;
    }
    ready = watch(&watched, 0);
  }
  return ready < 0 ? noted(link, RUGHVADI_LINK_SYSTEM) : RUGHVADI_DONE;
}

/* Sends what was said, and takes what came and was left since memory was refused. */
static uint32_t take_left(rughvadi_link *link) {
  uint32_t fault = send_said(link);
  return fault == RUGHVADI_DONE ? take_frames(link) : fault;
}

uint32_t rughvadi_link_serve(rughvadi_link *link, int wait_ms) {
  if (link->gone) {
    return RUGHVADI_LINK_CLOSED;
  }
  uint32_t fault = take_left(link);
  return fault != RUGHVADI_DONE ? fault : receive_all(link, in_ms(wait_ms));
}

/* Receives once until then; *came says whether something came. A signal ends no wait. */
static uint32_t receive_until(rughvadi_link *link, moment until, bool *came) {
  struct pollfd watched = {.fd = link->socket, .events = POLLIN};
  int ready = watch_on(&watched, until);
  *came = ready > 0;
  if (ready < 0) {
    return noted(link, RUGHVADI_LINK_SYSTEM);
  }
  return *came ? receive(link) : RUGHVADI_DONE;
}

/* Waits while the client has that status, and says again what may be lost. */
static uint32_t wait_while(rughvadi_link *link, uint32_t status) {
  int silent = 0;
  uint32_t fault = take_left(link);
  while (fault == RUGHVADI_DONE && rughvadi_client_status(&link->client) == status) {
    bool came = false;
    fault = receive_until(link, in_ms(link->wait_ms), &came);
    if (fault == RUGHVADI_DONE && !came) {
      fault = silent++ == link->tries ? RUGHVADI_LINK_SILENT : rughvadi_again(&link->client);
      fault = fault == RUGHVADI_DONE ? send_said(link) : fault;
    }
  }
  return fault;
}

/* A transaction that is gone was aborted, if that is how the last one ended. */
static uint32_t aborted_or(rughvadi_link *link, uint32_t fault) {
  uint64_t number = 0;
  bool gone = fault == RUGHVADI_NO_TRANSACTION
              && rughvadi_client_last(&link->client, &number) == RUGHVADI_ENDED_ABORTED;
  return gone ? RUGHVADI_LINK_ABORTED : fault;
}

/* Where the numbers begin that a link draws its pauses from: other than 0, and of its own. */
static uint64_t first_draw(void) {
  uint64_t drawn = 0;
  if (getrandom(&drawn, sizeof drawn, GRND_NONBLOCK) != (ssize_t)sizeof drawn) {
    drawn = (uint64_t)now();
  }
  return drawn | 1;
}

uint32_t rughvadi_link_open(rughvadi_link *link, const rughvadi_limits *limits, uint32_t client,
                            /* NOLINTNEXTLINE(bugprone-easily-swappable-parameters): it is public */
                            uint64_t incarnation, int socket) {
  *link = (rughvadi_link){.socket = socket, .wait_ms = 1000, .tries = 30,
                          .page_size = (size_t)limits->page_size, .draws = first_draw()};
  uint32_t fault = rughvadi_client_new(limits, client, incarnation, &link->client);
  if (fault == RUGHVADI_DONE && !make_room(&link->out, &link->out_size, 64)) {
    fault = RUGHVADI_MEMORY;
  }
  if (fault == RUGHVADI_DONE) {
    fault = rughvadi_client_hello(&link->client);
  }
  if (fault == RUGHVADI_DONE) {
    fault = wait_while(link, RUGHVADI_STATUS_NOT_WELCOME);
  }
  if (fault != RUGHVADI_DONE) {
    int why = errno;
    rughvadi_link_close(link);
    link->socket = -1;
    errno = why;
  }
  return fault;
}

void rughvadi_link_close(rughvadi_link *link) {
  rughvadi_free(&link->client);
  free(link->out);
  free(link->in);
  int socket = link->socket;
  if (link->owns) {
    close(socket);
    socket = -1;
  }
  *link = (rughvadi_link){.socket = socket, .gone = true};
}

/* Answers what came meanwhile, before pages are used. Where only a Drop waits, and nothing came, it
 * waits on. */
static uint32_t answer_what_came(rughvadi_link *link) {
  struct pollfd watched = {.fd = link->socket, .events = POLLIN};
  bool waits = !link->gone && link->late > 0 && link->in_len == 0 && watch(&watched, 0) == 0;
  return waits ? RUGHVADI_DONE : rughvadi_link_serve(link, 0);
}

uint32_t rughvadi_link_begin(rughvadi_link *link) {
  uint64_t txn = 0;
  uint32_t fault = answer_what_came(link);
  if (fault == RUGHVADI_DONE) {
    fault = rughvadi_client_begin(&link->client, &txn);
  }
  link->is_silent = fault == RUGHVADI_DONE;
  return fault;
}

/* Whether an ask is out, of this call or of an earlier one that no answer came to; or an earlier
 * call was refused memory, and left what is to be sent first. */
static bool asks(uint32_t fault) {
  return fault == RUGHVADI_DONE || fault == RUGHVADI_WAITING || fault == RUGHVADI_UNFETCHED;
}

uint32_t rughvadi_link_fetch(rughvadi_link *link, uint32_t page, uint8_t *room, size_t len) {
  while (!link->gone) {
    bool here = false;
    uint32_t fault = rughvadi_client_read(&link->client, page, room, len, &here);
    if (fault == RUGHVADI_DONE && here) {
      return RUGHVADI_DONE;
    }
    if (!asks(fault)) {
      return aborted_or(link, fault);
    }
    fault = wait_while(link, RUGHVADI_STATUS_WAITING);
    if (fault != RUGHVADI_DONE) {
      return fault;
    }
  }
  return RUGHVADI_LINK_CLOSED;
}

uint32_t rughvadi_link_want(rughvadi_link *link, uint32_t page) {
  while (!link->gone) {
    bool may = false;
    uint32_t fault = rughvadi_client_want(&link->client, page, &may);
    if (fault == RUGHVADI_DONE && may) {
      return RUGHVADI_DONE;
    }
    if (!asks(fault)) {
      return aborted_or(link, fault);
    }
    fault = wait_while(link, RUGHVADI_STATUS_WAITING);
    if (fault != RUGHVADI_DONE) {
      return fault;
    }
  }
  return RUGHVADI_LINK_CLOSED;
}

/* The page's bytes left the pool since the transaction read it: they are fetched again. */
static uint32_t fetch_again(rughvadi_link *link, uint32_t page) {
  uint8_t *room = malloc(link->page_size);
  if (room == NULL) {
    return RUGHVADI_MEMORY;
  }
  uint32_t fault = rughvadi_link_fetch(link, page, room, link->page_size);
  free(room);
  return fault;
}

uint32_t rughvadi_link_put(rughvadi_link *link, uint32_t page, const uint8_t *bytes, size_t len) {
  uint32_t fault = rughvadi_link_want(link, page);
  if (fault == RUGHVADI_NOT_HERE) {
    fault = fetch_again(link, page);
    if (fault == RUGHVADI_DONE) {
      fault = rughvadi_link_want(link, page);
    }
  }
  if (fault != RUGHVADI_DONE) {
    return fault;
  }
  return aborted_or(link, rughvadi_client_write(&link->client, page, bytes, len));
}

/* Begins a commit, unless an earlier call has, and had no answer. */
static uint32_t begin_commit(rughvadi_link *link) {
  uint32_t fault = rughvadi_client_finish(&link->client);
  if (fault == RUGHVADI_UNFETCHED) {
    fault = take_left(link);
    fault = fault == RUGHVADI_DONE ? rughvadi_client_finish(&link->client) : fault;
  }
  return fault == RUGHVADI_COMMITTING ? RUGHVADI_DONE : fault;
}

/* Waits until the commit has ended. Whatever fails behind that is told by later calls. */
static uint32_t wait_for_commit(rughvadi_link *link) {
  uint32_t fault = wait_while(link, RUGHVADI_STATUS_COMMITTING);
  bool goes_on = rughvadi_client_status(&link->client) == RUGHVADI_STATUS_COMMITTING;
  return goes_on ? fault : RUGHVADI_DONE;
}

uint32_t rughvadi_link_commit(rughvadi_link *link, uint64_t *number) {
  if (link->gone) {
    return RUGHVADI_LINK_CLOSED;
  }
  uint32_t fault = begin_commit(link);
  if (fault == RUGHVADI_DONE) {
    fault = wait_for_commit(link);
  }
  if (fault != RUGHVADI_DONE) {
    return aborted_or(link, fault);
  }
  uint32_t ended = rughvadi_client_last(&link->client, number);
  return ended == RUGHVADI_ENDED_COMMITTED ? RUGHVADI_DONE : RUGHVADI_LINK_ABORTED;
}

/* Keeps the Drop of a transaction that said nothing else, in place of one that waits already: the
 * server knows nothing of either. Until it is kept the link is gone. If there is more it is sent.
 */
static uint32_t keep_drop(rughvadi_link *link) {
  size_t size = 0;
  uint32_t client = 0;
  link->gone = true;
  link->is_silent = false;
  uint32_t fault = fetch_oldest(link, &size);
  link->late = fault == RUGHVADI_DONE ? size : link->late;
  link->gone = false;
  if (fault != RUGHVADI_DONE) {
    return send_said(link);
  }
  fault = rughvadi_next(&link->client, link->out, 0, &size, &client);
  return fault == RUGHVADI_NOTHING ? RUGHVADI_DONE : send_said(link);
}

uint32_t rughvadi_link_drop(rughvadi_link *link) {
  if (link->gone) {
    return RUGHVADI_LINK_CLOSED;
  }
  uint32_t fault = rughvadi_client_drop(&link->client);
  if (fault == RUGHVADI_UNFETCHED) {
    fault = take_left(link);
    fault = fault == RUGHVADI_DONE ? rughvadi_client_drop(&link->client) : fault;
  }
  if (fault == RUGHVADI_DONE) {
    fault = link->is_silent ? keep_drop(link) : send_said(link);
    /* Where memory is refused the Drop waits. */
    return fault == RUGHVADI_MEMORY ? RUGHVADI_DONE : fault;
  }
  return aborted_or(link, fault) == RUGHVADI_LINK_ABORTED ? RUGHVADI_DONE : fault;
}

/* Does the job once, in a transaction that ends with it. */
static uint32_t try_job(rughvadi_link *link, rughvadi_link_job job, void *context,
                        uint64_t *number) {
  uint32_t fault = rughvadi_link_begin(link);
  if (fault != RUGHVADI_DONE) {
    return fault;
  }
  fault = job(link, context);
  if (fault == RUGHVADI_DONE) {
    return rughvadi_link_commit(link, number);
  }
  rughvadi_link_drop(link);
  return fault;
}

/* The next of numbers that look random. */
static uint64_t drawn(rughvadi_link *link) {
  link->draws ^= link->draws << 13;
  link->draws ^= link->draws >> 7;
  return link->draws ^= link->draws << 17;
}

/* When the next try begins, after so many of them were aborted: within a bound that doubles with
 * each, and any moment within it is as likely as another. So those who aborted each other part. */
static moment next_try(rughvadi_link *link, uint32_t aborted) {
  uint64_t most = aborted < 9 ? (uint64_t)FIRST_PAUSE << (aborted - 1) : LONGEST_PAUSE;
  return now() + (moment)(drawn(link) % (most + 1));
}

/* Takes what comes until then: others wait for the pages that the client holds. */
static uint32_t pause_until(rughvadi_link *link, moment until) {
  uint32_t fault;
  bool came;
  do {
    fault = receive_until(link, until, &came);
  } while (fault == RUGHVADI_DONE && now() < until);
  return fault;
}

uint32_t rughvadi_link_run_within(rughvadi_link *link, rughvadi_link_job job, void *context,
                                  const rughvadi_link_bound *bound, uint64_t *number) {
  moment end = bound->time_ms == 0 ? NEVER : in_ms(bound->time_ms);
  for (uint32_t tries = 1;; tries++) {
    uint32_t fault = try_job(link, job, context, number);
    if (fault != RUGHVADI_LINK_ABORTED || tries == bound->tries) {
      return fault;
    }
    moment next = next_try(link, tries);
    if (next > end) {
      return fault;
    }
    fault = pause_until(link, next);
    if (fault != RUGHVADI_DONE) {
      return fault;
    }
  }
}

uint32_t rughvadi_link_run(rughvadi_link *link, rughvadi_link_job job, void *context,
                           uint64_t *number) {
  return rughvadi_link_run_within(link, job, context, &(rughvadi_link_bound){0}, number);
}
