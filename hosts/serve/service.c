#include "service.h"

#include <errno.h>
#include <poll.h>
#include <stdio.h>
#include <sys/epoll.h>
#include <sys/eventfd.h>
#include <sys/timerfd.h>
#include <unistd.h>

enum {
  HEADER = 16,
  ROUND = 1 << 20,     /* bytes that are read at once */
  AHEAD_MOST = 1 << 22 /* bytes that are taken while a batch is out */
};

static const uint64_t SECOND = 1000000000, MILLISECOND = 1000000;

/* ---- output ---- */

/* The fault after a write that failed; none where it is to be tried again. */
static enum fault failed_write(void) {
  struct pollfd output = {.fd = STDOUT_FILENO, .events = POLLOUT};
  if (errno == EAGAIN) {
    poll(&output, 1, -1);
    return NO_FAULT;
  }
  if (errno == EINTR) {
    return NO_FAULT;
  }
  return errno == EPIPE ? FAULT_CLOSED : FAULT_OUTPUT;
}

static enum fault put_out(struct bytes *out) {
  enum fault fault = NO_FAULT;
  size_t at = 0;
  while (at < out->size && fault == NO_FAULT) {
    ssize_t count = write(STDOUT_FILENO, out->at + at, out->size - at);
    at += count > 0 ? (size_t)count : 0;
    fault = count < 0 ? failed_write() : NO_FAULT;
  }
  bytes_cut(out, out->size);
  return fault;
}

/* Tells the life before any frame: a header of kind 0 whose incarnation is the floor. */
static enum fault announce(struct service *service) {
  uint8_t header[HEADER] = {2};
  put_64(header + 4, service->stream.life.floor);
  return bytes_put(&service->stream.out, header, sizeof header) ? put_out(&service->stream.out)
                                                                : FAULT_MEMORY;
}

/* ---- input ---- */

/* Whether more is to be read for now: while a batch is out, so much at most. */
static bool reads(const struct service *service) {
  return !service->is_closed && !(service->is_out && service->ahead >= AHEAD_MOST);
}

/* Has one thread told once there is more to read. */
static enum fault watch_input(struct service *service) {
  struct epoll_event event = {.events = EPOLLIN | EPOLLONESHOT, .data.fd = STDIN_FILENO};
  if (service->is_watched || service->is_ready || !reads(service)) {
    return NO_FAULT;
  }
  service->is_watched = epoll_ctl(service->watch, EPOLL_CTL_MOD, STDIN_FILENO, &event) == 0;
  return service->is_watched ? NO_FAULT : FAULT_INPUT;
}

/* Reads what is there, behind what waits. */
static enum fault read_more(struct service *service) {
  struct bytes *in = &service->stream.in;
  if (!bytes_reserve(in, ROUND)) {
    return FAULT_MEMORY;
  }
  ssize_t count = read(STDIN_FILENO, in->at + in->size, ROUND);
  service->is_ready = service->is_plain;
  if (count > 0) {
    in->size += (size_t)count;
    service->ahead += (size_t)count;
  } else if (count == 0 || (errno != EINTR && errno != EAGAIN)) {
    service->is_closed = true;
    service->ending = count < 0 ? FAULT_INPUT : NO_FAULT;
  }
  return NO_FAULT;
}

/* Takes all that came, and puts out what is said to it. */
static enum fault take(struct service *service) {
  struct stream *stream = &service->stream;
  enum fault fault = stream_take(stream);
  if (stream->has_ended) {
    service->is_closed = true;
    service->ending = FAULT_NO_FRAME;
  }
  return fault == NO_FAULT ? put_out(&stream->out) : fault;
}

/* For how many nanoseconds a thread may wait; 0: for ever. */
static uint64_t time_left(const struct service *service) {
  if (service->is_out || service->patience > 0 || service->engine->calls->beat == 0) {
    return service->patience;
  }
  uint64_t now = clock_now();
  return service->beat > now ? service->beat - now : 1;
}

/* Sets the clock by which one thread is told that the time is over. */
static void set_clock(const struct service *service) {
  uint64_t left = time_left(service);
  if (left > 0) {
    struct itimerspec time = {.it_value = {(time_t)(left / SECOND), (long)(left % SECOND)}};
    timerfd_settime(service->clock, 0, &time, NULL);
  }
}

/* Waits, without the lock, until something came, a time is over, or all is. */
static enum fault await(struct service *service) {
  struct epoll_event event = {.data.fd = -1};
  enum fault fault = watch_input(service);
  if (fault != NO_FAULT) {
    return fault;
  }
  set_clock(service);
  pthread_mutex_unlock(&service->lock);
  int count = epoll_wait(service->watch, &event, 1, -1);
  bool is_wrong = count < 0 && errno != EINTR;
  pthread_mutex_lock(&service->lock);
  if (count == 1 && event.data.fd == STDIN_FILENO) {
    service->is_watched = false;
    service->is_ready = true;
  }
  return is_wrong ? FAULT_INPUT : NO_FAULT;
}

/* Reads and takes what is there; else waits for it. */
static enum fault take_more(struct service *service) {
  if (!service->is_ready || !reads(service)) {
    return await(service);
  }
  enum fault fault = read_more(service);
  return fault == NO_FAULT ? take(service) : fault;
}

/* ---- batches ---- */

/* Makes the next batch, if there is one and none is out, and nobody is waited for. */
static enum fault next_batch(struct service *service, bool *is_there) {
  struct pace *pace = &service->stream.pace;
  bool is_urgent = service->is_closed || service->stream.wanted > 0;
  service->patience = service->is_out || is_urgent ? 0 : pace_patience(pace);
  *is_there = false;
  return service->is_out || service->patience > 0
             ? NO_FAULT
             : stream_batch(&service->stream, &service->batch, is_there);
}

/* Writes the batch, without the lock. */
static enum fault write_out(struct service *service) {
  const struct engine_calls *calls = service->engine->calls;
  service->is_out = true;
  service->ahead = 0;
  enum fault fault = watch_input(service);
  pthread_mutex_unlock(&service->lock);
  if (fault == NO_FAULT) {
    fault = calls->write(service->engine, &service->batch);
  }
  pthread_mutex_lock(&service->lock);
  service->is_out = false;
  service->beat = clock_now() + (uint64_t)calls->beat * MILLISECOND;
  return fault;
}

/* Writes the batch, and answers its commits. */
static enum fault write_batch(struct service *service) {
  struct stream *stream = &service->stream;
  pace_sent(&stream->pace);
  enum fault fault = write_out(service);
  if (fault == NO_FAULT) {
    pace_done(&stream->pace, service->engine->synced);
    fault = stream_written(stream, &service->batch);
  }
  return fault == NO_FAULT ? take(service) : fault;
}

/* Whether the engine wants to be written to, though there is no batch. */
static bool is_beat_due(const struct service *service) {
  return service->engine->calls->beat > 0 && !service->is_out && clock_now() >= service->beat;
}

/* Writes the last number and the bound again, so that the life is seen to go on. */
static enum fault write_beat(struct service *service) {
  service->batch.pages = 0;
  return write_out(service);
}

/* ---- turns ---- */

int service_said(const struct service *service, enum fault fault) {
  if (service->stream.passed_over > 0) {
    fprintf(stderr, "passed over %llu\n", (unsigned long long)service->stream.passed_over);
  }
  return fault_said(fault);
}

/* Nothing more is done; the other thread is told. */
static void stop(struct service *service, enum fault fault) {
  if (service->is_out) {
    _exit(service_said(service, fault));
  }
  service->ending = fault;
  service->is_over = true;
  eventfd_write(service->over, 1);
}

/* How it ends whose input has, once all is written. */
static enum fault ending_of(const struct service *service) {
  return service->ending == NO_FAULT && service->stream.in.size > 0 ? FAULT_CUT : service->ending;
}

/* Does what is next: what came is taken once no batch can go. */
static enum fault turn(struct service *service) {
  bool is_there = false;
  enum fault fault = next_batch(service, &is_there);
  if (fault != NO_FAULT) {
    return fault;
  }
  if (is_there) {
    return write_batch(service);
  }
  if (is_beat_due(service)) {
    return write_beat(service);
  }
  if (service->is_closed && !service->is_out) {
    stop(service, ending_of(service));
    return NO_FAULT;
  }
  return take_more(service);
}

/* What each of the threads does. */
static void *take_turns(void *own) {
  struct service *service = own;
  pthread_mutex_lock(&service->lock);
  while (!service->is_over) {
    enum fault fault = turn(service);
    if (fault != NO_FAULT) {
      stop(service, fault);
    }
  }
  pthread_mutex_unlock(&service->lock);
  return NULL;
}

/* ---- its beginning ---- */

static bool add(const struct service *service, int file, uint32_t events) {
  struct epoll_event event = {.events = events, .data.fd = file};
  return epoll_ctl(service->watch, EPOLL_CTL_ADD, file, &event) == 0;
}

/* Makes what the threads wait for. One of them hears of bytes, one of the clock, both of the end
 * of all. */
static enum fault make_watch(struct service *service) {
  service->watch = epoll_create1(EPOLL_CLOEXEC);
  service->clock = timerfd_create(CLOCK_MONOTONIC, TFD_CLOEXEC);
  service->over = eventfd(0, EFD_CLOEXEC);
  if (!add(service, service->over, EPOLLIN) || !add(service, service->clock, EPOLLIN | EPOLLET)) {
    return FAULT_MEMORY;
  }
  service->is_plain = !add(service, STDIN_FILENO, EPOLLONESHOT);
  service->is_ready = service->is_plain;
  return service->is_plain && (errno == ENOMEM || errno == ENOSPC) ? FAULT_MEMORY : NO_FAULT;
}

enum fault service_run(struct service *service) {
  pthread_t other;
  enum fault fault = make_watch(service);
  if (fault == NO_FAULT && service->settings.announces) {
    fault = announce(service);
  }
  if (fault != NO_FAULT) {
    return fault;
  }
  if (pthread_mutex_init(&service->lock, NULL) != 0
      || pthread_create(&other, NULL, take_turns, service) != 0) {
    return FAULT_MEMORY;
  }
  take_turns(service);
  pthread_join(other, NULL);
  pthread_mutex_destroy(&service->lock);
  close(service->over);
  close(service->clock);
  close(service->watch);
  return service->ending;
}
