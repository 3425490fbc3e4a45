/* rughvadi-serve [--announce] [--standby required] CONFIG DATABASE
 *
 * Serves the pages of a store: frames of all clients come on the standard input, and what the
 * library's server says goes to the standard output. DATABASE is a file, kept by SQLite's own
 * library, or a conninfo or URI of PostgreSQL. docs/FORMATS.md has the rules, docs/ENGINES.md tells
 * when which engine is to be chosen. */
#include "service.h"

#include <signal.h>
#include <stdlib.h>

/* Opens the store and the server over it, in a new life. */
static enum fault begin(struct service *service) {
  struct stream *stream = &service->stream;
  struct batch *batch = &service->batch;
  const struct settings *settings = &service->settings;
  const struct engine_calls *calls =
      is_conninfo(settings->database) ? &postgres_calls : &sqlite_calls;
  enum fault fault = calls->open(settings, &service->engine);
  if (fault == NO_FAULT) {
    fault = calls->begin_life(service->engine, &stream->server, &stream->life, &batch->number);
  }
  if (fault == NO_FAULT) {
    fault = fault_of(rughvadi_open_serve(&stream->server));
  }
  if (fault != NO_FAULT) {
    return fault;
  }
  pace_begin(&stream->pace);
  stream->limits = settings->limits;
  batch->below = stream->life.below;
  batch->page = calloc((size_t)settings->limits.pages, sizeof *batch->page);
  return batch->page == NULL ? FAULT_MEMORY : NO_FAULT;
}

static void end(struct service *service) {
  if (service->engine != NULL) {
    service->engine->calls->close(service->engine);
  }
  free(service->batch.page);
  bytes_free(&service->batch.bodies);
  stream_free(&service->stream);
}

int main(int count, char **words) {
  static struct service service;
  int status = words_read(&service.settings, count, words);
  if (status == 0) {
    status = config_read(&service.settings);
  }
  if (status != 0) {
    return status;
  }
  signal(SIGPIPE, SIG_IGN);
  enum fault fault = begin(&service);
  if (fault == NO_FAULT) {
    fault = service_run(&service);
  }
  status = service_said(&service, fault);
  end(&service);
  return status;
}
