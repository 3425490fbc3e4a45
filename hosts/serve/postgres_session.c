#include "postgres.h"

#include <poll.h>
#include <stdio.h>
#include <stdlib.h>
#include <string.h>

enum { SILENCE = 5000 }; /* milliseconds without an answer until other primaries are looked for */

/* A session in which one statement is one transaction that waits until it is on disk. */
static const char SESSION[] =
    "SET client_min_messages = warning; SET default_transaction_isolation = 'read committed';"
    "SET default_transaction_read_only = off; SET synchronous_commit = on;"
    "SET statement_timeout = 0; SET idle_in_transaction_session_timeout = 0;"
    "SET lock_timeout = '500ms'; SET plan_cache_mode = force_generic_plan;"
    "SET enable_seqscan = off; SET enable_hashjoin = off; SET enable_mergejoin = off;"
    "SET tcp_keepalives_idle = 2; SET tcp_keepalives_interval = 1; SET tcp_keepalives_count = 3;"
    "SET tcp_user_timeout = 5000";

/* ---- what is said of the servers ---- */

/* The part of a list with commas at this place, copied: NULL where it is empty or memory is
 * refused. A list of one part has it at each place. */
static char *listed(const char *list, size_t place) {
  if (list == NULL) {
    return NULL;
  }
  bool is_one = strchr(list, ',') == NULL;
  for (; place > 0 && !is_one; place--) {
    list += strcspn(list, ",");
    list += *list == ',';
  }
  size_t size = strcspn(list, ",");
  return size > 0 ? strndup(list, size) : NULL;
}

static size_t count_listed(const char *list) {
  size_t count = list != NULL;
  for (; list != NULL && *list != 0; list++) {
    count += *list == ',';
  }
  return count;
}

static const char *value_of(const PQconninfoOption *options, const char *name) {
  while (options->keyword != NULL && strcmp(options->keyword, name) != 0) {
    options++;
  }
  return options->val;
}

/* Whether the words themselves have a password, which every process of the machine can read. */
static bool has_password(const PQconninfoOption *options) {
  while (options->keyword != NULL && (options->dispchar[0] != '*' || options->val == NULL)) {
    options++;
  }
  return options->keyword != NULL;
}

/* What libpq says of a text may have parts of a password, and isn't handed on. */
static enum fault check_words(const char *database) {
  PQconninfoOption *options = PQconninfoParse(database, NULL);
  if (options == NULL) {
    tell("the database is no conninfo or URI that libpq knows");
    return FAULT_WORDS;
  }
  bool is_told = has_password(options);
  PQconninfoFree(options);
  if (is_told) {
    tell("a password doesn't belong into the words: give it by a password file or a service");
  }
  return is_told ? FAULT_WORDS : NO_FAULT;
}

static bool is_name(const char *name) {
  size_t size = strlen(name);
  for (const char *at = name; *at != 0; at++) {
    if (*at < ' ' || *at > '~') {
      return false;
    }
  }
  return size > 0 && size <= MOST_STORE;
}

static enum fault know(struct postgres *store, const PQconninfoOption *options) {
  const char *names = value_of(options, "host"), *addresses = value_of(options, "hostaddr");
  const char *named = value_of(options, "application_name");
  const char *ports = value_of(options, "port");
  size_t count = count_listed(names), others = count_listed(addresses);
  const char *name = named != NULL ? named : "main";
  count = others > count ? others : count;
  store->host_count = count > 0 ? count : 1;
  if (store->host_count > MOST_HOSTS || !is_name(name)) {
    tell("there are too many hosts, or application_name, the store's name, is no short ASCII text");
    return FAULT_WORDS;
  }
  strcpy(store->store, name);
  for (size_t at = 0; at < store->host_count; at++) {
    store->hosts[at] = (struct host){listed(names, at), listed(addresses, at), listed(ports, at)};
  }
  return NO_FAULT;
}

enum fault session_know(struct postgres *store) {
  const char *const keys[] = {"dbname", NULL};
  const char *const values[] = {store->settings->database, NULL};
  enum fault fault = check_words(store->settings->database);
  if (fault != NO_FAULT) {
    return fault;
  }
  /* With what a service and the environment say. */
  PGconn *begun = PQconnectStartParams(keys, values, 1);
  PQconninfoOption *options = begun != NULL ? PQconninfo(begun) : NULL;
  fault = options != NULL ? know(store, options) : FAULT_MEMORY;
  PQconninfoFree(options);
  PQfinish(begun);
  return fault;
}

void session_forget(struct postgres *store) {
  for (size_t at = 0; at < MOST_HOSTS; at++) {
    free(store->hosts[at].name);
    free(store->hosts[at].address);
    free(store->hosts[at].port);
  }
}

/* ---- a session with the primary ---- */

/* A warning may mean that a commit was cut off while it waited for the standby: what it warns of is
 * no answer. */
static void noticed(void *own, const PGresult *result) {
  struct postgres *store = own;
  const char *text = PQresultErrorField(result, PG_DIAG_MESSAGE_PRIMARY);
  tell("store %s: %s", store->store, text != NULL ? text : "a warning");
  store->was_warned = true;
}

void session_end(struct postgres *store) {
  PQfinish(store->session);
  store->session = NULL;
}

/* Whether what is committed stays so: it goes to disk, and where that is required to a standby. */
static bool is_safe(struct postgres *store, PGconn *session) {
  PGresult *row = PQexec(session, "SELECT current_setting('fsync') = 'on',"
                                  " current_setting('synchronous_standby_names') <> ''");
  bool is_there = PQresultStatus(row) == PGRES_TUPLES_OK;
  bool is_synced = is_there && *PQgetvalue(row, 0, 0) == 't';
  bool has_standby = is_there && *PQgetvalue(row, 0, 1) == 't';
  PQclear(row);
  if (is_there && !is_synced) {
    tell("store %s: fsync is off", store->store);
  }
  if (is_there && store->settings->needs_standby && !has_standby) {
    tell("store %s: no synchronous standby is named", store->store);
  }
  return !is_there || (is_synced && (has_standby || !store->settings->needs_standby));
}

static bool runs(PGconn *session, PGresult *result) {
  bool is_right = PQresultStatus(result) == PGRES_COMMAND_OK;
  PQclear(result);
  return is_right && PQstatus(session) == CONNECTION_OK;
}

bool session_prepare(struct postgres *store) {
  static const char standby[] = "SELECT current_setting('synchronous_standby_names') <> ''";
  PGconn *session = store->session;
  return session != NULL
         && runs(session, PQprepare(session, "write", rows_write, WRITE_VALUES, NULL))
         && runs(session, PQprepare(session, "standby", standby, 0, NULL));
}

/* Makes a session ready. */
static bool begin_session(struct postgres *store, PGconn *session) {
  PQsetNoticeReceiver(session, noticed, store);
  return runs(session, PQexec(session, SESSION));
}

/* Connects to one server; NULL where it isn't there, or can't be written to. */
static PGconn *open_session(struct postgres *store, size_t at) {
  const struct host *host = &store->hosts[at];
  const char *const keys[] = {"connect_timeout",
                              "keepalives_idle",
                              "keepalives_interval",
                              "keepalives_count",
                              "tcp_user_timeout",
                              "fallback_application_name",
                              "dbname",
                              "target_session_attrs",
                              "host",
                              "hostaddr",
                              "port",
                              NULL};
  const char *const values[] = {"2",
                                "2",
                                "1",
                                "3",
                                "5000",
                                "main",
                                store->settings->database,
                                "read-write",
                                host->name,
                                host->address,
                                host->port,
                                NULL};
  PGconn *session = PQconnectdbParams(keys, values, 1);
  if (PQstatus(session) != CONNECTION_OK) {
    PQfinish(session);
    return NULL;
  }
  return session;
}

/* Keeps a session, unless there is one: then two servers can be written to, of which one has an
 * old history. */
static enum fault keep(struct postgres *store, PGconn *session, size_t at) {
  if (session == NULL) {
    return NO_FAULT;
  }
  if (store->session != NULL) {
    tell("store %s: two of its servers can be written to", store->store);
    PQfinish(session);
    return FAULT_UNSAFE;
  }
  store->session = session;
  store->host = at;
  return NO_FAULT;
}

enum fault session_find(struct postgres *store) {
  enum fault fault = NO_FAULT;
  session_end(store);
  for (size_t at = 0; at < store->host_count && fault == NO_FAULT; at++) {
    fault = keep(store, open_session(store, at), at);
  }
  if (fault == NO_FAULT && store->session != NULL && !begin_session(store, store->session)) {
    session_end(store);
  }
  if (fault == NO_FAULT && store->session != NULL && !is_safe(store, store->session)) {
    fault = FAULT_UNSAFE;
  }
  if (fault != NO_FAULT) {
    session_end(store);
  }
  store->was_warned = false;
  return fault;
}

/* ---- statements ---- */

/* Whether another server than that of the session can be written to now. */
static bool has_moved(struct postgres *store) {
  bool found = false;
  for (size_t at = 0; at < store->host_count && !found; at++) {
    PGconn *session = at != store->host ? open_session(store, at) : NULL;
    found = session != NULL;
    PQfinish(session);
  }
  return found;
}

/* Waits until the next result of what was sent is there; false where the session is of no use. A
 * server that stands still is left once another can be written to. */
static bool await_result(struct postgres *store) {
  struct pollfd watched = {.fd = PQsocket(store->session), .events = POLLIN};
  while (PQisBusy(store->session)) {
    int ready = poll(&watched, 1, SILENCE);
    if ((ready == 0 && has_moved(store)) || (ready > 0 && !PQconsumeInput(store->session))) {
      return false;
    }
  }
  return PQstatus(store->session) == CONNECTION_OK;
}

PGresult *session_next(struct postgres *store) {
  return await_result(store) ? PQgetResult(store->session) : NULL;
}

/* The last result of the statement that was sent: what the commit itself says comes behind the
 * statement's. NULL where it isn't whole. */
static PGresult *result_of(struct postgres *store) {
  PGresult *result = NULL, *next = NULL;
  bool is_there;
  while ((is_there = await_result(store)) && (next = PQgetResult(store->session)) != NULL) {
    PQclear(result);
    result = next;
  }
  return is_there && PQstatus(store->session) == CONNECTION_OK ? result : (PQclear(result), NULL);
}

/* The same of the next statement of a flight, up to the end of its transaction. */
static PGresult *result_in_flight(struct postgres *store) {
  PGresult *result = NULL;
  int ends = 0; /* of the statement's results, and of what its commit says */
  while (ends <= 2 && await_result(store)) {
    PGresult *next = PQgetResult(store->session);
    if (next == NULL) {
      ends++;
    } else if (PQresultStatus(next) == PGRES_PIPELINE_SYNC) {
      PQclear(next);
      return result;
    } else {
      PQclear(result);
      result = next;
    }
  }
  PQclear(result);
  return NULL;
}

/* What an error means. */
static enum outcome refused(struct postgres *store, const PGresult *result) {
  static const char *const again[] = {"55P03", "57014", "40001", "40P01"};
  static const char *const lost[] = {"25006", "57P01", "57P02", "57P03"};
  const char *state = PQresultErrorField(result, PG_DIAG_SQLSTATE);
  for (size_t at = 0; at < 4 && state != NULL; at++) {
    if (strcmp(state, again[at]) == 0) {
      return LOCKED;
    }
    if (strcmp(state, lost[at]) == 0) {
      return LOST;
    }
  }
  if (PQstatus(store->session) != CONNECTION_OK) {
    return LOST;
  }
  const char *text = PQresultErrorField(result, PG_DIAG_MESSAGE_PRIMARY);
  tell("store %s: %s", store->store, text != NULL ? text : PQerrorMessage(store->session));
  return REFUSED;
}

/* What a statement came to. */
static enum outcome outcome_of(struct postgres *store, PGresult *found, PGresult **result) {
  ExecStatusType status = PQresultStatus(found);
  bool is_right = status == PGRES_TUPLES_OK || status == PGRES_COMMAND_OK;
  *result = is_right ? found : NULL;
  if (is_right) {
    return ASKED;
  }
  enum outcome outcome = found != NULL ? refused(store, found) : LOST;
  PQclear(found);
  if (outcome == LOST) {
    session_end(store);
  }
  return outcome;
}

enum outcome session_ask(struct postgres *store, const char *text, int count,
                         const char *const *values, PGresult **result) {
  *result = NULL;
  if (store->session == NULL) {
    return LOST;
  }
  store->was_warned = false;
  bool is_sent =
      PQsendQueryParams(store->session, text, count, NULL, values, NULL, NULL, 0) == 1;
  return outcome_of(store, is_sent ? result_of(store) : NULL, result);
}

/* Sends a batch, and behind it the question whether a standby is still named then: each is a
 * transaction of its own, so the answer is of after the batch's commit. */
static bool send_flight(struct postgres *store, const char *const *values, const int *lengths) {
  static const int formats[WRITE_VALUES] = {0, 0, 0, 0, 0, 1, 1, 1, 1, 0};
  PGconn *session = store->session;
  return PQenterPipelineMode(session) == 1
         && PQsendQueryPrepared(session, "write", WRITE_VALUES, values, lengths, formats, 0) == 1
         && PQpipelineSync(session) == 1
         && (!store->settings->needs_standby
             || (PQsendQueryPrepared(session, "standby", 0, NULL, NULL, NULL, 0) == 1
                 && PQpipelineSync(session) == 1));
}

/* What both came to, where the batch came to this; and whether no standby was named. */
static enum outcome with_standby(struct postgres *store, enum outcome outcome, PGresult *found,
                                 bool *is_alone) {
  PGresult *row;
  if (outcome != ASKED && outcome != LOCKED) {
    PQclear(found);
    return outcome;
  }
  enum outcome second = outcome_of(store, found, &row);
  *is_alone = second == ASKED && *PQgetvalue(row, 0, 0) != 't';
  PQclear(row);
  return second == ASKED ? outcome : second;
}

enum outcome session_write(struct postgres *store, const char *const *values, const int *lengths,
                           PGresult **result, bool *is_alone) {
  bool asks = store->settings->needs_standby;
  PGresult *written = NULL, *standby = NULL;
  *result = NULL;
  *is_alone = false;
  if (store->session == NULL) {
    return LOST;
  }
  store->was_warned = false;
  if (send_flight(store, values, lengths)) {
    written = result_in_flight(store);
    standby = asks && written != NULL ? result_in_flight(store) : NULL;
  }
  PQexitPipelineMode(store->session); /* it fails where the session is lost, too */
  enum outcome outcome = outcome_of(store, written, result);
  if (asks) {
    outcome = with_standby(store, outcome, standby, is_alone);
  }
  if (outcome != ASKED) {
    PQclear(*result);
    *result = NULL;
  }
  return outcome;
}
