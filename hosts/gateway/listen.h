/* Listeners. Each answers libuv's fault, or 0. */
#ifndef GATEWAY_LISTEN_H
#define GATEWAY_LISTEN_H

#include <uv.h>

/* At a Unix socket that its owner alone may use. One that an ended process left is taken away.
 * While somebody listens there it waits, for a second. */
int listen_local(uv_pipe_t *listener, const char *path, uv_connection_cb came);

/* At a port of an address. */
int listen_remote(uv_tcp_t *listener, const char *address, int port, uv_connection_cb came);

#endif
