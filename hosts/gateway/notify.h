/* What the service manager is told, if it wants to know (sd_notify(3)). */
#ifndef GATEWAY_NOTIFY_H
#define GATEWAY_NOTIFY_H

/* Takes the manager's socket out of the environment, so that no server of the gateway finds it. */
void notify_begin(void);

/* Tells it a state, as `READY=1`. */
void notify(const char *state);

#endif
