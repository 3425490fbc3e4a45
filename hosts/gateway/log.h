/* What the gateway says on the standard error, a line each. */
#ifndef GATEWAY_LOG_H
#define GATEWAY_LOG_H

/* How much it matters, by the system's numbers. */
enum level { LEVEL_ERROR = 3, LEVEL_WARNING = 4, LEVEL_INFO = 6 };

/* Says a line: with its time and level, or, to the journal, with the level as the journal reads
 * it. */
__attribute__((format(printf, 2, 3))) void log_line(enum level level, const char *format, ...);

#endif
