// Unverified: fatal errors, and signals that end the program.
#ifndef ERRORS_H
#define ERRORS_H

#include <stdint.h>

#ifdef __cplusplus
#define _Noreturn [[noreturn]]
extern "C" {
#endif

// Call one of these two first. The cause goes to standard error after this name, once `before`
// (NULL: nothing) is done; or to the handler, which must not return.
void errors_name(const char *program, void (*before)(void));
void errors_handle(void (*handler)(const char *cause));
// SIGHUP, SIGINT and SIGTERM end the program after this, unless they are ignored, as under nohup
void signals_handle(void (*before)(void));
// where the proof is being read; NULL: nowhere
void position_set(const char *unit, uint64_t number);
void position_set_step(uint64_t step, uint64_t byte);  // of a binary proof; both count from 1
// the message begins with the position
_Noreturn void stop(const char *cause, ...) __attribute__((format(printf, 1, 2)));
_Noreturn void fail(const char *cause, const char *object);     // without the position
_Noreturn void fail_file(const char *path, const char *cause);  // 'PATH: CAUSE', no position

#ifdef __cplusplus
}
#endif

#endif
