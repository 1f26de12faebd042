// supervisor.c: starts lrup-engines, or MPI's command, and ends it with all its descendants.
#ifndef SUPERVISOR_H
#define SUPERVISOR_H

#include <signal.h>
#include <stdbool.h>

// `says` is the pipe to the front, `mask` the signal mask of the program that is started.
_Noreturn void supervise(const char *const *words, const sigset_t *mask, int says, bool is_mpi);

#endif
