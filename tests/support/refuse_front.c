// Refuses one call of lrup-solve's front or supervisor. The linker puts these functions in place of
// the library's, with --wrap=NAME for each NAME of the table. In the environment, REFUSE is
// NAME:K:HOW. Of all calls of NAME in the front and its children, the K-th one fails, and the file
// MARK is created. HOW is the number of an error, or `short`: one byte is read or written.
// A tool for tests, not part of the program.
#define _GNU_SOURCE
#include <errno.h>
#include <fcntl.h>
#include <stdatomic.h>
#include <stdbool.h>
#include <stdio.h>
#include <stdlib.h>
#include <string.h>
#include <sys/mman.h>

// Each argument and result is an integer or a pointer, and fits into one register on Linux.
#define SIX(type) type a, type b, type c, type d, type e, type f
#define GIVEN a, b, c, d, e, f
#define REAL(name) __real_##name(GIVEN)

// What a failing call returns; it also sets errno. If the library lacks a function, its __real_
// function has no address, and isn't called.
// clang-format off
#define TABLE(CALL) \
    CALL(access, -1) CALL(calloc, 0) CALL(close, (REAL(close), -1)) CALL(dprintf, -1) \
    CALL(dup2, -1) CALL(execv, -1) CALL(fclose, (REAL(fclose), -1)) CALL(fcntl, -1) \
    CALL(fdopen, 0) CALL(fflush, full()) CALL(fopen, 0) CALL(fork, -1) CALL(fprintf, -1) \
    CALL(fputs, (REAL(fputs), full())) CALL(fstat, -1) CALL(ftruncate, -1) \
    CALL(__isoc99_fscanf, -1) CALL(__isoc23_fscanf, -1) CALL(kill, -1) CALL(lseek, -1) \
    CALL(memfd_create, -1) CALL(open, -1) CALL(pidfd_open, -1) CALL(pipe2, -1) CALL(poll, -1) \
    CALL(prctl, -1) CALL(pread, -1) CALL(printf, (REAL(printf), full())) \
    CALL(puts, (REAL(puts), full())) CALL(raise, -1) CALL(read, -1) CALL(realpath, 0) \
    CALL(setenv, -1) CALL(setpgid, -1) CALL(signal, -1) CALL(signalfd, -1) \
    CALL(sigprocmask, -1) CALL(sigwaitinfo, -1) CALL(snprintf, -1) CALL(stat, -1) \
    CALL(usleep, -1) CALL(vasprintf, -1) CALL(waitid, -1) CALL(waitpid, -1) CALL(write, -1)
// clang-format on

#define DECLARE(name, failure)                                                                     \
    long __real_##name(SIX(long)) __attribute__((weak));                                           \
    long __wrap_##name(SIX(long));
TABLE(DECLARE)

static atomic_long *calls;  // the number of calls so far; shared with children
static const char *refused, *mark;
static long number, error;  // error 0 means `short`

__attribute__((constructor)) static void begin(void) {
    char *words = getenv("REFUSE"), *rest = words ? strdup(words) : NULL;
    mark = getenv("MARK");
    if (rest == NULL || mark == NULL) return;
    refused = strsep(&rest, ":");
    number = strtol(strsep(&rest, ":"), NULL, 10);
    error = strtol(rest, NULL, 10);
    calls = mmap(NULL, sizeof *calls, PROT_READ | PROT_WRITE, MAP_SHARED | MAP_ANONYMOUS, -1, 0);
    if (calls == MAP_FAILED) abort();
}

static bool is_refused(const char *name) {
    if (refused == NULL || strcmp(refused, name) != 0) return false;
    if (atomic_fetch_add(calls, 1) + 1 != number) return false;
    int file = (int)__real_open((long)mark, O_CREAT | O_WRONLY | O_CLOEXEC, 0600, 0, 0, 0);
    __real_close(file, 0, 0, 0, 0, 0);
    return true;
}

// From now on, writes to standard output fail as on a full device.
static long full(void) {
    int device = (int)__real_open((long)"/dev/full", O_WRONLY | O_CLOEXEC, 0, 0, 0, 0);
    __real_dup2(device, 1, 0, 0, 0, 0);
    __real_close(device, 0, 0, 0, 0, 0);
    return (int)__real_fflush((long)stdout, 0, 0, 0, 0, 0);
}

#define DEFINE(name, failure)                                                                      \
    long __wrap_##name(SIX(long)) {                                                                \
        bool fails = is_refused(#name);                                                            \
        if (fails && error == 0) c = 1;                                                            \
        if (!fails || error == 0) return REAL(name);                                               \
        long result = failure;                                                                     \
        errno = (int)error;                                                                        \
        return result;                                                                             \
    }
TABLE(DEFINE)
