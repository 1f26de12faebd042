// The supervisor: neither verified nor trusted, in a process of its own. It is the parent of
// lrup-engines and of each process that lrup-engines leaves behind, and ends them all.
#define _GNU_SOURCE
#include "supervisor.h"

#include <err.h>
#include <stdio.h>
#include <string.h>
#include <sys/prctl.h>
#include <sys/wait.h>
#include <time.h>
#include <unistd.h>

enum { BLOCK = 4096 };  // bytes that the front reads at once

static pid_t engines;
static int end = -1;  // lrup-engines' wait status; -1 is neither an exit nor a signal

// False if no child is left.
static bool take_ends(void) {
    int found;
    pid_t pid;
    while ((pid = waitpid(-1, &found, WNOHANG)) > 0)
        if (pid == engines) end = found;
    return pid == 0;
}

static void signal_children(int number) {
    FILE *list = fopen("/proc/thread-self/children", "re");
    for (pid_t pid; list != NULL && fscanf(list, "%d", &pid) == 1;) {
        kill(pid, number);
        kill(pid, SIGCONT);
    }
    if (list != NULL) fclose(list);
}

static long now(void) {
    struct timespec time;
    clock_gettime(CLOCK_MONOTONIC, &time);
    return time.tv_sec * 1000 + time.tv_nsec / 1000000;
}

// Reads the clock instead of counting sleeps, since the front waits only for a limited time.
static bool all_end_within(long milliseconds) {
    for (long until = now() + milliseconds; now() < until; usleep(1000))
        if (!take_ends()) return true;
    return false;
}

// Each child gets SIGTERM once a step; lrup-engines removes its files when it gets the first one.
// SIGKILL is sent more often: a child's children become children here only when that child ends.
static void end_children(void) {
    static const long steps[] = { 20, 300, 2000, 6000 };  // milliseconds
    for (size_t k = 0; k < sizeof steps / sizeof *steps; k++) {
        signal_children(SIGTERM);
        if (all_end_within(steps[k])) return;
    }
    for (long until = now() + 4000; now() < until;) {
        signal_children(SIGKILL);
        if (all_end_within(2)) return;
    }
}

// Reports how lrup-engines ended, unless it exited with 0 or still runs. 127: it never started.
static void report(int says, bool is_mpi) {
    const char *started = is_mpi ? "MPI's command" : "lrup-engines";  // lrup-engines has become it
    char line[BLOCK] = "";
    if (WIFEXITED(end) && WEXITSTATUS(end) == 127) {
        warnx("%s ended with status 127, so nothing could run", started);
        snprintf(line, BLOCK, "refused");
    } else if (WIFSIGNALED(end))
        snprintf(line, BLOCK, "c %s ended by a signal: %s", started, strsignal(WTERMSIG(end)));
    else if (WIFEXITED(end) && WEXITSTATUS(end) != 0)
        snprintf(line, BLOCK, "c %s ended with status %d", started, WEXITSTATUS(end));
    if (line[0] != 0 && write(says, line, BLOCK) < 0) return;  // the pipe is full
}

// Returns when lrup-engines has ended, or when SIGTERM comes: the front has sent it, or has ended.
static void wait_for_end(const sigset_t *all) {
    while (take_ends() && end == -1)
        if (sigwaitinfo(all, NULL) == SIGTERM) return;
}

// The supervisor stays in lrup-engines' process group, so that one signal stops both.
_Noreturn void supervise(const char *const *words, const sigset_t *mask, int says, bool is_mpi) {
    pid_t self = getpid();
    sigset_t all;
    sigfillset(&all);
    sigprocmask(SIG_BLOCK, &all, NULL);
    prctl(PR_SET_NAME, "supervisor");
    prctl(PR_SET_CHILD_SUBREAPER, 1);
    engines = fork();
    if (engines == 0) {
        if (prctl(PR_SET_PDEATHSIG, SIGKILL) != 0 || getppid() != self) _exit(127);
        signal(SIGPIPE, SIG_DFL);
        sigprocmask(SIG_SETMASK, mask, NULL);
        execv(words[0], (char **)words);
        err(127, "cannot start %s", words[0]);
    }
    wait_for_end(&all);
    report(says, is_mpi);
    end_children();
    _exit(0);
}
