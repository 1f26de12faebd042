// Unverified and untrusted. Reads compressed files through a pipe from the program that unpacks
// them.
#define _GNU_SOURCE
#include <errno.h>
#include <fcntl.h>
#include <signal.h>
#include <stdio.h>
#include <string.h>
#include <sys/wait.h>
#include <unistd.h>

#include "errors.h"
#include "packed.h"
#include "packers.h"

enum { NOT_FOUND = 127, LONGEST_CAUSE_OF_PACKER = 64 };

const char *packer_of(const char *path) {
    size_t length = strlen(path);
    for (size_t k = 0; k < PACKED_FORMS; k++) {
        size_t ending = strlen(PACKED[k].ending);
        if (length > ending && strcmp(path + length - ending, PACKED[k].ending) == 0)
            return PACKED[k].program;
    }
    return NULL;
}

// The program ends by SIGPIPE once nobody reads.
static _Noreturn void unpack(const char *program, int packed, int out) {
    sigset_t none;
    sigemptyset(&none);
    sigprocmask(SIG_SETMASK, &none, NULL);
    signal(SIGPIPE, SIG_DFL);
    packers_forget_options();
    if (dup2(packed, STDIN_FILENO) == STDIN_FILENO && dup2(out, STDOUT_FILENO) == STDOUT_FILENO)
        execlp(program, program, "-dcq", (char *)NULL);
    _exit(errno == ENOENT ? NOT_FOUND : 126);
}

void unpacking_start(Unpacking *unpacking, const char *path, int packed, int out) {
    unpacking->program = packer_of(path);
    fflush(NULL);
    unpacking->child = fork();
    if (unpacking->child == 0) unpack(unpacking->program, packed, out);
    if (unpacking->child < 0) fail_file(path, strerror(errno));
    close(packed);
}

int unpacking_open(Unpacking *unpacking, const char *path) {
    int file = open(path, O_RDONLY | O_CLOEXEC), ends[2];
    *unpacking = (Unpacking){ 0 };
    if (file < 0 || packer_of(path) == NULL) return file;
    if (pipe2(ends, O_CLOEXEC) != 0) fail_file(path, strerror(errno));
    unpacking_start(unpacking, path, file, ends[1]);
    if (close(ends[1]) != 0) fail_file(path, strerror(errno));  // or reading it never ends
    return ends[0];
}

static int status_of(const Unpacking *unpacking) {
    int status;
    while (waitpid(unpacking->child, &status, 0) != unpacking->child)
        if (errno != EINTR) return -1;
    return status;
}

// The program has printed why.
void unpacking_end(Unpacking *unpacking, const char *path) {
    char cause[LONGEST_CAUSE_OF_PACKER];
    if (unpacking->child <= 0) return;
    int status = status_of(unpacking);
    unpacking->child = 0;
    if (status == 0) return;
    bool is_there = !WIFEXITED(status) || WEXITSTATUS(status) != NOT_FOUND;
    snprintf(cause, sizeof cause, is_there ? "%s can't unpack it" : "no %s on the PATH",
             unpacking->program);
    fail_file(path, cause);
}

void unpacking_leave(Unpacking *unpacking) {
    if (unpacking->child > 0) status_of(unpacking);
    unpacking->child = 0;
}
