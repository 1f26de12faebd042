// lrup-check: runs the lrup-solve in its folder on existing proofs instead of engines. It is a
// program, since a shell that can't read its script ends with status 0, which here means 'proved'.
#define _GNU_SOURCE
#include <err.h>
#include <libgen.h>
#include <stdio.h>
#include <stdlib.h>
#include <unistd.h>

int main(int count, char **words) {
    char *path = realpath("/proc/self/exe", NULL);
    char *program;
    char check[] = "--check";
    if (path == NULL || asprintf(&program, "%s/lrup-solve", dirname(path)) < 0)
        err(1, "cannot find lrup-solve");
    char **passed = calloc((size_t)count + 3, sizeof *passed);
    if (passed == NULL) err(1, "no memory");
    passed[0] = program;
    passed[1] = check;
    for (int k = 1; k < count; k++) passed[k + 1] = words[k];
    execv(program, passed);
    err(1, "cannot start %s", program);
}
