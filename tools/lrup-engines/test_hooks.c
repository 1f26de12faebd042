// Unverified, like the whole solver. Reads the hooks of a build for tests.
#define _GNU_SOURCE
#include "test_hooks.h"

#ifdef SOLVE_TESTS
#include <stdio.h>
#include <stdlib.h>
#include <string.h>

TestHooks test_hooks;

static const struct {
    const char *name;
    uint64_t *place;
} table[] = {
#define ENTRY(name) { #name, &test_hooks.name },
    HOOKS(ENTRY)
#undef ENTRY
};

static void take(char *name, const char *value) {
    if (strcmp(name, "set") == 0) {
        test_hooks.set = value;
        return;
    }
    for (size_t k = 0; k < sizeof table / sizeof *table; k++) {
        if (strcmp(name, table[k].name) != 0) continue;
        *table[k].place = strtoull(value, NULL, 10);
        return;
    }
    fprintf(stderr, "LRUP_SOLVE_HOOKS: no hook has the name %s\n", name);
    exit(1);
}

void test_hooks_read(void) {
    const char *words = getenv("LRUP_SOLVE_HOOKS");
    char *rest = words ? strdup(words) : NULL;  // never freed: `set` points into it
    for (char *word; (word = strsep(&rest, ";")) != NULL;) {
        char *value = strchr(word, '=');
        if (value == NULL) continue;
        *value = 0;
        take(word, value + 1);
    }
}
#endif
