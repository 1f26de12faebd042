// Unverified, but lrup-solve's front, which is trusted, includes it: the file extensions of
// compressed files, and the programs that unpack them. For C and C++; tools/lrup-recheck has the
// same lists in shell.
#ifndef PACKERS_H
#define PACKERS_H

#include <stdlib.h>

enum { PACKED_FORMS = 4, LONGEST_ENDING = 8 };

static const struct {
    const char *ending, *program;
} PACKED[PACKED_FORMS] = {
    { ".xz", "xz" }, { ".gz", "gzip" }, { ".bz2", "bzip2" }, { ".zst", "zstd" }
};

// In a child that becomes one of these programs. The user's own options, such as a limit of memory,
// would change what it does.
static inline void packers_forget_options(void) {
    static const char *const names[] = { "XZ_DEFAULTS", "XZ_OPT",      "GZIP",          "BZIP",
                                         "BZIP2",       "ZSTD_CLEVEL", "ZSTD_NBTHREADS" };
    for (size_t k = 0; k < sizeof names / sizeof *names; k++) unsetenv(names[k]);
}

#endif
