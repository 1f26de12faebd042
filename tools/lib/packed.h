// Unverified: reads compressed files. For C and C++.
#ifndef PACKED_H
#define PACKED_H

#include <stdbool.h>

#include <sys/types.h>

#ifdef __cplusplus
extern "C" {
#endif

// A file that is read once, and is unpacked meanwhile if its name says that it is compressed.
typedef struct {
    const char *program;  // NULL: the file itself is read
    pid_t child;
} Unpacking;

const char *packer_of(const char *path);  // the program for a file with this name; or NULL
int unpacking_open(Unpacking *unpacking, const char *path);  // -1: see errno
// for a file that is open already; closes it
void unpacking_start(Unpacking *unpacking, const char *path, int packed, int out);
// After the last byte: fails with a message if the program couldn't unpack everything.
void unpacking_end(Unpacking *unpacking, const char *path);
void unpacking_leave(Unpacking *unpacking);  // after its file was closed, earlier than that

#ifdef __cplusplus
}
#endif

#endif
