// Unverified: who may write to a folder. For C and C++.
#ifndef FOLDER_H
#define FOLDER_H

#include <stdbool.h>
#include <sys/stat.h>

enum { STICKY = 01000 };  // S_ISVTX, which strict C doesn't have

// A user who may write to a folder may remove and rename the files of other users in it, unless the
// folder is sticky.
static inline bool others_may_write(int folder) {
    struct stat found;
    return fstat(folder, &found) != 0 || ((found.st_mode & S_IWOTH) && !(found.st_mode & STICKY));
}

#endif
