// Unverified: mapped files, and the lines of streams in them; for lrup-trim and lrup-explain.
#ifndef LINES_H
#define LINES_H

#include "input.h"
#include "options.h"
#include "row.h"

enum { STREAMS = 64 };  // lrupd's limit

typedef struct {
    char kind;                        // a: addition, d: deletion, i: import
    uint64_t identity;                // the number that the line begins with
    const int64_t *literals, *cited;  // cited: an addition's hints, or what a deletion deletes
    size_t length, count;
    const char *text, *hints;  // a copy of the line; where its hints begin
} Reading;

// Call first: if another program truncates a file, this one calls `removes` (NULL: nothing), which
// may only unlink, and ends with status 1.
void files_watch(const char *program, void (*removes)(void));
// the file's bytes, and eight more; unpacks a file whose name says that it is compressed
unsigned char *file_map(const char *path, size_t *length);
void file_unmap(unsigned char *start, size_t length);
void file_check(const char *path);  // stops if it can't be read twice
// the numbers in a file of one line; NULL for any other file
const int64_t *numbers_read(const char *path, size_t *count);
Line line_copy(Line line);  // with LF and zeros; overwrites the last copy
// NULL, or a fault; overwrites the last reading
const char *line_read(Line line, Reading *reading);
const int64_t *line_hints(Line line, size_t *count);  // reads what follows the literals; or NULL
void lines_free(void);  // frees the buffers, which are as large as the longest line

// Refuses words other than FORMULA DIR|STREAM... Returns the folder, or NULL.
const char *folder_of(const Texts *files);

// A record of rounds.

// stops if the record has another formula's digest
void record_check(const char *folder, const char *formula);
// the file's path, valid until the next call; a stream may be compressed
const char *record_file(const char *folder, size_t round, const char *kind, uint32_t number);
// 0: no such round; stops if that is round 1
uint32_t record_streams(const char *folder, size_t round, uint32_t before, Row *row);

#endif
