// Unverified: reads a file, which may be compressed, or a pipe. Flushes the output before a read
// that would block.
#ifndef INPUT_H
#define INPUT_H

#include <stdbool.h>
#include <stddef.h>
#include <stdint.h>

#include "packed.h"

enum { LONGEST_STEP = 1 << 28 };  // bytes of a text step; a longer one is refused

typedef struct {
    int file;
    Unpacking unpacking;
    const char *path;
    bool ended;
    void (*await)(int file);      // NULL, or a function that waits instead of a blocking read
    unsigned char *bytes;         // some zeros follow the last byte read
    size_t at, length, capacity;  // unread: from `at` up to `length`
    uint64_t passed;              // how many bytes came before bytes[0]
} Input;

// *end is LF; ends: whether the file has this LF
typedef struct {
    unsigned char *start, *end;
    bool ends;
} Line;

void input_open(Input *input, const char *path);  // NULL: standard input
bool input_read(Input *input);
// the byte at `at` + `place`, which stays unread; -1 at the end
int input_ahead(Input *input, size_t place);
bool input_line(Input *input, Line *line);
static inline int input_byte(Input *input) {
    if (input->at == input->length && !input_read(input)) return -1;
    return input->bytes[input->at++];
}
void input_close(Input *input);
static inline uint64_t input_position(const Input *input) { return input->passed + input->at; }

#endif
