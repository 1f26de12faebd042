// Unverified, like the whole filter. Reads the bytes of a proof from a file or a pipe.
#include <errno.h>
#include <poll.h>
#include <string.h>
#include <unistd.h>

#include "errors.h"
#include "input.h"
#include "lists.h"
#include "write.h"

enum { PIECE = 1 << 18, BEYOND = 8 };  // bytes; words.c looks at eight at once

void input_open(Input *input, const char *path) {
    *input = (Input){ .path = path ? path : "standard input", .capacity = PIECE };
    input->file = path ? unpacking_open(&input->unpacking, path) : STDIN_FILENO;
    if (input->file < 0) fail_file(path, strerror(errno));
    input->bytes = zeroed(input->capacity + BEYOND, 1);
}

void input_close(Input *input) {
    close(input->file);
    unpacking_leave(&input->unpacking);
    input->bytes = grow(input->bytes, 0);
}

// Makes room for more bytes after the unread ones.
static void make_room(Input *input) {
    if (input->at > 0) {
        memmove(input->bytes, input->bytes + input->at, input->length - input->at);
        input->passed += input->at;
        input->length -= input->at;
        input->at = 0;
    }
    if (input->length < input->capacity) return;
    input->capacity *= 2;
    input->bytes = grow(input->bytes, input->capacity + BEYOND);
}

static bool is_beyond(const Input *input) { return input->length - input->at >= LONGEST_STEP; }

// Reads more bytes after the unread ones, which may move. False at the end.
bool input_read(Input *input) {
    if (input->ended) return false;
    make_room(input);
    struct pollfd more = { .fd = input->file, .events = POLLIN };
    for (;;) {
        if (poll(&more, 1, 0) == 0) {
            write_flush();
            if (input->await) input->await(input->file);
        }
        ssize_t count =
            read(input->file, input->bytes + input->length, input->capacity - input->length);
        if (count > 0) {
            input->length += (size_t)count;
            memset(input->bytes + input->length, 0, BEYOND);
            return true;
        }
        if (count == 0) break;
        if (errno == EAGAIN)
            poll(&more, 1, -1);
        else if (errno != EINTR)
            fail_file(input->path, strerror(errno));
    }
    unpacking_end(&input->unpacking, input->path);
    input->ended = true;
    return false;
}

int input_ahead(Input *input, size_t place) {
    while (input->length - input->at <= place) {
        if (is_beyond(input))
            stop("the first %d bytes don't show the form of the proof", LONGEST_STEP);
        if (!input_read(input)) return -1;
    }
    return input->bytes[input->at + place];
}

// If the last line of the file has no LF, it gets one here.
bool input_line(Input *input, Line *line) {
    for (size_t seen = 0;;) {
        unsigned char *start = input->bytes + input->at;
        size_t length = input->length - input->at;
        unsigned char *end = memchr(start + seen, '\n', length - seen);
        seen = length;
        if (end == NULL && is_beyond(input)) stop("a line of more than %d bytes", LONGEST_STEP);
        if (end == NULL && input_read(input)) continue;
        start = input->bytes + input->at;
        if (end == NULL) {
            if (seen == 0) return false;
            *line = (Line){ start, start + seen, false };
            *line->end = '\n';
            input->at = input->length;
        } else {
            *line = (Line){ start, end, true };
            input->at = (size_t)(end - input->bytes) + 1;
        }
        return true;
    }
}
