// Unverified, like the whole filter. Writes the stream, whole lines at a time.
#include <errno.h>
#include <poll.h>
#include <stdlib.h>
#include <string.h>
#include <unistd.h>

#include "checks.h"
#include "errors.h"
#include "line_limits.h"
#include "lists.h"
#include "write.h"

// the bytes of a number with sign and separator; the bytes of the first buffer
enum { LONGEST = 24, PIECE = 1 << 16 };

static LIST_OF(char) buffer;
static size_t whole;  // up to the end of the last whole line

bool write_whole(int file, const char *bytes, size_t length) {
    for (size_t written = 0; written < length;) {
        ssize_t count = write(file, bytes + written, length - written);
        if (count > 0)
            written += (size_t)count;
        else if (count < 0 && errno == EAGAIN)
            poll(&(struct pollfd){ .fd = file, .events = POLLOUT }, 1, -1);
        else if (count < 0 && errno != EINTR)
            return false;
    }
    return true;
}

static void to_standard_output(const char *bytes, size_t length) {
    if (!write_whole(STDOUT_FILENO, bytes, length))
        fail("cannot write the stream:", strerror(errno));
}

static void (*out)(const char *bytes, size_t length) = to_standard_output;

void write_to(void (*place)(const char *bytes, size_t length)) { out = place; }

// Writes the whole lines; the beginning of an unfinished line stays.
void write_flush(void) {
    size_t length = whole;
    assert(whole <= buffer.length && buffer.length <= buffer.capacity);
    whole = 0;  // so that a failure, which flushes too, doesn't write these lines again
    if (length > 0) out(buffer.items, length);
    buffer.length -= length;
    if (length > 0 && buffer.length > 0)
        memmove(buffer.items, buffer.items + length, buffer.length);
}

static bool has_room(size_t bytes) { return buffer.capacity - buffer.length >= bytes; }

static void make_room(size_t bytes) {
    write_flush();
    if (!has_room(bytes)) RESERVE(&buffer, buffer.length + bytes + PIECE / 2);
}

#define TENS(ten) ten "0" ten "1" ten "2" ten "3" ten "4" ten "5" ten "6" ten "7" ten "8" ten "9"
static const char pairs[] = TENS("0") TENS("1") TENS("2") TENS("3") TENS("4") TENS("5") TENS("6")
    TENS("7") TENS("8") TENS("9");

// Writes two digits at a time. LONGEST bytes are always copied: a constant length takes fewer
// instructions.
static inline void put_number(uint64_t number, bool negative, char after) {
    char digits[2 * LONGEST], *end = digits + LONGEST, *at = end;
    *--at = after;
    for (; number > 9; number /= 100) memcpy(at -= 2, pairs + 2 * (number % 100), 2);
    if (number > 0 || at == end - 1) *--at = (char)('0' + number);
    if (negative) *--at = '-';
    if (!has_room(LONGEST)) make_room(LONGEST);
    memcpy(buffer.items + buffer.length, at, LONGEST);
    buffer.length += (size_t)(end - at);
}

void write_number(uint64_t number, char after) { put_number(number, false, after); }

void write_numbers(const uint64_t *numbers, size_t length) {
    for (size_t k = 0; k < length; k++) put_number(numbers[k], false, ' ');
    put_number(0, false, '\n');
    whole = buffer.length;
}

void write_literals(const Literal *literals, size_t length) {
    for (size_t k = 0; k < length; k++)
        put_number((uint64_t)variable_of(literals[k]) + 1, literals[k] & 1, ' ');
    write_bytes("0", 1);
}

void write_written(const int64_t *literals, size_t length) {
    for (size_t k = 0; k < length; k++)
        put_number((uint64_t)llabs(literals[k]), literals[k] < 0, ' ');
    write_bytes("0", 1);
}

void write_deletion(uint64_t lead, const Identities *deleted) {
    for (size_t k = 0; k < deleted->length; k += IDENTITIES_OF_A_LINE) {
        size_t left = deleted->length - k;
        write_number(lead, ' ');
        write_bytes("d ", 2);
        write_numbers(deleted->items + k,
                      left < IDENTITIES_OF_A_LINE ? left : IDENTITIES_OF_A_LINE);
    }
}

// `length` is at least 1.
void write_bytes(const char *bytes, size_t length) {
    if (!has_room(length)) make_room(length);
    memcpy(buffer.items + buffer.length, bytes, length);
    buffer.length += length;
    if (bytes[length - 1] == '\n') whole = buffer.length;
}
