// Unverified, like the whole filter. Reads the words of a line of text.
#include <string.h>

#include "checks.h"
#include "errors.h"
#include "line_limits.h"
#include "words.h"

static inline bool is_space(unsigned char byte) {
    return byte == ' ' || (byte >= '\t' && byte <= '\r');
}
static inline bool is_digit(unsigned char byte) { return (unsigned char)(byte - '0') < 10; }

// The code of a word that isn't a number of at most 18 digits; moves to its end.
static int64_t other_word(unsigned char **at) {
    unsigned char *start = *at, *end = start;
    while (!is_space(*end)) end++;
    *at = end;
    if (end - start == 1 && *start >= 'a' && *start <= 'z') return LETTER(*start);
    start += *start == '-';
    if (start == end) return NO_NUMBER;
    for (; start < end; start++)
        if (!is_digit(*start)) return NO_NUMBER;
    return TOO_LONG;
}

#if __BYTE_ORDER__ == __ORDER_LITTLE_ENDIAN__
#define EACH(byte) (UINT64_C(0x0101010101010101) * (byte))

// Reads up to seven digits, without a branch for each. Returns how many there are, or 8 for more.
// The highest bits of eight bytes mark the bytes that aren't digits; then neighbours are joined
// into numbers of two digits, and these into numbers of four and eight.
static inline unsigned short_number(const unsigned char *at, uint64_t *value) {
    uint64_t digits;
    memcpy(&digits, at, sizeof digits);
    digits ^= EACH('0');
    uint64_t others = ((digits + EACH(0x7F - 9)) | digits) & EACH(0x80);
    unsigned length = others ? (unsigned)__builtin_ctzll(others) / 8 : 8;
    digits <<= length % 8 ? 64 - 8 * length : 0;
    digits = 10 * digits + (digits >> 8);
    *value = ((digits & UINT64_C(0x000000FF000000FF)) * UINT64_C(0x000F424000000064) +
              (digits >> 16 & UINT64_C(0x000000FF000000FF)) * UINT64_C(0x0000271000000001)) >>
             32;
    return length;
}
#else
static inline unsigned short_number(const unsigned char *at, uint64_t *value) {
    return *value = 0, is_digit(*at) ? 8 : 0;
}
#endif

// How many digits there are, and the number that they spell, if there are at most 19.
static inline size_t digits(const unsigned char *start, uint64_t *value) {
    size_t length = short_number(start, value);
    if (length < 8) return length;
    *value = 0;
    for (length = 0; is_digit(start[length]); length++)
        *value = 10 * *value + (start[length] - '0');
    return length;
}

// No branch: signs are hard to predict.
static inline int64_t with_sign(uint64_t value, bool negative) {
    int64_t sign = -(int64_t)negative;
    return ((int64_t)value ^ sign) - sign;
}

// Reads a line of numbers in the spelling of a stream; false if it meets anything else.
static bool read_plain(Words *words, Line line) {
    unsigned char *at = line.start;
    int64_t *next = words->numbers.items;
    words->zeros = words->first_zero = 0;
    for (;; at++) {
        uint64_t value;
        bool negative = *at == '-';
        at += negative;
        size_t length = digits(at, &value);
        if (length - 1 >= DIGITS) return false;
        if (*at == '0') {
            if (length > 1 || negative) return false;
            if (words->zeros++ == 0) {
                words->first_zero = (size_t)(next - words->numbers.items);
                words->zero = at;
            }
        }
        *next++ = with_sign(value, negative);
        at += length;
        if (*at != ' ') break;
    }
    words->numbers.length = (size_t)(next - words->numbers.items);
    assert(words->numbers.length <= words->numbers.capacity && at <= line.end);
    words->strange = words->garbled = false;
    return at == line.end;
}

// A number of at most 18 digits, or the code of another word.
static inline int64_t word(unsigned char **at) {
    bool negative = **at == '-';
    unsigned char *start = *at + negative;
    uint64_t value;
    size_t length = digits(start, &value);
    if (length - 1 >= DIGITS || !is_space(start[length])) return other_word(at);
    // only "0" ends a list
    if (*start == '0' && value == 0 && (length > 1 || negative)) return other_word(at), NO_NUMBER;
    *at = start + length;
    return with_sign(value, negative);
}

void words_read(Words *words, Line line) {
    unsigned char *at = line.start;
    RESERVE(&words->numbers, (size_t)(line.end - line.start) / 2 + 1);
    words->plain = read_plain(words, line);
    if (words->plain) return;
    words->numbers.length = words->zeros = words->first_zero = 0;
    words->strange = words->garbled = false;
    for (;;) {
        while (is_space(*at) && at < line.end) at++;
        if (at == line.end) return;
        int64_t value = word(&at);
        if (value == 0 && words->zeros++ == 0) words->first_zero = words->numbers.length;
        words->garbled |= value == NO_NUMBER;
        words->strange |= value < LEAST_NUMBER;
        words->numbers.items[words->numbers.length++] = value;
    }
}

void words_check(const Words *words, size_t start, size_t end) {
    for (size_t k = start; k < end; k++) {
        if (words->numbers.items[k] == TOO_LONG) stop("a number of more than %d digits", DIGITS);
        if (words->numbers.items[k] < LEAST_NUMBER) stop("not a number");
    }
}

// A whole step ends with 0.
void words_check_whole(const Words *words, Line line) {
    if (!line.ends && words->numbers.items[words->numbers.length - 1] != 0)
        stop("the proof ends within a step");
}

bool line_is_text(Line line) {
    for (unsigned char *at = line.start; at < line.end; at++)
        if (*at == 0 || *at > 127) return false;
    return true;
}
