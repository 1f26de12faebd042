// Unverified: buffered output, by default to standard output. Only whole lines are written.
#ifndef WRITE_H
#define WRITE_H

#include <stdbool.h>
#include <stddef.h>
#include <stdint.h>

#include "literals.h"

bool write_whole(int file, const char *bytes, size_t length);  // false if it fails, with errno
void write_to(void (*out)(const char *bytes, size_t length));
void write_flush(void);
void write_number(uint64_t number, char after);
void write_numbers(const uint64_t *numbers, size_t length);     // then "0" and LF
void write_literals(const Literal *literals, size_t length);    // then "0"
void write_written(const int64_t *literals, size_t length);     // literals as written, then "0"
void write_deletion(uint64_t lead, const Identities *deleted);  // as few lines as possible
void write_bytes(const char *bytes, size_t length);             // LF ends a line

#endif
