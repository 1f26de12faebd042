// Unverified: the words of a line, as numbers. Letters, and words that aren't numbers, have codes
// below all numbers.
#ifndef WORDS_H
#define WORDS_H

#include <stdbool.h>
#include <stddef.h>
#include <stdint.h>

#include "input.h"
#include "lists.h"

#define NO_NUMBER INT64_MIN
#define TOO_LONG (INT64_MIN + 1)
#define LETTER(letter) (INT64_MIN + (letter))  // a to z
#define LEAST_NUMBER (INT64_MIN + 256)

typedef struct {
    Numbers numbers;
    size_t zeros, first_zero;   // how many words are "0", and the index of the first
    const unsigned char *zero;  // in a plain line: the byte of the first "0"
    bool garbled, strange;  // has words that aren't numbers or letters; words that aren't numbers
    bool plain;             // single spaces, no leading zeros
} Words;

void words_read(Words *words, Line line);
void words_check(const Words *words, size_t start, size_t end);  // stops if a word isn't a number
void words_check_whole(const Words *words, Line line);  // stops if the proof ends within a step
bool line_is_text(Line line);

#endif
