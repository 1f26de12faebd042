// Unverified: the sizes of lrupd's rows in a chain of runs.
#ifndef ROW_H
#define ROW_H

#include <stdbool.h>
#include <stdint.h>

#ifdef __cplusplus
extern "C" {
#endif

typedef struct {
    uint64_t lines, room;
} Row;  // what each stream has, or uses

typedef struct {
    uint64_t usual, most;  // words of a row that several streams share
    uint64_t largest;      // words of a row that has only one stream
    uint64_t words;        // for all streams together, if the row has that many
    uint64_t formula;      // words that the round's formula takes
    uint64_t identities;   // for each clause that is added
    Row row;               // of the round
} Rows;

#ifndef MOST_WORDS
#define MOST_WORDS (UINT64_C(1) << 28)  // lrupd's limit on a row
#endif
#define MOST_MEMORY (8 * MOST_WORDS)

// The word is a size such as 2000000000, 2000M or 2G. Returns 0 if it isn't a size, and a number
// above MOST_MEMORY if the size is too large.
uint64_t memory_read(const char *word);
// memory, most: bytes; 0: chosen from the machine's memory
void rows_open(Rows *rows, uint64_t memory, uint64_t most, uint64_t streams);
void rows_grow(Rows *rows);  // before the next round

// Sizes the row of a round whose formula has this many clauses and literals. Clauses are expected
// to have the average length of those that all streams derived in the previous round. `wanted` is
// the length of a clause for which a stream had no room, or 0. If the formula leaves too little of
// the largest row, the streams get what is left, perhaps nothing, and the result is false.
bool rows_size(Rows *rows, uint64_t streams, uint64_t clauses, uint64_t literals, Row used,
               uint64_t wanted);

// Whether another clause of this length fits.
static inline bool row_holds(Row row, Row used, uint64_t literals) {
    return used.lines < row.lines && used.room + literals <= row.room;
}

#ifdef __cplusplus
}
#endif

#endif
