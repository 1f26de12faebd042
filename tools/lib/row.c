// Unverified, like the whole filter. The sizes of lrupd's rows in a chain of runs. A row is made
// before the first line is read, and doesn't grow. So rows begin small, for short runs, and double
// from round to round, up to --memory. Live clauses always fit: if they take more than half of a
// row, the next row has twice their size.
#include <string.h>
#include <unistd.h>

#include "row.h"

#define USUAL_MEMORY (UINT64_C(1) << 29)
#define LEAST_MEMORY (UINT64_C(1) << 26)
#define FIRST_WORDS (UINT64_C(1) << 20)    // for all streams in round 1; or, if that is more:
#define FIRST_OF_EACH (UINT64_C(1) << 18)  // for each stream

enum { LEAST_WORDS = 64 };  // of a stream
enum { LEAST_SHARE = 8 };   // several streams have at least an eighth of the largest row
enum { GROWTH = 2 };        // from round to round

static const double USUAL_LENGTH = 16, LEAST_LENGTH = 2, MOST_LENGTH = 200;

static uint64_t lesser(uint64_t one, uint64_t other) { return one < other ? one : other; }
static uint64_t greater(uint64_t one, uint64_t other) { return one > other ? one : other; }

uint64_t memory_read(const char *word) {
    static const char units[] = "KMGT";
    uint64_t bytes = 0;
    const char *at = word;
    for (; *at >= '0' && *at <= '9'; at++)
        bytes = lesser(10 * bytes + (uint64_t)(*at - '0'), MOST_MEMORY + 1);
    if (at == word) return 0;
    if (*at == 0) return bytes;
    const char *unit = strchr(units, *at);
    if (unit == NULL || at[1] != 0) return 0;
    for (const char *one = units; one <= unit; one++) bytes = lesser(1000 * bytes, MOST_MEMORY + 1);
    return bytes;
}

static uint64_t bytes_of_machine(void) {
    long pages = sysconf(_SC_PHYS_PAGES), bytes = sysconf(_SC_PAGESIZE);
    return pages > 0 && bytes > 0 ? (uint64_t)pages * (uint64_t)bytes : 0;
}

// By default a row has an eighth of the machine's memory, up to half a gigabyte, and grows to a
// quarter at most: lrupd takes twice the row's memory when it starts.
void rows_open(Rows *rows, uint64_t memory, uint64_t most, uint64_t streams) {
    uint64_t all = bytes_of_machine();
    if (!memory) memory = lesser(USUAL_MEMORY, greater(all / 8, LEAST_MEMORY));
    if (!most) most = lesser(MOST_MEMORY, all / 4);
    *rows = (Rows){ .usual = memory / 8,
                    .most = greater(memory, most) / 8,
                    .largest = MOST_WORDS,
                    .identities = 1,
                    .words = greater(FIRST_WORDS, FIRST_OF_EACH * streams) };
}

void rows_grow(Rows *rows) { rows->words = lesser(GROWTH * rows->words, MOST_WORDS); }

static double length_of(Row used) {
    double length = used.lines > 0 ? (double)used.room / (double)used.lines : USUAL_LENGTH;
    return length < LEAST_LENGTH ? LEAST_LENGTH : length > MOST_LENGTH ? MOST_LENGTH : length;
}

// A clause takes a word for each of its identities, and one for each literal. Lines are cheap, so
// there are enough for clauses of half the expected length.
static Row split(uint64_t words, double length) {
    uint64_t lines = (uint64_t)((double)words / (1 + length / 2));
    lines = greater(lines, words > 0);
    return (Row){ lines, words - lines };
}

bool rows_size(Rows *rows, uint64_t streams, uint64_t clauses, uint64_t literals, Row used,
               uint64_t wanted) {
    uint64_t most = streams > 1 ? rows->most : rows->largest, formula = 1 + clauses + literals;
    uint64_t words = streams * (2 * wanted + LEAST_WORDS);
    uint64_t all = lesser(most, greater(rows->usual, formula + greater(formula, words)));
    uint64_t left = all > formula ? all - formula : 0;
    rows->formula = formula;
    rows->row = split(lesser(left, greater(rows->words, words)) / streams,
                      length_of(used) / (double)rows->identities);
    return formula + greater(words, streams > 1 ? most / LEAST_SHARE : 0) <= most;
}
