// Unverified and untrusted: lrupd, or any LRAT checker, checks the output. lrup-trim keeps those
// lines of a run's streams, or of all its rounds, that the empty clause needs. This header is
// common to its files.
//
// A first pass puts all lines in an order in which each comes after those that it cites (order.c).
// A second pass, backwards, finds the lines that are needed, and which of them cites a clause last
// (mark.c). A third pass writes these lines (output.c). Streams are mapped, and only the place of a
// line is kept, so each pass reads the line's hints again. Another process may write to a stream
// meanwhile, so the line is copied and checked each time.
#ifndef TRIM_H
#define TRIM_H

#include "formula.h"
#include "lines.h"

// A clause's number over all rounds: FORMULA's clauses have the numbers 1, 2 and so on; each
// stream's clauses follow those of the streams before it.
typedef uint32_t Number;

// streams.c: where the lines are.
typedef struct {
    char *path;
    unsigned char *start, *at, *end;  // at: the next line
    uint64_t line;                    // lines taken so far
    uint32_t round;
    Number first;          // the number of its first identity
    uint64_t slots, seen;  // how many identities it has; how many up to the last one taken
    // by slot: where the line's hints begin, as a distance from `places`; 0: no line
    uint32_t *hints;
    unsigned char **places;
    unsigned char *deleted;  // by slot; NULL: not needed
    bool cut, stopped;       // the last line isn't whole; a line is bad
} Stream;

typedef struct {
    uint32_t first, count;  // its streams
    uint64_t formula;       // the clauses of its formula
    Number *carried;        // their numbers; NULL in round 1: FORMULA's
} Round;

typedef struct {
    Number from, to;
} Run;  // consecutive lines of one stream

typedef struct {
    Formula formula;  // FORMULA, or, with --re-hint, its core
    Number *names;    // numbers of the core's clauses in FORMULA; NULL if formula is FORMULA
    uint64_t clauses, literals;  // of FORMULA
    LIST_OF(Stream) streams;
    LIST_OF(Round) rounds;
    LIST_OF(Run) runs;
    const char *folder;      // of a record of rounds, or NULL
    unsigned char *assumed;  // by literal; NULL: nothing is assumed
    uint64_t numbers;        // the next free number
    Number target;           // the clause that ends the proof, or 0
    // by a clause's number: the last line that cites it, or 0 if it isn't needed; its index among
    // the needed lines, where the first index is 1
    Number *last_use, *place;
    uint64_t lines, bytes;      // read
    uint64_t core, kept, room;  // needed: clauses of FORMULA, lines, literals of the lines
} Proof;

Line line_at(const Stream *stream, unsigned char *start);
Reading line_again(const Stream *stream, Number number);  // like line_read, for an addition
const int64_t *hints_again(const Stream *stream, Number number, size_t *count);
_Noreturn void stream_changed(const Stream *stream);  // stops: the file was written to
void hints_keep(Stream *stream, uint64_t slot, unsigned char *place);
void stream_open(Proof *proof, Stream *stream, const Round *round, uint64_t number);

static inline uint64_t owner_of(const Round *round, uint64_t identity) {
    return (identity - round->formula - 1) % round->count;
}
static inline uint64_t slot_of(const Round *round, uint64_t identity) {
    return (identity - round->formula - 1) / round->count;
}

// 0 if the identity is 0, or above the last one of its stream.
static inline Number number_of(const Proof *proof, const Round *round, uint64_t identity) {
    if (identity - 1 < round->formula)
        return round->carried ? round->carried[identity - 1] : (Number)identity;
    const Stream *owner = &proof->streams.items[round->first + owner_of(round, identity)];
    uint64_t slot = slot_of(round, identity);
    return slot < owner->slots ? owner->first + (Number)slot : 0;
}

static inline Number name_of(const Proof *proof, Number clause) {
    return proof->names ? proof->names[clause - 1] : clause;
}

// order.c
void round_add(Proof *proof, const char *const *paths, uint32_t count);  // NULL: the record's
void order(Proof *proof);

// mark.c
void mark(Proof *proof);
const Stream *stream_with(const Proof *proof, Number number);

// output.c
typedef struct Output {
    const char *path;  // NULL: not asked for
    int file;
    uint64_t bytes;
    uint64_t below;  // the number of clauses of FORMULA, or of the core
    bool whole;      // over FORMULA, not over the core
} Output;

void output_open(Output *output);  // output goes there from now on
void output_close(void);
void outputs_remove(void);  // removes what was made so far; nothing after outputs_keep
void outputs_keep(void);
void core_write(Proof *proof, Output *core, const char *formula);
void lines_write(Proof *proof, Output *stream, Output *lrat);

// rehint.c: --re-hint. Gives the needed lines new hints, and marks once more which lines are
// needed.
void rehint(Proof *proof, Output *lines);

#endif
