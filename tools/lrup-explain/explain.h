// Unverified and untrusted: only lrupd's verdict counts. lrup-explain says why lrupd refuses a
// line. This header is common to its files.
//
// Streams are replayed line by line, and judged as lrupd judges them (replay.c, judge.c). A bad
// line is explained at once, while the literals still have the values that the hints gave them
// (tell.c, why.c), with a right chain if there is one (chain.c). A misspelled line is read byte by
// byte (form.c). Another process may write to a stream meanwhile, so a line is copied each time
// before it is read.
#ifndef EXPLAIN_H
#define EXPLAIN_H

#include "clauses.h"
#include "literals.h"
#include "lines.h"

// lrupd's faults, with the names in lrupd's definitions, from which faults.awk makes their words.
// FAULT_WAITING isn't a fault: another stream has to continue first.
typedef enum {
    NO_FAULT,
    FAULT_SPELLING,
    FAULT_TOO_LONG,
    FAULT_TRUNCATED,
    FAULT_RAT_HINT,
    FAULT_IDENTITY,
    FAULT_LITERAL,
    FAULT_TAUTOLOGY,
    FAULT_NO_ROOM,
    FAULT_EXCESS,
    FAULT_DROPPED,
    FAULT_MISSING,
    FAULT_RETIRED,
    FAULT_NOT_UNIT,
    FAULT_NO_CONFLICT,
    FAULT_NOT_LIVE,
    FAULT_DIFFERS,
    FAULT_WAITING
} Kind;

typedef struct {
    Kind kind;
    uint64_t object;  // a hint or an identity, or 0
    size_t place;     // of the object among the line's hints or identities
} Fault;

typedef struct {
    ClauseRef clause;  // 0: none
    bool deleted;
    uint64_t line;
} Known;

// The origin of a clause that a round begins with: a line, or, if the stream is 0, the clause of
// the formula that has this number.
typedef struct {
    uint32_t round, stream;
    uint64_t number;
} Origin;

typedef struct {
    char *path;
    uint32_t number;                  // from 1
    unsigned char *start, *at, *end;  // at: the next line
    uint64_t lines;                   // accepted so far
    uint64_t last, room;              // the last identity; literals that still fit
    Known *known;                     // by its identities
    Clauses dropped;                  // names only: of the formula's and other streams' clauses
    uint64_t awaited;                 // an identity of another stream, or 0
    bool has_ended, fault_is_explained;
    Fault fault;
} Stream;

typedef struct {
    int variables;
    Clauses store;  // all clauses, also deleted ones; literals as written, each once
    uint32_t round;
    uint64_t clauses, literals;  // of the round's formula
    ClauseRef *first;            // the formula's clauses
    Origin *origins;             // of these clauses; NULL in round 1
    Row row;
    uint64_t last;  // the last identity
    Stream *streams;
    uint32_t count;
    bool serial, all;      // the options
    bool refuted, faulty;  // the empty clause was derived; a line is bad
    bool is_stuck;         // streams wait for each other in a cycle

    // Of the line being judged.
    signed char *values;   // by literal: 1 true, -1 false
    uint32_t *reasons;     // by variable; 0: the new clause; else the hint's index, from 1
    Literals trail;        // true literals
    unsigned char *marks;  // by literal; all 0 except while two clauses are compared
    Reading line;          // a copy, if it is bad
} Replay;

// judge.c
Stream *owner_of(const Replay *replay, uint64_t identity);  // above the formula's
Known *known_of(const Replay *replay, uint64_t identity);   // above the formula's, up to the last
ClauseRef clause_of(const Replay *replay, uint64_t identity);  // deleted ones, too; 0: none
// deleted by a stream that doesn't own it
bool is_dropped(const Stream *stream, uint64_t identity);
// neither dropped nor deleted
bool is_usable(const Replay *replay, const Stream *stream, uint64_t identity);
bool is_foreign(const Replay *replay, const Stream *stream, uint64_t identity);  // another stream's
bool is_own(const Replay *replay, const Stream *stream, uint64_t identity);      // this stream's
bool is_awaited(const Replay *replay, uint64_t identity);  // its owner may still derive it
uint64_t last_derived(const Replay *replay);               // of all streams, or the formula's last
uint64_t next_identity(const Replay *replay, const Stream *stream);
enum { CONFLICT = -1, NEITHER = -2 };
Literal unit_of(const Replay *replay, ClauseRef ref);              // or CONFLICT or NEITHER
Fault judge(Replay *replay, Stream *stream, const Reading *line);  // call forget_values after it
// whether the hints of the bad addition are exact in the reverse order
bool is_right_reversed(const Replay *replay, const Stream *stream);
// how many literals of the trail come from the new clause, of which each is false at first
size_t false_at_first(const Replay *replay);
void forget_values(Replay *replay);

// replay.c
void replay_all(Replay *replay, const char *formula, const char *folder, const char *const *paths,
                uint32_t count);
Origin origin_of(const Replay *replay, uint64_t identity);  // up to the last
Line current_line(const Stream *stream, bool *is_whole);
// the number of the line that derives the clause, if it is the current line or a later one; or 0
uint64_t line_deriving(const Stream *stream, uint64_t identity);
// the number of the first line, up to the current one, that deletes the clause; or 0
uint64_t line_deleting(const Stream *stream, uint64_t identity);

// form.c
typedef struct {
    Kind kind;
    size_t place;        // of the byte that decides
    const char *wanted;  // what has to be there
    const char *of;      // in a line that is too long: what it has too many of
    size_t most, count;
} FormFault;

// The fault of the current line. `line` is a copy, valid until another line is read.
FormFault form_fault(const Stream *stream, Line *line, bool *is_whole);

// chain.c. An exact chain for the line's clause, or none; it keeps the order of the line's hints as
// far as possible.
typedef struct {
    Identities hints;
    bool is_found;
    size_t true_literals, open_clauses;  // if no chain is found
} Chain;

// also: a deleted clause that may be cited nevertheless, or 0
Chain chain_find(const Replay *replay, const Stream *stream, uint64_t also);

// tell.c
void tell(const Replay *replay, const Stream *stream);  // explains the fault of the current line
// explains a later fault in one line
void tell_short(const Replay *replay, const Stream *stream);
void tell_place(const Replay *replay, uint64_t identity);  // where the clause is from
void tell_literals(const Literal *literals, size_t count, const char *between);
const char *fault_words(const Fault *fault);
// the owner's bad line, or a line after that, may derive the clause
bool is_cut_off(const Stream *owner, uint64_t identity);
bool is_effect(const Replay *replay, const Stream *stream);  // another stream's fault is the cause

// why.c
void tell_why(const Replay *replay, const Stream *stream);

#endif
