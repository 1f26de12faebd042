// Unverified, like the whole solver. What the solver's processes share: one mapping, made before
// they are forked, and the outboxes. For C and C++.
#ifndef SHARED_H
#define SHARED_H

#include <stdbool.h>
#include <stddef.h>
#include <stdint.h>
#include <stdlib.h>
#include <string.h>

#include "checkpoint.h"
#include "errors.h"
#include "form.h"
#include "literals.h"
#include "row.h"
#include "test_hooks.h"

enum { MOST_ENGINES = 64, LONGEST_CAUSE = 320, LONGEST_PATH = 4096 };
// A filter waits once it has this many whole windows that lrupd doesn't get yet. If the proof has been
// stopped meanwhile, it doesn't wait, but then has at most one more.
enum { WINDOWS_AHEAD = 60, WINDOWS_NOTED = 64 };
// variables that cubes are made of; literals of one cube
enum { VARIABLES_OF_CUBES = 64, MOST_OF_A_CUBE = 20 };

// loop.cpp: wakes one waiting process when others have stored something.
typedef struct {
    int file;  // an eventfd
    int waits;
    uint64_t count;  // of events
} EventCount;

// What a filter has written.
typedef struct {
    uint64_t bytes, other_hints;  // of its stream in this round; of all rounds, as below
} Written;

// The status of an engine and its filter. Each field has one writer, and others read it at any
// time, so all use LOAD and STORE.
typedef struct {
    // The engine writes:
    int answer;  // 10 or 20, once its proof and the model are written
    uint64_t conflicts, slices, taken, refused, satisfied;
    int group;             // the process group of a user's solver, until that has ended
    int lacks_assignment;  // it says 10 without an assignment
    // what copies a proof to its filters: bytes that it has copied; of a proof that comes only once,
    // bytes that it has kept so far, and whether it keeps no more
    uint64_t proof_read, proof_kept;
    int proof_unkept;
    // the end of a solver's standard error, or why a proof can't be read; read it once the engine
    // has ended
    char stderr_end[LONGEST_CAUSE];
    int ready;              // it has frozen the variables of cubes
    uint64_t usable;        // bits: the variables of cubes that it froze, and that are open
    uint64_t refuted_cube;  // the number of the last cube that it refuted
    uint64_t refuted_cubes;
    // The filter writes; these fields, and those below, are cleared if the proof is begun again:
    uint64_t lines, literals, hints, given;  // of all rounds
    uint64_t other_hints;                    // lines whose hints in the proof weren't right
    // lines that cite another stream; lines that cite a stream of another host
    uint64_t citing_others, citing_elsewhere;
    uint64_t round_lines, round_literals;  // of this round
    uint64_t bytes;                        // of its stream
    uint64_t behind;                       // bytes of the proof that it hasn't read
    uint64_t outbox_used;                  // others may read its outbox up to this position
    uint64_t floors[MOST_ENGINES];  // by engine, from 0: earlier gifts aren't needed any more
    uint64_t wanted;        // the length of the last clause for which its stream had no room
    uint64_t held;          // words of the clauses that it held when its last round ended
    uint64_t ended_round;   // the last round whose stream it has finished
    uint64_t mapped_round;  // its clauses have the identities of the round after this one
    uint64_t last;          // the identity of its stream's last line
    // Of a filter that shares its proof: the last round that it was asked to end; and how many steps
    // of the proof it had read by then, or when it ended that round or stopped.
    uint64_t asked_round, steps;
    // Of a filter that shares its proof with others: its first window that isn't whole, counted
    // from 0 in each round, or NO_WINDOW; how many of its windows are whole, and what they have in
    // all, by their number modulo WINDOWS_NOTED; the additions before the step at which it stopped,
    // or NO_STOP; whether one filter has to check the whole proof.
    uint64_t window, windows;
    Written written[WINDOWS_NOTED];
    uint64_t stopped_at;
    int needs_one;
    int refuted;                 // its stream has the line that proves the goal
    int unwritten;               // the stream couldn't be written
    int spilled;                 // the record couldn't be written: the stream continues in memory
    uint64_t kept;               // if `spilled`: how many bytes of the stream the record has
    char unkept[LONGEST_CAUSE];  // why the record doesn't have more
    char cause[LONGEST_CAUSE];   // why the filter stopped; read it once the filter has ended
    int proof_ended;             // when it ended, it had read the whole proof
    int has_steps;               // and at least one step
    // The first process writes:
    uint64_t stream;       // its number in this round, or in the next; 0: it has none
    uint64_t fed;          // bytes of its stream that lrupd has got
    uint64_t released;     // how many of its windows lrupd may get
    int gone;              // the filter has ended
    EventCount events;     // for the filter: the first process has written here or in Shared
    uint64_t cube_number;  // of its last cube; 0: none, or one is being written
    int cube_of_file;      // a user's cube (1: the first), plus these literals; 0: only these
    int cube_length, cube[MOST_OF_A_CUBE];
} EngineStatus;

// The first process writes everything except the engines' statuses and the variables of cubes. The
// host's first engine writes those variables.
typedef struct {
    int engines;
    int first_here, engines_here;  // from 0; the others are on other hosts
    uint64_t outbox_words;         // of each outbox
    int over;                      // the run has its answer: streams end after a whole line
    uint64_t round;                // from 1
    uint64_t ending_round;         // all streams of this round end after a whole line
    // Filters that share a proof are asked to end this round, and have then read as many steps as
    // the one that is ahead of all, which are known for `chosen_round`.
    uint64_t asking_round, chosen_round, chosen_steps;
    // lrupd has saved this round; `checkpoint` and the streams' numbers are the next round's
    uint64_t saved_round;
    uint64_t streams;
    uint64_t leaving;                    // the engine that ends with this round; 0: none
    int crowded;                         // engines give away only units and refuted cubes
    uint64_t memory_round;               // from this round on streams are in memory; 0: none is
    uint64_t most_lines, most_literals;  // of a stream
    uint64_t variable_count;             // of cubes; 0: not chosen yet
    int variables[VARIABLES_OF_CUBES];
    uint64_t cubes_left;  // the user's cubes that no engine has got
    char checkpoint[LONGEST_PATH];
    EventCount events;  // for the first process: when engines and filters write
    EngineStatus engine_statuses[MOST_ENGINES];
} Shared;

#define NO_WINDOW UINT64_MAX
#define NO_STOP UINT64_MAX

#define LOAD(field) __atomic_load_n(&(field), __ATOMIC_ACQUIRE)
#define STORE(field, value) __atomic_store_n(&(field), (value), __ATOMIC_RELEASE)

// An outbox has the clauses that a filter gives away, one after the other. Each has the number of
// its literals (with a mark if it refutes a cube), its identity, and its literals. The outbox is a
// ring: positions increase forever, and a gift is at its position modulo the ring's size. A gift
// that would cross the end begins at the ring's start, and a word marks the gap. The identity
// changes from round to round; the position names the gift.
enum { OUTBOX_WORDS = 1 << 20, HEAD_OF_A_GIFT = 2 };
#define TO_THE_BEGINNING UINT32_MAX
#define OF_A_CUBE (UINT32_C(1) << 31)

static inline uint32_t length_of(const uint32_t *gift) { return gift[0] & ~OF_A_CUBE; }

// Returns the gift at position `at`, and moves `at` to the next gift; NULL at the end.
static inline uint32_t *next_gift(const Shared *shared, uint32_t *outbox, uint64_t *at,
                                  uint64_t end) {
    uint64_t size = shared->outbox_words;
    if (*at < end && outbox[*at % size] == TO_THE_BEGINNING) *at += size - *at % size;
    if (*at >= end) return NULL;
    uint32_t *gift = outbox + *at % size;
    *at += HEAD_OF_A_GIFT + length_of(gift);
    return gift;
}

static inline const Literal *literals_of(const uint32_t *gift) {
    return (const Literal *)(const void *)(gift + HEAD_OF_A_GIFT);
}

// Which clauses an engine begins with: the user's formula, and the short clauses that an earlier
// run saved. Each longer clause, up to a length, goes to only one engine: most longer clauses were
// derived by a single engine, and no engine deletes what it begins with.
typedef struct {
    uint64_t formula;           // clauses of the user's formula, which come first
    uint64_t for_all, for_one;  // most literals
    uint64_t engines;
} Beginning;

static inline bool begins_with(const Beginning *beginning, uint64_t clause, uint64_t length,
                               int engine) {
    bool is_own =
        length <= beginning->for_one && clause % beginning->engines == (uint64_t)engine - 1;
    return clause < beginning->formula || length <= beginning->for_all || is_own;
}

// What a filter needs to know.
typedef struct {
    Shared *shared;
    uint32_t *const *outboxes;  // by engine, from 0
    int engine;                 // counted from 1
    // of those that share the proof: their number, which of them this is, and the additions in a
    // window; the engine that writes the proof is the first one's
    uint64_t filters, number, window;
    uint64_t clauses;   // of the round's formula
    uint64_t round;     // from 1
    int proof, stream;  // the pipe of the engine's proof; the stream's file
    int spare;          // a file in memory for when the record can't be written, or -1
    int record;         // the folder with a file for each round's stream, or -1
    Form form;          // of the proof
    bool shares;
    // by engine, from 0: the streams of one run, which may cite each other; or NULL
    const char *const *cited;
    const int *assumed;  // literals
    size_t assumed_length;
    // how many clauses each round keeps: those of the user's formula if the run may be resumed
    uint64_t spared;
    Beginning beginning;
} Filtering;

#ifdef __cplusplus
extern "C" {
#endif

_Noreturn void filter_process(const Filtering *filtering, const void *formula);  // filtering.c

// trial.c: tries the proof's step, and ends with one of these statuses.
enum { FOLLOWS = 0, STILL_NO_STEP = 1, ANOTHER_STOP = 2 };
_Noreturn void trial_process(const void *formula, const char *path, uint64_t step);

// loop.cpp: event counts
uint64_t events_so_far(const EventCount *events);
void events_advance(EventCount *events);  // after the store
// waits until something comes, or the file (-1: none) can be read; true if the file can be read
bool events_await(EventCount *events, uint64_t seen, int file);

// outbox.c: engines are counted from 1.
bool outbox_put(const Shared *shared, uint32_t *outbox, int engine, uint64_t *staged,
                uint64_t identity, const Literals *literals, uint32_t mark);
uint32_t gift_identity(const uint32_t *gift);
void outbox_renew(const Shared *shared, uint32_t *outbox, int engine, const Checkpoint *checkpoint);

#ifdef __cplusplus
}
#endif

#endif
