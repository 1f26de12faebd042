// Unverified, like the whole solver. In a filter's process: tools/filter turns an engine's proof
// into streams, one for each round, and gives clauses away.
#define _GNU_SOURCE
#include <errno.h>
#include <fcntl.h>
#include <stdio.h>
#include <sys/ioctl.h>
#include <sys/stat.h>
#include <unistd.h>

#include "detect.h"
#include "errors.h"
#include "filter.h"
#include "lists.h"
#include "readers.h"
#include "next_round.h"
#include "write.h"
#include "shared.h"

enum { MOST_AHEAD = 1 << 25 };  // bytes of a stream that lrupd hasn't got yet

static const Filtering *own;
static EngineStatus *engine_status;
static Filter filter;
static Input input;
static unsigned char *assumed;  // by literal
static uint64_t round_number;   // from 1
static uint64_t staged;         // the end of the outbox; others may read up to `outbox_used`
static Identities kept;         // clauses given away in this round
static bool refuted;
static bool in_memory;  // the stream is in memory, although there is a record

// Filters that share the proof. What happens at its first step counts: if one of them refutes the
// formula or stops there, the others go on to that step.
static bool refuted_by_another;
static bool needs_one;            // one filter has to check the whole proof
static uint64_t own_window;       // in this round, the first one that isn't whole
static uint64_t seen_window;      // of the last addition
static uint64_t booked;           // the additions that the round has room for
static uint64_t *literals_taken;  // by filter, in this round

static uint64_t engines_first(void) { return (uint64_t)own->engine - 1 - own->number; }

static EngineStatus *status_of(uint64_t number) {
    return &own->shared->engine_statuses[engines_first() + number];
}

static bool is_past_stop(void) {
    for (uint64_t k = 0; filter_has_windows(&filter) && k < own->filters; k++)
        if (LOAD(status_of(k)->stopped_at) <= filter.additions) return true;
    return false;
}

static void tell_others(void) {
    for (uint64_t k = 0; k < own->filters; k++) events_advance(&status_of(k)->events);
}

// Errors. The first process reports the cause once this one has ended.

static _Noreturn void leave(const char *cause) {
    bool over = LOAD(own->shared->over);  // if true, the engine was killed within a step
    if (cause && !over) snprintf(engine_status->cause, sizeof engine_status->cause, "%s", cause);
    engine_status->proof_ended = input.ended;
    engine_status->has_steps = filter.steps > 0;
    STORE(engine_status->steps, filter.steps);
    if (filter_has_windows(&filter) && (cause || refuted)) {
        engine_status->needs_one = cause && (needs_one || filter.named || filter.is_too_long);
        STORE(engine_status->stopped_at, filter.additions);
        tell_others();
    }
    _exit(cause && !over);
}

static void note_windows(uint64_t whole) {
    engine_status->written[whole % WINDOWS_NOTED] =
        (Written){ engine_status->bytes, filter.other_hints };
    STORE(engine_status->windows, whole);
}

static void end_window(void) {
    write_flush();
    note_windows(engine_status->windows + 1);
}

// Leaves the rest of the proof to others: it counts no more, or one of them has the last line.
static _Noreturn void leave_to_others(void) {
    end_window();
    STORE(engine_status->window, NO_WINDOW);
    leave(NULL);
}

static _Noreturn void leave_to_one(const char *cause) {
    needs_one = true;
    stop("%s", cause);
}

// Flushes the stream first.
static void end(const char *cause) {
    write_flush();
    leave(cause);
}

// Stores a value, and wakes the first process.
static void tell(uint64_t *field, uint64_t value) {
    STORE(*field, value);
    events_advance(&own->shared->events);
}

// Whether the first process waits for this filter to say how far it has come.
static bool is_asked(void) {
    return filter_has_windows(&filter) && LOAD(own->shared->asking_round) == round_number &&
           engine_status->asked_round != round_number && engine_status->ended_round != round_number;
}

// Waits until the first process has stored at least the wanted value, or the run or the filter's
// part of the proof ends, or this filter is asked to end the round.
static void await(const uint64_t *field, uint64_t wanted) {
    for (;;) {
        uint64_t seen = events_so_far(&engine_status->events);
        if (LOAD(*field) >= wanted || LOAD(own->shared->over) || is_past_stop() || is_asked())
            return;
        events_await(&engine_status->events, seen, -1);
    }
}

// The stream.

static uint64_t waiting(int file) {
    int bytes = 0;
    return ioctl(file, FIONREAD, &bytes) == 0 ? (uint64_t)bytes : 0;
}

static _Noreturn void leave_unwritten(const char *cause) {
    STORE(engine_status->unwritten, 1);
    leave(cause);
}

// Call if the record can't be written, perhaps because the disk is full. lrupd still gets these
// lines, from memory.
static void spill(const char *bytes, size_t length) {
    const char *cause = strerror(errno);
    off_t at = (off_t)engine_status->bytes;
    bool is_ready = own->record >= 0 && !in_memory && lseek(own->spare, at, SEEK_SET) == at;
    if (!is_ready || dup2(own->spare, own->stream) < 0) leave_unwritten(cause);
    if (!write_whole(own->stream, bytes, length)) leave_unwritten(cause);
    in_memory = true;
    snprintf(engine_status->unkept, sizeof engine_status->unkept, "%s", cause);
    STORE(engine_status->kept, engine_status->bytes);
    STORE(engine_status->spilled, 1);
}

// Whole lines go to the stream's file, which outlives this process. Only then do others see the
// clauses that these lines derive: otherwise a filter that dies with lines in its buffer would
// leave clauses that others cite and lrupd never gets. A slow lrupd slows filters down, and they
// slow engines down, so a stream never takes much memory.
static void out(const char *bytes, size_t length) {
    if (!write_whole(own->stream, bytes, length)) spill(bytes, length);
    STORE(engine_status->bytes, engine_status->bytes + length);
    STORE(engine_status->outbox_used, staged);
    STORE(engine_status->behind, waiting(own->proof) + (input.length - input.at));
    events_advance(&own->shared->events);
    uint64_t ahead = hooked(test_hooks.ahead, MOST_AHEAD);
    if (engine_status->bytes > ahead) await(&engine_status->fed, engine_status->bytes - ahead);
}

// Rounds.

// Keeps the clauses that others gave away at this filter's floor or later: the filter may still
// have to take them over.
static void keep_for_imports(void) {
    uint64_t formula = filter.formula.clauses;
    for (int k = 0; k < own->shared->engines; k++) {
        uint64_t at = engine_status->floors[k],
                 end = LOAD(own->shared->engine_statuses[k].outbox_used);
        if (k == own->engine - 1 || test_hooks.without_floor) continue;
        for (uint32_t *gift; (gift = next_gift(own->shared, own->outboxes[k], &at, end)) != NULL;) {
            uint64_t identity = gift_identity(gift);
            if (identity > 0 && identity <= formula) PUSH(&kept, identity);
        }
    }
}

static void await_round(const uint64_t *field, uint64_t wanted) {
    await(field, wanted);
    if (LOAD(*field) < wanted) leave(NULL);
}

// Whether this is the file that the first process made for the round.
static bool is_as_made(int stream) {
    struct stat found;
    return fstat(stream, &found) == 0 && S_ISREG(found.st_mode) && found.st_nlink == 1 &&
           found.st_size == 0;
}

static void open_stream(void) {
    char name[64];
    uint64_t from = LOAD(own->shared->memory_round);
    if (own->record >= 0 && from != 0 && round_number >= from) {
        in_memory = true;
        if (dup2(own->spare, own->stream) < 0) leave_unwritten(strerror(errno));
    }
    if (own->record < 0 || in_memory) {
        lseek(own->stream, 0, SEEK_SET);  // the first process has emptied it
        return;
    }
    snprintf(name, sizeof name, "round-%llu.stream-%llu", (unsigned long long)round_number,
             (unsigned long long)filter.stream);
    int file = openat(own->record, name, O_WRONLY | O_NOFOLLOW | O_NONBLOCK | O_CLOEXEC);
    if (file < 0 ? errno == ELOOP : !is_as_made(file)) leave_unwritten("replaced by another file");
    if (file < 0 || dup2(file, own->stream) < 0) leave_unwritten(strerror(errno));
    close(file);
}

static void begin_windows(void) {
    own_window = own->number;
    seen_window = 0;
    memset(literals_taken, 0, own->filters * sizeof *literals_taken);
    note_windows(0);
    STORE(engine_status->window, own_window);
}

// All filters of the proof end the round before the same addition. None deletes a clause before all
// others have come so far, and the clause that they wait for stays.
static void end_windows(void) {
    end_window();
    STORE(engine_status->window, NO_WINDOW);
    filter_meet(&filter);
    PUSH(&kept, filter.last);
}

// Ends the stream. Clauses that were given away aren't deleted, since others may cite them; the
// next round's formula has them. A filter that ends with this stream keeps no other clauses.
static void end_stream(bool goes_on) {
    uint64_t literals, clauses = round_clauses(&filter, &literals);
    STORE(engine_status->held, clauses + literals);
    STORE(engine_status->steps, filter.steps);
    if (filter_has_windows(&filter)) end_windows();
    if (goes_on) keep_for_imports();
    round_delete(&filter, &kept, goes_on);
    write_flush();
    tell(&engine_status->ended_round, round_number);
    if (!goes_on) leave(NULL);
}

// Ends the stream, waits until lrupd has saved the round, and continues with the saved clauses.
static void next_round(void) {
    Checkpoint checkpoint;
    end_stream(LOAD(own->shared->leaving) != (uint64_t)own->engine);
    await_round(&own->shared->saved_round, round_number);
    checkpoint_read(&checkpoint, own->shared->checkpoint);
    needs_one = filter_has_windows(&filter);
    round_begin(&filter, &checkpoint, engine_status->stream, own->shared->streams);
    needs_one = false;
    filter.others.length = 0;  // their identities are those of round 1
    if (!test_hooks.without_renewal)
        outbox_renew(own->shared, own->outboxes[own->engine - 1], own->engine, &checkpoint);
    checkpoint_free(&checkpoint);
    kept.length = 0;
    STORE(engine_status->bytes, 0);
    STORE(engine_status->round_lines, 0);
    STORE(engine_status->round_literals, 0);
    begin_windows();
    tell(&engine_status->mapped_round, round_number);
    await_round(&own->shared->round, ++round_number);
    open_stream();
}

// Filters that share a proof end a round before the same step. If its row is full, each of them finds
// that itself. If it has to end early, each says how many steps it has read, and all go on to the
// most that one of them has said: it has read the bytes of these steps, so the others get them, too.
static bool is_ending_windows(void) {
    if (is_asked()) {
        STORE(engine_status->steps, filter.steps);
        tell(&engine_status->asked_round, round_number);
        await(&own->shared->chosen_round, round_number);
        if (is_past_stop()) leave_to_others();
    }
    return LOAD(own->shared->chosen_round) == round_number &&
           filter.steps >= LOAD(own->shared->chosen_steps);
}

// Whether the first process ends the round.
static bool is_ending(void) {
    if (refuted || refuted_by_another) return false;
    return filter_has_windows(&filter) ? is_ending_windows()
                                       : LOAD(own->shared->ending_round) == round_number;
}

static bool should_stop(void) {
    if (is_ending()) next_round();
    if (refuted_by_another) leave_to_others();
    return refuted || LOAD(own->shared->over);
}

// Waits until the engine has written more, or has ended. Meanwhile rounds may end.
static void await_proof(int file) {
    for (bool is_readable = false; !is_readable;) {
        uint64_t seen = events_so_far(&engine_status->events);
        if (is_past_stop()) leave_to_others();
        if (is_ending())
            next_round();
        else
            is_readable = events_await(&engine_status->events, seen, file);
    }
}

static bool has_room(uint64_t literals) {
    Row row = { LOAD(own->shared->most_lines), LOAD(own->shared->most_literals) };
    return row_holds(row, (Row){ engine_status->round_lines, engine_status->round_literals },
                     literals);
}

static void next_round_for(uint64_t literals) {
    STORE(engine_status->wanted, literals);
    next_round();
}

// Windows.

// Call before each addition. A filter that is far ahead of the others waits: `written` still has the
// window that lrupd gets last.
static void pass_windows(void) {
    uint64_t window = filter.windows.current;
    if (window == seen_window) return;
    seen_window = window;
    if (is_past_stop()) leave_to_others();
    if (window <= own_window) return;
    end_window();
    tell(&engine_status->window, own_window += own->filters);
    uint64_t whole = engine_status->windows;
    if (whole > WINDOWS_AHEAD) await(&engine_status->released, whole - WINDOWS_AHEAD);
}

// Whether the round has room for this step's addition, and for the clause that ends the round.
// Every filter of the proof finds the same, since each knows all clauses.
static bool has_room_in_windows(uint64_t literals) {
    uint64_t owner = filter.windows.owner,
             lines = IDENTITIES_OF_AN_ADDITION * (windows_own(&filter.windows, owner) + 2);
    return lines <= LOAD(own->shared->most_lines) &&
           literals_taken[owner] + literals + filter.met.length <= LOAD(own->shared->most_literals);
}

// A lemma of windows is a unit clause.
static void before_line_in_windows(void) {
    uint64_t literals = filter.literals.length + IDENTITIES_OF_AN_ADDITION - 1;
    if (filter.additions < booked) return;  // before a lemma
    pass_windows();
    if (!has_room_in_windows(literals)) {
        STORE(engine_status->wanted, literals + filter.met.length);
        if (filter.windows.current > 0 || filter.windows.within > 0) next_round();
        if (!has_room_in_windows(literals)) leave_to_one("a row has no room for its clause");
    }
    literals_taken[filter.windows.owner] += literals;
    booked = filter.additions + 1;
}

static void before_line(const Filter *one) {
    if (filter_has_windows(one))
        before_line_in_windows();
    else
        round_make_room(one, has_room, next_round_for);
}

// Giving away.

// Gives the clause away, if the outbox has room.
static void give(uint32_t mark) {
    uint32_t *outbox = own->outboxes[own->engine - 1];
    if (!outbox_put(own->shared, outbox, own->engine, &staged, filter.last, &filter.literals, mark))
        return;
    PUSH(&kept, filter.last);
    STORE(engine_status->given, engine_status->given + 1);
    if (test_hooks.without_flush) STORE(engine_status->outbox_used, staged);
    if (test_hooks.last_gift && own->engine == 1 && engine_status->given == test_hooks.last_gift)
        _exit(1);
}

// Whether the stream belongs to an engine on another host.
static bool is_elsewhere(uint64_t stream) {
    const Shared *shared = own->shared;
    int first = shared->first_here;
    for (int k = first; k < first + shared->engines_here; k++)
        if (shared->engine_statuses[k].stream == stream) return false;
    return true;
}

// Of whose clauses, besides the formula's, the line cites some: only of its own stream, of another
// one, or of one on another host.
typedef enum { OWN, ANOTHER, ELSEWHERE } Cited;

static Cited cited(void) {
    const Shared *shared = own->shared;
    Cited found = OWN, most = shared->engines_here < shared->engines ? ELSEWHERE : ANOTHER;
    if (filter.streams == 1) return OWN;
    for (size_t k = 0; k < filter.chain.length && found < most; k++) {
        if (filter.chain.items[k] <= filter.formula.clauses) continue;
        uint64_t stream = filter_stream_of(&filter, filter.chain.items[k]);
        if (stream == filter.stream) continue;
        found = most == ELSEWHERE && is_elsewhere(stream) ? ELSEWHERE : ANOTHER;
    }
    return found;
}

static void count(void) {
    uint64_t formula = filter.formula.clauses;
    Cited whose = cited();
    STORE(engine_status->last, filter.last);
    STORE(engine_status->lines, engine_status->lines + 1);
    STORE(engine_status->literals, engine_status->literals + filter.literals.length);
    STORE(engine_status->round_lines, (filter.last - formula - filter.stream) / filter.streams + 1);
    STORE(engine_status->round_literals, engine_status->round_literals + filter.literals.length);
    STORE(engine_status->hints, engine_status->hints + filter.chain.length);
    STORE(engine_status->other_hints, filter.other_hints);
    STORE(engine_status->citing_others, engine_status->citing_others + (whose != OWN));
    STORE(engine_status->citing_elsewhere, engine_status->citing_elsewhere + (whose == ELSEWHERE));
}

// Whether the clause is empty, or contradicts the assumptions.
static bool is_wanted(void) {
    for (size_t k = 0; k < filter.literals.length; k++)
        if (!assumed[complement_of(filter.literals.items[k])]) return false;
    return true;
}

// Gives away all units, and what the engine marked. The line is still in the buffer; others see the
// clause only after `out`.
static void after_line(const Filter *one) {
    size_t length = one->literals.length;
    count();
    if (own->shares && length > 0 && (length == 1 || one->marked))
        give(one->marked > 1 ? OF_A_CUBE : 0);
    refuted |= is_wanted();
}

static void after_other_clause(const Filter *one) {
    (void)one;
    refuted_by_another |= is_wanted();
}

// Taking over.

static int engine_of(uint64_t number) {
    if (number < 1 || number > (uint64_t)own->shared->engines)
        stop("no engine %llu", (unsigned long long)number);
    return (int)number - 1;
}

static uint64_t identity_of_gift(uint64_t engine, uint64_t position) {
    uint32_t *outbox = own->outboxes[engine_of(engine)];
    uint64_t identity = gift_identity(outbox + position % own->shared->outbox_words);
    if (identity == 0) stop("lrupd hasn't saved a clause that was taken over");
    return identity;
}

static bool solver_lacks(uint64_t clause, uint64_t length) {
    return !begins_with(&own->beginning, clause, length, own->engine);
}

static void raise_floor(uint64_t engine, uint64_t position) {
    STORE(engine_status->floors[engine_of(engine)], position);
}

// The filter is already open, since a round may end before the first bytes arrive. The reader of DRAT
// says what is wrong with other bytes.
static Form form_found(const Formula *formula) {
    Form form = form_of(&input, formula);
    if (form != FRAT) filter_name_formula(&filter);
    return form == UNKNOWN_FORM ? BINARY_DRAT : form;
}

static void open_others(void) {
    for (int k = 0; own->cited && k < own->shared->engines; k++)
        if (k != own->engine - 1)
            others_open(&filter.others, (uint64_t)k + 1, own->cited[k], filter.formula.variables);
}

static void read_proof(const Formula *formula) {
    bool is_unknown = own->form == UNKNOWN_FORM;
    open_others();
    filter_open(&filter, is_unknown || own->form == FRAT);
    filter.formula.clauses = own->clauses;
    proof_run(&filter, &input, is_unknown ? form_found(formula) : own->form);
}

// Adds the empty clause if a solver answered 20 without writing it.
static void end_proof(void) {
    if (refuted || LOAD(own->shared->over) || own->form != UNKNOWN_FORM ||
        LOAD(status_of(0)->answer) != 20)
        return;
    propagation_settle(&filter.propagation);
    if (filter.propagation.conflict == 0) end("the proof ends without the empty clause");
    filter_add(&filter, &(Addition){ 0 });
    if (refuted_by_another) leave_to_others();
}

// Doesn't return. The formula was read before the fork; the filter's changes to it stay in this
// process. The stream deletes no clause before its round ends: at any time, others may cite what
// was given away, and lrupd doesn't reuse the memory of deleted clauses.
void filter_process(const Filtering *filtering, const void *formula) {
    static const Hooks hooks = { .should_stop = should_stop,
                                 .before_line = before_line,
                                 .after_line = after_line,
                                 .after_other_clause = after_other_clause,
                                 .identity_of_gift = identity_of_gift,
                                 .raise_floor = raise_floor,
                                 .solver_lacks = solver_lacks };
    own = filtering;
    errors_handle(end);
    engine_status = &own->shared->engine_statuses[own->engine - 1];
    round_number = own->round;
    input_open(&input, NULL);
    input.file = own->proof;
    input.await = await_proof;
    write_to(out);
    filter.formula = *(const Formula *)formula;
    filter.stream = LOAD(engine_status->stream);
    filter.streams = LOAD(own->shared->streams);
    filter.windows =
        (Windows){ .filters = own->filters, .number = own->number, .size = own->window };
    filter.spared = own->spared;
    literals_taken = zeroed(own->filters, sizeof *literals_taken);
    begin_windows();
    filter.keeps_clauses = !test_hooks.without_keeping;
    filter.hooks = &hooks;
    assumed = zeroed(2 * (size_t)filter.formula.variables, 1);
    for (size_t k = 0; k < own->assumed_length; k++) assumed[own->assumed[k]] = 1;
    read_proof(formula);
    end_proof();
    write_flush();
    if (refuted) STORE(engine_status->refuted, 1);
    leave(NULL);
}
