// Unverified, like the whole tool. Replays the streams, and the rounds of a record, in an order in
// which lrupd may check their lines.
#define _GNU_SOURCE
#include <stdio.h>
#include <string.h>

#include "errors.h"
#include "formula.h"
#include "explain.h"

// Streams.

Line current_line(const Stream *stream, bool *is_whole) {
    unsigned char *end = memchr(stream->at, '\n', (size_t)(stream->end - stream->at));
    *is_whole = end != NULL;
    return (Line){ stream->at, end ? end : stream->end, true };
}

// Keeps a copy of the line: explaining its fault reads other lines.
static void keep_line(Replay *replay, Reading line) {
    static Numbers literals, cited;
    literals.length = cited.length = 0;
    for (size_t k = 0; k < line.length; k++) PUSH(&literals, line.literals[k]);
    for (size_t k = 0; k < line.count; k++) PUSH(&cited, line.cited[k]);
    line.literals = literals.items;
    line.cited = cited.items;
    replay->line = line;
}

static void end_at_fault(Replay *replay, Stream *stream, const Reading *line, Fault found) {
    bool is_first = !replay->faulty;
    stream->has_ended = replay->faulty = true;
    stream->fault = found;
    keep_line(replay, line ? *line : (Reading){ .kind = 0 });
    stream->fault_is_explained = is_first || (replay->all && !is_effect(replay, stream));
    if (stream->fault_is_explained) tell(replay, stream);
}

// Whether the stream moved on or ended, instead of waiting.
static bool take_line(Replay *replay, Stream *stream) {
    bool is_whole;
    Line line = current_line(stream, &is_whole);
    Reading reading;
    const char *misspelled = is_whole ? line_read(line, &reading) : "";
    if (misspelled) {
        Line copy;
        Fault found = { .kind = form_fault(stream, &copy, &is_whole).kind };
        end_at_fault(replay, stream, NULL, found);
        return true;
    }
    Fault found = judge(replay, stream, &reading);
    if (found.kind == FAULT_WAITING)
        stream->awaited = found.object;
    else if (found.kind != NO_FAULT)
        end_at_fault(replay, stream, &reading, found);
    else {
        stream->at = line.end + 1;
        stream->lines++;
    }
    forget_values(replay);
    return found.kind != FAULT_WAITING;
}

static bool take_turn(Replay *replay, Stream *stream) {
    if (stream->has_ended) return false;
    if (stream->at == stream->end) return stream->has_ended = true;
    if (stream->awaited && is_awaited(replay, stream->awaited)) return false;
    stream->awaited = 0;
    return take_line(replay, stream);
}

// Call if all unfinished streams wait for each other. Returns the first stream of the cycle.
static Stream *first_in_cycle(const Replay *replay) {
    Stream *stream = replay->streams;
    while (stream->has_ended) stream++;
    for (uint32_t k = 0; k < replay->count; k++) stream = owner_of(replay, stream->awaited);
    Stream *first = stream;
    for (uint32_t k = 0; k < replay->count; k++, stream = owner_of(replay, stream->awaited))
        if (stream->number < first->number) first = stream;
    return first;
}

// Takes a line of each stream in turn. Unless --serial is given, a stream waits if it cites a line
// that another stream hasn't reached.
static void replay_round(Replay *replay) {
    uint32_t ended = 0;
    for (bool moves = true; moves;) {
        moves = false;
        for (uint32_t k = 0; k < replay->count; k++)
            moves |= take_turn(replay, &replay->streams[k]);
    }
    for (uint32_t k = 0; k < replay->count; k++) ended += replay->streams[k].has_ended;
    if (ended < replay->count) {
        Stream *first = first_in_cycle(replay);
        replay->is_stuck = true;
        take_line(replay, first);
        for (uint32_t k = 0; k < replay->count; k++)
            if (!replay->streams[k].has_ended) take_line(replay, &replay->streams[k]);
    }
    for (uint32_t k = 0; k < replay->count; k++)
        if (replay->streams[k].fault.kind != NO_FAULT && !replay->streams[k].fault_is_explained)
            tell_short(replay, &replay->streams[k]);
}

// Rounds.

static void open_values(Replay *replay, int variables) {
    replay->variables = variables;
    replay->values = zeroed(2 * (size_t)variables, sizeof *replay->values);
    replay->marks = zeroed(2 * (size_t)variables, sizeof *replay->marks);
    replay->reasons = zeroed((size_t)variables, sizeof *replay->reasons);
}

// Takes each literal of a clause once, in the order in which the literals first occur.
static void take_formula(Replay *replay, const char *path) {
    static Formula formula;
    static Literals literals;
    formula_read(&formula, path);
    open_values(replay, formula.variables);
    replay->clauses = formula.clauses;
    replay->first = zeroed(formula.clauses, sizeof *replay->first);
    for (size_t k = 0; k < formula.clauses; k++) {
        literals.length = 0;
        for (size_t at = formula.starts.items[k]; at < formula.starts.items[k + 1]; at++) {
            Literal literal = formula.literals.items[at];
            if (replay->marks[literal]++ == 0)
                PUSH(&literals, literal);
            else
                replay->marks[literal] = 1;
        }
        for (size_t at = 0; at < literals.length; at++) replay->marks[literals.items[at]] = 0;
        replay->first[k] =
            clauses_add(&replay->store, k + 1, literals.items, literals.length, false);
        replay->literals += literals.length;
    }
    formula_free(&formula);
}

static void open_streams(Replay *replay, const char *folder, const char *const *paths,
                         uint32_t count) {
    replay->count = count;
    replay->last = replay->clauses + count * replay->row.lines;
    uint64_t words = 1 + replay->last + replay->literals + count * replay->row.room;
    if (words > MOST_WORDS)
        stop("row too long: %llu words, but lrupd takes at most %llu: use smaller --lines or "
             "--room",
             (unsigned long long)words, (unsigned long long)MOST_WORDS);
    replay->streams = zeroed(count, sizeof *replay->streams);
    for (uint32_t k = 0; k < count; k++) {
        const char *path = folder ? record_file(folder, replay->round, "stream-", k + 1) : paths[k];
        Stream *stream = &replay->streams[k];
        size_t length;
        stream->number = k + 1;
        stream->path = zeroed(strlen(path) + 1, 1);
        strcpy(stream->path, path);
        stream->at = stream->start = file_map(path, &length);
        stream->end = stream->start + length;
        stream->last = replay->clauses;
        stream->room = replay->row.room;
        stream->known = zeroed(replay->row.lines, sizeof *stream->known);
    }
}

static void close_streams(Replay *replay) {
    for (uint32_t k = 0; k < replay->count; k++) {
        Stream *stream = &replay->streams[k];
        file_unmap(stream->start, (size_t)(stream->end - stream->start));
        grow(stream->path, 0);
        grow(stream->known, 0);
        grow(stream->dropped.near.items, 0);
        grow(stream->dropped.far, 0);
    }
    grow(replay->streams, 0);
}

Origin origin_of(const Replay *replay, uint64_t identity) {
    if (identity <= replay->clauses)
        return replay->origins ? replay->origins[identity - 1] : (Origin){ .number = identity };
    return (Origin){ replay->round, owner_of(replay, identity)->number,
                     known_of(replay, identity)->line };
}

// True for the formula's clauses, except those that all streams have deleted, and for derived
// clauses that their owners haven't deleted.
static bool is_carried(const Replay *replay, uint64_t identity) {
    if (identity > replay->clauses)
        return clause_of(replay, identity) != 0 && !known_of(replay, identity)->deleted;
    for (uint32_t k = 0; k < replay->count; k++)
        if (!is_dropped(&replay->streams[k], identity)) return true;
    return false;
}

// Collects the clauses that the next round begins with, and numbers them from 1.
static void carry(Replay *replay) {
    Clauses store = { 0 };
    ClauseRefs places = { 0 };
    LIST_OF(Origin) origins = { 0 };
    uint64_t last = last_derived(replay);
    replay->literals = 0;
    for (uint64_t identity = 1; identity <= last; identity++) {
        if (!is_carried(replay, identity)) continue;
        const Clause *clause = clause_at(&replay->store, clause_of(replay, identity));
        PUSH(&origins, origin_of(replay, identity));
        PUSH(&places, clauses_add(&store, origins.length, clause->literals, clause->length, false));
        replay->literals += clause->length;
    }
    close_streams(replay);
    grow(replay->first, 0);
    grow(replay->origins, 0);
    grow(replay->store.row, 0);
    replay->store = store;
    replay->clauses = places.length;
    replay->first = places.items;
    replay->origins = origins.items;
}

void replay_all(Replay *replay, const char *formula, const char *folder, const char *const *paths,
                uint32_t count) {
    replay->round = 1;
    if (folder) count = record_streams(folder, 1, 0, &replay->row);
    if (folder) record_check(folder, formula);
    take_formula(replay, formula);
    for (;;) {
        open_streams(replay, folder, paths, count);
        replay_round(replay);
        if (!folder || replay->faulty || replay->refuted) break;
        count = record_streams(folder, replay->round + 1, count, &replay->row);
        if (count == 0) break;
        carry(replay);
        replay->round++;
    }
}

// Searches for lines.

// The number of the line that derives the clause, if it is the current line or a later one; or 0.
uint64_t line_deriving(const Stream *stream, uint64_t identity) {
    char word[24];
    size_t length = (size_t)snprintf(word, sizeof word, "%llu ", (unsigned long long)identity);
    uint64_t number = stream->lines + 1;
    for (unsigned char *at = stream->at, *end; at < stream->end; at = end + 1, number++) {
        bool is_it = (size_t)(stream->end - at) > length && memcmp(at, word, length) == 0;
        if (is_it && at[length] != 'd' && at[length] != 'i') return number;
        end = memchr(at, '\n', (size_t)(stream->end - at));
        if (end == NULL) break;
    }
    return 0;
}

static bool is_deletion(const unsigned char *at, const unsigned char *end) {
    while (at < end && *at >= '0' && *at <= '9') at++;
    return end - at > 1 && at[0] == ' ' && at[1] == 'd';
}

// The number of the first line, up to the current one, that deletes the clause; or 0.
uint64_t line_deleting(const Stream *stream, uint64_t identity) {
    Reading reading;
    unsigned char *at = stream->start;
    for (uint64_t number = 1; number <= stream->lines + 1 && at < stream->end; number++) {
        unsigned char *end = memchr(at, '\n', (size_t)(stream->end - at));
        if (end == NULL) break;
        bool is_read = is_deletion(at, end) && !line_read((Line){ at, end, true }, &reading);
        if (is_read && reading.kind == 'd')
            for (size_t k = 0; k < reading.count; k++)
                if ((uint64_t)reading.cited[k] == identity) return number;
        at = end + 1;
    }
    return 0;
}
