// Unverified, like the whole tool. Judges a line as lrupd does.
#include <stdlib.h>

#include "explain.h"

// Clauses and identities.

Stream *owner_of(const Replay *replay, uint64_t identity) {
    return &replay->streams[(identity - replay->clauses - 1) % replay->count];
}

Known *known_of(const Replay *replay, uint64_t identity) {
    return &owner_of(replay, identity)->known[(identity - replay->clauses - 1) / replay->count];
}

static bool is_derived(const Replay *replay, uint64_t identity) {
    return identity > replay->clauses && identity <= replay->last;
}

bool is_foreign(const Replay *replay, const Stream *stream, uint64_t identity) {
    return is_derived(replay, identity) && owner_of(replay, identity) != stream;
}

bool is_own(const Replay *replay, const Stream *stream, uint64_t identity) {
    return is_derived(replay, identity) && owner_of(replay, identity) == stream;
}

ClauseRef clause_of(const Replay *replay, uint64_t identity) {
    if (identity <= replay->clauses) return replay->first[identity - 1];
    return identity <= replay->last ? known_of(replay, identity)->clause : 0;
}

bool is_dropped(const Stream *stream, uint64_t identity) {
    return clauses_named(&stream->dropped, identity) != 0;
}

bool is_usable(const Replay *replay, const Stream *stream, uint64_t identity) {
    if (is_dropped(stream, identity) || clause_of(replay, identity) == 0) return false;
    return identity <= replay->clauses || !known_of(replay, identity)->deleted;
}

uint64_t last_derived(const Replay *replay) {
    uint64_t last = replay->clauses;
    for (uint32_t k = 0; k < replay->count; k++)
        if (replay->streams[k].last > last) last = replay->streams[k].last;
    return last;
}

uint64_t next_identity(const Replay *replay, const Stream *stream) {
    return stream->last > replay->clauses ? stream->last + replay->count
                                          : replay->clauses + stream->number;
}

// Values.

static void make_true(Replay *replay, Literal literal, uint32_t reason) {
    replay->values[literal] = 1;
    replay->values[complement_of(literal)] = -1;
    replay->reasons[variable_of(literal)] = reason;
    PUSH(&replay->trail, literal);
}

void forget_values(Replay *replay) {
    for (size_t k = 0; k < replay->trail.length; k++)
        replay->values[replay->trail.items[k]] =
            replay->values[complement_of(replay->trail.items[k])] = 0;
    replay->trail.length = 0;
}

static Literal unit_with(const Replay *replay, const signed char *values, ClauseRef ref) {
    const Clause *clause = clause_at(&replay->store, ref);
    Literal unit = CONFLICT;
    for (unsigned k = 0; k < clause->length; k++) {
        Literal literal = clause->literals[k];
        if (values[literal] < 0) continue;
        if (values[literal] > 0 || unit != CONFLICT) return NEITHER;
        unit = literal;
    }
    return unit;
}

Literal unit_of(const Replay *replay, ClauseRef ref) {
    return unit_with(replay, replay->values, ref);
}

// Lines.

static Fault fault(Kind kind, uint64_t object, size_t place) {
    return (Fault){ kind, object, place };
}
static const Fault no_fault;

// Whether the owner may still derive this clause.
bool is_awaited(const Replay *replay, uint64_t identity) {
    const Stream *owner = owner_of(replay, identity);
    return !replay->serial && !replay->is_stuck && !owner->has_ended && owner->last < identity;
}

static Kind look_up(const Replay *replay, const Stream *stream, uint64_t identity) {
    if (is_dropped(stream, identity)) return FAULT_DROPPED;
    if (identity <= replay->clauses) return NO_FAULT;
    if (identity > replay->last) return FAULT_MISSING;
    const Known *known = known_of(replay, identity);
    if (known->clause == 0)
        return owner_of(replay, identity) != stream && is_awaited(replay, identity) ? FAULT_WAITING
                                                                                    : FAULT_MISSING;
    return known->deleted ? FAULT_RETIRED : NO_FAULT;
}

static bool are_literals(const Replay *replay, const Reading *line) {
    for (size_t k = 0; k < line->length; k++)
        if (llabs(line->literals[k]) > replay->variables) return false;
    return true;
}

// The new clause's literals are false at first.
static bool take_literals(Replay *replay, const Reading *line) {
    for (size_t k = 0; k < line->length; k++) {
        Literal literal = literal_of(line->literals[k]);
        if (replay->values[literal] > 0) return false;
        if (replay->values[literal] == 0) make_true(replay, complement_of(literal), 0);
    }
    return true;
}

static Fault take_hint(Replay *replay, const Stream *stream, const Reading *line, size_t place,
                       bool *is_conflict) {
    uint64_t hint = (uint64_t)line->cited[place];
    if (*is_conflict) return fault(FAULT_EXCESS, hint, place);
    Kind kind = look_up(replay, stream, hint);
    if (kind != NO_FAULT) return fault(kind, hint, place);
    Literal unit = unit_of(replay, clause_of(replay, hint));
    if (unit == NEITHER) return fault(FAULT_NOT_UNIT, hint, place);
    *is_conflict = unit == CONFLICT;
    if (unit != CONFLICT) make_true(replay, unit, (uint32_t)place + 1);
    return no_fault;
}

bool is_right_reversed(const Replay *replay, const Stream *stream) {
    const Reading *line = &replay->line;
    signed char *values = zeroed(2 * (size_t)replay->variables, sizeof *values);
    Literal unit = NEITHER;
    for (size_t k = 0; k < line->length; k++) {
        values[literal_of(line->literals[k])] = -1;
        values[complement_of(literal_of(line->literals[k]))] = 1;
    }
    size_t left = line->count;
    while (left > 0 && unit != CONFLICT) {
        uint64_t hint = (uint64_t)line->cited[--left];
        bool is_known = hint <= replay->last && is_usable(replay, stream, hint);
        unit = is_known ? unit_with(replay, values, clause_of(replay, hint)) : NEITHER;
        if (unit == NEITHER) break;
        if (unit != CONFLICT) values[unit] = 1, values[complement_of(unit)] = -1;
    }
    grow(values, 0);
    return unit == CONFLICT && left == 0;
}

static Fault judge_addition(Replay *replay, const Stream *stream, const Reading *line) {
    bool is_conflict = false;
    if (!is_own(replay, stream, line->identity) || line->identity <= stream->last)
        return fault(FAULT_IDENTITY, 0, 0);
    if (!are_literals(replay, line)) return fault(FAULT_LITERAL, 0, 0);
    if (!take_literals(replay, line)) return fault(FAULT_TAUTOLOGY, 0, 0);
    if (replay->trail.length > stream->room) return fault(FAULT_NO_ROOM, 0, 0);
    for (size_t k = 0; k < line->count; k++) {
        Fault found = take_hint(replay, stream, line, k, &is_conflict);
        if (found.kind != NO_FAULT) return found;
    }
    return is_conflict ? no_fault : fault(FAULT_NO_CONFLICT, 0, 0);
}

// Whether the line and the clause have the same set of literals.
static bool is_same(Replay *replay, const Reading *line, const Clause *clause) {
    size_t distinct = 0, met = 0;
    for (size_t k = 0; k < line->length; k++) {
        unsigned char *mark = &replay->marks[literal_of(line->literals[k])];
        distinct += *mark == 0;
        *mark = 1;
    }
    for (unsigned k = 0; k < clause->length; k++) met += replay->marks[clause->literals[k]];
    for (size_t k = 0; k < line->length; k++) replay->marks[literal_of(line->literals[k])] = 0;
    return distinct == met && met == clause->length;
}

static Fault judge_import(Replay *replay, const Stream *stream, const Reading *line) {
    if (line->identity > replay->last || is_own(replay, stream, line->identity))
        return fault(FAULT_IDENTITY, 0, 0);
    if (!are_literals(replay, line)) return fault(FAULT_LITERAL, 0, 0);
    Kind kind = look_up(replay, stream, line->identity);
    if (kind != NO_FAULT) return fault(kind, line->identity, 0);
    const Clause *clause = clause_at(&replay->store, clause_of(replay, line->identity));
    return is_same(replay, line, clause) ? no_fault : fault(FAULT_DIFFERS, line->identity, 0);
}

// If an identity can't be deleted, those before it in the line have been deleted.
static Fault take_deletion(Replay *replay, Stream *stream, const Reading *line) {
    for (size_t k = 0; k < line->count; k++) {
        uint64_t identity = (uint64_t)line->cited[k];
        bool is_right = identity <= replay->last;
        if (is_right && is_own(replay, stream, identity)) {
            Known *known = known_of(replay, identity);
            is_right = known->clause != 0 && !known->deleted;
            known->deleted |= is_right;
        } else if (is_right) {
            is_right = !is_dropped(stream, identity);
            if (is_right) clauses_name(&stream->dropped, identity, 1);
        }
        if (!is_right) return fault(FAULT_NOT_LIVE, identity, k);
    }
    return no_fault;
}

// The complements of the clause's literals come first on the trail, each once.
size_t false_at_first(const Replay *replay) {
    size_t count = 0;
    while (count < replay->trail.length &&
           replay->reasons[variable_of(replay->trail.items[count])] == 0)
        count++;
    return count;
}

static void add(Replay *replay, Stream *stream, const Reading *line) {
    static Literals literals;
    size_t length = false_at_first(replay);
    literals.length = 0;
    for (size_t k = 0; k < length; k++) PUSH(&literals, complement_of(replay->trail.items[k]));
    ClauseRef ref = clauses_add(&replay->store, line->identity, literals.items, length, false);
    *known_of(replay, line->identity) = (Known){ .clause = ref, .line = stream->lines + 1 };
    stream->last = line->identity;
    stream->room -= length;
    replay->refuted |= length == 0;
}

Fault judge(Replay *replay, Stream *stream, const Reading *line) {
    if (line->kind == 'i') return judge_import(replay, stream, line);
    if (line->kind == 'd') return take_deletion(replay, stream, line);
    Fault found = judge_addition(replay, stream, line);
    if (found.kind == NO_FAULT) add(replay, stream, line);
    return found;
}
