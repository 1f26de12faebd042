// Unverified, like the whole tool. Prints what a line derives, and what each of its hints does.
#include <stdio.h>
#include <stdlib.h>

#include "explain.h"

enum { MOST_SHOWN = 32, MOST_HINTS = 24, LONGEST_WORD = 64, CLAUSE_WIDTH = 36 };

typedef unsigned long long Printed;

// Words.

const char *fault_words(const Fault *fault) {
    static const char *const words[] = {
#include "lrup-explain.faults.h"
    };
    static char text[LONGEST_WORD];
    if (fault->object == 0) return words[fault->kind];
    snprintf(text, sizeof text, "%s %llu", words[fault->kind], (Printed)fault->object);
    return text;
}

static void tell_origin(Origin origin, uint32_t round) {
    if (origin.stream == 0)
        printf("clause %llu of the formula", (Printed)origin.number);
    else
        printf("stream %u, line %llu", origin.stream, (Printed)origin.number);
    if (origin.stream != 0 && origin.round != round) printf(" of round %u", origin.round);
}

void tell_place(const Replay *replay, uint64_t identity) {
    if (identity > replay->last) {
        printf("above the last identity, %llu", (Printed)replay->last);
        return;
    }
    Origin origin = origin_of(replay, identity);
    if (origin.number)
        tell_origin(origin, replay->round);
    else
        printf("stream %u, no such line so far", origin.stream);
}

static void tell_more(size_t count) {
    if (count > MOST_SHOWN) printf(" .. %zu more", count - MOST_SHOWN);
}

void tell_literals(const Literal *literals, size_t count, const char *between) {
    for (size_t k = 0; k < count && k < MOST_SHOWN; k++)
        printf("%s%d", k ? between : "", as_written(literals[k]));
    tell_more(count);
}

static void tell_list(const int64_t *numbers, size_t count) {
    for (size_t k = 0; k < count && k < MOST_SHOWN; k++)
        printf("%s%lld", k ? " " : "", (long long)numbers[k]);
    tell_more(count);
}

// The line itself.

static void tell_derived(const Replay *replay, bool is_begun) {
    size_t count = false_at_first(replay);
    printf("  %s  ", replay->line.kind == 'i' ? "states " : "derives");
    if (replay->line.length == 0) printf("the empty clause");
    tell_list(replay->line.literals, replay->line.length);
    if (is_begun && count > 0) {
        printf("    so at first ");
        tell_literals(replay->trail.items, count, ", ");
        printf(count > 1 ? " are true" : " is true");
    }
    printf("\n");
}

// Hints.

static char sign_of(const Replay *replay, Literal literal, uint32_t place) {
    if (replay->values[literal] > 0)
        return replay->reasons[variable_of(literal)] == place ? '!' : 'T';
    return replay->values[literal] < 0 ? 'F' : '?';
}

static void tell_clause(const Replay *replay, ClauseRef clause_place, uint32_t place) {
    const Clause *clause = clause_at(&replay->store, clause_place);
    int width = 0;
    for (unsigned k = 0; k < clause->length && k < MOST_SHOWN; k++)
        width += printf("%s%d%c", k ? " " : "", as_written(clause->literals[k]),
                        sign_of(replay, clause->literals[k], place));
    if (clause->length == 0) width += printf("(empty)");
    tell_more(clause->length);
    printf("%*s  ", width < CLAUSE_WIDTH ? CLAUSE_WIDTH - width : 0, "");
}

static void tell_hint(const Replay *replay, size_t place, const char *word, uint32_t reason) {
    uint64_t hint = (uint64_t)replay->line.cited[place];
    ClauseRef clause = clause_of(replay, hint);
    printf("  %7llu  %-9s", (Printed)hint, word);
    if (clause)
        tell_clause(replay, clause, reason);
    else
        printf("%-*s  ", CLAUSE_WIDTH, "-");
    tell_place(replay, hint);
    printf("\n");
}

// Prints what a right hint made true, or that it is the conflict.
static void tell_good_hint(const Replay *replay, size_t place) {
    const Clause *clause =
        clause_at(&replay->store, clause_of(replay, (uint64_t)replay->line.cited[place]));
    char word[LONGEST_WORD] = "conflict";
    for (unsigned k = 0; k < clause->length; k++)
        if (sign_of(replay, clause->literals[k], (uint32_t)place + 1) == '!')
            snprintf(word, sizeof word, "-> %d", as_written(clause->literals[k]));
    tell_hint(replay, place, word, (uint32_t)place + 1);
}

static void tell_hints(const Replay *replay, const Stream *stream) {
    bool has_bad = stream->fault.kind != FAULT_NO_CONFLICT;
    size_t good = has_bad ? stream->fault.place : replay->line.count,
           first = good > MOST_HINTS ? good - MOST_HINTS : 0;
    if (replay->line.count > 0)
        printf("     hint           its clause: ! made true by it, T true, F false, ? neither\n");
    if (first > 0) printf("       ..  %zu hints, each unit\n", first);
    for (size_t k = first; k < good; k++) tell_good_hint(replay, k);
    if (!has_bad) return;
    tell_hint(replay, good, "BAD", UINT32_MAX);
    if (good + 1 < replay->line.count) {
        printf("  %7llu  unread", (Printed)replay->line.cited[good + 1]);
        printf(good + 2 < replay->line.count ? "   .. %zu more\n" : "\n",
               replay->line.count - good - 2);
    }
}

// Faults.

static void tell_title(const Replay *replay, const Stream *stream) {
    if (replay->round > 1) printf("round %u, ", replay->round);
    printf("stream %u (%s), line %llu: %s", stream->number, stream->path,
           (Printed)stream->lines + 1, fault_words(&stream->fault));
}

void tell(const Replay *replay, const Stream *stream) {
    Kind kind = stream->fault.kind;
    bool is_of_hints = replay->line.kind == 'a' && kind >= FAULT_EXCESS;
    tell_title(replay, stream);
    printf("\n");
    if (replay->line.kind == 'a' || replay->line.kind == 'i') tell_derived(replay, is_of_hints);
    if (is_of_hints) tell_hints(replay, stream);
    tell_why(replay, stream);
}

// Whether the owner's bad line, or a line after that, derives the clause; or may derive it, if the
// lines can't be read.
bool is_cut_off(const Stream *owner, uint64_t identity) {
    if (owner->fault.kind == NO_FAULT || identity <= owner->last) return false;
    return owner->fault.kind <= FAULT_RAT_HINT || line_deriving(owner, identity) != 0;
}

bool is_effect(const Replay *replay, const Stream *stream) {
    uint64_t missing = stream->fault.object;
    return stream->fault.kind == FAULT_MISSING && is_foreign(replay, stream, missing) &&
           is_cut_off(owner_of(replay, missing), missing);
}

void tell_short(const Replay *replay, const Stream *stream) {
    tell_title(replay, stream);
    if (is_effect(replay, stream)) {
        const Stream *owner = owner_of(replay, stream->fault.object);
        printf(", of stream %u, whose line %llu is bad\n", owner->number,
               (Printed)owner->lines + 1);
    } else {
        printf(", for a reason of its own: --all says why\n");
    }
}
