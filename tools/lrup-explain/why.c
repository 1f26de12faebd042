// Unverified, like the whole tool. Says for each fault of lrupd why the line is bad, and what would
// be right.
#include <stdio.h>
#include <stdlib.h>
#include <string.h>

#include "formula.h"
#include "line_limits.h"
#include "explain.h"

enum { MOST_LITERALS = 5, BYTES_BEFORE = 48, BYTES_AFTER = 16 };

typedef unsigned long long Printed;

// The form.

static int tell_byte(unsigned char byte) {
    if (byte >= ' ' && byte <= '~') return printf("%c", byte);
    return byte == '\n'   ? printf("\\n")
           : byte == '\r' ? printf("\\r")
           : byte == '\t' ? printf("\\t")
                          : printf("\\x%02x", byte);
}

// Prints the bytes around the decisive one, with a caret below it.
static void tell_bytes(Line line, bool is_whole, size_t place) {
    size_t length = (size_t)(line.end - line.start),
           first = place > BYTES_BEFORE ? place - BYTES_BEFORE : 0;
    size_t end = place + BYTES_AFTER < length ? place + BYTES_AFTER : length;
    int width = printf("      %s", first > 0 ? ".." : "") - 6;
    for (size_t k = first; k < end; k++) {
        int shown = tell_byte(line.start[k]);
        if (k < place) width += shown;
    }
    if (end < length)
        printf("..");
    else if (is_whole && place == length)
        printf("\\n");
    printf("\n      %*s^ byte %zu\n", width, "", place + 1);
}

static const char *name_of(unsigned char byte) {
    static char text[16];
    snprintf(text, sizeof text, byte >= ' ' && byte <= '~' ? "'%c'" : "byte 0x%02x", byte);
    if (byte == '\n') return "the line's end";
    return byte == '\r'   ? "a carriage return"
           : byte == '\t' ? "a tab"
           : byte == ' '  ? "a space"
                          : text;
}

// The usual cause of a wrong byte, or NULL.
static const char *guess_of(const Stream *stream, Line line, size_t place, unsigned char byte) {
    static char text[64];
    const char *program = stream->lines == 0 ? unpacked_by(line.start[0], line.start[1]) : NULL;
    if (program) return snprintf(text, sizeof text, "compressed: unpack it with %s", program), text;
    if (byte == '\r') return "lines end with LF, not with CR LF";
    if (place == 0 && byte == '\n') return "an empty line, which streams don't have";
    if (place == 0 && byte == 'c') return "a comment, which streams don't have?";
    if (place == 0 && byte == 'd') return "a deletion of DRAT, which has no identities?";
    if (place == 0 && byte == '-')
        return "a clause of DRAT, which has neither identities nor hints?";
    if (place == 0 && byte == 'a') return "a binary proof?";
    bool ends_with_zero = line.end - line.start > 1 && line.end[-1] == '0' && line.end[-2] == ' ';
    if (byte == '\n' && ends_with_zero) return "a line of DRAT, which has no hints?";
    bool is_first = place == 0 || line.start[place - 1] == ' ' || line.start[place - 1] == '-';
    if (byte == '0' && is_first) return "numbers begin with 1 to 9";
    if (byte < ' ' && byte != '\t' && byte != '\n') return "a binary proof?";
    return byte > '~' ? "a binary proof?" : NULL;
}

static void why_form(const Stream *stream) {
    bool is_whole;
    Line line;
    FormFault fault = form_fault(stream, &line, &is_whole);
    bool is_end = line.start + fault.place == line.end;
    unsigned char byte = is_end ? '\n' : line.start[fault.place];
    bool is_spelling = fault.kind == FAULT_SPELLING;
    const char *guess = is_spelling ? guess_of(stream, line, fault.place, byte) : NULL;
    if (is_spelling)
        printf("  why: expected %s, found %s\n", fault.wanted, name_of(byte));
    else if (fault.kind == FAULT_RAT_HINT)
        printf("  why: a negative hint: a RAT step, which lrupd doesn't check; switch "
               "off what makes such steps\n");
    else if (fault.kind == FAULT_TRUNCATED)
        printf("  why: the stream ends within this line, after %zu bytes: expected %s\n",
               fault.place, fault.wanted);
    else
        printf("  why: %zu %s%s, %zu too many: a %s may have %zu\n", fault.count, fault.of,
               fault.most == DIGITS ? " of a number" : "", fault.count - fault.most,
               fault.most == DIGITS ? "number" : "line", fault.most);
    tell_bytes(line, is_whole, fault.place);
    if (guess) printf("       %s\n", guess);
    if (fault.kind == FAULT_TRUNCATED)
        printf("       was the solver killed, or its buffer not flushed?\n");
}

// Identities, literals and room.

// How many lines per stream the identity needs.
static uint64_t lines_for(const Replay *replay, uint64_t identity) {
    return (identity - replay->clauses + replay->count - 1) / replay->count;
}

static void tell_lines_for(const Replay *replay, uint64_t identity) {
    printf("       --lines %llu would be enough\n", (Printed)lines_for(replay, identity));
}

static void tell_beyond(const Replay *replay, uint64_t identity) {
    printf("  why: %llu is above %llu, the last identity\n", (Printed)identity,
           (Printed)replay->last);
    tell_lines_for(replay, identity);
}

// Reads the first well-formed line, at `at` or later, that derives a clause. False at the end.
static bool next_addition(const Stream *stream, unsigned char **at, Reading *reading) {
    for (unsigned char *end; (end = memchr(*at, '\n', (size_t)(stream->end - *at))) != NULL;) {
        Line line = { *at, end, true };
        *at = end + 1;
        if (!line_read(line, reading) && reading->kind == 'a') return true;
    }
    return false;
}

// The greatest common divisor of the differences between the stream's identities; 0 if there are
// fewer than three identities, since the difference between two may be chance. Also whether all
// differences are the same.
static uint64_t step_of(const Stream *stream, bool *is_even) {
    uint64_t step = 0, last = 0, count = 0;
    Reading reading;
    *is_even = true;
    for (unsigned char *at = stream->start; next_addition(stream, &at, &reading);
         last = reading.identity, count++) {
        uint64_t rest = reading.identity > last ? reading.identity - last : last - reading.identity;
        if (count > 1 && rest != step) *is_even = false;
        while (last != 0 && rest != 0) {
            uint64_t next = step % rest;
            step = rest;
            rest = next;
        }
    }
    return count < 3 ? 0 : step;
}

// Prints a line if the step between the stream's identities shows that they were numbered for
// another number of streams; then whose the cited identity, if any, would be. If identities are
// left out, the step is a multiple, so a smaller step shows it only if none is.
static bool tell_count(const Replay *replay, const Stream *stream, uint64_t cited) {
    bool is_even, is_cited = cited > replay->clauses;
    uint64_t step = step_of(stream, &is_even), owner = 0;
    if (step == 0 || step > STREAMS || step == replay->count) return false;
    if (step < replay->count && !is_even) return false;
    if (is_cited) owner = (cited - replay->clauses - 1) % step + 1;
    printf("       the identities of stream %u go up by %llu, as with %llu stream%s, but "
           "%u %s given: %s",
           stream->number, (Printed)step, (Printed)step, step == 1 ? "" : "s", replay->count,
           replay->count == 1 ? "is" : "are",
           step > replay->count ? "was one left out?" : "does its solver know of all?");
    if (owner > replay->count)
        printf(" %llu would be stream %llu's", (Printed)cited, (Printed)owner);
    printf("\n");
    return true;
}

// The stream to which all identities of this stream's additions belong; 0 if there is none, or if
// it has fewer additions than `least`.
static uint32_t owner_of_all(const Replay *replay, const Stream *stream, uint64_t least) {
    uint64_t count = 0;
    uint32_t owner = 0;
    Reading reading;
    for (unsigned char *at = stream->start; next_addition(stream, &at, &reading); count++) {
        if (reading.identity <= replay->clauses) return 0;
        if (count == 0) owner = owner_of(replay, reading.identity)->number;
        if (owner_of(replay, reading.identity)->number != owner) return 0;
    }
    return count < least ? 0 : owner;
}

// Whether the stream's identities, from the first possible one on, would be right if the formula
// had this many clauses.
static bool are_right_with(const Replay *replay, const Stream *stream, uint64_t clauses) {
    uint64_t next = clauses + stream->number, count = 0;
    Reading reading;
    for (unsigned char *at = stream->start; next_addition(stream, &at, &reading); count++) {
        uint64_t gap = reading.identity - next;
        if (reading.identity < next || gap % replay->count != 0 || (count == 0 && gap > 0))
            return false;
        next = reading.identity + replay->count;
    }
    return count > 0;
}

// Prints a line if the stream has two or more identities that all belong to one other stream.
static void tell_order(const Replay *replay, const Stream *stream) {
    uint32_t owner = owner_of_all(replay, stream, 2);
    if (owner != 0 && owner != stream->number)
        printf("       all its identities belong to stream %u: are the streams in the solvers' "
               "order?\n",
               owner);
}

// Prints a line if the solver seems to have counted one clause more or less. Of two streams each of
// which has the other's identities, no solver has miscounted: they were swapped.
static void tell_miscounted(const Replay *replay, const Stream *stream) {
    uint32_t owner = owner_of_all(replay, stream, 1);
    if (owner != 0 && owner_of_all(replay, &replay->streams[owner - 1], 1) == stream->number)
        return;
    for (uint64_t clauses = replay->clauses - (replay->clauses > 0); clauses <= replay->clauses + 1;
         clauses++)
        if (are_right_with(replay, stream, clauses))
            printf("       all its identities would be right if the formula had %llu clause%s; it "
                   "has %llu\n",
                   (Printed)clauses, clauses == 1 ? "" : "s", (Printed)replay->clauses);
}

static void tell_right_identity(const Replay *replay, const Stream *stream) {
    uint64_t next = next_identity(replay, stream);
    if (next > replay->last) {
        printf("       stream %u has no identity left: its next one would be %llu\n",
               stream->number, (Printed)next);
        tell_lines_for(replay, next);
    } else {
        printf("       valid here: %llu, or after a gap %llu, %llu and so on\n", (Printed)next,
               (Printed)(next + replay->count), (Printed)(next + 2 * replay->count));
    }
}

// Prints which number after --lines is enough for the line's identity, and which is enough for all
// of the stream's own identities.
static void tell_lines_of(const Replay *replay, const Stream *stream, uint64_t identity) {
    uint64_t greatest = identity;
    Reading reading;
    for (unsigned char *at = stream->start; next_addition(stream, &at, &reading);)
        if (owner_of(replay, reading.identity)->number == stream->number &&
            reading.identity > greatest)
            greatest = reading.identity;
    if (greatest == identity) return tell_lines_for(replay, identity);
    printf("       --lines %llu is enough for this line, and %llu for all lines of the stream\n",
           (Printed)lines_for(replay, identity), (Printed)lines_for(replay, greatest));
}

static void why_identity(const Replay *replay, const Stream *stream) {
    uint64_t identity = replay->line.identity;
    if (replay->line.kind == 'i') {
        if (identity > replay->last) return tell_beyond(replay, identity);
        printf("  why: %llu is this stream's own: an import names a clause of another stream, or "
               "of the formula\n",
               (Printed)identity);
        tell_count(replay, stream, identity);
        return;
    }
    if (identity <= replay->clauses) {
        printf("  why: %llu belongs to the formula, whose clauses are 1 to %llu\n",
               (Printed)identity, (Printed)replay->clauses);
        tell_miscounted(replay, stream);
    } else if (owner_of(replay, identity)->number != stream->number) {
        printf("  why: %llu belongs to stream %u: %u streams take turns above %llu\n",
               (Printed)identity, owner_of(replay, identity)->number, replay->count,
               (Printed)replay->clauses);
        if (!tell_count(replay, stream, 0)) {
            tell_order(replay, stream);
            tell_miscounted(replay, stream);
        }
    } else if (identity > replay->last) {
        printf("  why: %llu is above %llu, the last identity with --lines %llu\n",
               (Printed)identity, (Printed)replay->last, (Printed)replay->row.lines);
        tell_lines_of(replay, stream, identity);
        return;
    } else {
        uint64_t line = known_of(replay, stream->last)->line;
        printf("  why: %llu isn't above %llu, the identity of line %llu\n", (Printed)identity,
               (Printed)stream->last, (Printed)line);
    }
    tell_right_identity(replay, stream);
}

static void why_literal(const Replay *replay) {
    const Reading *line = &replay->line;
    size_t count = 0, first = line->length;
    for (size_t k = 0; k < line->length; k++) {
        if (llabs(line->literals[k]) <= replay->variables) continue;
        if (count++ == 0) first = k;
    }
    printf("  why: ");
    if (count == 1)
        printf("%lld is", (long long)line->literals[first]);
    else
        printf("%zu literals are", count);
    printf(" above %d, the number of variables in the formula's header", replay->variables);
    if (count > 1) printf(": the first is %lld", (long long)line->literals[first]);
    printf("\n");
}

static void why_tautology(const Replay *replay) {
    const Reading *line = &replay->line;
    for (size_t k = 0; k < line->length; k++) {
        if (replay->values[literal_of(line->literals[k])] <= 0) continue;
        printf("  why: the clause has %lld and %lld, so it is always true: leave the line out\n",
               -(long long)line->literals[k], (long long)line->literals[k]);
        return;
    }
}

// How many literals, as written, the clauses of the stream's well-formed additions have in all.
static uint64_t literals_of_stream(const Stream *stream) {
    uint64_t literals = 0;
    Reading reading;
    for (unsigned char *at = stream->start; next_addition(stream, &at, &reading);)
        literals += reading.length;
    return literals;
}

static void why_no_room(const Replay *replay, const Stream *stream) {
    uint64_t wanted = replay->trail.length, literals = literals_of_stream(stream);
    printf("  why: the clause has %llu different literals, and %llu of --room %llu %s "
           "left: %llu too few\n",
           (Printed)wanted, (Printed)stream->room, (Printed)replay->row.room,
           stream->room == 1 ? "is" : "are", (Printed)(wanted - stream->room));
    printf("       --room %llu is enough for this line, and %llu for all lines of the stream\n",
           (Printed)(replay->row.room + wanted - stream->room), (Printed)literals);
}

// Hints.

static void tell_clause_and_place(const Replay *replay, uint64_t identity) {
    printf("%llu (", (Printed)identity);
    tell_place(replay, identity);
    printf(")");
}

static void why_missing(const Replay *replay, const Stream *stream, uint64_t hint) {
    uint64_t later = hint <= replay->last ? line_deriving(owner_of(replay, hint), hint) : 0;
    if (hint > replay->last) {
        printf("  why: %llu is above %llu, the last identity with --lines %llu\n", (Printed)hint,
               (Printed)replay->last, (Printed)replay->row.lines);
        tell_lines_for(replay, hint);
        return;
    }
    const Stream *owner = owner_of(replay, hint);
    if (hint == replay->line.identity && replay->line.kind == 'a') {
        printf("  why: %llu is what this line derives: no line cites itself\n", (Printed)hint);
        return;
    }
    printf("  why: %llu belongs to stream %u", (Printed)hint, owner->number);
    if (owner == stream && later)
        printf(", this one, which derives it later, in its line %llu\n", (Printed)later);
    else if (owner == stream)
        printf(", this one, and none of its lines derives it\n");
    else if (is_cut_off(owner, hint))
        printf(", which stopped at its bad line %llu (%s)\n", (Printed)owner->lines + 1,
               fault_words(&owner->fault));
    else if (!later)
        printf(", and none of its lines derives it\n");
    else if (replay->is_stuck)
        printf(", whose line %llu waits for %llu, in a cycle that leads back to this line\n",
               (Printed)owner->lines + 1, (Printed)owner->awaited);
    else
        printf(", which derives it in its line %llu, but with --serial only later: threads "
               "wait for it\n",
               (Printed)later);
    if (later || is_cut_off(owner, hint)) return;
    if (owner->start == owner->end)
        printf("       stream %u has no lines: was it left out?\n", owner->number);
    else if (!tell_count(replay, owner, hint) && owner != stream)
        tell_count(replay, stream, hint);
}

static void why_deleted(const Replay *replay, const Stream *stream, uint64_t hint) {
    if (stream->fault.kind == FAULT_DROPPED) {
        printf("  why: this stream deleted %llu in its line %llu, for this stream only\n",
               (Printed)hint, (Printed)line_deleting(stream, hint));
        return;
    }
    const Stream *owner = owner_of(replay, hint);
    printf("  why: its owner deleted %llu in stream %u, line %llu, for all streams\n",
           (Printed)hint, owner->number, (Printed)line_deleting(owner, hint));
    if (owner != stream)
        printf("       threads may reach that line earlier or later: don't delete a clause "
               "that others cite\n");
}

// The first clause that is now unit with this literal, or, for CONFLICT, the first that is a
// conflict; 0 if there is none.
static uint64_t clause_with_unit(const Replay *replay, const Stream *stream, Literal literal) {
    uint64_t last = last_derived(replay);
    for (uint64_t identity = 1; identity <= last; identity++)
        if (is_usable(replay, stream, identity) &&
            unit_of(replay, clause_of(replay, identity)) == literal)
            return identity;
    return 0;
}

// The index of the first later hint that is unit with this literal; the number of hints if none is.
static size_t later_with_unit(const Replay *replay, const Stream *stream, Literal literal) {
    const Reading *line = &replay->line;
    size_t place = stream->fault.place + 1;
    for (; place < line->count; place++) {
        uint64_t hint = (uint64_t)line->cited[place];
        if (hint <= replay->last && is_usable(replay, stream, hint) &&
            unit_of(replay, clause_of(replay, hint)) == literal)
            break;
    }
    return place;
}

static void tell_follows(const Replay *replay, const Stream *stream, Literal literal) {
    size_t later = later_with_unit(replay, stream, complement_of(literal));
    bool is_hint = later < replay->line.count;
    uint64_t unit = is_hint ? (uint64_t)replay->line.cited[later]
                            : clause_with_unit(replay, stream, complement_of(literal));
    if (unit == 0) return;
    printf("       %d would follow here from ", as_written(complement_of(literal)));
    tell_clause_and_place(replay, unit);
    if (is_hint)
        printf(", hint %zu of the line, which comes too late\n", later + 1);
    else
        printf(", which isn't a hint of the line\n");
}

static void tell_true(const Replay *replay, Literal literal, uint64_t hint) {
    uint32_t reason = replay->reasons[variable_of(literal)];
    printf("  why: %d is true already, ", as_written(literal));
    if (reason == 0)
        printf("since the new clause has %d\n", as_written(complement_of(literal)));
    else if ((uint64_t)replay->line.cited[reason - 1] == hint)
        printf("by hint %u, the same clause: once is enough\n", reason);
    else
        printf("by hint %u, %lld\n", reason, (long long)replay->line.cited[reason - 1]);
}

static void why_not_unit(const Replay *replay, const Stream *stream, uint64_t hint) {
    const Clause *clause = clause_at(&replay->store, clause_of(replay, hint));
    Literals open = { 0 };
    for (unsigned k = 0; k < clause->length; k++) {
        if (replay->values[clause->literals[k]] == 0) PUSH(&open, clause->literals[k]);
        if (replay->values[clause->literals[k]] <= 0) continue;
        tell_true(replay, clause->literals[k], hint);
        open.items = grow(open.items, 0);
        return;
    }
    printf("  why: %zu literals are neither true nor false: ", open.length);
    tell_literals(open.items, open.length, " ");
    printf("\n");
    for (size_t k = 0; k < open.length && k < MOST_LITERALS; k++)
        tell_follows(replay, stream, open.items[k]);
    open.items = grow(open.items, 0);
}

static void why_excess(const Replay *replay, const Stream *stream) {
    size_t place = stream->fault.place;
    printf("  why: hint %zu, %lld, is the conflict, and none may follow: %zu too many\n", place,
           (long long)replay->line.cited[place - 1], replay->line.count - place);
}

static void why_no_conflict(const Replay *replay, const Stream *stream) {
    uint64_t conflict = clause_with_unit(replay, stream, CONFLICT);
    if (replay->line.count == 0)
        printf("  why: the line has no hints\n");
    else
        printf("  why: each hint is unit, and none has all its literals false: the conflict "
               "is missing\n");
    if (conflict == 0) return;
    printf("       all literals are false in ");
    tell_clause_and_place(replay, conflict);
    printf(", which isn't a hint of the line\n");
}

static void tell_reversed(const Replay *replay, const Stream *stream) {
    if (is_right_reversed(replay, stream))
        printf("       these hints are right in the reverse order\n");
}

static void tell_chain(const Replay *replay, const Stream *stream) {
    bool is_deleted = stream->fault.kind == FAULT_DROPPED || stream->fault.kind == FAULT_RETIRED;
    uint64_t also = is_deleted ? stream->fault.object : 0;
    Chain chain = chain_find(replay, stream, also);
    if (!chain.is_found) {
        printf("  no chain: unit propagation over all clauses that the line may cite ends "
               "without a conflict: %zu literals are true\n"
               "       then, and %zu clauses have none of these. The clause is wrong, or "
               "another one is missing\n",
               chain.true_literals, chain.open_clauses);
        return;
    }
    bool cites_it = false;
    printf("  a right chain:");
    for (size_t k = 0; k < chain.hints.length; k++) {
        printf(" %llu", (Printed)chain.hints.items[k]);
        cites_it |= is_deleted && chain.hints.items[k] == also;
    }
    printf(cites_it ? "    (if %llu isn't deleted)\n" : "\n", (Printed)also);
    if (chain.hints.length > IDENTITIES_OF_A_LINE)
        printf("       it is longer than a line may be: derive a part of it first\n");
}

// Deletions and imports.

static void why_not_live(const Replay *replay, const Stream *stream, uint64_t identity) {
    uint64_t line = line_deleting(stream, identity),
             later = identity <= replay->last ? line_deriving(stream, identity) : 0;
    if (identity > replay->last) {
        tell_beyond(replay, identity);
    } else if (is_own(replay, stream, identity) && clause_of(replay, identity) == 0) {
        printf("  why: no line of this stream has derived %llu", (Printed)identity);
        printf(later ? "; line %llu does, which comes later\n" : "\n", (Printed)later);
    } else if (line <= stream->lines) {
        printf("  why: this stream already deleted %llu, in its line %llu\n", (Printed)identity,
               (Printed)line);
    } else {
        printf("  why: %llu is in this line twice\n", (Printed)identity);
    }
}

static bool has(const Reading *line, Literal literal) {
    for (size_t k = 0; k < line->length; k++)
        if (literal_of(line->literals[k]) == literal) return true;
    return false;
}

static void tell_difference(const char *words, const Literals *literals) {
    if (literals->length == 0) return;
    printf("       %s ", words);
    tell_literals(literals->items, literals->length, " ");
    printf("\n");
}

static void why_differs(const Replay *replay, uint64_t identity) {
    const Clause *clause = clause_at(&replay->store, clause_of(replay, identity));
    Literals left_out = { 0 }, more = { 0 };
    printf("  why: %llu is ", (Printed)identity);
    if (clause->length == 0) printf("the empty clause");
    tell_literals(clause->literals, clause->length, " ");
    printf(" (");
    tell_place(replay, identity);
    printf(")\n");
    for (unsigned k = 0; k < clause->length; k++)
        if (!has(&replay->line, clause->literals[k])) PUSH(&left_out, clause->literals[k]);
    for (size_t k = 0; k < replay->line.length; k++) {
        Literal literal = literal_of(replay->line.literals[k]);
        unsigned at = 0;
        while (at < clause->length && clause->literals[at] != literal) at++;
        if (at == clause->length) PUSH(&more, literal);
    }
    tell_difference("the import leaves out", &left_out);
    tell_difference("only the import has", &more);
    left_out.items = grow(left_out.items, 0);
    more.items = grow(more.items, 0);
}

void tell_why(const Replay *replay, const Stream *stream) {
    uint64_t object = stream->fault.object;
    Kind kind = stream->fault.kind;
    switch (kind) {
    case FAULT_SPELLING:
    case FAULT_TOO_LONG:
    case FAULT_TRUNCATED:
    case FAULT_RAT_HINT: why_form(stream); break;
    case FAULT_IDENTITY: why_identity(replay, stream); break;
    case FAULT_LITERAL: why_literal(replay); break;
    case FAULT_TAUTOLOGY: why_tautology(replay); break;
    case FAULT_NO_ROOM: why_no_room(replay, stream); break;
    case FAULT_EXCESS: why_excess(replay, stream); break;
    case FAULT_MISSING: why_missing(replay, stream, object); break;
    case FAULT_DROPPED:
    case FAULT_RETIRED: why_deleted(replay, stream, object); break;
    case FAULT_NOT_UNIT: why_not_unit(replay, stream, object); break;
    case FAULT_NO_CONFLICT: why_no_conflict(replay, stream); break;
    case FAULT_NOT_LIVE: why_not_live(replay, stream, object); break;
    case FAULT_DIFFERS: why_differs(replay, object); break;
    case NO_FAULT:
    case FAULT_WAITING: break;
    }
    if (replay->line.kind != 'a' || kind < FAULT_EXCESS) return;
    tell_reversed(replay, stream);
    tell_chain(replay, stream);
}
