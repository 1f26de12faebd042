// Unverified, like the whole filter. Reads binary DRAT and LRAT. A byte has seven bits of a number,
// the lowest first; its eighth bit says whether more follow. A literal is twice its variable, plus
// one if negative. Lists end with 0.
//
//     a literals                 an addition of DRAT          a id literals hints     of LRAT
//     d literals                 a deletion of DRAT           d ids                   of LRAT
//
// An engine writes DRAT with more kinds of steps. If its solver hands out hints, clauses have names,
// plain numbers that are the solver's own. Otherwise none has one.
//
//     o name                            a clause of the formula, in the formula's order
//     A name literals hints             an addition
//     D names                           a deletion
//     i engine position name literals   it took over the clause that ENGINE gave away at POSITION;
//                                       its name, or 0
//     r engine position                 it won't take over what ENGINE gave away before POSITION
//     x                                 the next addition may be given away; twice: it refutes a cube
#include "errors.h"
#include "hash.h"
#include "readers.h"
#include "line_limits.h"

enum { MOST_SHIFT = 56, MOST_NUMBERS = 1 << 25 };  // of a step; a longer one is refused

// Some solvers write an identity of LRAT as a literal, others as a plain number. CaDiCaL 1.7 writes an
// addition's own identity as a number, and all others as literals.
typedef enum { UNDECIDED, PLAIN, DOUBLED } Coding;
typedef struct {
    Coding own, others;
} Codings;

static uint64_t number_of_bytes(Input *input) {
    uint64_t value = 0;
    for (unsigned shift = 0; shift <= MOST_SHIFT; shift += 7) {
        int byte = input_byte(input);
        if (byte < 0) stop("the proof ends within a step");
        value |= (uint64_t)(byte & 127) << shift;
        if (byte < 128) return value;
    }
    stop("number too large");
}

// Most numbers have one or two bytes.
static inline uint64_t number(Input *input) {
    const unsigned char *bytes = input->bytes + input->at;
    size_t unread = input->length - input->at;
    if (unread >= 1 && bytes[0] < 128) {
        input->at++;
        return bytes[0];
    }
    if (unread >= 2 && bytes[1] < 128) {
        input->at += 2;
        return (bytes[0] & 127u) | (uint64_t)bytes[1] << 7;
    }
    return number_of_bytes(input);
}

static int64_t as_literal(uint64_t number) {
    if (number >> 1 == 0 || number >> 1 > LAST_IDENTITY) stop("neither a literal nor an identity");
    return number & 1 ? -(int64_t)(number >> 1) : (int64_t)(number >> 1);
}

// Reads numbers up to the next 0.
static void numbers(Input *input, Numbers *list) {
    for (uint64_t found; (found = number(input)) != 0;) {
        if (list->length == MOST_NUMBERS) stop("a step of more than %d numbers", MOST_NUMBERS);
        PUSH(list, (int64_t)found);
    }
}

static void decode(Numbers *list, size_t start, size_t end, Coding coding) {
    for (size_t k = start; k < end; k++) {
        if (coding != PLAIN)
            list->items[k] = as_literal((uint64_t)list->items[k]);
        else if (list->items[k] > (int64_t)LAST_IDENTITY)
            stop("number too large");
    }
}

// Reads literals up to the next 0, and marks them. Returns 0, or the first number that isn't a
// literal of the formula's variables. Nearly all of a proof's bytes are read here, so the loop keeps
// what it needs in variables of its own.
static uint64_t read_literals(Filter *filter, Input *input, bool *tautology) {
    const size_t most = 2 * (size_t)filter->formula.variables;
    RESERVE(&filter->literals, most);
    const unsigned char *next = input->bytes + input->at, *end = input->bytes + input->length;
    unsigned char *marks = filter->hints.marks;
    Literal *literals = filter->literals.items;
    uint64_t found, hash = 0, repeated = 0;
    *tautology = false;
    for (;;) {
        bool has_two = next + 1 < end;
        if (has_two && next[0] < 128) {
            found = *next++;
        } else if (has_two && next[1] < 128) {
            found = (next[0] & 127u) | (uint64_t)next[1] << 7;
            next += 2;
        } else {
            input->at = (size_t)(next - input->bytes);
            found = number_of_bytes(input);
            next = input->bytes + input->at;
            end = input->bytes + input->length;
        }
        size_t literal = found - 2;
        if (literal >= most) break;  // 0 and 1, too, since the difference isn't negative
        if ((marks[literal] | marks[literal ^ 1]) != OPEN) {
            if (++repeated > MOST_NUMBERS) stop("a step of more than %d numbers", MOST_NUMBERS);
            if (marks[literal] != OPEN) continue;
            *tautology = true;
        }
        marks[literal] = TOUCHED;
        hash += hash_literal(literal);
        *literals++ = (Literal)literal;
    }
    filter->literals.length = (size_t)(literals - filter->literals.items);
    filter->hash = hash;
    input->at = (size_t)(next - input->bytes);
    return found;
}

// A step with a number that isn't a literal of the formula's variables: the filter stops, or no
// clause is deleted.
static void foreign_step(Filter *filter, Input *input, int letter, Numbers *list) {
    filter_unmark(filter);
    numbers(input, list);
    decode(list, 0, list->length, DOUBLED);
    if (letter == 'd')
        filter_delete_literals(filter, list->items, list->length);
    else
        filter_add(filter, &(Addition){ .literals = list->items, .length = list->length });
}

static void drat_step(Filter *filter, Input *input, int letter, Numbers *list) {
    bool tautology;
    uint64_t last = read_literals(filter, input, &tautology);
    if (last != 0) {
        PUSH(list, (int64_t)last);
        foreign_step(filter, input, letter, list);
    } else if (letter == 'd') {
        filter_delete_marked(filter);
    } else {
        filter_add_marked(filter, tautology);
    }
}

static void take_over(Filter *filter, Input *input, Numbers *list) {
    uint64_t engine = number(input), position = number(input), name = number(input);
    numbers(input, list);
    decode(list, 0, list->length, DOUBLED);
    filter_take_over(filter, filter->hooks->identity_of_gift(engine, position), name, list->items,
                     list->length);
}

static void raise_floor(Filter *filter, Input *input) {
    uint64_t engine = number(input), position = number(input);
    filter->hooks->raise_floor(engine, position);
}

static bool has_odd(const Numbers *list, size_t start) {
    for (size_t k = start; k < list->length; k++)
        if (list->items[k] & 1) return true;
    return false;
}

// Identities that are written as literals are even numbers, since RUP steps have no negative hints.
// So an odd number shows that identities are plain. Otherwise the first addition decides: its
// identity is above the formula's.
static Coding coding_of(const Filter *filter, const Numbers *list, size_t hints, bool addition) {
    int64_t first = addition ? list->items[0] : 0, formula = (int64_t)filter->originals;
    if (first & 1 || has_odd(list, hints)) return PLAIN;
    if (!addition) return UNDECIDED;
    return first > formula && first / 2 <= formula ? PLAIN : DOUBLED;
}

// A hint that is a literal is even, and no hint is above the addition's own identity.
static Coding coding_of_others(const Numbers *list, size_t hints, bool addition, Coding own) {
    if (own == DOUBLED) return DOUBLED;
    if (has_odd(list, hints)) return PLAIN;
    for (size_t k = hints; addition && k < list->length; k++)
        if (list->items[k] >= list->items[0]) return DOUBLED;
    return UNDECIDED;
}

// Before it is known how others are written, hints are read as literals, since wrong ones only cost a
// search, and deletions are left out, which is never wrong.
static void lrat_step(Filter *filter, Input *input, bool addition, Numbers *list,
                      Codings *codings) {
    size_t hints = 0;
    if (addition) {
        PUSH(list, (int64_t)number(input));
        numbers(input, list);
        hints = list->length;
    }
    numbers(input, list);
    if (codings->own == UNDECIDED) codings->own = coding_of(filter, list, hints, addition);
    if (codings->others == UNDECIDED)
        codings->others = coding_of_others(list, hints, addition, codings->own);
    if (!addition && codings->others == UNDECIDED) return;
    decode(list, 0, addition, codings->own);
    decode(list, addition, hints, DOUBLED);
    decode(list, hints, list->length, codings->others);
    if (addition)
        filter_add(filter, &(Addition){ .named = true,
                                        .name = list->items[0],
                                        .literals = list->items + 1,
                                        .length = hints - 1,
                                        .hints = list->items + hints,
                                        .hinted = list->length - hints });
    else
        filter_delete(filter, list->items, list->length);
}

// Reads a step that only engines write; false if it is another one.
static bool engines_step(Filter *filter, Input *input, int letter, Numbers *list) {
    Codings plain = { PLAIN, PLAIN };
    switch (letter) {
    case 'x': filter->marked++; return true;
    case 'i': take_over(filter, input, list); return true;
    case 'r': raise_floor(filter, input); return true;
    case 'o': filter_name_next(filter, number(input)); return true;
    case 'A':
    case 'D': lrat_step(filter, input, letter == 'A', list, &plain); return true;
    default: return false;
    }
}

void binary_run(Filter *filter, Input *input, Form form) {
    Numbers list = { 0 };
    Codings codings = { UNDECIDED, UNDECIDED };
    for (uint64_t step = 1;; step++) {
        position_set_step(step, input_position(input) + 1);
        int letter = filter_ends(filter) ? -1 : input_byte(input);
        if (letter < 0) break;
        list.length = 0;
        if (form == ENGINE_PROOF && engines_step(filter, input, letter, &list)) continue;
        if (letter != 'a' && letter != 'd')
            stop("not a step of a binary proof, which begins with a or d");
        else if (form == BINARY_LRAT)
            lrat_step(filter, input, letter == 'a', &list, &codings);
        else
            drat_step(filter, input, letter, &list);
    }
    grow(list.items, 0);
}
