// Unverified, like the whole tool. Reads a line byte by byte, and finds the first byte that no line
// can have there.
#include "errors.h"
#include "line_limits.h"
#include "explain.h"

typedef enum {
    NOWHERE,
    LEAD,
    LEAD_DIGITS,
    KIND_OF_LINE,
    LITERALS,
    SIGN,
    LITERAL_DIGITS,
    BETWEEN,
    HINTS,
    HINT_DIGITS,
    DELETES,
    DELETED,
    DELETED_DIGITS,
    IMPORTS,
    STATED,
    STATED_SIGN,
    STATED_DIGITS,
    END,
    WHOLE
} State;

// The next state for each byte; NOWHERE: the byte is wrong here. For a list, also what it consists
// of, and how many items it may have.
typedef struct {
    const char *wanted;
    State digit, zero, sign, space, d, i, end;
    const char *of;
    size_t most;
} Rule;

static const Rule rules[] = {
    [LEAD] = { "an identity", .digit = LEAD_DIGITS },
    [LEAD_DIGITS] = { "a digit or a space", .digit = LEAD_DIGITS, .zero = LEAD_DIGITS,
                      .space = KIND_OF_LINE },
    [KIND_OF_LINE] = { "a literal, 0, d or i", .digit = LITERAL_DIGITS, .zero = BETWEEN,
                       .sign = SIGN, .d = DELETES, .i = IMPORTS, .of = "literals",
                       .most = LITERALS_OF_A_LINE },
    [LITERALS] = { "a literal or 0", .digit = LITERAL_DIGITS, .zero = BETWEEN, .sign = SIGN,
                   .of = "literals", .most = LITERALS_OF_A_LINE },
    [SIGN] = { "a digit from 1 to 9", .digit = LITERAL_DIGITS },
    [LITERAL_DIGITS] = { "a digit or a space", .digit = LITERAL_DIGITS, .zero = LITERAL_DIGITS,
                         .space = LITERALS },
    [BETWEEN] = { "a space, and then the hints and another 0", .space = HINTS },
    [HINTS] = { "a hint or 0", .digit = HINT_DIGITS, .zero = END, .of = "hints",
                .most = IDENTITIES_OF_A_LINE },
    [HINT_DIGITS] = { "a digit or a space", .digit = HINT_DIGITS, .zero = HINT_DIGITS,
                      .space = HINTS },
    [DELETES] = { "a space", .space = DELETED },
    [DELETED] = { "an identity or 0", .digit = DELETED_DIGITS, .zero = END, .of = "identities",
                  .most = IDENTITIES_OF_A_LINE },
    [DELETED_DIGITS] = { "a digit or a space", .digit = DELETED_DIGITS, .zero = DELETED_DIGITS,
                         .space = DELETED },
    [IMPORTS] = { "a space", .space = STATED },
    [STATED] = { "a literal or 0", .digit = STATED_DIGITS, .zero = END, .sign = STATED_SIGN,
                 .of = "literals", .most = LITERALS_OF_A_LINE },
    [STATED_SIGN] = { "a digit from 1 to 9", .digit = STATED_DIGITS },
    [STATED_DIGITS] = { "a digit or a space", .digit = STATED_DIGITS, .zero = STATED_DIGITS,
                        .space = STATED },
    [END] = { "LF after the 0 that ends the list", .end = WHOLE },
    // another process wrote LF into the line before it was copied
    [WHOLE] = { .wanted = "nothing more" }
};

static State after(const Rule *rule, unsigned char byte) {
    if (byte >= '1' && byte <= '9') return rule->digit;
    switch (byte) {
    case '0': return rule->zero;
    case '-': return rule->sign;
    case ' ': return rule->space;
    case 'd': return rule->d;
    case 'i': return rule->i;
    case '\n': return rule->end;
    default: return NOWHERE;
    }
}

static bool are_digits(State state) {
    return state == LEAD_DIGITS || state == LITERAL_DIGITS || state == HINT_DIGITS ||
           state == DELETED_DIGITS || state == STATED_DIGITS;
}

// How many words come before one that begins with 0, or before the end.
static size_t count_on(const unsigned char *at, const unsigned char *end) {
    size_t count = 0;
    for (bool begins = true; at < end && !(begins && *at == '0'); at++) {
        count += begins && *at != ' ';
        begins = *at == ' ';
    }
    return count;
}

static size_t digits_on(const unsigned char *at, const unsigned char *end) {
    const unsigned char *start = at;
    while (at < end && *at >= '0' && *at <= '9') at++;
    return (size_t)(at - start);
}

static FormFault first_fault(Line line, bool is_whole) {
    State state = LEAD;
    size_t digits = 0, count = 0;
    for (const unsigned char *at = line.start; at < line.end + is_whole; at++) {
        const Rule *rule = &rules[state];
        State next = after(rule, at < line.end ? *at : '\n');
        FormFault fault = { FAULT_SPELLING, (size_t)(at - line.start),
                            rule->wanted,   rule->of,
                            rule->most,     count };
        bool begins = rule->most > 0 && (are_digits(next) || next == SIGN || next == STATED_SIGN);
        if (next == NOWHERE) {
            if (state == HINTS && at < line.end && *at == '-') fault.kind = FAULT_RAT_HINT;
            return fault;
        }
        if (begins && count == rule->most) {
            fault.kind = FAULT_TOO_LONG;
            fault.count += count_on(at, line.end);
            return fault;
        }
        if (are_digits(next) && are_digits(state) && digits == DIGITS)
            return (FormFault){ FAULT_TOO_LONG, fault.place, rule->wanted,
                                "digits",       DIGITS,      DIGITS + digits_on(at, line.end) };
        count = next == BETWEEN ? 0 : count + begins;
        digits = are_digits(next) ? (are_digits(state) ? digits + 1 : 1) : 0;
        state = next;
    }
    if (is_whole) return (FormFault){ .kind = NO_FAULT };
    return (FormFault){ .kind = FAULT_TRUNCATED,
                        .place = (size_t)(line.end - line.start),
                        .wanted = rules[state].wanted };
}

// If the copied line has no fault any more, another process has written to it.
FormFault form_fault(const Stream *stream, Line *line, bool *is_whole) {
    *line = line_copy(current_line(stream, is_whole));
    FormFault found = first_fault(*line, *is_whole);
    unsigned long long number = stream->lines + 1;
    if (found.kind == NO_FAULT)
        stop("%s, line %llu: changed while it was read", stream->path, number);
    return found;
}
