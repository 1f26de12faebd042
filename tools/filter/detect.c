// Unverified, like the whole filter. Detects the form of a proof from its first bytes, and reads no
// further than necessary.
#include "detect.h"
#include "errors.h"

enum { MANY_LISTS = 100 };

static bool is_space(int byte) { return byte == ' ' || (byte >= '\t' && byte <= '\r'); }
static bool is_blank(int byte) { return is_space(byte) && byte != '\n'; }

static size_t skip_spaces(Input *input, size_t at) {
    while (is_space(input_ahead(input, at))) at++;
    return at;
}

static size_t skip_line(Input *input, size_t at) {
    int byte;
    while ((byte = input_ahead(input, at)) != '\n' && byte != -1) at++;
    return at + (byte == '\n');
}

// Whether the rest of the line has only numbers and the letter of FRAT's hints, and ends with "0".
static bool numbers_follow(Input *input, size_t at) {
    bool ends = false;
    for (;;) {
        int byte = input_ahead(input, at);
        if (byte == '\n' || byte == -1) return ends;
        if (is_space(byte)) {
            at++;
            continue;
        }
        ends = byte == '0' &&
               (input_ahead(input, at + 1) == -1 || is_space(input_ahead(input, at + 1)));
        if (byte == '-') byte = input_ahead(input, ++at);
        if (byte == 'l' || (byte >= '0' && byte <= '9'))
            at++;
        else
            return false;
        while ((byte = input_ahead(input, at)) >= '0' && byte <= '9') at++;
        if (byte != -1 && !is_space(byte)) return false;
    }
}

static uint64_t number_ahead(Input *input, size_t *at) {
    uint64_t value = 0;
    int byte = 128;
    for (unsigned shift = 0; byte & 128; shift += 7) {
        byte = input_ahead(input, (*at)++);
        if (byte == -1 || shift > 56) return 0;
        value |= (uint64_t)(byte & 127) << shift;
    }
    return value;
}

// Where LRAT has a hint, DRAT has the letter of a step, which few hints begin with.
static Form form_by_lists(Input *input) {
    for (size_t at = 0, lists = 0; lists < MANY_LISTS; lists++) {
        int byte = input_ahead(input, at);
        if (byte == -1) return BINARY_DRAT;
        if (byte != 'a' && byte != 'd') return BINARY_LRAT;
        while ((byte = input_ahead(input, ++at)) != 0)
            if (byte == -1) return BINARY_DRAT;
        at++;
    }
    return BINARY_DRAT;
}

// DRAT's first addition begins with a literal of the formula, and LRAT's with an identity above the
// formula's, plain or doubled. Some numbers can be either; then the lists decide. If an earlier
// deletion has a number that isn't a literal, the proof is LRAT.
static Form binary_form(Input *input, const Formula *formula) {
    uint64_t last_literal = 2 * (uint64_t)formula->variables + 1, found;
    for (size_t at = 0;;) {
        int letter = input_ahead(input, at++);
        if (letter == 'a') {
            found = number_ahead(input, &at);
            if (found <= formula->clauses) return BINARY_DRAT;
            return found > last_literal ? BINARY_LRAT : form_by_lists(input);
        }
        if (letter != 'd') return UNKNOWN_FORM;
        while ((found = number_ahead(input, &at)) != 0)
            if (found > last_literal) return BINARY_LRAT;
    }
}

// No proof begins like a compressed file.
void check_plain(Input *input) {
    int first = input_ahead(input, 0);
    if (is_space(first) || (first >= '0' && first <= '9') || (first >= 'a' && first <= 'z')) return;
    const char *program = unpacked_by(first, input_ahead(input, 1));
    if (program == NULL) return;
    position_set("byte", 1);
    stop("compressed: unpack it with %s", program);
}

// Returns TEXT for LRAT, DRUP and DRAT text: its steps show later which of them it is.
Form form_of(Input *input, const Formula *formula) {
    position_set("byte", 1);
    int first = input_ahead(input, 0);
    check_plain(input);
    if ((first == 'a' || first == 'd') &&
        !(is_blank(input_ahead(input, 1)) && numbers_follow(input, 1)))
        return binary_form(input, formula);
    for (size_t at = 0;;) {
        at = skip_spaces(input, at);
        int letter = input_ahead(input, at);
        bool alone = letter != -1 && is_space(input_ahead(input, at + 1));
        if (alone && (letter == 'a' || letter == 'f' || letter == 'r')) return FRAT;
        if (alone && letter == 'o' && numbers_follow(input, at + 1)) return FRAT;
        if (!alone || (letter != 'c' && letter != 'o')) return TEXT;
        at = skip_line(input, at);
    }
}
