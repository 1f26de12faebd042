// Unverified. Reads a formula in DIMACS CNF with lrupd's grammar. Messages name the file and the
// line, and say what to do.
#define _POSIX_C_SOURCE 200809L
#include <errno.h>
#include <stdarg.h>
#include <stdio.h>
#include <stdlib.h>
#include <string.h>

#include "errors.h"
#include "formula.h"
#include "packed.h"

enum { MOST_LITERALS = 1048575 };  // of a clause, as written: lrupd's limit
enum { LONGEST_PATH = 4096, LONGEST_TEXT = 256, LONGEST_WORD = 21 };

typedef struct {
    FILE *file;
    Unpacking unpacking;
    const char *path;
    int byte;
    bool line_begins;
    size_t line;                  // of the byte
    char word[LONGEST_WORD + 1];  // the last word, or its beginning
} Reader;

// Refusals.

static _Noreturn void refuse_file(const Reader *reader, const char *cause) {
    fail_file(reader->path, cause);
}

static _Noreturn void refuse(const Reader *reader, const char *cause, ...) {
    char where[LONGEST_PATH + LONGEST_TEXT], text[LONGEST_TEXT];
    va_list rest;
    va_start(rest, cause);
    vsnprintf(text, sizeof text, cause, rest);
    va_end(rest);
    snprintf(where, sizeof where, "%s, line %zu:", reader->path, reader->line);
    fail(where, text);
}

const char *unpacked_by(int first, int second) {
    static const struct {
        unsigned char first, second;
        const char *program;
    } known[] = { { 0x1f, 0x8b, "zcat, or end its name with .gz" },
                  { 0xfd, '7', "xzcat, or end its name with .xz" },
                  { 'B', 'Z', "bzcat, or end its name with .bz2" },
                  { '(', 0xb5, "zstdcat, or end its name with .zst" },
                  { ']', 0, "xzcat" } };  // lzma
    for (size_t k = 0; k < sizeof known / sizeof *known; k++)
        if (first == known[k].first && second == known[k].second) return known[k].program;
    return NULL;
}

static _Noreturn void refuse_header(Reader *reader) {
    const unsigned char *first = (const unsigned char *)reader->word;
    int second = first[0] == 0 || first[1] == '?' ? 0 : first[1];
    const char *program = reader->line == 1 ? unpacked_by(first[0], second) : NULL;
    if (reader->line == 1 && strncmp(reader->word, "\xef\xbb\xbf", 3) == 0)
        refuse(reader, "a byte-order mark comes first: tail -c +4 removes it");
    if (program) {
        char cause[LONGEST_TEXT];
        snprintf(cause, sizeof cause, "compressed: unpack it with %s", program);
        refuse_file(reader, cause);
    }
    refuse(reader, "no header 'p cnf VARIABLES CLAUSES': not DIMACS CNF");
}

// Bytes, words and numbers.

static bool is_space(int byte) {
    return byte == ' ' || byte == '\t' || byte == '\n' || byte == '\r';
}

static void step(Reader *reader) {
    reader->line_begins = reader->byte == '\n';
    reader->line += reader->line_begins;
    reader->byte = getc_unlocked(reader->file);
    if (reader->byte != EOF) return;
    if (ferror(reader->file)) refuse_file(reader, strerror(errno));
    unpacking_end(&reader->unpacking, reader->path);
}

// Moves to the next word. Comments are whole lines.
static void skip_spaces(Reader *reader) {
    for (;;) {
        if (reader->byte == 'c' && reader->line_begins)
            while (reader->byte != '\n' && reader->byte != EOF) step(reader);
        if (!is_space(reader->byte)) return;
        step(reader);
    }
}

// Reads a word, or a prefix of it that is longer than any number, and moves past what it has read.
// A byte 0 becomes '?'.
static void read_word(Reader *reader) {
    size_t length = 0;
    for (; length < LONGEST_WORD && reader->byte != EOF && !is_space(reader->byte); step(reader))
        reader->word[length++] = reader->byte ? (char)reader->byte : '?';
    reader->word[length] = 0;
}

// The text that follows the word in a message: ".." if only a prefix was read.
static const char *more_of_word(const Reader *reader) {
    return reader->byte == EOF || is_space(reader->byte) ? "" : "..";
}

bool number_read(const char *word, int *value) {
    bool negative = *word == '-';
    const char *first = word + negative;
    int found = 0;
    for (word = first; *word >= '0' && *word <= '9'; word++)
        if (found <= MOST_VARIABLES) found = 10 * found + *word - '0';
    *value = negative ? -found : found;
    return word > first && *word == 0 && (*first != '0' || (word == first + 1 && !negative));
}

static const char *shown_word(Reader *reader) {
    for (char *at = reader->word; *at != 0; at++)
        if (*at < ' ' || *at > '~') *at = '?';
    return reader->word;
}

static int literal_read(Reader *reader) {
    int value;
    read_word(reader);
    if (number_read(reader->word, &value)) return value;
    bool is_of_satlib = strcmp(reader->word, "%") == 0;
    refuse(reader, "not a number: %s%s%s", shown_word(reader), more_of_word(reader),
           is_of_satlib ? ": SATLIB's files end with it, and sed '/^%/,$d' removes it" : "");
}

// Skips blanks, but not line feeds: the header is one line.
static void blank(Reader *reader) {
    while (reader->byte == ' ' || reader->byte == '\t' || reader->byte == '\r') step(reader);
}

static int count(Reader *reader, const char *of) {
    int value;
    blank(reader);
    read_word(reader);
    if (!number_read(reader->word, &value) || value < 0) refuse_header(reader);
    if (value > MOST_VARIABLES)
        refuse(reader, "%s%s %s, above lrupd's limit of %d", reader->word, more_of_word(reader), of,
               MOST_VARIABLES);
    return value;
}

// Ends the clause that began at the last start.
static void end_clause(Formula *formula) {
    formula->clauses++;
    PUSH(&formula->starts, formula->literals.length);
}

void formula_free(Formula *formula) {
    formula->starts.items = grow(formula->starts.items, 0);
    formula->literals.items = grow(formula->literals.items, 0);
}

void formula_clause(const Formula *formula, size_t clause, Literals *literals) {
    literals->length = 0;
    for (size_t k = formula->starts.items[clause]; k < formula->starts.items[clause + 1]; k++)
        PUSH(literals, formula->literals.items[k]);
    literals->length = literals_sort(literals->items, literals->length);
}

static void header(Reader *reader, Formula *formula, int *clauses) {
    static const char *const words[] = { "p", "cnf" };
    skip_spaces(reader);
    for (size_t k = 0; k < 2; k++) {
        blank(reader);
        read_word(reader);
        if (strcmp(reader->word, words[k]) == 0) continue;
        if (k == 0 || reader->word[0] == 0) refuse_header(reader);
        refuse(reader, "the header begins with 'p %s%s', not 'p cnf'", shown_word(reader),
               more_of_word(reader));
    }
    formula->variables = count(reader, "variables");
    *clauses = count(reader, "clauses");
    blank(reader);
    if (reader->byte != '\n' && reader->byte != EOF)
        refuse(reader, "unexpected words after the header 'p cnf VARIABLES CLAUSES'");
}

// Refuses a literal that the header doesn't allow. If the rest of the file has only clauses, the
// message says what the header should be.
static _Noreturn void refuse_numbers(Reader *reader, const Formula *formula, int literal,
                                     const char *fault) {
    size_t line = reader->line, clauses = formula->clauses;
    int largest = formula->variables;
    bool is_known = true, is_open = false;
    for (;;) {
        is_known &= abs(literal) <= MOST_VARIABLES && clauses <= MOST_VARIABLES;
        if (abs(literal) > largest) largest = abs(literal);
        is_open = literal != 0;
        clauses += literal == 0;
        skip_spaces(reader);
        if (!is_known || reader->byte == EOF) break;
        read_word(reader);
        is_known = number_read(reader->word, &literal);
    }
    reader->line = line;
    if (!is_known || is_open || clauses > MOST_VARIABLES) refuse(reader, "%s", fault);
    refuse(reader, "%s: the header should be 'p cnf %d %zu'", fault, largest, clauses);
}

static void take(Reader *reader, Formula *formula, int literal, int wanted) {
    char fault[LONGEST_TEXT] = "";
    if (abs(literal) > formula->variables)
        snprintf(fault, sizeof fault, "variable %s%s, above the header's %d",
                 reader->word + (literal < 0), more_of_word(reader), formula->variables);
    else if (formula->clauses == (size_t)wanted)
        snprintf(fault, sizeof fault, "more clauses than the header's %d", wanted);
    if (fault[0]) refuse_numbers(reader, formula, literal, fault);
    if (formula->literals.length - formula->starts.items[formula->clauses] == MOST_LITERALS &&
        literal != 0)
        refuse(reader, "more than %d literals in a clause, lrupd's limit", MOST_LITERALS);
    if (literal == 0)
        end_clause(formula);
    else
        PUSH(&formula->literals, literal_of(literal));
}

void formula_read(Formula *formula, const char *path) {
    Reader reader = { .path = path, .byte = '\n' };
    int wanted, file = unpacking_open(&reader.unpacking, path);
    if (file < 0 || (reader.file = fdopen(file, "r")) == NULL)
        refuse_file(&reader, strerror(errno));
    header(&reader, formula, &wanted);
    PUSH(&formula->starts, 0);
    for (skip_spaces(&reader); reader.byte != EOF; skip_spaces(&reader))
        take(&reader, formula, literal_read(&reader), wanted);
    if (formula->literals.length > formula->starts.items[formula->clauses])
        refuse(&reader, "the last clause doesn't end with 0");
    if (formula->clauses != (size_t)wanted)
        refuse(&reader,
               "file ends after %zu of %d clauses; truncated? If not, the header should be "
               "'p cnf %d %zu'",
               formula->clauses, wanted, formula->variables, formula->clauses);
    fclose(reader.file);
}
