// An unverified checker of a formula's streams, for comparison with lrupd, not a part of it.
//
//     check [--threads] [--lines N] FORMULA STREAM...
//
// Without --threads it checks all streams on one thread, one line of each in turn. With --threads
// each stream has a thread, and a hint that names another stream's clause is tried a million times,
// a microsecond apart. All streams share one array of pointers to clauses; a pointer's lowest bit
// means that the clause was retired. Each stream has N identities, 65,536 by default; room has no
// limit. For good streams it prints the same report as lrupd; for a bad line it names a fault of
// the hints or of a deleted identity, and prints 'not taken' for any other fault.
#include <fcntl.h>
#include <stdatomic.h>
#include <stdint.h>
#include <stdio.h>
#include <stdlib.h>
#include <string.h>
#include <threads.h>
#include <time.h>
#include <unistd.h>

enum { PIECE = 65536, BLOCK = 1 << 20, MOST_STREAMS = 64, TRIES = 1000000 };

// the code of a literal is 2 v, or 2 v + 1 if negative
typedef struct {
    uint32_t len;
    uint32_t codes[];
} Clause;

typedef struct {
    int file;
    uint32_t at, len;
    unsigned char bytes[PIECE];
} Reader;

typedef struct {
    int64_t *items;
    size_t len, room;
} List;

typedef struct {
    Reader reader;
    uint64_t number, last, line, added, deleted;
    List literals, hints;
    uint32_t *trail, trail_len;  // the codes that are false
    unsigned char *is_false, *dropped;
    char *block;  // the memory for the next clauses
    size_t block_left;
    int empty, over;
    char end[64];
} Stream;

static uint64_t variables, clauses, streams, lines = 65536, last_identity;
static int threaded;
static _Atomic(uintptr_t) *clause_at;
static Stream *stream[MOST_STREAMS];

static _Noreturn void fail(const char *cause) {
    fprintf(stderr, "check: %s\n", cause);
    exit(1);
}

static void *zeroed(size_t count, size_t size) {
    void *memory = calloc(count + 1, size);
    if (memory == NULL) fail("out of memory");
    return memory;
}

static int peek(Reader *reader) {
    if (reader->at == reader->len) {
        ssize_t got = read(reader->file, reader->bytes, PIECE);
        if (got <= 0) return -1;
        reader->at = 0;
        reader->len = (uint32_t)got;
    }
    return reader->bytes[reader->at];
}

static inline int next(Reader *reader) {
    int byte = reader->at < reader->len ? reader->bytes[reader->at] : peek(reader);
    if (byte >= 0) reader->at++;
    return byte;
}

static inline void push(List *list, int64_t item) {
    if (list->len == list->room) {
        list->room = list->room * 2 + 16;
        list->items = realloc(list->items, list->room * sizeof *list->items);
        if (list->items == NULL) fail("out of memory");
    }
    list->items[list->len++] = item;
}

static inline uint32_t code(int64_t literal) {
    return literal < 0 ? (uint32_t)(-literal) * 2 + 1 : (uint32_t)literal * 2;
}

// Reads a number whose first byte has already been read. Returns the byte after the number, or -2
// if there is no number.
static inline int number(Reader *reader, int byte, int64_t *value) {
    int negative = byte == '-';
    if (negative) byte = next(reader);
    if (byte < '0' || byte > '9') return -2;
    int64_t sum = 0;
    for (int digits = 0; byte >= '0' && byte <= '9'; byte = next(reader)) {
        if (++digits > 18) return -2;
        sum = sum * 10 + (byte - '0');
    }
    *value = negative ? -sum : sum;
    return byte;
}

// Reads numbers with a space after each, up to the next 0. Returns the byte after the 0.
static inline int numbers(Reader *reader, List *list) {
    list->len = 0;
    for (;;) {
        int64_t value;
        int byte = number(reader, next(reader), &value);
        if (byte == -2 || value == 0) return byte;
        if (byte != ' ') return -2;
        push(list, value);
    }
}

// Makes a clause from the trail's literals, which are distinct.
static Clause *keep(Stream *s, uint32_t len) {
    size_t size = (sizeof(Clause) + len * sizeof(uint32_t) + 7) & ~(size_t)7;
    if (size > s->block_left) {
        s->block_left = size > BLOCK ? size : BLOCK;
        s->block = malloc(s->block_left);
        if (s->block == NULL) fail("out of memory");
    }
    Clause *clause = (Clause *)s->block;
    s->block += size;
    s->block_left -= size;
    clause->len = len;
    memcpy(clause->codes, s->trail, len * sizeof(uint32_t));
    return clause;
}

static inline void make_false(Stream *s, uint32_t literal) {
    if (s->is_false[literal]) return;
    s->is_false[literal] = 1;
    s->trail[s->trail_len++] = literal;
}

static inline void forget(Stream *s) {
    for (uint32_t k = 0; k < s->trail_len; k++) s->is_false[s->trail[k]] = 0;
    s->trail_len = 0;
}

static inline int owns(const Stream *s, uint64_t id) {
    return id > clauses && id <= last_identity && (id - clauses - 1) % streams == s->number - 1;
}

// An identity's clause; 0 if it has no clause even after all tries.
static inline uintptr_t look(const Stream *s, uint64_t id) {
    if (id == 0 || id > last_identity) return 0;
    uintptr_t found = atomic_load_explicit(&clause_at[id], memory_order_acquire);
    if (found != 0 || !threaded || id <= clauses || owns(s, id)) return found;
    const struct timespec pause = { .tv_nsec = 1000 };
    for (int tries = 0; found == 0 && tries < TRIES; tries++) {
        thrd_sleep(&pause, NULL);
        found = atomic_load_explicit(&clause_at[id], memory_order_acquire);
    }
    return found;
}

static inline int is_dropped(const Stream *s, uint64_t id) {
    return id <= last_identity && (s->dropped[id / 8] >> id % 8 & 1);
}

static void bad(Stream *s, const char *fault, int64_t id) {
    s->over = 1;
    if (id != 0)
        snprintf(s->end, sizeof s->end, "bad line %lu (%s %ld)", s->line, fault, id);
    else
        snprintf(s->end, sizeof s->end, "bad line %lu (%s)", s->line, fault);
}

// Propagates the hints. True if they lead to a conflict.
static inline int shown(Stream *s) {
    for (size_t k = 0; k < s->hints.len; k++) {
        int64_t id = s->hints.items[k];
        if (is_dropped(s, (uint64_t)id)) return bad(s, "dropped", id), 0;
        uintptr_t found = look(s, (uint64_t)id);
        if (found == 0) return bad(s, "missing", id), 0;
        if (found & 1) return bad(s, "retired", id), 0;
        const Clause *clause = (const Clause *)found;
        uint32_t left = 0;
        for (uint32_t i = 0; i < clause->len; i++) {
            uint32_t literal = clause->codes[i];
            if (s->is_false[literal]) continue;
            if (left != 0 || s->is_false[literal ^ 1]) return bad(s, "not unit", id), 0;
            left = literal;
        }
        if (left == 0) {
            if (k + 1 < s->hints.len) return bad(s, "excess", s->hints.items[k + 1]), 0;
            return 1;
        }
        make_false(s, left ^ 1);
    }
    return bad(s, "no conflict", 0), 0;
}

static inline void add(Stream *s, uint64_t id) {
    if (!owns(s, id) || id <= s->last) {
        bad(s, "not taken", 0);
        return;
    }
    for (size_t k = 0; k < s->literals.len; k++) {
        int64_t literal = s->literals.items[k];
        if ((uint64_t)llabs(literal) > variables || s->is_false[code(-literal)]) {
            bad(s, "not taken", 0);
            break;
        }
        make_false(s, code(literal));
    }
    uint32_t len = s->trail_len;
    if (!s->over && shown(s)) {
        atomic_store_explicit(&clause_at[id], (uintptr_t)keep(s, len), memory_order_release);
        s->last = id;
        s->added++;
        s->empty |= len == 0;
    }
    forget(s);
}

static inline void delete (Stream *s) {
    for (size_t k = 0; k < s->hints.len; k++) {
        uint64_t id = (uint64_t)s->hints.items[k];
        if (id == 0 || id > last_identity) {
            bad(s, "not live", (int64_t)id);
            return;
        }
        if (owns(s, id)) {
            uintptr_t found = atomic_load_explicit(&clause_at[id], memory_order_relaxed);
            if (found == 0 || found & 1) {
                bad(s, "not live", (int64_t)id);
                return;
            }
            atomic_store_explicit(&clause_at[id], found | 1, memory_order_release);
        } else {
            if (is_dropped(s, id)) {
                bad(s, "not live", (int64_t)id);
                return;
            }
            s->dropped[id / 8] |= (unsigned char)(1 << id % 8);
        }
        s->deleted++;
    }
}

static void take_line(Stream *s) {
    s->line++;
    int byte = next(&s->reader);
    if (byte < 0) {
        s->over = 1;
        strcpy(s->end, "ended");
        return;
    }
    int64_t id;
    if (number(&s->reader, byte, &id) != ' ') {
        bad(s, "not taken", 0);
        return;
    }
    if (peek(&s->reader) == 'd') {
        next(&s->reader);
        if (next(&s->reader) != ' ' || numbers(&s->reader, &s->hints) != '\n')
            bad(s, "not taken", 0);
        else
            delete (s);
    } else {
        if (numbers(&s->reader, &s->literals) != ' ' || numbers(&s->reader, &s->hints) != '\n')
            bad(s, "not taken", 0);
        else
            add(s, (uint64_t)id);
    }
}

static int work(void *given) {
    Stream *s = given;
    while (!s->over) take_line(s);
    return 0;
}

// Reads a number of the formula, after blanks and line ends.
static int64_t of_formula(Reader *reader) {
    int byte = next(reader);
    while (byte == ' ' || byte == '\n' || byte == '\t' || byte == '\r') byte = next(reader);
    int64_t value;
    if (number(reader, byte, &value) == -2) fail("the formula has a word that isn't a number");
    return value;
}

static void read_formula(const char *name, Stream *s) {
    Reader *reader = zeroed(1, sizeof *reader);
    reader->file = open(name, O_RDONLY);
    if (reader->file < 0) fail("cannot read formula");
    while (peek(reader) == 'c')
        for (int byte; (byte = next(reader)) != '\n';)
            if (byte < 0) fail("no header");
    for (const char *word = "p cnf"; *word != 0; word++)
        if (next(reader) != *word) fail("no header");
    variables = (uint64_t)of_formula(reader);
    clauses = (uint64_t)of_formula(reader);
    last_identity = clauses + streams * lines;
    clause_at = zeroed(last_identity, sizeof *clause_at);
    s->is_false = zeroed(2 * variables + 2, 1);
    s->trail = zeroed(2 * variables + 2, sizeof *s->trail);
    for (uint64_t id = 1; id <= clauses; id++) {
        for (int64_t literal; (literal = of_formula(reader)) != 0;) {
            if ((uint64_t)llabs(literal) > variables) fail("variable out of range");
            make_false(s, code(literal));
        }
        atomic_store_explicit(&clause_at[id], (uintptr_t)keep(s, s->trail_len),
                              memory_order_relaxed);
        forget(s);
    }
    close(reader->file);
    free(reader);
}

int main(int count, char **words) {
    int at = 1;
    for (; at < count && words[at][0] == '-'; at++) {
        if (strcmp(words[at], "--threads") == 0)
            threaded = 1;
        else if (strcmp(words[at], "--lines") == 0 && at + 1 < count)
            lines = strtoull(words[++at], NULL, 10);
        else
            fail("no such option");
    }
    if (count - at < 2 || count - at - 1 > MOST_STREAMS)
        fail("usage: check [--threads] [--lines N] FORMULA STREAM...");
    streams = (uint64_t)(count - at - 1);
    Stream *formula = zeroed(1, sizeof *formula);
    read_formula(words[at], formula);
    for (uint64_t k = 0; k < streams; k++) {
        Stream *s = stream[k] = zeroed(1, sizeof *s);
        s->number = k + 1;
        s->last = clauses;
        s->is_false = zeroed(2 * variables + 2, 1);
        s->trail = zeroed(2 * variables + 2, sizeof *s->trail);
        s->dropped = zeroed(last_identity / 8 + 1, 1);
        s->reader.file = open(words[at + 1 + (int)k], O_RDONLY);
        if (s->reader.file < 0) fail("cannot open stream");
    }
    if (threaded) {
        thrd_t thread[MOST_STREAMS];
        for (uint64_t k = 0; k < streams; k++)
            if (thrd_create(&thread[k], work, stream[k]) != thrd_success) fail("no thread");
        for (uint64_t k = 0; k < streams; k++) thrd_join(thread[k], NULL);
    } else {
        for (uint64_t left = streams; left > 0;) {
            left = 0;
            for (uint64_t k = 0; k < streams; k++) {
                if (!stream[k]->over) take_line(stream[k]);
                left += !stream[k]->over;
            }
        }
    }
    int empty = 0;
    for (uint64_t k = 0; k < streams; k++) {
        printf("c stream %lu: %lu added, %lu deleted, %s\n", k + 1, stream[k]->added,
               stream[k]->deleted, stream[k]->end);
        empty |= stream[k]->empty;
    }
    puts(empty ? "s UNSATISFIABLE" : "s UNKNOWN");
    return empty ? 0 : 3;
}
