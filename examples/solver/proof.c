// Unverified, like the whole solver; lrupd checks each line. Writes the stream of one solver.
#include <errno.h>
#include <fcntl.h>
#include <string.h>
#include <unistd.h>

#include "errors.h"
#include "solver.h"
#include "line_limits.h"

// With m clauses in the formula and n streams, line k of stream s has the identity m + s + k n; the
// first line is line 0. So each solver counts on its own, and an identity shows its owner.
void proof_open(Proof *proof, const char *path, uint64_t clauses, int stream, int streams) {
    proof->path = path;
    proof->file = open(path, O_WRONLY | O_CREAT | O_TRUNC, 0666);  // waits for the reader of a FIFO
    if (proof->file < 0) fail_file(path, strerror(errno));
    proof->next = clauses + (uint64_t)stream;
    proof->step = (uint64_t)streams;
    proof->last = 1;
}

void proof_flush(Proof *proof) {
    size_t written = 0;
    while (written < proof->used) {
        ssize_t count = write(proof->file, proof->buffer + written, proof->used - written);
        if (count < 0 && errno != EINTR) fail_file(proof->path, strerror(errno));
        if (count > 0) written += (size_t)count;
    }
    proof->bytes += written;
    proof->used = 0;
}

static void put_byte(Proof *proof, char byte) {
    if (proof->used == sizeof proof->buffer) proof_flush(proof);
    proof->buffer[proof->used++] = byte;
}

static void put_number(Proof *proof, uint64_t number) {
    char digits[20];
    size_t count = 0;
    do digits[count++] = (char)('0' + number % 10);
    while ((number /= 10) > 0);
    while (count > 0) put_byte(proof, digits[--count]);
}

static void put_literals(Proof *proof, const Literal *literals, size_t length) {
    if (length > LITERALS_OF_A_LINE) fail("more literals than a line may have:", proof->path);
    for (size_t k = 0; k < length; k++) {
        int number = as_written(literals[k]);
        if (number < 0) put_byte(proof, '-');
        put_number(proof, (uint64_t)(number < 0 ? -number : number));
        put_byte(proof, ' ');
    }
    put_byte(proof, '0');
}

static void put_identities(Proof *proof, const uint64_t *identities, size_t length) {
    for (size_t k = 0; k < length; k++) {
        put_number(proof, identities[k]);
        put_byte(proof, ' ');
    }
    put_byte(proof, '0');
    put_byte(proof, '\n');
}

// "id literals 0 hints 0"
uint64_t proof_add(Proof *proof, const Literal *literals, size_t length, const Identities *hints) {
    if (hints->length > IDENTITIES_OF_A_LINE) fail("more hints than a line may have:", proof->path);
    proof->last = proof->next;
    proof->next += proof->step;
    put_number(proof, proof->last);
    put_byte(proof, ' ');
    put_literals(proof, literals, length);
    put_byte(proof, ' ');
    put_identities(proof, hints->items, hints->length);
    proof->added++;
    return proof->last;
}

// "lead d ids 0": the lead is any number.
void proof_delete(Proof *proof, const Identities *identities) {
    for (size_t start = 0; start < identities->length; start += IDENTITIES_OF_A_LINE) {
        size_t left = identities->length - start;
        put_number(proof, proof->last);
        put_byte(proof, ' ');
        put_byte(proof, 'd');
        put_byte(proof, ' ');
        put_identities(proof, identities->items + start,
                       left < IDENTITIES_OF_A_LINE ? left : IDENTITIES_OF_A_LINE);
    }
    proof->deleted += identities->length;
}

// "id i literals 0": this solver took over that clause, whose line another solver flushed
// before. An import uses no identity of its own.
void proof_import(Proof *proof, uint64_t identity, const Literal *literals, size_t length) {
    put_number(proof, identity);
    put_byte(proof, ' ');
    put_byte(proof, 'i');
    put_byte(proof, ' ');
    put_literals(proof, literals, length);
    put_byte(proof, '\n');
    proof->imported++;
}

void proof_close(Proof *proof) {
    proof_flush(proof);
    if (close(proof->file) != 0) fail_file(proof->path, strerror(errno));
}
