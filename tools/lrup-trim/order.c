// Unverified, like the whole tool. The order of the lines, and what each round passes on.
#include <stdio.h>
#include <stdlib.h>
#include <string.h>

#include "checks.h"
#include "errors.h"
#include "row.h"
#include "trim.h"

typedef enum { TAKEN, STOPPED, WAITS } Outcome;

static Outcome stopped(Stream *stream, const char *fault, uint64_t object) {
    stream->stopped = true;
    fprintf(stderr, "lrup-trim: %s, line %llu: %s", stream->path,
            (unsigned long long)stream->line + 1, fault);
    if (object) fprintf(stderr, " %llu", (unsigned long long)object);
    fputc('\n', stderr);
    return STOPPED;
}

static bool is_over(Stream *stream) {
    if (stream->at == stream->end && stream->cut && !stream->stopped)
        stopped(stream, "truncated", 0);
    return stream->stopped || stream->at == stream->end;
}

// Lines.

static void take(Proof *proof, Stream *stream, const Reading *reading, uint64_t slot) {
    Number number = stream->first + (Number)slot;
    Run *last = proof->runs.length > 0 ? &proof->runs.items[proof->runs.length - 1] : NULL;
    assert(slot >= stream->seen && slot < stream->slots);
    stream->seen = slot + 1;
    hints_keep(stream, slot, stream->at + (reading->hints - reading->text));
    if (last && last->from >= stream->first && last->to <= number)
        last->to = number + 1;
    else
        PUSH(&proof->runs, ((Run){ number, number + 1 }));
    for (size_t k = 0; k < reading->length; k++) {
        int64_t literal = reading->literals[k];
        if (!proof->assumed || llabs(literal) > proof->formula.variables) return;
        if (!proof->assumed[complement_of(literal_of(literal))]) return;
    }
    proof->target = number;
}

static Outcome add(Proof *proof, const Round *round, Stream *stream, const Reading *reading,
                   uint64_t *awaited) {
    Stream *streams = &proof->streams.items[round->first];
    if (reading->identity <= round->formula ||
        &streams[owner_of(round, reading->identity)] != stream)
        return stopped(stream, "identity", 0);
    uint64_t slot = slot_of(round, reading->identity);
    if (slot < stream->seen || slot >= MOST_WORDS) return stopped(stream, "identity", 0);
    if (slot >= stream->slots)
        return stopped(stream, "an identity above that of the last addition", 0);
    for (size_t k = 0; k < reading->count; k++) {
        uint64_t hint = (uint64_t)reading->cited[k];
        if (hint <= round->formula) continue;
        Stream *owner = &streams[owner_of(round, hint)];
        uint64_t cited = slot_of(round, hint);
        if (cited < owner->seen && owner->hints[cited]) continue;
        if (cited < owner->seen || owner == stream || is_over(owner))
            return stopped(stream, "missing", hint);
        *awaited = hint;
        return WAITS;
    }
    take(proof, stream, reading, slot);
    return TAKEN;
}

// Deletions don't matter for the order, only for what the next round begins with.
static void delete (const Proof *proof, const Round *round, const Stream *stream,
                    const Reading *reading, unsigned char *dropped) {
    const Stream *streams = &proof->streams.items[round->first];
    for (size_t k = 0; k < reading->count; k++) {
        uint64_t identity = (uint64_t)reading->cited[k];
        if (identity <= round->formula)
            dropped[identity - 1] =
                (unsigned char)(dropped[identity - 1] + (dropped[identity - 1] < STREAMS));
        else if (&streams[owner_of(round, identity)] == stream &&
                 slot_of(round, identity) < stream->seen)
            stream->deleted[slot_of(round, identity)] = 1;
    }
}

static Outcome step(Proof *proof, const Round *round, Stream *stream, unsigned char *dropped,
                    uint64_t *awaited) {
    Reading reading;
    Line line = line_at(stream, stream->at);
    const char *fault = line_read(line, &reading);
    if (fault) return stopped(stream, fault, 0);
    if (reading.kind == 'a') {
        Outcome outcome = add(proof, round, stream, &reading, awaited);
        if (outcome != TAKEN) return outcome;
    }
    if (reading.kind == 'd' && dropped) delete (proof, round, stream, &reading, dropped);
    stream->at = line.end + 1;
    stream->line++;
    proof->lines++;
    return TAKEN;
}

// Reads a stream until it cites a line of another stream that hasn't been read; then reads the
// other stream up to the cited line. If this leads back to a waiting stream, no order is right.
static void merge(Proof *proof, const Round *round, unsigned char *dropped) {
    struct {
        uint32_t stream;
        uint64_t slots;
    } stack[STREAMS];
    bool waits[STREAMS] = { false };
    Stream *streams = &proof->streams.items[round->first];
    for (uint32_t first = 0; first < round->count; first++) {
        size_t depth = 1;
        stack[0].stream = first, stack[0].slots = UINT64_MAX;
        while (depth > 0) {
            uint32_t number = stack[depth - 1].stream;
            Stream *stream = &streams[number];
            uint64_t awaited = 0;
            waits[number] = stream->seen < stack[depth - 1].slots && !is_over(stream);
            if (!waits[number])
                depth--;
            else if (step(proof, round, stream, dropped, &awaited) == WAITS) {
                uint32_t owner = (uint32_t)owner_of(round, awaited);
                if (waits[owner])
                    stopped(stream, "a cycle of lines that cite each other:", awaited);
                else
                    stack[depth].stream = owner, stack[depth++].slots = slot_of(round, awaited) + 1;
            }
            if (proof->target) return;
        }
    }
}

// Rounds.

void round_add(Proof *proof, const char *const *paths, uint32_t count) {
    Round round = { .first = (uint32_t)proof->streams.length, .count = count };
    for (uint32_t k = 0; k < count; k++) {
        const char *path =
            paths ? paths[k]
                  : record_file(proof->folder, proof->rounds.length + 1, "stream-", k + 1);
        Stream stream = { .path = zeroed(strlen(path) + 1, 1),
                          .round = (uint32_t)proof->rounds.length };
        strcpy(stream.path, path);
        PUSH(&proof->streams, stream);
    }
    PUSH(&proof->rounds, round);
}

// Makes the formula of the next round, as lrupd does: the round's formula without the clauses that
// all streams deleted, and the derived clauses that their owners didn't delete, in order.
static void carry(const Proof *proof, const Round *round, const unsigned char *dropped,
                  Round *next) {
    const Stream *streams = &proof->streams.items[round->first];
    uint64_t slots = 0, most = round->formula;
    for (uint32_t k = 0; k < round->count; k++) {
        slots = streams[k].seen > slots ? streams[k].seen : slots;
        most += streams[k].seen;
    }
    next->carried = grow(NULL, (most + 1) * sizeof *next->carried);
    for (uint64_t k = 1; k <= round->formula; k++)
        if (dropped[k - 1] < round->count)
            next->carried[next->formula++] = number_of(proof, round, k);
    for (uint64_t slot = 0; slot < slots; slot++)
        for (uint32_t k = 0; k < round->count; k++)
            if (slot < streams[k].seen && streams[k].hints[slot] && !streams[k].deleted[slot])
                next->carried[next->formula++] = streams[k].first + (Number)slot;
    next->carried = grow(next->carried, (next->formula + 1) * sizeof *next->carried);
}

// The streams' deletions aren't needed any more.
static void round_end(Proof *proof, const Round *round) {
    for (uint32_t k = 0; k < round->count; k++) {
        Stream *stream = &proof->streams.items[round->first + k];
        stream->deleted = stream->deleted ? grow(stream->deleted, 0) : NULL;
    }
}

// Adds the next round, if there is one; otherwise returns false.
static bool goes_on(Proof *proof, const unsigned char *dropped) {
    uint32_t index = (uint32_t)proof->rounds.length - 1, before = proof->rounds.items[index].count;
    uint32_t count = proof->target || !proof->folder
                         ? 0
                         : record_streams(proof->folder, index + 2, before, NULL);
    if (count == 0) return false;
    for (uint32_t k = 0; k < proof->rounds.items[index].count; k++)
        if (proof->streams.items[proof->rounds.items[index].first + k].stopped)
            stop("the run ends in round %u, at that line", index + 1);
    round_add(proof, NULL, count);
    carry(proof, &proof->rounds.items[index], dropped, &proof->rounds.items[index + 1]);
    return true;
}

void order(Proof *proof) {
    if (proof->folder) round_add(proof, NULL, record_streams(proof->folder, 1, 0, NULL));
    proof->rounds.items[0].formula = proof->formula.clauses;
    proof->numbers = proof->formula.clauses + 1;
    for (bool more = true; more;) {
        size_t index = proof->rounds.length - 1;
        const Round *round = &proof->rounds.items[index];
        unsigned char *dropped = proof->folder ? zeroed(round->formula, 1) : NULL;
        for (uint32_t k = 0; k < round->count; k++)
            stream_open(proof, &proof->streams.items[round->first + k], round, k);
        merge(proof, round, dropped);
        more = goes_on(proof, dropped);
        round_end(proof, &proof->rounds.items[index]);
        if (dropped) grow(dropped, 0);
    }
    lines_free();
    if (!proof->target)
        stop("no line derives %s",
             proof->assumed ? "a clause that contradicts the assumptions" : "the empty clause");
}
