// Unverified, like the whole tool. Where the lines of a stream are.
#define _GNU_SOURCE
#include <string.h>

#include "errors.h"
#include "row.h"
#include "line_limits.h"
#include "words.h"
#include "trim.h"

enum { SLOTS = 256 };  // slots that share one entry of `places`

void stream_changed(const Stream *stream) { stop("%s: changed while it was read", stream->path); }

// The line that begins at `start` and ends with LF.
Line line_at(const Stream *stream, unsigned char *start) {
    unsigned char *end = memchr(start, '\n', (size_t)(stream->end - start));
    if (end == NULL) stream_changed(stream);
    return (Line){ start, end, true };
}

// The place where a line's hints begin is kept in 4 bytes.

void hints_keep(Stream *stream, uint64_t slot, unsigned char *place) {
    unsigned char **first = &stream->places[slot / SLOTS];
    if (*first == NULL) *first = place;
    if (place - *first >= UINT32_MAX)
        stop("%s, line %llu: too far from other lines of the stream", stream->path,
             (unsigned long long)stream->line + 1);
    stream->hints[slot] = (uint32_t)(place - *first) + 1;
}

static unsigned char *hints_of(const Stream *stream, Number number) {
    uint64_t slot = number - stream->first;
    if (stream->hints[slot] == 0) stream_changed(stream);
    return stream->places[slot / SLOTS] + stream->hints[slot] - 1;
}

// Lines that were taken.

Reading line_again(const Stream *stream, Number number) {
    unsigned char *before =
        memrchr(stream->start, '\n', (size_t)(hints_of(stream, number) - stream->start));
    Reading reading;
    const char *fault = line_read(line_at(stream, before ? before + 1 : stream->start), &reading);
    if (fault || reading.kind != 'a') stream_changed(stream);
    return reading;
}

const int64_t *hints_again(const Stream *stream, Number number, size_t *count) {
    const int64_t *hints = line_hints(line_at(stream, hints_of(stream, number)), count);
    if (hints == NULL) stream_changed(stream);
    return hints;
}

// How many identities the stream has, judging by its last addition.
static uint64_t slots_of(const Stream *stream, const Round *round, uint64_t number) {
    Reading reading;
    for (unsigned char *end = stream->end, *start; end > stream->start; end = start) {
        start = memrchr(stream->start, '\n', (size_t)(end - 1 - stream->start));
        start = start ? start + 1 : stream->start;
        if (line_read((Line){ start, end - 1, true }, &reading) || reading.kind != 'a' ||
            reading.identity <= round->formula)
            continue;
        uint64_t slot = slot_of(round, reading.identity);
        if (slot < MOST_WORDS && owner_of(round, reading.identity) == number) return slot + 1;
    }
    return 0;
}

// Opens the stream with this number in its round; the first stream has number 0.
void stream_open(Proof *proof, Stream *stream, const Round *round, uint64_t number) {
    size_t length;
    stream->at = stream->start = file_map(stream->path, &length);
    // an empty file has zeros here
    const char *program = unpacked_by(stream->start[0], stream->start[1]);
    if (program) stop("%s: compressed: unpack it with %s", stream->path, program);
    proof->bytes += length;
    unsigned char *last = memrchr(stream->start, '\n', length);
    stream->end = last ? last + 1 : stream->start;
    stream->cut = stream->end < stream->start + length;
    stream->slots = slots_of(stream, round, number);
    if (proof->numbers + stream->slots > UINT32_MAX)
        stop("%s: more than %u clauses in all streams together", stream->path, UINT32_MAX);
    stream->first = (Number)proof->numbers;
    proof->numbers += stream->slots;
    // pages in a gap are never touched
    stream->hints = zeroed(stream->slots, sizeof *stream->hints);
    stream->places = zeroed(stream->slots / SLOTS + 1, sizeof *stream->places);
    if (proof->folder) stream->deleted = zeroed(stream->slots, 1);
}
