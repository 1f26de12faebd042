// Unverified, like the whole tool. Marks what is needed, from the last line backwards: so the first
// line visited that cites a clause is the last line that cites it.
#include "trim.h"

// The numbers of clauses follow the order of streams.
const Stream *stream_with(const Proof *proof, Number number) {
    size_t low = 0, high = proof->streams.length;
    while (high - low > 1) {
        size_t middle = low + (high - low) / 2;
        if (proof->streams.items[middle].first <= number)
            low = middle;
        else
            high = middle;
    }
    return &proof->streams.items[low];
}

static void mark_line(Proof *proof, const Stream *stream, Number number) {
    const Round *round = &proof->rounds.items[stream->round];
    size_t count;
    const int64_t *hints = hints_again(stream, number, &count);
    proof->kept++;
    for (size_t k = 0; k < count; k++) {
        Number cited = number_of(proof, round, (uint64_t)hints[k]);
        if (cited == 0) stream_changed(stream);
        if (proof->last_use[cited] == 0) proof->last_use[cited] = number;
    }
}

void mark(Proof *proof) {
    proof->last_use = zeroed(proof->numbers, sizeof *proof->last_use);
    proof->last_use[proof->target] = proof->target;
    for (size_t k = proof->runs.length; k-- > 0;) {
        Run run = proof->runs.items[k];
        const Stream *stream = stream_with(proof, run.from);
        for (Number number = run.to; number-- > run.from;)
            if (proof->last_use[number] != 0) mark_line(proof, stream, number);
    }
    for (size_t k = 1; k <= proof->formula.clauses; k++) proof->core += proof->last_use[k] != 0;
}
