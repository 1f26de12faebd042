// Unverified, like the whole filter. Reads a checkpoint of lrupd. A comment before a clause gives
// the clause's previous identity, unless that equals the clause's index (the first is 1).
#include "checkpoint.h"
#include "errors.h"
#include "input.h"

static uint64_t last_number(Line line) {
    uint64_t number = 0, ten = 1;
    for (const unsigned char *at = line.end; at > line.start && at[-1] >= '0' && at[-1] <= '9';
         ten *= 10)
        number += ten * (uint64_t)(*--at - '0');
    return number;
}

static uint64_t spaces_in(Line line) {
    uint64_t count = 0;
    for (const unsigned char *at = line.start; at < line.end; at++) count += *at == ' ';
    return count;
}

void checkpoint_read(Checkpoint *checkpoint, const char *path) {
    Input input;
    Line line;
    uint64_t wanted = 0, named = 0, last = 0;
    *checkpoint = (Checkpoint){ 0 };
    input_open(&input, path);
    while (input_line(&input, &line)) {
        if (*line.start == 'p')
            wanted = last_number(line);
        else if (*line.start == 'c')
            named = last_number(line);
        else {
            uint64_t identity = named ? named : checkpoint->old.length + 1;
            if (identity <= last) fail_file(path, "not a checkpoint of lrupd");
            PUSH(&checkpoint->old, identity);
            checkpoint->literals += spaces_in(line);
            last = identity;
            named = 0;
        }
    }
    if (checkpoint->old.length != wanted) fail_file(path, "not a checkpoint of lrupd");
    input_close(&input);
}

uint64_t checkpoint_place(const Checkpoint *checkpoint, uint64_t identity) {
    const uint64_t *items = checkpoint->old.items;
    size_t low = 0, high = checkpoint->old.length;
    while (low < high) {
        size_t middle = low + (high - low) / 2;
        if (items[middle] < identity)
            low = middle + 1;
        else
            high = middle;
    }
    return low < checkpoint->old.length && items[low] == identity ? low + 1 : 0;
}

void checkpoint_free(Checkpoint *checkpoint) {
    checkpoint->old.items = grow(checkpoint->old.items, 0);
}
