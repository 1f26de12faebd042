// Unverified, like the whole solver. Puts clauses into outboxes, and renews their identities from
// round to round: in a filter's process; or in the first process, for filters that are gone or
// elsewhere.
#include "checks.h"
#include "shared.h"

#define OF_AN_ODD_ROUND (UINT32_C(1) << 31)  // a bit that is far above all identities

// The least floor of all readers of the outbox. An engine reads its own outbox, too, but takes over
// nothing from it.
static uint64_t least_floor(const Shared *shared, int engine, uint64_t end, bool with_own) {
    uint64_t least = end;
    for (int k = 0; k < shared->engines; k++) {
        uint64_t floor = LOAD(shared->engine_statuses[k].floors[engine - 1]);
        if (floor < least && !LOAD(shared->engine_statuses[k].gone) &&
            (with_own || k != engine - 1))
            least = floor;
    }
    return least;
}

static uint32_t with_round(uint64_t identity, uint64_t round) {
    return (uint32_t)identity | (round % 2 ? OF_AN_ODD_ROUND : 0);
}

uint32_t gift_identity(const uint32_t *gift) { return LOAD(gift[1]) & ~OF_AN_ODD_ROUND; }

// Puts a clause after those that are staged, but overwrites nothing that others may still read or
// ask for: false if there is no room.
bool outbox_put(const Shared *shared, uint32_t *outbox, int engine, uint64_t *staged,
                uint64_t identity, const Literals *literals, uint32_t mark) {
    uint64_t size = shared->outbox_words, words = HEAD_OF_A_GIFT + literals->length,
             begin = *staged;
    if (begin % size + words > size) begin += size - begin % size;
    uint64_t end = begin + words, floor = least_floor(shared, engine, *staged, true);
    if (words > size || (end - floor > size && !test_hooks.without_floor)) return false;
    if (begin > *staged) outbox[*staged % size] = TO_THE_BEGINNING;
    uint32_t *gift = outbox + begin % size;
    assert(begin % size + words <= size && begin >= floor);
    gift[0] = (uint32_t)literals->length | mark;
    STORE(gift[1], with_round(identity, LOAD(shared->round)));
    memcpy(gift + HEAD_OF_A_GIFT, literals->items, literals->length * sizeof *literals->items);
    *staged = end;
    return true;
}

// Sets the identities of the next round. A clause that already has its new identity keeps it, since
// a filter may have died halfway. A clause that wasn't saved gets 0.
void outbox_renew(const Shared *shared, uint32_t *outbox, int engine,
                  const Checkpoint *checkpoint) {
    uint64_t end = LOAD(shared->engine_statuses[engine - 1].outbox_used),
             round = LOAD(shared->round);
    uint64_t at = least_floor(shared, engine, end, false);
    for (uint32_t *gift; (gift = next_gift(shared, outbox, &at, end)) != NULL;) {
        uint32_t identity = gift_identity(gift);
        if (LOAD(gift[1]) == with_round(identity, round))
            STORE(gift[1], with_round(checkpoint_place(checkpoint, identity), round + 1));
    }
}
