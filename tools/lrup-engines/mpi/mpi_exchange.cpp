// Unverified, like the whole solver. Sends what engines give away to the engines of other
// processes. All clauses that refute cubes are sent. For other clauses a process has a budget of
// literals in each exchange: the shortest go first, and clauses that don't fit aren't sent later
// either, since newer ones come.
//
// Only clauses of the current round are sent and taken. Their lines are sent before them, and lrupd
// saves these clauses at the round's end, since no stream deletes what it gave away in the round.
// Clauses that arrive later are dropped.
#include <algorithm>

#include "mpi_run.h"

namespace {

const size_t LITERALS_OF_AN_ENGINE = 1500;

// A gift in a message: this struct, and then the literals.
struct Sent {
    uint32_t engine, identity, length;
};

}  // namespace

void Exchange::open(Shared *all, const std::vector<uint32_t *> &boxes) {
    shared = all;
    outboxes = boxes;
    round = LOAD(all->round);
    first = all->first_here;
    end = first + all->engines_here;
    for (std::vector<uint64_t> *list : { &read, &cleared, &staged }) list->assign(boxes.size(), 0);
    for (int k = 0; k < int(boxes.size()); k++)
        if (!is_here(k)) pass(k, UINT64_MAX);
}

// Sets the floors for the engines of other hosts, which don't read this outbox themselves.
void Exchange::pass(int engine, uint64_t position) {
    for (int k = 0; k < int(outboxes.size()); k++)
        if (!is_here(k)) STORE(shared->engine_statuses[k].floors[engine], position);
}

// Collects the round's number, and what was given away since the last time.
std::string Exchange::collect() {
    struct Found {
        int engine;
        const uint32_t *gift;
    };
    std::vector<Found> all;
    Message message;
    if (LOAD(shared->round) != round) begin_round();
    if (LOAD(shared->saved_round) >= round && !test_hooks.without_passing) pass_over();
    for (size_t k = size_t(first); k < size_t(end); k++)
        while (const uint32_t *gift = next_gift(shared, outboxes[k], &read[k], cleared[k]))
            all.push_back({ int(k), gift });
    auto cost = [](const uint32_t *gift) { return gift[0] & OF_A_CUBE ? 0 : length_of(gift); };
    std::stable_sort(all.begin(), all.end(), [&](const Found &one, const Found &other) {
        return cost(one.gift) < cost(other.gift);
    });
    message.put(round);
    size_t left = LITERALS_OF_AN_ENGINE * size_t(end - first), sent = 0;
    for (; sent < all.size() && cost(all[sent].gift) <= left; sent++) {
        const uint32_t *gift = all[sent].gift;
        message.put(Sent{ uint32_t(all[sent].engine), gift_identity(gift), gift[0] });
        message.bytes.append(reinterpret_cast<const char *>(literals_of(gift)),
                             length_of(gift) * sizeof(Literal));
        left -= cost(gift);
    }
    for (int k = first; k < end; k++) pass(k, read[size_t(k)]);
    traffic.out += sent;
    traffic.left_out += all.size() - sent;
    traffic.bytes_out += message.bytes.size();
    traffic.exchanges++;
    return message.bytes;
}

void Exchange::place(Message &message) {
    uint64_t of_round = 0;
    Sent sent;
    std::vector<Literal> literals;
    traffic.bytes_in += message.bytes.size();
    message.take(of_round);
    bool late = of_round != LOAD(shared->round) || LOAD(shared->saved_round) >= of_round;
    while (message.take(sent) && sent.engine < outboxes.size() && !is_here(int(sent.engine))) {
        literals.resize(length_of(&sent.length));
        for (Literal &literal : literals) message.take(literal);
        Literals list = { literals.data(), literals.size(), literals.size() };
        uint64_t &place = staged[sent.engine];
        bool placed = (!late || test_hooks.without_lateness) &&
                      outbox_put(shared, outboxes[sent.engine], int(sent.engine) + 1, &place,
                                 sent.identity, &list, sent.length & OF_A_CUBE);
        ++(placed ? traffic.in : traffic.dropped);
        STORE(shared->engine_statuses[sent.engine].outbox_used, place);
    }
}

// What wasn't sent in its own round is never sent.
void Exchange::begin_round() {
    round = LOAD(shared->round);
    pass_over();
}

// Skips what has been given away so far. Also called once lrupd has saved the round: filters then
// renew the identities in the outboxes before the next round begins.
void Exchange::pass_over() {
    for (int k = first; k < end; k++) {
        read[size_t(k)] = cleared[size_t(k)] = LOAD(shared->engine_statuses[k].outbox_used);
        pass(k, read[size_t(k)]);
    }
}
