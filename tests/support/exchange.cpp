// Tests, without MPI or engines, which clauses lrup-engines-mpi sends, and which of them it places
// in the receiving process. A failure is shown, and the status is then 1.
#include <cstdio>
#include <memory>

#include "mpi/mpi_run.h"

// No round ends in these tests.
uint64_t checkpoint_place(const Checkpoint *, uint64_t) { return 0; }

namespace {

const size_t WORDS = 1 << 16;  // of an outbox
const int THIRD = 2;

int status = 0;

void want(const std::string &found, const std::string &wanted) {
    if (found == wanted) return;
    printf("wanted '%s', not '%s'\n", wanted.c_str(), found.c_str());
    status = 1;
}

// One of two processes: engines 1 and 2 are in the first, and 3 in the second.
struct Process {
    std::unique_ptr<Shared> shared = std::make_unique<Shared>();
    std::vector<uint32_t> words[3];
    uint64_t staged[3] = {};
    Exchange exchange;

    Process(int first, int here) {
        std::vector<uint32_t *> boxes;
        for (std::vector<uint32_t> &box : words) box.resize(WORDS), boxes.push_back(box.data());
        shared->engines = 3;
        shared->first_here = first;
        shared->engines_here = here;
        shared->outbox_words = WORDS;
        shared->round = 1;
        exchange.open(shared.get(), boxes);
    }

    void give(int engine, size_t length, int count) {
        std::vector<Literal> items(length);
        Literals literals = { items.data(), length, length };
        uint64_t &end = staged[engine - 1];
        for (; count > 0; count--)
            outbox_put(shared.get(), words[engine - 1].data(), engine, &end, 7, &literals, 0);
        STORE(shared->engine_statuses[engine - 1].outbox_used, end);
    }

    void clear() {
        for (int k = 0; k < THIRD; k++) exchange.clear(k, staged[k]);
    }
};

// The message's round, and for each length the number of clauses: `2: 7 of 3` is a message of
// round 2, with seven clauses of three literals.
std::string text_of(Message message) {
    uint64_t round = 0;
    struct {
        uint32_t engine, identity, length;
    } sent;
    std::vector<std::pair<int, int>> found;
    message.take(round);
    while (message.take(sent)) {
        if (found.empty() || found.back().second != int(sent.length))
            found.push_back({ 0, int(sent.length) });
        found.back().first++;
        message.skip(sent.length * sizeof(Literal));
    }
    std::string text = std::to_string(round) + ":";
    for (auto [count, length] : found)
        text += " " + std::to_string(count) + " of " + std::to_string(length);
    return text;
}

Message collected(Process &process, const std::string &wanted) {
    Message message;
    message.bytes = process.exchange.collect();
    want(text_of(message), wanted);
    return message;
}

// Places the clauses of a message, and compares three totals: the clauses placed, the clauses
// dropped, and the clauses that other engines may read.
void place(Process &process, Message message, const std::string &wanted) {
    process.exchange.place(message);
    const Traffic &all = process.exchange.traffic;
    int there = 0;
    for (int k = 0; k < THIRD; k++) {
        uint64_t end = process.shared->engine_statuses[k].outbox_used;
        for (uint64_t at = 0; next_gift(process.shared.get(), process.words[k].data(), &at, end);)
            there++;
    }
    want(std::to_string(all.in) + " " + std::to_string(all.dropped) + " " + std::to_string(there),
         wanted);
}

}  // namespace

int main() {
    Process one(0, 2), other(THIRD, 1);
    for (int engine : { 1, 2 })
        one.give(engine, 4, 500), one.give(engine, 1, 5), one.give(engine, 3, 10);
    collected(one, "1:");  // the clauses' lines aren't sent yet
    one.clear();
    // 2998 literals; the budget is 1500 for each engine
    Message first = collected(one, "1: 10 of 1 20 of 3 732 of 4");
    want(std::to_string(one.exchange.traffic.left_out), "268");
    collected(one, "1:");  // the rest isn't sent later
    for (int k = 0; k < THIRD; k++)
        want(std::to_string(one.shared->engine_statuses[THIRD].floors[k]),
             std::to_string(one.staged[k]));
    place(other, first, "762 0 762");
    STORE(other.shared->saved_round, 1);
    place(other, first, "762 762 762");
    STORE(one.shared->saved_round, 1);
    one.give(1, 2, 6);
    one.clear();
    collected(one, "1:");  // the clauses' identities may belong to the next round
    one.give(1, 2, 6);
    one.clear();
    STORE(one.shared->round, 2);
    collected(one, "2:");
    one.give(2, 2, 7);
    one.clear();
    Message second = collected(one, "2: 7 of 2");
    place(other, second, "762 769 762");
    STORE(other.shared->round, 2);
    place(other, second, "769 769 769");
    return status;
}
