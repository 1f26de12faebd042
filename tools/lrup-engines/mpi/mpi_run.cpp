// Unverified, like the whole solver. lrup-engines-mpi: its start, and what process 0 and the others
// have in common.
#include <algorithm>
#include <cmath>
#include <cstdlib>

#include "mpi_run.h"

uint64_t EngineStatus::*const COUNTED[COUNTS] = {
    &EngineStatus::conflicts,
    &EngineStatus::slices,
    &EngineStatus::taken,
    &EngineStatus::refused,
    &EngineStatus::satisfied,
    &EngineStatus::lines,
    &EngineStatus::literals,
    &EngineStatus::hints,
    &EngineStatus::given,
    &EngineStatus::citing_others,
    &EngineStatus::citing_elsewhere,
    &EngineStatus::round_lines,
    &EngineStatus::round_literals,
    &EngineStatus::behind,
    &EngineStatus::wanted,
    &EngineStatus::held,
    &EngineStatus::ended_round,
    &EngineStatus::mapped_round,
};

namespace {

const uint64_t EXCHANGING = 500;  // milliseconds
const double STARTING = 600;      // seconds

// For use before MPI is initialised: reads the variables that mpirun and SLURM's launcher set.
bool is_process_0() {
    for (const char *name : { "OMPI_COMM_WORLD_RANK", "PMIX_RANK", "PMI_RANK" })
        if (const char *rank = getenv(name)) return atoi(rank) == 0;
    return true;
}

}  // namespace

// Only one process reports an error. The others must not end before it with a status other than 0:
// mpirun would then kill the reporting process, and nothing would be reported.
int solve(int count, char **words) {
    if (front.is_there() && is_process_0()) front.open();
    Options options = read_words(count, words);
    if (!front.is_there()) refuse("this program has to be started by lrup-solve --mpi");
    start_by_mpi(options, count, words);
    if (options.engines == 0) options.engines = usual_engines();
    Link link;
    link.open(options.engines);
    int all = 0;
    for (int one : link.engines) all += one;
    is_reported_elsewhere = link.process != 0;
    if (all > MOST_ENGINES)
        refuse(format("%d engines in all processes: at most %d", all, int(MOST_ENGINES)));
    is_reported_elsewhere = false;
    options.engines = all;
    return link.process == 0 ? lead(options, link) : follow(options, link);
}

Peer::Peer(const Options &given, Teams &its_teams, Link &connected)
    : link(connected), options(given), teams(its_teams) {
    silent.assign(link.engines.size(), -STARTING);
}

int Peer::first_of(int process) const {
    int first = 0;
    for (int k = 0; k < process; k++) first += link.engines[size_t(k)];
    return first;
}

void Peer::open() {
    teams.set_here(first_of(link.process), link.engines[size_t(link.process)]);
    exchange.open(teams.shared, teams.outboxes);
}

double Peer::next_exchange() const {
    double pause = 1e-3 * double(hooked(test_hooks.exchanging, EXCHANGING));
    return !options.shares() || exchanging || holds_back() ? INFINITY : exchanged + pause;
}

// Time is counted in pulses, and something is sent in each pulse.
double Peer::next_step() const { return std::min(stepped + PULSE, next_exchange()); }

// Time in which this process itself was stopped counts as one pulse at most.
void Peer::step() {
    double time = now(), passed = std::min(time - stepped, PULSE);
    stepped = time;
    for (double &one : silent) one += passed;
    silent[size_t(link.process)] = 0;
    link.step();
    for (Message message; link.receive(message);) {
        silent[size_t(message.head.process)] = 0;
        if (keeps(message))
            kept.push_back(message);
        else
            take(message);
        for (; !kept.empty() && is_due(kept.front()); kept.pop_front()) take(kept.front());
    }
    if (now() < next_exchange()) return;
    exchanging = true;
    exchanged = now();
    link.send(GIFTS, 0, exchange.collect());
}

void Peer::take(Message &message) {
    if (message.head.word == GIFTS)
        exchange.place(message);
    else if (message.head.word != EXCHANGED)
        told(message);
    else if (uint64_t taken = 0; message.take(taken))
        exchange.traffic.nanoseconds += taken, exchanging = false;
}

// Late messages in tests (test_hooks.h).

template <typename Item> static Item beginning(const Message &message) {
    Item item = {};
    memcpy(&item, message.rest(), std::min(sizeof item, message.left()));
    return item;
}

bool Peer::keeps(const Message &message) {
    uint32_t word = message.head.word;
    if (test_hooks.late_gifts) return word == GIFTS && !is_due(message);
    if (word == GIFTS && message.head.process == 0) awaited--;
    bool is_kept = test_hooks.late_saved && word == CONTROL &&
                   beginning<Control>(message).saved_round > LOAD(teams.shared->saved_round);
    // three of process 0's gifts: one may be on its way; others keep sharing until the last comes
    if (is_kept && kept.empty()) awaited = 3;
    return is_kept;
}

bool Peer::is_due(const Message &message) const {
    return message.head.word == GIFTS ? beginning<uint64_t>(message) < LOAD(teams.shared->round)
                                      : awaited <= 0;
}

// Process 0 collects clauses when a round begins, and again only once its filters have the new
// identities.
bool Peer::holds_back() const {
    if (!test_hooks.late_saved || link.process != 0 || !exchange.has_begun()) return false;
    for (size_t k = 0; k < teams.size(); k++)
        if (teams.is_here(k) && teams[k].filter.running &&
            LOAD(teams.engine_status(k).mapped_round) < LOAD(teams.shared->round))
            return true;
    return false;
}

void Peer::leave(double seconds) {
    double end = now() + seconds;
    link.leave();
    for (Message message; link.is_open() && now() < end;)
        if (link.wait(message, end - now())) told(message);
    link.close();
}

int Peer::silent_process() const {
    for (size_t k = 0; k < silent.size(); k++)
        if (silent[k] > SILENCE) return int(k);
    return -1;
}
