// Unverified, like the whole solver. Cubes, described in cubes.h.
#include <cadical.hpp>

#include <algorithm>

#include "cubes.h"

namespace {

const uint64_t LEARNING = 1000;  // conflicts of the first engine before cubes are made
const double BUMP = 1.0005;

// One more than the index (from 0) of this host's last engine that takes over clauses.
int end_of_engines(const Shared &shared, const Options &options) {
    return std::min(shared.first_here + shared.engines_here,
                    options.engines - int(options.solvers.size()));
}

bool has_cube(const EngineStatus &engine_status) {
    return engine_status.cube_number != 0 &&
           LOAD(engine_status.refuted_cube) != engine_status.cube_number;
}

// The literals of the engine's cube, without those of the user's cube.
Cube literals_of(const EngineStatus &engine_status) {
    return { engine_status.cube, engine_status.cube + engine_status.cube_length };
}

bool has_variable(const Cube &cube, int variable) {
    return std::any_of(cube.begin(), cube.end(),
                       [&](int literal) { return std::abs(literal) == variable; });
}

}  // namespace

bool has_cubes(const Shared &shared, const Options &options) {
    return options.shares() && !options.in_order &&
           end_of_engines(shared, options) - shared.first_here > 2;
}

// In an engine's process, up to the first process's part.

Cubes::Cubes(const Engine &given, CaDiCaL::Solver &its_solver)
    : engine(given), solver(its_solver),
      engine_status(given.shared->engine_statuses[given.number - 1]),
      takes(has_cubes(*given.shared, *given.options) ||
            (!given.options->in_order && !given.cubes->empty())),
      idle(takes && !given.cubes->empty()) {
    if (takes && is_first()) scores.assign(size_t(engine.formula->variables) + 1, 0);
    if (engine.options->in_order) take_next();
}

void Cubes::keep_variables() {
    std::vector<bool> are_kept(size_t(engine.formula->variables) + 1);
    for (const Cube &one : *engine.cubes)
        for (int literal : one) {
            if (!are_kept[size_t(std::abs(literal))]) solver.freeze(std::abs(literal));
            are_kept[size_t(std::abs(literal))] = true;
        }
}

bool Cubes::counts_variables() const {
    return takes && is_first() && LOAD(engine.shared->variable_count) == 0;
}

void Cubes::count_conflict() { bump *= BUMP; }

void Cubes::end_slice(const std::vector<unsigned char> &gone) {
    if (!takes) return;
    if (counts_variables() && (engine_status.conflicts >= LEARNING || test_hooks.slice))
        tell_variables(gone);
    if (LOAD(engine.shared->variable_count) != 0) {
        if (!engine_status.ready) get_ready(gone);
        tell_usable();
        events_advance(&engine.shared->events);
    }
    take();
}

// Leaves out assumed variables: no clause would refute a cube that contradicts an assumption.
void Cubes::tell_variables(const std::vector<unsigned char> &gone) {
    std::vector<int> order;
    for (Literal literal : *engine.assumed) scores[size_t(variable_of(literal)) + 1] = 0;
    for (int variable = 1; variable <= engine.formula->variables; variable++)
        if (scores[size_t(variable)] > 0 && !gone[size_t(variable)] && solver.fixed(variable) == 0)
            order.push_back(variable);
    std::sort(order.begin(), order.end(),
              [&](int one, int other) { return scores[size_t(one)] > scores[size_t(other)]; });
    size_t count = std::min(order.size(), size_t(VARIABLES_OF_CUBES));
    std::copy_n(order.begin(), count, engine.shared->variables);
    STORE(engine.shared->variable_count, count);
}

// Freezes the variables: if CaDiCaL eliminated them, it would restore their clauses without a line
// in the proof.
void Cubes::get_ready(const std::vector<unsigned char> &gone) {
    for (uint64_t k = 0; k < engine.shared->variable_count; k++) {
        int variable = engine.shared->variables[k];
        if (gone[size_t(variable)]) continue;
        solver.freeze(variable);
        kept |= uint64_t(1) << k;
    }
}

void Cubes::tell_usable() {
    uint64_t usable = kept;
    for (uint64_t k = 0; k < engine.shared->variable_count; k++)
        if (kept >> k & 1 && solver.fixed(engine.shared->variables[k]) != 0)
            usable &= ~(uint64_t(1) << k);
    STORE(engine_status.usable, usable);
    STORE(engine_status.ready, 1);
}

// If the first process writes another cube meanwhile, that one is taken after the next slice.
void Cubes::take() {
    uint64_t found = LOAD(engine_status.cube_number);
    bool may_come = literals.empty() && LOAD(engine.shared->cubes_left) > 0;
    idle = found == number ? std::max(int(may_come), idle - 1) : 0;
    if (found == number) return;
    literals.clear();
    if (int of_file = LOAD(engine_status.cube_of_file))
        literals = (*engine.cubes)[size_t(of_file) - 1];
    for (int k = 0, length = LOAD(engine_status.cube_length); k < length; k++)
        literals.push_back(LOAD(engine_status.cube[k]));
    number = LOAD(engine_status.cube_number) == found ? found : 0;
    if (number == 0) literals.clear();
}

void Cubes::take_next() {
    literals.clear();
    if (next < engine.cubes->size()) literals = (*engine.cubes)[next++];
}

bool Cubes::is_refuted() const {
    return std::any_of(literals.begin(), literals.end(),
                       [&](int literal) { return solver.failed(literal); });
}

void Cubes::tell_refuted() {
    literals.clear();
    idle = takes ? 2 : 0;
    STORE(engine_status.refuted_cubes, engine_status.refuted_cubes + 1);
    if (engine.options->in_order) take_next();
    STORE(engine_status.refuted_cube, number);
    events_advance(&engine.shared->events);
}

// The first process's part.

void Dealer::open(const std::vector<Cube> &all) {
    cubes = &all;
    parts.assign(all.size(), 1);
}

// Cubes are halved only once all remaining engines keep the variables.
void Dealer::deal(Shared &shared, const Options &options) {
    int end = end_of_engines(shared, options);
    if (options.in_order) return count(shared);
    uint64_t usable = ~uint64_t(0);
    bool halves = has_cubes(shared, options) && LOAD(shared.variable_count) != 0;
    for (int k = shared.first_here; k < end; k++) {
        if (LOAD(shared.engine_statuses[k].gone)) continue;
        halves &= LOAD(shared.engine_statuses[k].ready) != 0;
        usable &= LOAD(shared.engine_statuses[k].usable);
    }
    for (int k = shared.first_here; k < end; k++) {
        EngineStatus &engine_status = shared.engine_statuses[k];
        bool stays = k == shared.first_here && queue.empty();
        if (!is_idle(shared, k) || stays || reassign(shared, end, engine_status)) continue;
        if (!queue.empty()) {
            give(engine_status, int(queue.front()) + 1, {});
            queue.pop_front();
            taken++;
        } else if (halves && elsewhere == 0)
            share_out(shared, end, engine_status, usable);
    }
    STORE(shared.cubes_left, queue.size() + elsewhere);
}

void Dealer::count(const Shared &shared) {
    for (int k = shared.first_here; k < shared.first_here + shared.engines_here; k++)
        refuted = std::max(refuted, LOAD(shared.engine_statuses[k].refuted_cubes));
}

// Whether the engine has no cube, or has refuted its cube; a refuted cube is counted once.
bool Dealer::is_idle(const Shared &shared, int k) {
    const EngineStatus &engine_status = shared.engine_statuses[k];
    if (LOAD(engine_status.gone) || has_cube(engine_status)) return false;
    if (engine_status.cube_number == counted[k]) return true;
    counted[k] = engine_status.cube_number;
    if (int of_file = engine_status.cube_of_file) refuted += --parts[size_t(of_file) - 1] == 0;
    return true;
}

bool Dealer::reassign(Shared &shared, int end, EngineStatus &idle) {
    for (int k = shared.first_here; k < end; k++) {
        EngineStatus &other = shared.engine_statuses[k];
        if (!has_cube(other) || !LOAD(other.gone)) continue;
        give(idle, other.cube_of_file, literals_of(other));
        STORE(other.cube_number, 0);
        reassigned++;
        return true;
    }
    return false;
}

// The first engine to ask gets the whole formula.
void Dealer::share_out(Shared &shared, int end, EngineStatus &idle, uint64_t usable) {
    EngineStatus *oldest = nullptr;
    for (int k = shared.first_here + 1; k < end; k++) {
        EngineStatus &other = shared.engine_statuses[k];
        bool is_short = has_cube(other) && other.cube_length < MOST_OF_A_CUBE;
        if (is_short && (!oldest || other.cube_number < oldest->cube_number)) oldest = &other;
    }
    if (oldest) return halve(shared, *oldest, idle, usable);
    if (!has_whole) give(idle, 0, {});
    has_whole = true;
}

void Dealer::halve(const Shared &shared, EngineStatus &oldest, EngineStatus &idle,
                   uint64_t usable) {
    int of_file = oldest.cube_of_file;
    Cube cube = literals_of(oldest);
    for (uint64_t k = 0; k < shared.variable_count; k++) {
        int variable = shared.variables[k];
        bool is_there = has_variable(cube, variable) ||
                        (of_file && has_variable((*cubes)[size_t(of_file) - 1], variable));
        if (!(usable >> k & 1) || is_there) continue;
        if (of_file) parts[size_t(of_file) - 1]++;
        cube.push_back(-variable);
        give(oldest, of_file, cube);
        cube.back() = variable;
        return give(idle, of_file, cube);
    }
}

// The number is stored last: it says that the cube is complete.
void Dealer::give(EngineStatus &engine_status, int of_file, const Cube &more) {
    STORE(engine_status.cube_number, 0);
    STORE(engine_status.cube_of_file, of_file);
    for (size_t k = 0; k < more.size(); k++) STORE(engine_status.cube[k], more[k]);
    STORE(engine_status.cube_length, int(more.size()));
    STORE(engine_status.cube_number, ++dealt);
}
