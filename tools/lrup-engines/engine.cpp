// Unverified, like the whole solver. In an engine's process: CaDiCaL, what it gives away, and what it
// takes over.
//
// Sharing depends on these rules; without one of them, proofs break silently:
// - A clause over a variable that this engine eliminated or substituted isn't taken over: CaDiCaL
//   would restore clauses that the proof has deleted, without a line. Whenever the number of active
//   variables has changed, the witnesses are read again.
// - The line of an import is written before the clause is added: CaDiCaL may shorten the clause
//   using what it knows at the root, and then traces the shorter clause, which follows only from
//   the import.
// - The filter publishes a clause only once its line is written, and doesn't delete it in the round
//   in which it was given away.
// - Identities change from round to round. So a clause is asked for by its position in the outbox.
//   The outbox's owner renews the identities there, and overwrites nothing that others may ask for
//   (outbox.c). No filter drops a clause that it may still have to take over (filtering.c).
#include <cadical.hpp>

#include <algorithm>
#include <cstdio>
#include <cstdlib>
#include <exception>
#include <new>
#include <sstream>
#include <unordered_set>

#include <unistd.h>

#include "hash.h"
#include "cubes.h"
#include "tracing.h"

namespace {

const double SLICE = 0.5;  // seconds after which an engine takes over what others gave away
const int FIRST_CONFLICTS = 1000, LEAST_CONFLICTS = 200, MOST_CONFLICTS = 1000000;
const int MOST_TAKEN = 5000;  // clauses of more than two literals, in one slice
const size_t MOST_KNOWN = 1 << 18;

enum { OUT_OF_MEMORY = 3, NO_PROOF = 4 };  // the process's statuses

// Marks the variables that CaDiCaL has eliminated or substituted.
class GoneVariables : CaDiCaL::WitnessIterator {
  public:
    std::vector<unsigned char> marks;  // by variable, from 1

    void update(const CaDiCaL::Solver &solver) {
        if (solver.active() == active) return;
        active = solver.active();
        std::fill(marks.begin(), marks.end(), 0);
        solver.traverse_witnesses_forward(*this);
    }

  private:
    int active = -1;

    // One of the two is CaDiCaL's, depending on its version. Witnesses of one literal are units at
    // the root; their variables aren't gone.
    bool witness(const std::vector<int> &satisfied, const std::vector<int> &cube) {
        if (satisfied.size() == 1 && cube.size() == 1) return true;
        for (int literal : cube) marks[size_t(std::abs(literal))] = 1;
        return true;
    }
    bool witness(const std::vector<int> &satisfied, const std::vector<int> &cube, uint64_t) {
        return witness(satisfied, cube);
    }
};

class Worker : CaDiCaL::Learner {
  public:
    explicit Worker(const Engine &given)
        : engine(given), engine_status(given.shared->engine_statuses[given.number - 1]),
          tracing(solver, steps), cubes(given, solver) {}

    int run() {
        open();
        int status = solve();
        if (status == 10) write_model();
        if (status == 20) write_end();
        if (!steps.flush()) return NO_PROOF;
        STORE(engine_status.answer, status);
        events_advance(&engine.shared->events);
        return status;
    }

  private:
    const Engine &engine;
    EngineStatus &engine_status;
    Steps steps;
    CaDiCaL::Solver solver;
    Tracing<CaDiCaL::Tracer> tracing;
    Cubes cubes;
    int learned = 0;             // literals of the learned clause that aren't the cube's
    std::vector<uint64_t> read;  // by engine: how far its outbox is read
    GoneVariables gone;
    // hashes of clauses given away or taken over recently
    std::unordered_set<uint64_t> known, known_before;
    std::vector<int> clause;

    bool shares() const { return engine.options->shares(); }
    bool goes_on() const { return shares() || !engine.cubes->empty(); }

    // CaDiCaL calls this right before it traces a learned clause. The literals aren't kept: a mark
    // in the proof says that the next line may be given away, and the filter gives it away.
    bool learning(int size) override {
        STORE(engine_status.conflicts, engine_status.conflicts + 1);
        learned = size;
        if (cubes.counts_variables()) cubes.count_conflict();
        return shares() && size >= 2 &&
               (cubes.counts_variables() ||
                size <= engine.options->share_size + int(cubes.cube().size()));
    }

    // The cube's literals don't count towards the length.
    void learn(int literal) override {
        const std::vector<int> &cube = cubes.cube();
        if (literal == 0 && learned <= engine.options->share_size && !LOAD(engine.shared->crowded))
            steps.put('x');
        if (literal != 0 && cubes.counts_variables()) cubes.count_literal(literal);
        learned -= literal != 0 && std::find(cube.begin(), cube.end(), -literal) != cube.end();
    }

    // The first two engines each stay in one of the two modes between which CaDiCaL alternates;
    // which mode is better depends on the formula.
    void differ() {
        switch ((engine.number - 1) % 8) {
        case 0: solver.configure("unsat"); break;
        case 1: solver.set("stabilizeonly", 1); break;
        case 3: solver.set("phase", 0); break;
        case 4:
            solver.set("reverse", 1), solver.set("shuffle", 1), solver.set("shufflerandom", 1);
            break;
        case 5: solver.set("stabilizeonly", 1), solver.set("reduceint", 150); break;
        case 6: solver.set("elim", 0); break;
        case 7: solver.set("bumpreason", 0), solver.set("shrink", 0); break;
        default: break;
        }
    }

    // A single engine has CaDiCaL's default options. Each call of `solve` restarts CaDiCaL's
    // rephasing: it inverts all phases, and hardly ever reaches better ones. Two engines are faster
    // without rephasing; with cubes, a pipeline formula took longer without it.
    void configure() {
        solver.set("quiet", 1);
        solver.set("seed", engine.options->seed + engine.number - 1);
        if (engine.number > 1) solver.set("lucky", 0);
        if (shares() && !has_cubes(*engine.shared, *engine.options) && engine.cubes->empty())
            solver.set("rephase", 0);
        if (size_t(engine.options->engines) > engine.options->solvers.size() + 1) differ();
        if (test_hooks.set) {
            std::istringstream list(test_hooks.set);
            bool any = false;  // a version of CaDiCaL may lack some options
            for (std::string word; list >> word;)
                any |= solver.set_long_option(("--" + word).c_str());
            if (!any) abort();
        }
    }

    // Assumed variables are frozen: if CaDiCaL eliminated them, it would restore their clauses
    // without a line.
    void open() {
        configure();
        steps.open(engine.proof);
        tracing.begin();
        solver.connect_learner(this);
        read.assign(size_t(engine.options->engines), 0);
        gone.marks.assign(size_t(engine.formula->variables) + 1, 0);
        solver.reserve(engine.formula->variables);
        const Formula &formula = *engine.formula;
        for (size_t k = 0; k < formula.clauses; k++) {
            if (!begins_with(engine.beginning, k,
                             formula.starts.items[k + 1] - formula.starts.items[k], engine.number))
                continue;
            for (size_t at = formula.starts.items[k]; at < formula.starts.items[k + 1]; at++)
                solver.add(as_written(formula.literals.items[at]));
            solver.add(0);
        }
        for (Literal literal : *engine.assumed) solver.freeze(as_written(literal));
        cubes.keep_variables();
    }

    // Unless something is assumed, each call of `solve` looks for lucky assignments again. So
    // engine 1 assumes a variable that is in no clause.
    void assume() {
        for (Literal literal : *engine.assumed) solver.assume(as_written(literal));
        for (int literal : cubes.cube()) solver.assume(literal);
        if (engine.number == 1 && engine_status.slices > 0)
            solver.assume(engine.formula->variables + 1);
    }

    // Whether only the cube is refuted. If so, the clause that refutes it is given away, whatever
    // its length.
    bool refutes_cube() {
        if (!cubes.is_refuted()) return false;
        collect_failed();
        for (int literal : cubes.cube())
            if (solver.failed(literal)) clause.push_back(-literal);
        tracing.conclude();
        tracing.add(clause, [this](uint64_t name) {
            steps.put('x');
            steps.put('x');
            put_conclusion(name);
        });
        cubes.tell_refuted();
        return true;
    }

    // Writes the clause that says that the assumptions fail.
    void put_conclusion(uint64_t name) {
        if (name != 0) return steps.put_addition(name, clause, tracing.reasons);
        steps.put('a');
        steps.put_clause(clause);
    }

    static double within_limits(double conflicts) {
        return std::min<double>(MOST_CONFLICTS, std::max<double>(LEAST_CONFLICTS, conflicts));
    }

    int solve() {
        double conflicts = FIRST_CONFLICTS;
        for (;;) {
            assume();
            bool is_whole = !cubes.is_idle() && !test_hooks.slice;
            if (shares() || cubes.is_idle())
                solver.limit("conflicts", is_whole
                                              ? int(conflicts)
                                              : int(hooked(test_hooks.slice, LEAST_CONFLICTS)));
            double begin = now();
            int status = solver.solve();
            if ((status != 0 && !(status == 20 && refutes_cube())) || !goes_on()) return status;
            double factor = SLICE / std::max(now() - begin, 1e-6);
            if (is_whole && status == 0)
                conflicts = within_limits(conflicts * std::min(2.0, std::max(0.5, factor)));
            STORE(engine_status.slices, engine_status.slices + 1);
            take_over();
            cubes.end_slice(gone.marks);
            if (!steps.flush()) return 0;
        }
    }

    // Taking over.

    // When the newer set of hashes is full, the older is forgotten: a clause may be taken twice.
    bool is_new(const Literal *literals, size_t length) {
        uint64_t sum = hash_literals(literals, length);
        if (known.size() >= MOST_KNOWN) known_before = std::move(known), known.clear();
        return known_before.count(sum) == 0 && known.insert(sum).second;
    }

    void put_step(char letter, int other, uint64_t position) {
        steps.put(letter);
        steps.put_number(uint64_t(other) + 1);
        steps.put_number(position);
    }

    void put_import(int other, uint64_t position, uint64_t name) {
        put_step('i', other, position);
        steps.put_number(name);
        steps.put_clause(clause);
    }

    // Takes over a clause that another engine gave away at that position. The position names the
    // clause in the proof.
    void take(int other, uint64_t position, const Literal *literals, size_t length) {
        if (!is_new(literals, length)) return;
        clause.clear();
        for (size_t k = 0; k < length; k++) {
            int literal = as_written(literals[k]);
            if (gone.marks[size_t(std::abs(literal))] && !test_hooks.without_guard) {
                STORE(engine_status.refused, engine_status.refused + 1);
                return;
            }
            if (solver.fixed(literal) > 0) {
                STORE(engine_status.satisfied, engine_status.satisfied + 1);
                return;
            }
            clause.push_back(literal);
        }
        STORE(engine_status.taken, engine_status.taken + 1);
        uint64_t known_as = 0;
        tracing.add(clause, [&](uint64_t name) {
            known_as = name;
            if (!test_hooks.without_order) put_import(other, position, name);
        });
        if (test_hooks.without_order) put_import(other, position, known_as);
    }

    // Takes all units, binary clauses and clauses that refute cubes, and at most MOST_TAKEN others;
    // it never takes the rest. Then the proof says that none of the clauses so far will be asked
    // for again.
    void take_over() {
        gone.update(solver);
        int left = MOST_TAKEN;
        for (int other = 0; other < engine.options->engines; other++) {
            uint64_t end = LOAD(engine.shared->engine_statuses[other].outbox_used),
                     at = read[size_t(other)];
            while (const uint32_t *gift =
                       next_gift(engine.shared, engine.outboxes[other], &at, end)) {
                size_t length = length_of(gift);
                if (other + 1 == engine.number)
                    is_new(literals_of(gift), length);
                else if (length <= 2 || gift[0] & OF_A_CUBE || left-- > 0)
                    take(other, at - HEAD_OF_A_GIFT - length, literals_of(gift), length);
            }
            if (at > read[size_t(other)]) put_step('r', other, at);
            read[size_t(other)] = at;
        }
    }

    // Ends.

    void write_model() {
        for (int variable = 1; variable <= engine.formula->variables; variable++)
            engine.model[variable - 1] = solver.val(variable) > 0 ? 1 : -1;
    }

    // Collects the complements of the failed assumptions.
    void collect_failed() {
        clause.clear();
        for (Literal literal : *engine.assumed)
            if (solver.failed(as_written(literal))) clause.push_back(-as_written(literal));
    }

    // Writes the clause that the filter waits for. CaDiCaL has usually traced it, but not if the
    // formula has the clause, or if there are assumptions.
    void write_end() {
        collect_failed();
        tracing.conclude();
        put_conclusion(tracing.conclusion);
    }
};

}  // namespace

const bool engines_have_hints = Tracing<CaDiCaL::Tracer>::has_hints;

void engine_process(const Engine &engine) {
    int status = OUT_OF_MEMORY;
    try {
        Worker *worker = new Worker(engine);  // freed when the process ends
        status = worker->run();
    } catch (const std::bad_alloc &) {}
    _exit(status);
}
