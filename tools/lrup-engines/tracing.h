// Unverified, like the whole solver. In an engine's process: how its proof is written.
#ifndef TRACING_H
#define TRACING_H

#include <cadical.hpp>
#if __has_include(<cadical/tracer.hpp>)
#include <cadical/tracer.hpp>
#elif __has_include(<tracer.hpp>)
#include <tracer.hpp>
#endif

#include <cstdio>
#include <cstdlib>
#include <functional>
#include <new>
#include <type_traits>
#include <vector>

namespace CaDiCaL {
class Tracer;  // older versions have none for users
}

// The steps of the proof, which tools/filter/binary.c reads.
class Steps {
  public:
    void open(int file) {
        proof = fdopen(file, "w");
        if (!proof) throw std::bad_alloc();
        setvbuf(proof, nullptr, _IOFBF, BUFFER);
    }

    FILE *file() const { return proof; }
    bool flush() { return fflush(proof) == 0 && !ferror(proof); }
    void put(char letter) { putc_unlocked(letter, proof); }

    void put_number(uint64_t number) {
        for (; number > 127; number >>= 7) putc_unlocked(int(number & 127) | 128, proof);
        putc_unlocked(int(number), proof);
    }

    // Writes the literals, and the end of the list.
    void put_clause(const std::vector<int> &clause) {
        for (int literal : clause) put_number(2 * uint64_t(std::abs(literal)) + (literal < 0));
        put_number(0);
    }

    void put_addition(uint64_t name, const std::vector<int> &clause,
                      const std::vector<uint64_t> &hints) {
        put('A');
        put_number(name);
        put_clause(clause);
        for (uint64_t hint : hints) put_number(hint);
        put_number(0);
    }

  private:
    static const int BUFFER = 1 << 15;
    FILE *proof = nullptr;
};

// Writes what CaDiCaL derives and deletes, in DRAT. No clause has a name.
class DratTracing {
  public:
    static const bool has_hints = false;
    // the name and the hints of the clause that says that the assumptions fail; 0: it has no name
    uint64_t conclusion = 0;
    std::vector<uint64_t> reasons;

    DratTracing(CaDiCaL::Solver &its_solver, Steps &its_steps)
        : solver(its_solver), steps(its_steps) {}
    void begin() { solver.trace_proof(steps.file(), "the proof"); }

    // Adds the clause. `write` gets its name, and comes before any step that follows from it.
    using Write = std::function<void(uint64_t name)>;
    void add(const std::vector<int> &clause, const Write &write) {
        write(0);
        add(clause);
    }

    void conclude() {}

  protected:
    CaDiCaL::Solver &solver;
    Steps &steps;

    void add(const std::vector<int> &clause) {
        for (int literal : clause) solver.add(literal);
        solver.add(0);
    }
};

// What CaDiCaL hands out depends on its version. If each step has a name and hints, the proof does.
template <typename Tracer, typename = void> class Tracing : public DratTracing {
    using DratTracing::DratTracing;
};

template <typename Tracer>
using IfItHandsOutHints =
    std::enable_if_t<std::is_same_v<decltype(&Tracer::add_derived_clause),
                                    void (Tracer::*)(uint64_t, bool, const std::vector<int> &,
                                                     const std::vector<uint64_t> &)>>;

template <typename Tracer>
class Tracing<Tracer, IfItHandsOutHints<Tracer>> : public DratTracing, Tracer {
  public:
    static const bool has_hints = true;
    using DratTracing::DratTracing;
    void begin() { connect(solver); }

    void add(const std::vector<int> &clause, const Write &write) {
        write_next = &write;
        DratTracing::add(clause);
        write_next = nullptr;
    }

    void conclude() {
        conclusion = 0;
        conclude(solver);
    }

  private:
    const Write *write_next = nullptr;  // nullptr: a clause of the formula is added

    // Templates, since older versions lack these functions.
    template <typename Solver> void connect(Solver &its) {
        its.connect_proof_tracer(static_cast<Tracer *>(this), true);
    }
    template <typename Solver> static void conclude(Solver &its) { its.conclude(); }

    // A restored clause isn't told of: the filter has deleted it.
    void add_original_clause(uint64_t name, bool, const std::vector<int> &,
                             bool is_restored) override {
        if (is_restored) return;
        if (write_next) return (*write_next)(name);
        steps.put('o');
        steps.put_number(name);
    }

    void add_derived_clause(uint64_t name, bool, const std::vector<int> &clause,
                            const std::vector<uint64_t> &hints) override {
        steps.put_addition(name, clause, hints);
    }

    void delete_clause(uint64_t name, bool, const std::vector<int> &) override {
        steps.put('D');
        steps.put_number(name);
        steps.put_number(0);
    }

    void add_assumption_clause(uint64_t name, const std::vector<int> &,
                               const std::vector<uint64_t> &hints) override {
        conclusion = name;
        reasons = hints;
    }
};

#endif
