// Unverified, like the whole solver. Cubes: if a host has three engines or more, all but the first
// divide the search space.
//
// Each of these assumes the literals of a cube. What it learns doesn't depend on them, and is given
// away as usual; the clause that refutes a cube is a clause like any other. So nothing in proofs is
// about cubes. The first engine stays on the whole formula, since a cube may be as hard as the
// formula. After some conflicts this engine chooses the variables that cubes are made of, and all
// engines keep these variables. The first process deals cubes out: an idle engine gets the cube of
// a lost engine, or half of the oldest cube. Before its first cube, an engine works on the whole
// formula.
//
// If the user gives cubes, all engines first take these, one after the other, and no engine
// eliminates their variables. With --cubes-in-order all engines are at the same cube, and nothing is
// dealt out: each goes through the list, and takes over the clauses by which others refute cubes. So
// an assignment that is found satisfies the first cube that can be satisfied.
#ifndef CUBES_H
#define CUBES_H

#include <cstdlib>
#include <deque>

#include "solve.h"

namespace CaDiCaL {
class Solver;
}

bool has_cubes(const Shared &shared, const Options &options);

// An engine's part, in its process.
class Cubes {
  public:
    Cubes(const Engine &engine, CaDiCaL::Solver &solver);

    void keep_variables();  // freezes the variables of the user's cubes, before solving
    const Cube &cube() const { return literals; }
    bool counts_variables() const;  // whether it counts the variables of learned clauses
    void count_conflict();
    void count_literal(int literal) { scores[size_t(std::abs(literal))] += bump; }
    bool is_idle() const { return idle == 1; }  // it has just refuted a cube, and gets another soon
    // call after a slice; gone: whether a variable (index: from 1) was eliminated
    void end_slice(const std::vector<unsigned char> &gone);
    bool is_refuted() const;  // after status 20: only the cube, not the formula
    void tell_refuted();      // call once the refuting clause is given away

  private:
    const Engine &engine;
    CaDiCaL::Solver &solver;
    EngineStatus &engine_status;
    const bool takes;
    int idle;  // calls of `end_slice` until the engine isn't idle any more
    Cube literals;
    // the cube's number; a bit for each variable of cubes, set if it is frozen here
    uint64_t number = 0, kept = 0;
    size_t next = 0;             // the index of the next cube in order
    std::vector<double> scores;  // by variable, from 1: how often and how recently it was learned
    double bump = 1;

    bool is_first() const { return engine.number - 1 == engine.shared->first_here; }
    void tell_variables(const std::vector<unsigned char> &gone);
    void get_ready(const std::vector<unsigned char> &gone);
    void tell_usable();
    void take();
    void take_next();
};

// The first process's part.
class Dealer {
  public:
    uint64_t dealt = 0, reassigned = 0;
    uint64_t taken = 0, refuted = 0;  // of the user's cubes
    std::deque<size_t> queue;         // indices of the next cubes
    uint64_t elsewhere = 0;           // cubes that may still come from process 0
    uint64_t refuted_elsewhere = 0;   // by other processes

    void open(const std::vector<Cube> &all);
    void deal(Shared &shared, const Options &options);
    void count(const Shared &shared);  // refuted cubes, in order

  private:
    const std::vector<Cube> *cubes = nullptr;
    std::vector<unsigned> parts;          // by cube: how many of its parts aren't refuted
    bool has_whole = false;               // an engine got the whole formula
    uint64_t counted[MOST_ENGINES] = {};  // by engine: the number of the last cube counted

    bool is_idle(const Shared &shared, int k);
    bool reassign(Shared &shared, int end, EngineStatus &idle);
    void share_out(Shared &shared, int end, EngineStatus &idle, uint64_t usable);
    void halve(const Shared &shared, EngineStatus &oldest, EngineStatus &idle, uint64_t usable);
    void give(EngineStatus &engine_status, int of_file, const Cube &more);
};

#endif
