// Unverified, like the whole solver. A run: the process that feeds lrupd.
#ifndef RUN_H
#define RUN_H

#include <functional>

#include "keeping.h"
#include "loop.h"
#include "rounds.h"

// Engines on other hosts, and what this process does for them (mpi_leader.cpp).
struct Elsewhere {
    std::function<void()> begin;        // before engines start here
    std::function<std::string()> step;  // in each turn; returns why the run can't continue, or ""
    std::function<double()> next_step;  // when `step` is due at the latest
    std::function<std::vector<pollfd>()> files;  // to wait for
    std::function<void()> tell_details;          // with -v
    std::function<void(bool at_once)> end;
    Child *carrier = nullptr;
};

class Run {
  public:
    Inputs inputs;
    Teams teams;
    Checker checker;
    Display display;
    Rounds rounds;

    explicit Run(const Options &given)
        : inputs(given), teams(inputs), display(inputs, teams, rounds, checker),
          rounds(inputs, teams, checker, display) {}
    int solve(const Elsewhere *elsewhere);  // NULL: all engines are here; returns the status

  private:
    enum Phase { SOLVING, BEGINNING_AGAIN, ENDING_STREAMS, CHECKING, DONE };

    Phase phase = SOLVING;
    Answer answer = UNKNOWN_ANSWER;
    // why there is no answer; why there is no record; why nothing was done
    std::string cause, unkept, unstarted;
    bool has_report = false;  // in the record
    std::vector<signed char> model;
    Loop loop;
    Keeping keeping{ inputs, display };
    const Elsewhere *others = nullptr;
    double ending = 0;
    std::string asked;  // why the run has to end once its record is saved
    double saving = 0;  // when it then ends at the latest, and no save is waited for any more

    void prepare();
    void await_formula(int file);
    void await_acceptance();
    [[noreturn]] void end_early(const std::string &why);
    void wait();
    double next_timeout() const;
    std::vector<Child *> children();
    bool is_ended() const { return loop.ended_by || !front.stopped.empty(); }
    std::string reason_to_end();
    std::string reason_to_stop() const;
    bool saves_first();
    void handle_events();
    void check_probe();
    void schedule_engines();
    void check_teams();
    void check_team(size_t k);
    bool check_end(size_t k);
    bool check_several(size_t k);
    bool check_copier(size_t k);
    std::string end_of(size_t k) const;
    std::string end_before(size_t k) const;
    void check_ends();
    void check_assignment(size_t k);
    void tell_lost(size_t k, const std::string &why);
    void check_lrupd();
    std::string end_of_checker() const;
    bool begin_again(const std::string &why);
    void end_filters();
    void end_streams();
    void verdict();
    void finish(Answer found, const std::string &why);
    void wait_at_end(const std::vector<Child *> &list, double time);
    void end_solving();
    void await_reading();
    bool await_end(Child &child, double time);
    void try_without_deletions(size_t k, double time);
    void end_all();
    std::string line_of_answer() const;
    void send_answer();
    void end_checker();
};

// main.cpp; lrup-engines-mpi: mpi_run.cpp
int solve(int count, char **words);
// main.cpp: if --mpi is given, unless MPI's command started this process
void start_by_mpi(const Options &options, int count, char **words);

#endif
