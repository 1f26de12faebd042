// Unverified, like the whole solver. Engines and their filters: the processes, what they share, and
// the files of their streams.
#ifndef TEAMS_H
#define TEAMS_H

#include <algorithm>

#include "cubes.h"
#include "inputs.h"

enum Answer { UNKNOWN_ANSWER = 0, SATISFIABLE = 10, UNSATISFIABLE = 20 };

// An engine with its filter. Several filters may share a proof: the first one's team has the engine
// and, if that is a user's solver, a process that copies what the solver writes to the filters.
struct Team {
    Child engine, filter, copier;
    Pipe proof;
    uint64_t proof_size = 0;  // bytes of a regular file; 0: not known
    // a proof that comes only once, if several filters share it: its file, or the solver's pipe; and
    // a file for its bytes
    Pipe once;
    int kept = -1;
    // its file; a file in memory, for lines that can't be written to the first one any more
    int stream = -1, spare = -1;
    signed char *model = nullptr;
    std::string command;  // a solver's, or the proof's name
    bool told = false, wrong = false, paused = false;
    bool silent = false;  // its filter died before this round
    bool idle = false;    // it ended as soon as it started, before doing anything
    std::string cause;    // why it was lost
};

class Teams {
  public:
    Shared *shared = nullptr;
    std::vector<uint32_t *> outboxes;
    Dealer dealer;
    std::string record;  // the folder of kept streams, with a slash
    // the time at which an engine refuted the formula; 0: none has, or its filter has ended
    double answered = 0;

    explicit Teams(const Inputs &given) : inputs(given) {}
    size_t size() const { return list.size(); }
    Team &operator[](size_t k) { return list[k]; }
    const Team &operator[](size_t k) const { return list[k]; }
    EngineStatus &engine_status(size_t k) const { return shared->engine_statuses[k]; }
    bool is_solver(size_t k) const {
        return inputs.options.check ||
               k / filters() + inputs.options.solvers.size() >= list.size() / filters();
    }
    // Of filters that share a proof: the first one; and the one that decides how the proof ended,
    // or one that is running.
    size_t filters() const { return std::max<size_t>(1, size_t(inputs.options.filters)); }
    size_t first_of(size_t k) const { return k - k % filters(); }
    size_t engines() const { return list.size() / filters(); }
    size_t decider(size_t k) const;
    // whether some of them have stopped, and others haven't yet
    bool are_stopping() const;
    bool has_windows() const { return filters() > 1; }
    // its path, or the solver's command
    const char *proof_of(size_t k) const {
        return inputs.options
            .solvers[k / filters() + inputs.options.solvers.size() - list.size() / filters()];
    }
    const Child &copier_of(size_t k) const {
        return inputs.options.check ? list[k].engine : list[k].copier;
    }
    std::string why_lost(size_t k) const;
    bool is_any_at_work() const;  // whether a filter is running
    bool is_here(size_t k) const {
        return int(k) >= shared->first_here && int(k) < shared->first_here + shared->engines_here;
    }
    // it has no assignment, its proof isn't read any more, and the cause is known
    bool is_lost(size_t k) const;
    std::string title(size_t k) const;                  // engine 1, solver 1 or proof 1
    std::string name_of_proof(size_t k) const;          // its file, or solver 1
    uint64_t all(uint64_t EngineStatus::*field) const;  // the sum over all engines
    bool have_all(uint64_t EngineStatus::*field, uint64_t wanted) const;  // for all running filters
    std::vector<Child *> children();

    void check_solvers() const;           // before anything is replaced
    void open(uint64_t round);            // round: this run's first round
    void open_models();                   // after the formula is read
    void set_here(int first, int count);  // other engines are on other hosts
    void start(bool is_first_alone);      // if so, the others start a moment later
    void start_others();
    double next_start() const;       // when the others start; INFINITY: never
    void schedule();                 // to be called often while they solve
    void go_on();                    // resumes paused engines and filters
    bool end_streams(bool is_late);  // after a whole line; true once all filters have ended
    // chooses an engine that ends with the next round; returns why
    std::string choose_leaving(const std::string &cause);
    void keep_last();           // keeps that engine, if no other is left
    void end_leaving();         // ends that engine: its round has ended
    void tell_filters() const;  // wakes them after stores
    void tell_fed(size_t k, uint64_t bytes) const;
    Written written_of(size_t k) const;  // what counts of it
    void release();                      // windows of filters that share a proof, to lrupd
    // asks filters that share a proof to end the round, and chooses the step before which they do
    void ask_to_end(uint64_t round);
    void choose_end(uint64_t round);
    // whether one of several filters of the proof was killed, perhaps since memory is short
    bool has_died(size_t k) const;
    // whether what copies the proof has failed, or was killed
    bool is_copied_no_more(size_t k) const;
    bool can_begin_again() const;  // whether filters share a proof that can be read again
    // of this proof; true once they, and what copies the proof to them, have ended
    bool end_filters(size_t k);
    void forget_filters();  // of the only proof, once they have ended; `open` is next
    uint64_t clauses = 0;   // of the round's formula

    std::string lost;                     // why the record is incomplete; empty: it isn't
    void check_record();                  // sets `lost`
    uint64_t bytes_kept(size_t k) const;  // of the stream; the rest is in the other file
    int file_to_write(size_t k) const;    // for a stream from another host
    bool spill(size_t k);                 // false if there is no other file
    void number_streams();                // for the next round
    void open_streams(uint64_t round);    // empty ones
    void cut_streams();
    std::string stream_path(size_t k, uint64_t round) const;
    std::vector<int> stream_files() const;
    // of filters that have ended, or are elsewhere
    void renew_outboxes(const Checkpoint &saved, uint64_t round);

  private:
    const Inputs &inputs;
    std::vector<Team> list;
    double others_start = 0;  // 0: they have started
    Beginning beginning = {};
    std::vector<const char *> cited;  // proofs to check, if they are streams of one run

    int size_of_pipes() const;
    void start_team(size_t k);
    void start_filter(size_t k);
    void start_engine(size_t k);
    void start_copier(size_t k);
    uint64_t whole_windows() const;
    uint64_t windows_among(uint64_t first, size_t k) const;
    bool comes_once(size_t k) const;
    void open_once(size_t k);
    Proof proof_to_copy(size_t k) const;
    std::string solver_line(size_t k, int proof, int &renamed) const;
    bool is_a_stream(size_t k) const;
    void find_streams();
    void find_beginning();
    bool has_refuted(size_t k) const;
    void pause_others();
    void cut_stream(size_t k, uint64_t bytes);
    void open_in_memory(uint64_t round);
};

int usual_engines();
int filters_of(const Options &options);                                // that share a proof
void copy_name(char (&place)[LONGEST_PATH], const std::string &name);  // to the shared memory
std::string name_of_round(uint64_t number);

#endif
