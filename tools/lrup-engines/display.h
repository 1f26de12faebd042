// Unverified, like the whole solver. What the user sees during a run and at its end.
#ifndef DISPLAY_H
#define DISPLAY_H

#include <cstdint>
#include <string>
#include <vector>

#include "solve.h"

class Checker;
class Inputs;
class Rounds;
class Teams;

class Display {
  public:
    Display(const Inputs &its_inputs, const Teams &its_teams, const Rounds &its_rounds,
            Checker &its_checker)
        : inputs(its_inputs), teams(its_teams), rounds(its_rounds), checker(its_checker) {}
    void begin();                 // on a terminal, shows progress from now on
    double next_reading() const;  // when show_reading is due; INFINITY: never
    void show_reading();          // if due, shows that the formula is being read
    void end_reading() const;
    double next_show() const;                       // when show is due; INFINITY: never
    void show();                                    // if due
    void show_lines();                              // lrupd's
    void tell(const std::string &line) const;       // a comment
    void tell_more(const std::string &line) const;  // with -v only
    void tell_details() const;
    void tell_cubes(bool is_open);
    // whether a message says at once that an engine, or a proof, is lost: with -v, and in lrup-check,
    // where other proofs may take long; otherwise `tell_lost` does so at the end
    bool tells_at_once() const;
    void tell_lost() const;
    void tell_other_hints() const;  // how many lines of each proof had wrong ones
    void tell_causes(const std::string &cause) const;  // why there is no answer
    void tell_record() const;                          // the record's size
    void tell_summary() const;
    void report_end(const std::string &answer);  // the last line of JSON
    void hide() const;                           // removes the progress line
    void forget() { most_checked = 0; }          // what an lrupd has checked that counts no more

  private:
    const Inputs &inputs;
    const Teams &teams;
    const Rounds &rounds;
    Checker &checker;
    bool shows_progress = false;
    double started = now(), reported = started;
    uint64_t most_checked = 0;           // clauses, in a line of JSON
    size_t cubes_told = 0;               // in order
    mutable double shown = 0, told = 0;  // when the last progress and comment were

    void show_progress(const std::string &line) const;
    void report(const std::string &answer);  // a line of JSON; "": no answer yet
    double next_report() const;
    uint64_t checked() const;  // clauses

    bool shows_lines() const;
    std::string progress() const;
    std::string proofs_read() const;
    std::string cubes_refuted() const;
    std::string cubes_to_come() const;
    double fullness() const;
};

std::string format(const char *text, ...) __attribute__((format(printf, 1, 2)));
std::string grouped(uint64_t number);                    // 1,234,567
std::string counted(uint64_t number, const char *what);  // 1 clause, 2 clauses
std::vector<std::string> lines_of(const std::string &text);
std::string title(const std::string &path);
void tell_model(const std::vector<signed char> &model);  // the front

#endif
