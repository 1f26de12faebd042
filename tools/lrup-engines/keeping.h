// Unverified, like the whole solver. Uses of a complete proof: lrup-trim makes an unsatisfiable
// core and LRAT text, which lrupd then checks; lrup-explain shows why lrupd rejected a line.
#ifndef KEEPING_H
#define KEEPING_H

#include <functional>

#include "checker.h"
#include "display.h"
#include "inputs.h"

class Keeping {
  public:
    // waits for the child's end; false if this run is ended meanwhile
    using Wait = std::function<bool(Child &child)>;

    // An output of lrup-trim: a stream, and its formula.
    struct Output {
        std::string what, over, stream;
    };

    Keeping(Inputs &its_inputs, const Display &its_display)
        : inputs(its_inputs), display(its_display) {}
    void prepare(const std::string &program);  // before solving; program: lrupd
    // refuses outputs that can't be written; has_record: the record's folder exists
    void check_outputs(bool has_record) const;
    // Returns why the outputs aren't kept; empty if they are. lost: why the record is incomplete.
    std::string keep(bool is_proved, const std::string &lost, const Wait &wait) const;
    std::string describe(const Checker &checker, uint64_t rounds, const Wait &wait) const;
    void explain(const std::string &report, const Wait &wait) const;

  private:
    Inputs &inputs;
    const Display &display;
    std::string checker_program, folder;

    bool is_in_record(const std::string &path) const;
    bool is_wanted() const { return inputs.options.core || inputs.options.lrat; }
    void tell_comments(const std::string &said) const;
    std::string keep_if_right(const char *path, const Output &output, const Row *row,
                              const Wait &wait) const;
    std::vector<std::string> known_digests(const Checker &checker) const;
    bool wait_for_version(Child &child, std::string &said, const Wait &wait) const;
    std::string verdict_on(const Output &output, const Row *row, const Wait &wait) const;
};

#endif
