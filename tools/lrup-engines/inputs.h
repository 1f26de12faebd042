// Unverified, like the whole solver. What is to be solved: the options, the formula and the
// assumptions.
#ifndef INPUTS_H
#define INPUTS_H

#include <functional>

#include "record.h"

class Inputs {
  public:
    Options options;
    Formula formula = {};
    SavedRounds saved;           // of the earlier run that this one resumes
    Formula first_formula = {};  // the formula of this run's first round
    std::vector<Literal> assumed;
    std::vector<Cube> cubes;                // without contradictory ones
    std::vector<std::string> cube_names;    // for messages
    std::string formula_path, assume_path;  // to read them again
    double reading = 0;                     // seconds that reading the formula took
    std::string digests;                    // of both files, a line each, for the record
    const double started = now();           // the run

    explicit Inputs(const Options &given);
    void find();  // the inputs' paths; opens the folder of --proofs
    bool has_number() const { return !numbered.empty(); }  // the folder's name
    using Meanwhile = std::function<void(int file)>;       // runs until the file can be read
    void read(const Meanwhile &meanwhile);
    // Keeps in the record what can't be read again, or with --with-formula all inputs, and removes
    // what an earlier run left there.
    // Call once all inputs are accepted: until then the record stays as it was.
    void keep();
    void read_formula();
    void read_first_formula(const std::string &path);
    double deadline() const;            // set by --time; INFINITY without it
    std::string contradiction() const;  // of the assumptions; or ""
    bool is_model(const signed char *values) const;
    std::string fault_of_assumptions() const;  // in the file's layout; "" if unknown
    // in lrupd's words, if lrupd refuses it, too
    [[noreturn]] void refuse_formula(const std::string &cause) const;

  private:
    std::string digest_of_formula, digest_of_assumptions;
    std::vector<std::string> copies;  // in the record, of these inputs
    std::string numbered;             // the folder, if --proofs has %n

    void find_again(const std::vector<std::string> &inputs);
    std::string path_of_digests() const;
    void check_digests();
    void read_in_thread(const Meanwhile &meanwhile);
    void find_copy(const char *name, const std::string &digest);
    bool is_copied(const std::string &path, const std::string &fronts, const char *kept_as) const;
    std::string begin_copy(const std::string &path, const char *kept_as);
    void read_assumptions();
    void read_cubes();
    bool read_cube(const std::string &line, bool &has_cube);
    void name_cube(const std::string &before);
    std::string named(const std::string &cause) const;
};

#endif
