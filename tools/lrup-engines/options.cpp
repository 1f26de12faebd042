// Unverified, like the whole solver. The command line. The front, which reads it first, refuses
// unknown options, options without a value, wrong values of --time and --expect, and a second
// FORMULA, and answers --help and --version.
#include <algorithm>
#include <cerrno>
#include <cmath>
#include <cstdio>
#include <cstdlib>
#include <cstring>

#include "options.h"
#include "record.h"
#include "solve.h"
#include "with_cadical.h"

const char *program_name = "lrup-solve";

namespace {

const double USUAL_SAVING = 300;  // seconds

// What was given. If an option is given twice, the last value counts.
struct {
#define FLAG(place, name, code, alone) bool place;
#define VALUE(place, name, code, alone) const char *place;
#define VALUES(place, name, code, alone) Texts place;
#include "../lrup-solve/options.def"
    const char *engines;
    Texts files;
} given;

[[noreturn]] void bad_value(const std::string &name, const std::string &wanted, const char *value) {
    refuse(name + " takes " + wanted + ", not " + quoted(value));
}

uint64_t number(const char *name, const char *value, uint64_t least, uint64_t most,
                uint64_t usual) {
    if (!value) return usual;
    uint64_t found = 0;
    std::string range = std::to_string(least) + " to " + std::to_string(most);
    const char *at = value;
    for (; *at >= '0' && *at <= '9'; at++) {
        found = 10 * found + uint64_t(*at - '0');
        if (found > most) bad_value(name, range, value);
    }
    if (at == value || *at != 0 || found < least) bad_value(name, range, value);
    return found;
}

// The front ends the run some seconds after this limit.
double seconds(const char *name, const char *value, double usual) {
    if (!value) return usual;
    char *end;
    errno = 0;
    double found = strtod(value, &end);
    bool digits = strspn(value, "0123456789.") == strlen(value);
    if (!digits || end == value || *end != 0 || errno != 0 || !(found > 0) || !std::isfinite(found))
        bad_value(name, "seconds above 0", value);
    return found;
}

uint64_t bytes(const std::string &value, uint64_t least) {
    uint64_t found = memory_read(value.c_str());
    if (found == 0) bad_value("--memory", "bytes, such as 2000000000, 2000M or 2G", value.c_str());
    if (found > MOST_MEMORY) bad_value("--memory", "at most 2147483648 bytes", value.c_str());
    if (found < least)
        bad_value("--memory", "a second number that isn't below the first", value.c_str());
    return found;
}

// SIZE, or SIZE,MOST.
void read_memory(Options &options, const std::string &value) {
    size_t comma = value.find(',');
    options.memory = bytes(value.substr(0, comma), 0);
    options.most_memory =
        comma == std::string::npos ? 0 : bytes(value.substr(comma + 1), options.memory);
}

[[noreturn]] void show(const std::string &text) {
    fputs(text.c_str(), stdout);
    if (fflush(stdout) != 0) refuse("cannot write to standard output: " + error_text());
    exit(0);
}

const char *solver_of(const char *value) {
    if (!strstr(value, "%formula") || !strstr(value, "%proof"))
        bad_value("--solver", "a command with both %formula and %proof", value);
    return value;
}

[[noreturn]] void refuse_word(const char *cause, const char *word) {
    refuse(std::string(cause) + " " + quoted(word));
}

void read_options(int count, char **words) {
    const Option list[] = {
#define FLAG(place, name, code, alone) { name, 0, &given.place, nullptr, nullptr },
#define VALUE(place, name, code, alone) { name, 0, nullptr, &given.place, nullptr },
#define VALUES(place, name, code, alone) { name, 0, nullptr, nullptr, &given.place },
#include "../lrup-solve/options.def"
        { nullptr, 'j', nullptr, &given.engines, nullptr },
        { nullptr, 'q', &given.quiet, nullptr, nullptr },
        { nullptr, 'v', &given.verbose, nullptr, nullptr },
        {},
    };
    options_read(list, count, words, &given.files, true, refuse_word);
    if (given.version) show(version() + "\n");
}

// lrup-check refuses options of engines, since it starts no engine and no solver.
void check_options_of_check() {
    auto refuse_if = [](bool is_alone, bool is_given, const char *name) {
        if (is_alone && is_given)
            refuse(name + std::string(" is lrup-solve's: lrup-check starts no engine"));
    };
#define FLAG(place, name, code, alone) refuse_if(alone, given.place, "--" name);
#define VALUE(place, name, code, alone) refuse_if(alone, given.place, "--" name);
#define VALUES(place, name, code, alone) refuse_if(alone, given.place.length > 0, "--" name);
#include "../lrup-solve/options.def"
}

void read_values(Options &options) {
    options.proofs = given.proofs;
    options.assume = given.assume;
    options.cubes = given.cubes;
    options.in_order = given.cubes_in_order;
    options.mpi = given.mpi;
    options.resumed = given.resume;
    options.core = given.core;
    options.lrat = given.lrat;
    options.rehint = given.rehint;
    options.replace = given.replace;
    options.with_formula = given.with_formula;
    options.verbose = given.verbose;
    options.quiet = given.quiet;
    options.share = !given.no_share;
    int count = int(number("-j", given.engines, 1, MOST_ENGINES, 0));
    (options.check ? options.filters : options.engines) = count;
    if (given.filters)
        options.filters = int(number("--filters", given.filters, 1, MOST_ENGINES, 0));
    options.share_size = int(number("--share-size", given.share_size, 0, 1000, 4));
    options.seed = int(number("--seed", given.seed, 0, 1000000000, 0));
    options.seconds = seconds("--time", given.time, 0);
    options.save_every = seconds("--save-every", given.save_every, USUAL_SAVING);
    if (given.memory) read_memory(options, given.memory);
    options.reports_progress = given.progress != nullptr;
    if (given.progress && strcmp(given.progress, "json") != 0)
        refuse("--progress takes json, not " + quoted(given.progress));
    for (size_t k = 0; k < given.solvers.length; k++)
        options.solvers.push_back(solver_of(given.solvers.items[k]));
}

// The first file is the formula; others are proofs.
void take_files(Options &options) {
    const Texts &files = given.files;
    options.names_formula = files.length > 0;
    options.formula = options.names_formula ? files.items[0] : "-";
    for (size_t k = 1; k < files.length; k++) options.solvers.push_back(files.items[k]);
    if (!options.check) return;
    auto is_standard_input = [](const char *word) { return strcmp(word, "-") == 0; };
    auto inputs = std::count_if(options.solvers.begin(), options.solvers.end(), is_standard_input);
    if (inputs + is_standard_input(options.formula) > 1)
        refuse("standard input can be read only once");
}

// --resume continues a record, which takes the place of --proofs.
void check_resumed(Options &options) {
    if (options.proofs)
        refuse("--resume and --proofs: a resumed run keeps its streams where it kept them before");
    if (options.replace) refuse("--resume and --replace: nothing is replaced");
    options.proofs = options.resumed;
}

void check_engines(const Options &options) {
    if (options.solvers.size() + size_t(options.engines) > MOST_ENGINES)
        refuse("more than 64 engines, including solvers");
    if (given.filters && (options.solvers.size() != 1 || options.engines > 0))
        refuse("--filters takes a single --solver, and no engines");
    if (options.cubes && options.engines == 0 && !options.solvers.empty())
        refuse("--cubes without engines: -j sets their number");
    if (options.cubes && !options.share && options.engines != 1)
        refuse("--cubes and --no-share: refuted cubes are shared");
    if (options.in_order && !options.cubes) refuse("--cubes-in-order without --cubes");
    if (options.in_order && (!options.solvers.empty() || options.mpi))
        refuse("--cubes-in-order takes only engines of this host");
    if (!options.solvers.empty() && options.mpi)
        refuse("--solver and --mpi: a solver shares nothing with engines elsewhere");
    if (!options.solvers.empty() && options.assume && !options.check)
        refuse("--assume and --solver: a solver doesn't get the assumptions");
}

}  // namespace

std::string version() { return std::string(program_name) + " " VERSION WITH_CADICAL; }

// lrup-check passes --check as the first word.
Options read_words(int count, char **words) {
    Options options;
    options.words = program_name;
    for (int k = 1; k < count; k++) options.words += " " + quoted(words[k]);
    options.check = count > 1 && strcmp(words[1], "--check") == 0;
    if (options.check) program_name = "lrup-check";
    read_options(count - options.check, words + options.check);
    if (options.check) check_options_of_check();
    read_values(options);
    take_files(options);
    if (options.resumed) check_resumed(options);
    options.record = options.proofs;
    if (options.rehint && !options.core && !options.lrat)
        refuse("--re-hint without --core or --lrat");
    if (options.replace && !options.proofs) refuse("--replace without --proofs");
    if (options.replace && is_numbered(options.proofs))
        refuse("--replace and %n in --proofs: each run has a folder of its own");
    if (options.with_formula && !options.proofs)
        refuse("--with-formula without --proofs or --resume");
    if (given.save_every && !options.proofs) refuse("--save-every without --proofs or --resume");
    check_engines(options);
    return options;
}
