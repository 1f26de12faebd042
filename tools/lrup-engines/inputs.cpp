// Unverified, like the whole solver. Reads the formula and the assumptions.
#include <algorithm>
#include <cerrno>
#include <cmath>
#include <cstdio>
#include <cstdlib>
#include <cstring>
#include <fstream>
#include <iomanip>
#include <iterator>
#include <set>
#include <sstream>

#include <pthread.h>
#include <unistd.h>

#include "checker.h"
#include "display.h"
#include "inputs.h"
#include "packed.h"

namespace {

const int LONGEST_NUMBER = 21;

const Inputs *the_inputs;

// A thread reads the formula, and then signals `read_file`; a fault ends the run. The thread may
// find a fault before the main thread knows that the thread has started.
thread_local bool is_reader = false;
int read_file = -1;
std::string refusal;

// In the reading thread.
void end_reading() {
    uint64_t one = 1;
    while (write(read_file, &one, sizeof one) < 0 && errno == EINTR) {}
}

// In the reading thread or in the main one.
void refused(const char *cause) {
    if (!is_reader) the_inputs->refuse_formula(cause);
    refusal = cause;
    end_reading();
    for (;;) pause();
}

}  // namespace

Inputs::Inputs(const Options &given) : options(given) {
    the_inputs = this;
    errors_handle(refused);
}

// If the front couldn't open an input, its name for it has the number of the error.
static void check_opened(const std::string &path, const std::string &fronts) {
    size_t number = fronts.rfind("/fd/-");
    if (number != std::string::npos)
        refuse(quoted(path) + ": " + strerror(atoi(fronts.c_str() + number + strlen("/fd/-"))));
}

// A path from which the input can be read more than once. The front has copied an input that isn't
// a file on disk, or is packed.
static std::string rereadable_path(const std::string &path, const std::string &fronts) {
    if (!is_read_again(path) || packer_of(path.c_str())) return fronts;
    return path[0] == '-' ? "./" + path : path;
}

// Nothing in the folder is changed yet.
void Inputs::find() {
    std::vector<std::string> inputs = { options.formula };
    if (options.assume) inputs.push_back(options.assume);
    if (options.cubes) inputs.push_back(options.cubes);
    if (options.check) inputs.insert(inputs.end(), options.solvers.begin(), options.solvers.end());
    check_opened(inputs[0], front.formula);
    if (options.assume) check_opened(inputs[1], front.assumptions);
    for (const std::string &path : inputs) check_input(path);
    if (options.resumed)
        find_again(inputs);
    else if (options.proofs) {
        if (is_numbered(options.proofs)) {
            numbered = make_numbered(options.proofs);
            options.record = options.proofs = numbered.c_str();
        }
        open_record(options.proofs, inputs, options.replace);
    }
    formula_path = rereadable_path(inputs[0], front.formula);
    if (options.assume) assume_path = rereadable_path(inputs[1], front.assumptions);
}

// Whether the record gets a copy of this input: of one that the front has copied, since it can't be
// read again; with --with-formula of any, unless the record has it already.
bool Inputs::is_copied(const std::string &path, const std::string &fronts,
                       const char *kept_as) const {
    const std::string copied = std::string(options.proofs) + "/" + kept_as;
    return path == fronts ||
           (options.with_formula && std::count(copies.begin(), copies.end(), copied) == 0);
}

std::string Inputs::begin_copy(const std::string &path, const char *kept_as) {
    std::string copied = std::string(options.proofs) + "/" + kept_as;
    copies.push_back(copied);
    int file = open_input(path), copy = create_file(unfinished(copied));
    copy_file(file, kept_as, copy);
    close(file);
    close_file(copy);
    return copied;
}

static void end_copy(const std::string &copied) {
    if (!rename_file(unfinished(copied), copied))
        refuse("cannot write " + copied + ": " + error_text());
}

void Inputs::keep() {
    if (!options.proofs) return;
    bool has_formula = is_copied(formula_path, front.formula, COPY_OF_FORMULA),
         has_assumptions =
             options.assume && is_copied(assume_path, front.assumptions, COPY_OF_ASSUMPTIONS);
    if (has_formula) formula_path = begin_copy(formula_path, COPY_OF_FORMULA);
    if (has_assumptions) assume_path = begin_copy(assume_path, COPY_OF_ASSUMPTIONS);
    if (has_formula) end_copy(formula_path);
    if (has_assumptions) end_copy(assume_path);
    std::vector<std::string> kept = { formula_path, assume_path };
    kept.insert(kept.end(), copies.begin(), copies.end());
    if (options.resumed) kept.push_back(path_of_digests());
    for (const std::string &path : saved.paths()) kept.push_back(path);
    clear_record(options.proofs, kept);
    digests = digest_line(digest_of_formula, formula_path);
    if (options.assume) digests += digest_line(digest_of_assumptions, assume_path);
    std::string unwritten = write_file(path_of_digests(), digests);
    if (!unwritten.empty()) refuse(unwritten);
}

std::string Inputs::path_of_digests() const {
    return std::string(options.proofs) + "/formula.sha256";
}

// Refuses a record of another formula or other assumptions before anything in it is touched. A run
// that ended while it read its inputs has left no digests.
void Inputs::check_digests() {
    const std::string path = path_of_digests(), name[] = { "formula", "assumptions" };
    if (saved.count() == 0 && !is_there(path)) return;
    const std::string *const files[] = { &front.formula, &front.assumptions };
    std::string line, text, fault = read_in_record(path.substr(path.rfind('/') + 1), text);
    if (!fault.empty() && is_there(path)) refuse(path + fault + NOT_RESUMED);
    std::istringstream lines(text);
    for (size_t k = 0; k < 1 + size_t(options.assume != nullptr); k++) {
        int file = open_input(*files[k]);
        std::string digest = digest_of(file, name[k]);
        close(file);
        if (!std::getline(lines, line))
            refuse(path + " doesn't have the SHA-256 of the " + name[k] + NOT_RESUMED);
        bool is_its = line.compare(line[0] == '\\', BEFORE_NAME, digest + "  ") == 0;
        if (!is_its && k == 0 && !options.names_formula)
            refuse("name the formula: lrup-solve --resume " + quoted(options.resumed) + " FORMULA");
        if (!is_its)
            refuse(title(k == 0 ? options.formula : options.assume) + " isn't the " + name[k] +
                   " of " + options.resumed + ", or was changed since");
    }
    if (std::getline(lines, line))
        refuse(std::string(options.resumed) + " is the record of a run with --assume");
}

void Inputs::find_again(const std::vector<std::string> &inputs) {
    open_record_again(options.resumed);
    saved.read(options.resumed);
    check_digests();
    check_inputs_again(options.resumed, inputs);
}

void Inputs::read(const Meanwhile &meanwhile) {
    check_plain(formula_path, title(options.formula));
    double begun = now();
    read_in_thread(meanwhile);
    reading = now() - begun;
    if (options.assume) read_assumptions();
    if (options.cubes) read_cubes();
}

// Reading a large formula takes seconds, during which a signal ends the run at once. No process has
// been started yet.
void Inputs::read_in_thread(const Meanwhile &meanwhile) {
    auto begin = [](void *inputs) -> void * {  // in the thread
        is_reader = true;
        static_cast<Inputs *>(inputs)->read_formula();
        end_reading();
        return nullptr;
    };
    pthread_t reader;
    read_file = event_file();
    if (pthread_create(&reader, nullptr, begin, this) != 0) return read_formula();
    meanwhile(read_file);
    if (!refusal.empty()) refuse_formula(refusal);
    pthread_join(reader, nullptr);
}

// In the reading thread, if it could be started. Reads the formula under a short name, so that
// messages about it aren't cut off.
void Inputs::read_formula() {
    int file = open_input(formula_path);
    formula_read(&formula, (OPEN_FILES + std::to_string(file)).c_str());
    close(file);
    first_formula = formula;
    if (saved.count() > 0) {
        saved.check(saved.checkpoint());
        read_first_formula(saved.checkpoint());
    }
    if (!options.proofs) return;
    digest_of_formula = digest_of_file(formula_path);
    if (options.assume) digest_of_assumptions = digest_of_file(assume_path);
    find_copy(COPY_OF_FORMULA, digest_of_formula);
    if (options.assume) find_copy(COPY_OF_ASSUMPTIONS, digest_of_assumptions);
}

// In the reading thread, like its caller. A resumed run keeps the record's copy of an input, even
// if the input was now given as another file.
void Inputs::find_copy(const char *name, const std::string &digest) {
    int file = options.resumed ? open_in_record(name) : -1;
    if (file >= 0 && fault_of_file(file).empty() && digest_of(file, name) == digest)
        copies.push_back(std::string(options.resumed) + "/" + name);
    if (file >= 0) close(file);
}

// In the reading thread, like its caller. The checkpoint begins with the formula's own clauses,
// which no round drops.
void Inputs::read_first_formula(const std::string &path) {
    first_formula = Formula();
    formula_read(&first_formula, path.c_str());
    if (first_formula.variables != formula.variables || first_formula.clauses < formula.clauses)
        refuse(path + " doesn't belong to this formula" + NOT_RESUMED);
}

// Whether the literals are separated correctly is for lrupd to judge.
void Inputs::read_assumptions() {
    std::ifstream file(assume_path);
    std::string word, name = title(options.assume);
    int literal = 0;
    while (file >> std::setw(LONGEST_NUMBER) >> word && word != "0") {
        const int next = file.peek();
        const std::string shown = word + (next == EOF || isspace(next) ? "" : "..");
        if (!number_read(word.c_str(), &literal)) refuse_formula(name + ": not a number: " + shown);
        if (std::abs(literal) > formula.variables)
            refuse_formula(name + ": the literal " + shown +
                           ", but the formula has the variables 1 to " +
                           std::to_string(formula.variables));
        assumed.push_back(literal_of(literal));
    }
    if (word != "0") refuse_formula(name + ": no line of literals that ends with 0");
    if (assumed.empty()) return;
    assumed.resize(literals_sort(assumed.data(), assumed.size()));
}

// Reads iCNF, and skips a header, comments and clauses. Cubes aren't trusted, so no spelling that
// makes sense is refused.
void Inputs::read_cubes() {
    std::string name = title(options.cubes), line, before;
    check_plain(options.cubes, name);
    std::ifstream file(options.cubes);
    bool has_cube = false;
    for (uint64_t number = 1; std::getline(file, line); number++, before = line) {
        if (!read_cube(line, has_cube))
            refuse(name + ", line " + std::to_string(number) +
                   ": not a cube of the formula's literals, like 'a 1 -2 0'");
        if (cube_names.size() < cubes.size()) name_cube(before);
    }
    if (file.bad()) refuse("cannot read " + name + ": " + error_text());
    if (!has_cube) refuse(name + ": no cube: no line is like 'a 1 -2 0'");
}

// The last cube has the name in a comment on the line before it.
void Inputs::name_cube(const std::string &before) {
    bool has_name = before.size() > 2 && before.compare(0, 2, "c ") == 0;
    cube_names.push_back(has_name ? before.substr(2)
                                  : "cube " + std::to_string(cube_names.size() + 1));
}

// False if the line can't belong to an iCNF file.
bool Inputs::read_cube(const std::string &line, bool &has_cube) {
    static const std::string others = "cp-0123456789";
    std::istringstream words(line);
    std::string word;
    std::set<Literal> found;
    if (!(words >> word)) return true;
    if (word != "a") return others.find(word[0]) != std::string::npos;
    bool is_open = has_cube = true;
    for (int literal = 0; words >> word && word != "0";) {
        if (!number_read(word.c_str(), &literal) || std::abs(literal) > formula.variables ||
            literal == 0)
            return false;
        Literal one = literal_of(literal);
        is_open &= !found.count(complement_of(one)) &&
                   !std::binary_search(assumed.begin(), assumed.end(), complement_of(one));
        if (!std::binary_search(assumed.begin(), assumed.end(), one)) found.insert(one);
    }
    bool is_ended = word == "0" && !(words >> word);
    Cube cube;
    for (Literal literal : found) cube.push_back(as_written(literal));
    if (is_open && is_ended) cubes.push_back(cube);
    return is_ended;
}

// lrupd accepts one line, with single spaces and LF.
std::string Inputs::fault_of_assumptions() const {
    std::ifstream file(assume_path);
    std::string text((std::istreambuf_iterator<char>(file)), std::istreambuf_iterator<char>());
    size_t end = text.find('\n');
    bool is_spaced = text.find("  ") != std::string::npos || text.find('\t') != std::string::npos ||
                     text[0] == ' ' || text.find(" \n") != std::string::npos;
    if (text.find('\r') != std::string::npos)
        return ": it has a CR, but lines must end with LF only";
    if (end == std::string::npos) return ": no LF at its end";
    if (end + 1 < text.size()) return ": a second line";
    return is_spaced ? ": more than single spaces between its literals" : "";
}

double Inputs::deadline() const {
    return options.seconds > 0 ? started + options.seconds : INFINITY;
}

// No clause, and so no proof, can show that assumptions contradict each other.
std::string Inputs::contradiction() const {
    for (size_t k = 1; k < assumed.size(); k++)
        if (assumed[k] == complement_of(assumed[k - 1]))
            return format("assumptions %d and %d contradict each other, which no proof can show",
                          as_written(assumed[k - 1]), as_written(assumed[k]));
    return "";
}

bool Inputs::is_model(const signed char *values) const {
    auto is_true = [&](Literal literal) {
        return values[variable_of(literal)] == (literal & 1 ? -1 : 1);
    };
    if (!std::all_of(assumed.begin(), assumed.end(), is_true)) return false;
    const Literal *all = formula.literals.items;
    for (size_t k = 0; k < formula.clauses; k++)
        if (!std::any_of(all + formula.starts.items[k], all + formula.starts.items[k + 1], is_true))
            return false;
    return true;
}

// The cause, with the formula's name in place of the short one.
std::string Inputs::named(const std::string &cause) const {
    size_t begin = strlen(OPEN_FILES);
    if (cause.rfind(OPEN_FILES, 0) != 0) return cause;
    return title(options.formula) + cause.substr(cause.find_first_not_of("0123456789", begin));
}

// Prints lrupd's refusal, and also the cause that was found here.
void Inputs::refuse_formula(const std::string &cause) const {
    std::string said = front.await_refusal(deadline());
    if (said.empty()) refuse(named(cause));
    end_children();
    fprintf(stderr, "%s (%s)\n", one_line(said).c_str(), one_line(named(cause)).c_str());
    front.say("refused");
    _exit(1);
}
