// Unverified, like the whole solver. This header is common to the C++ files.
#ifndef SOLVE_H
#define SOLVE_H

#include <climits>
#include <cstdint>
#include <string>
#include <vector>

#include <sys/types.h>

#include "formula.h"
#include "shared.h"

extern const char *program_name;  // options.cpp

// options.cpp: the command line.
struct Options {
    int engines = 0;     // 0: half of the free cores; solvers are added later
    bool check = false;  // lrup-check: solvers are existing proofs
    int filters = 0;     // of the only proof; 0: depends on its length and the free cores
    // commands, or paths of proofs; they become the last engines, which share nothing
    std::vector<const char *> solvers;
    double seconds = 0;  // for the run; 0: no limit
    // bytes of lrupd's row: the usual and the largest size; 0: depends on the machine's memory
    uint64_t memory = 0, most_memory = 0;
    int share_size = 4;  // most literals of a clause that is given away; units always are
    bool share = true;
    int seed = 0;
    const char *proofs = nullptr, *assume = nullptr, *cubes = nullptr, *mpi = nullptr,
               *formula = nullptr;
    bool in_order = false;                        // all engines take the same cube of the file
    bool names_formula = false;                   // false: it is standard input
    const char *record = nullptr;                 // the user's folder of --proofs
    const char *resumed = nullptr;                // the folder of --resume
    double save_every = 0;                        // seconds after which a round ends
    std::string words;                            // the command line, quoted for a shell
    const char *core = nullptr, *lrat = nullptr;  // files to write
    bool rehint = false;                          // for core and LRAT text
    bool replace = false;       // even a record with a proof, or with rounds of an unfinished run
    bool with_formula = false;  // the record gets a copy of each input
    bool verbose = false, quiet = false;
    bool reports_progress = false;  // as lines of JSON

    bool may_be_resumed() const { return record && !check; }
    // `filters` is above 1 only if there are no other engines
    bool shares() const { return share && filters <= 1 && size_t(engines) > solvers.size() + 1; }
};

Options read_words(int count, char **words);
std::string version();  // one line

// processes.cpp: children, pipes and files.
// ends all children, prints one line on standard error, exits with 1
[[noreturn]] void refuse(const std::string &cause);
extern void (*on_refusal)();        // refuse calls it, except in children
extern bool is_reported_elsewhere;  // another process reports the cause, and its end ends this one
std::string error_text();           // of errno
double now();                       // seconds
int milliseconds_to(double time);   // for poll; -1 for INFINITY

struct Pipe {
    int read = -1, write = -1;
};

int kept_open(int file);  // by this process: a child keeps a file only if `begin` lists it
void close_all_but(const std::vector<int> &files);  // in a child
Pipe make_pipe(int bytes);                          // of this size, if the system allows it
void close_file(int &file);
int create_file(const std::string &path);         // a new file; an old one of that name is removed
int create_if_possible(const std::string &path);  // like that, but -1 if it fails
bool remove_file(const std::string &path);        // also true if there is none
bool rename_file(const std::string &path, const std::string &other);
std::string folder_of(const std::string &path);  // a file's, without links and detours
void create_pipe(const std::string &path);
// for writing, and removes its name; -1 if nobody reads it
int open_pipe(const std::string &path, int bytes);
// the cause if it can't be written, or ""
std::string write_file(const std::string &path, const std::string &text);
int file_in_memory();
std::string text_of(int file);  // from its beginning
int event_file();               // an eventfd, kept open in all children
const char OPEN_FILES[] = "/dev/fd/";
std::string name_of_file(int file);  // this process's descriptor, for other processes
void *shared_bytes(size_t bytes);    // shared with children that are forked later

template <typename Item> Item *shared_memory(size_t count) {
    return static_cast<Item *>(shared_bytes((count > 0 ? count : 1) * sizeof(Item)));
}

bool write_all(int file, const char *bytes, size_t length);
void copy_file(int file, const std::string &name, int copy);

const pid_t ELSEWHERE = INT_MAX;  // in place of the id of a process that isn't a child

struct Child {
    pid_t pid = 0;
    bool running = false;
    int status = 0;                 // as from wait
    double seconds = 0;             // processor time
    bool forwards_signals = false;  // forwards signals to a program of its own (solver.cpp)

    bool ended() const { return pid != 0 && !running; }
    bool ended_with(int code) const;
    std::string end() const;  // in words
    void signal(int number) const;
};

// true in the child, which keeps these files
bool begin(Child &child, const std::string &name, const std::vector<int> &kept);
[[noreturn]] void become(const std::vector<std::string> &words, int file);
bool reap(const std::vector<Child *> &children);  // notes the end of one; false: none ended
void wait_for(Child &child);
void end_children();
void raise_oom_score();  // makes the system kill this process first if memory is short

// folder.cpp: the run's temporary folder. It is removed however this process ends.
namespace Folder {
void make();  // if it hasn't been made yet
std::string make_if_possible();
const std::string &name();
std::string numbers();    // this process's id, and the folder's descriptor, for the front
std::string open_name();  // its name for other processes, in UTF-8
std::string room();       // the space left there, in words
void clear();             // for another lrupd
void remove();
}  // namespace Folder

// record.cpp: paths. An input is a path, or `-`.
bool is_plain(const std::string &word);
bool is_utf8(const std::string &text);
std::string quoted(const std::string &word);
std::string one_line(const std::string &text);  // safe for a terminal
std::string own_path();                         // this program's path; empty: not known
std::string absolute(const std::string &path);
std::string real_path(const std::string &folder);  // with a slash, without links; empty: not known
std::string unfinished(const std::string &path);   // the name until the file is whole
void check_input(const std::string &path);         // refuses what can't be read
// whether other processes can open it, as often as they like
bool is_read_again(const std::string &path);
// an input; how: more flags for `open`; -1: see errno
int open_if_possible(const std::string &path, int how = 0);
int open_input(const std::string &path);
void check_plain(const std::string &path, const std::string &name);  // refuses a compressed file

using Cube = std::vector<int>;  // literals as written

// engine.cpp: an engine's process. Doesn't return.
struct Engine {
    const Options *options;
    const Formula *formula;
    const std::vector<Literal> *assumed;
    const std::vector<Cube> *cubes;  // of the user's file
    Shared *shared;
    uint32_t *const *outboxes;  // by engine, from 0
    const Beginning *beginning;
    signed char *model;  // by variable, from 0: 1 true, -1 false
    int number, proof;   // from 1; the file
};

[[noreturn]] void engine_process(const Engine &engine);
extern const bool engines_have_hints;  // from CaDiCaL, depending on its version

// solver.cpp: a process for a user's solver, which opens these files.
std::string solver_command(const std::string &command, const std::string &formula,
                           const std::string &proof);
[[noreturn]] void solver_process(const Engine &engine, const std::string &command,
                                 const std::vector<int> &files);
// A proof that is copied to the pipes of its filters.
struct Proof {
    std::string path;
    int file = -1;  // of a proof that comes only once; -1: the path is opened
    int kept = -1;  // a file that has what was kept of it, and gets more if `keeps`
    bool keeps = false;
    std::vector<int> pipes;
};

// of lrup-check, or of a solver whose proof has several filters
[[noreturn]] void proof_process(const Engine &engine, const Proof &proof);

#endif
