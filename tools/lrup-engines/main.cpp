// lrup-engines: unverified and untrusted. The front starts it and lrupd, and prints the answer
// (tools/lrup-solve).
//
//     engine process --pipe: its proof--> filter process --file: LRUP--> first process --> lrupd
//           ^                                   |                             |
//           +------ outbox, shared memory <-----+                             +-- pipes -- front
//              each filter writes its own, each engine reads all
//
// The first process (run.cpp) reads the formula (inputs.cpp), starts engines and filters
// (teams.cpp), feeds lrupd (checker.cpp), goes from round to round (rounds.cpp), shows progress
// (display.cpp), and watches all processes. Whatever happens to one of them is an event of the
// first process's loop (loop.cpp). When the first process ends, all of them end.
//
// A function runs in the first process's main thread, unless the comment before it, or at the head
// of its file, names another process or thread: 'In the saver's process.' Helpers that several of
// them call, such as those of processes.cpp, run in each of these.
#include <csignal>

#include <fcntl.h>
#include <sys/prctl.h>
#include <unistd.h>

#include "options.h"
#include "run.h"

namespace {

const std::string ENDING = "-mpi";

// Overrides what the caller set. If SIGCHLD is ignored, no child can be waited for. A limit on the
// size of files counts as a full disk. A terminal may stop a process that writes to it from a
// background process group, such as this process's.
void set_signals() {
    signal(SIGCHLD, SIG_DFL);
    signal(SIGXFSZ, SIG_IGN);
    signal(SIGTTOU, SIG_IGN);
}

std::string program_for_mpi() {
    std::string path = own_path();
    if (path.empty()) refuse("cannot find this program's folder, which has lrup-engines-mpi");
    bool is_it = path.size() > ENDING.size() &&
                 path.compare(path.size() - ENDING.size(), ENDING.size(), ENDING) == 0;
    if (!is_it) path += ENDING;
    if (!is_program(path))
        refuse(quoted(path) + ": cannot be run: `make solve-mpi` builds lrup-engines-mpi");
    return path;
}

}  // namespace

// With --mpi, the program that the front has started becomes MPI's command, which starts
// lrup-engines-mpi. The command gets no input. When the front ends, SIGTERM makes the command end
// its processes.
void start_by_mpi(const Options &options, int count, char **words) {
    if (!options.mpi || front.is_elsewhere()) return;
    std::string program = program_for_mpi(),
                line = std::string("exec ") + options.mpi + " \"$0\" \"$@\"";
    std::vector<std::string> fronts = front.words();
    std::vector<const char *> list = { "sh", "-c", line.c_str(), program.c_str() };
    for (const std::string &word : fronts) list.push_back(word.c_str());
    list.insert(list.end(), words + 1, words + count + 1);
    prctl(PR_SET_PDEATHSIG, SIGTERM);
    dup2(open("/dev/null", O_RDONLY | O_CLOEXEC), STDIN_FILENO);
    execv("/bin/sh", const_cast<char **>(list.data()));
    refuse("cannot start /bin/sh: " + error_text());
}

// With all engines on this host. lrup-engines-mpi has another `solve` in place of this one.
__attribute__((weak)) int solve(int count, char **words) {
    if (front.is_there()) front.open();
    const Options options = read_words(count, words);
    if (!front.is_there()) refuse("this program has to be started by lrup-solve");
    start_by_mpi(options, count, words);
    return Run(options).solve(nullptr);
}

int main(int count, char **words) {
    test_hooks_read();
    hold_first_files();
    set_signals();
    front.find(count, words);
    if (front.is_there()) dup2(STDERR_FILENO, STDOUT_FILENO);  // for CaDiCaL's reports
    _exit(solve(count, words));
}
