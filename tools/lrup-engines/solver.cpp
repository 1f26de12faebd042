// Unverified, like the whole solver. In an engine's process, except `run_shell` and
// `solver_command`. A solver of the user's: a command that the shell runs, in its own process
// group. An engine's process starts it and reads its answer; the proof goes to the filter, like an
// engine's.
#include <algorithm>
#include <cctype>
#include <cerrno>
#include <csignal>
#include <cstdlib>
#include <fstream>

#include <fcntl.h>
#include <poll.h>
#include <sys/prctl.h>
#include <sys/signalfd.h>
#include <sys/statvfs.h>
#include <sys/wait.h>
#include <unistd.h>

#include "errors.h"
#include "packed.h"
#include "solve.h"

namespace {

const size_t LONGEST_WORD = 64;  // longer words are cut
const uint64_t TIMES_LEFT = 3;
const char SATISFIABLE_LINE[] = "SATISFIABLE", UNSATISFIABLE_LINE[] = "UNSATISFIABLE";

// The lines `s` and `v` of a solver's output, read word by word, since a line may be very long.
class Printed {
  public:
    explicit Printed(const Engine &engine)
        : variables(engine.formula->variables), model(engine.model) {
        std::fill(model, model + variables, -1);  // variables that it leaves out are false
    }

    void read_from(int &file) {
        char bytes[4096];
        ssize_t count;
        while ((count = read(file, bytes, sizeof bytes)) > 0)
            for (ssize_t k = 0; k < count; k++) take(bytes[k]);
        if (count == 0) take('\n'), close_file(file);
    }

    // 10, 20, or 0 for no answer. The status decides if it is 10 or 20, otherwise the line `s`. A
    // status that this line contradicts, or 10 without an assignment, is no answer.
    int answer(int status) const {
        bool satisfiable = verdict == SATISFIABLE_LINE,
             unsatisfiable = verdict == UNSATISFIABLE_LINE;
        if (says_satisfiable(status)) return has_values ? 10 : 0;
        return (status == 20 && !satisfiable) || (unsatisfiable && status != 10) ? 20 : 0;
    }

    bool is_unfounded(int status) const { return says_satisfiable(status) && !has_values; }

  private:
    int variables;
    signed char *model;
    std::string word, first, verdict;  // first: the line's first word
    bool has_values = false;

    bool says_satisfiable(int status) const {
        return (status == 10 && verdict != UNSATISFIABLE_LINE) ||
               (status != 20 && verdict == SATISFIABLE_LINE);
    }

    void take(char letter) {
        bool ends = isspace(static_cast<unsigned char>(letter));
        if (!ends && word.size() < LONGEST_WORD) word += letter;
        if (ends && !word.empty()) take_word();
        if (letter == '\n') first.clear();
    }

    void take_word() {
        if (first.empty())
            first = word;
        else if (first == "s")
            verdict = word;
        else if (first == "v")
            take_value();
        word.clear();
    }

    void take_value() {
        int literal;
        if (!number_read(word.c_str(), &literal)) return;
        has_values = true;
        if (literal != 0 && std::abs(literal) <= variables)
            model[std::abs(literal) - 1] = literal > 0 ? 1 : -1;
    }
};

// The last nonempty line of a solver's standard error; only the beginning if the line is long.
class LastLine {
  public:
    void read_from(int &file) {
        char bytes[4096];
        ssize_t count = -1;
        while (file >= 0 && (count = read(file, bytes, sizeof bytes)) > 0)
            for (ssize_t k = 0; k < count; k++) take(bytes[k]);
        if (file >= 0 && count == 0) close_file(file);
    }

    void copy_to(char (&place)[LONGEST_CAUSE]) const {
        const std::string &found = line.empty() ? last : line;
        found.copy(place, found.size());
    }

  private:
    std::string line, last;

    void take(char letter) {
        if (letter == '\n' && !line.empty()) last = std::move(line);
        if (letter == '\n')
            line.clear();
        else if (line.size() < LONGEST_CAUSE - 1)
            line += letter;
    }
};

// In the solver's process.
[[noreturn]] void run_shell(const std::string &command, const std::vector<int> &files, int out,
                            int error) {
    setpgid(0, 0);
    prctl(PR_SET_PDEATHSIG, SIGKILL);
    sigset_t none;
    sigemptyset(&none);
    sigprocmask(SIG_SETMASK, &none, nullptr);
    signal(SIGINT, SIG_DFL);
    dup2(open("/dev/null", O_RDONLY), STDIN_FILENO);
    dup2(out, STDOUT_FILENO);
    if (error >= 0) dup2(error, STDERR_FILENO);
    for (int file : files) fcntl(file, F_SETFD, 0);  // the command opens them by their numbers
    execl("/bin/sh", "sh", "-c", command.c_str(), nullptr);
    _exit(127);
}

// Signals for the solver come to this process: SIGTERM instead of SIGKILL, and SIGTSTP instead of
// SIGSTOP.
int open_signals() {
    sigset_t taken;
    sigemptyset(&taken);
    for (int number : { SIGTERM, SIGTSTP, SIGCONT, SIGCHLD }) sigaddset(&taken, number);
    sigprocmask(SIG_BLOCK, &taken, nullptr);
    prctl(PR_SET_PDEATHSIG, SIGTERM);
    prctl(PR_SET_CHILD_SUBREAPER, 1);
    return signalfd(-1, &taken, SFD_CLOEXEC | SFD_NONBLOCK);
}

// True if the solver has to be ended.
bool forward(int signals, pid_t group) {
    signalfd_siginfo found;
    bool ends = false;
    while (read(signals, &found, sizeof found) == sizeof found) {
        if (found.ssi_signo == SIGTSTP) kill(-group, SIGSTOP);
        if (found.ssi_signo == SIGCONT) kill(-group, SIGCONT);
        ends |= found.ssi_signo == SIGTERM;
    }
    return ends;
}

// Ends what the solver has left, too: its orphans are children of this process. Until the group
// gets the signal, nobody has waited for its leader, so no other process or group can have that id.
// Returns the leader's status, as from wait.
int end_all(pid_t group) {
    int status = 0;
    kill(-group, SIGKILL);
    while (waitpid(group, &status, 0) < 0 && errno == EINTR) {}
    while (waitpid(-group, nullptr, 0) > 0 || errno == EINTR) {}
    for (bool any = true; any;) {
        std::ifstream list("/proc/thread-self/children");
        any = false;
        for (pid_t child; list >> child; any = true) kill(child, SIGKILL);
        if (any) waitpid(-1, nullptr, 0);
    }
    return status;
}

// Whether the process has ended. It isn't waited for.
bool has_ended(pid_t pid) {
    siginfo_t end = {};
    return waitid(P_PID, id_t(pid), &end, WEXITED | WNOHANG | WNOWAIT) == 0 && end.si_pid == pid;
}

// The status, as from wait; 0 if the solver has to be ended.
int wait_for_solver(pid_t group, int signals, int out, int error, Printed &printed,
                    LastLine &last) {
    bool is_told = false, is_over = false;
    while (!is_told && !is_over) {
        pollfd list[] = { { signals, POLLIN, 0 }, { out, POLLIN, 0 }, { error, POLLIN, 0 } };
        poll(list, 3, -1);
        is_told = forward(signals, group);
        is_over = !is_told && has_ended(group);
        if (out >= 0) printed.read_from(out);
        last.read_from(error);
    }
    int status = end_all(group);
    return is_over ? status : 0;
}

}  // namespace

// In the first process. Neither path needs quotes, and both also work within quotes. Inserted paths
// aren't searched again.
std::string solver_command(const std::string &command, const std::string &formula,
                           const std::string &proof) {
    static const std::string names[] = { "%formula", "%proof" };
    const std::string *values[] = { &formula, &proof };
    std::string found;
    for (size_t at = 0; at < command.size();) {
        size_t k = 0;
        while (k < 2 && command.compare(at, names[k].size(), names[k]) != 0) k++;
        found += k < 2 ? *values[k] : command.substr(at, 1);
        at += k < 2 ? names[k].size() : 1;
    }
    return found;
}

// Holds the proof open until the answer is stored. With -v the solver's standard error is the
// user's.
void solver_process(const Engine &engine, const std::string &command,
                    const std::vector<int> &files) {
    Printed printed(engine);
    LastLine last;
    int signals = open_signals();
    Pipe out = make_pipe(0), error;
    if (!engine.options->verbose) error = make_pipe(0);
    for (int file : { out.read, error.read }) fcntl(file, F_SETFL, O_NONBLOCK);
    pid_t pid = signals < 0 ? -1 : fork();
    if (pid == 0) run_shell(command, files, out.write, error.write);
    if (pid < 0) _exit(127);
    setpgid(pid, pid);
    STORE(engine.shared->engine_statuses[engine.number - 1].group, pid);
    close_file(out.write);
    close_file(error.write);
    int status = wait_for_solver(pid, signals, out.read, error.read, printed, last);
    STORE(engine.shared->engine_statuses[engine.number - 1].group, 0);
    last.copy_to(engine.shared->engine_statuses[engine.number - 1].stderr_end);
    int exited = WIFEXITED(status) ? WEXITSTATUS(status) : 0, answer = printed.answer(exited);
    if (printed.is_unfounded(exited))
        STORE(engine.shared->engine_statuses[engine.number - 1].lacks_assignment, 1);
    if (answer != 0) STORE(engine.shared->engine_statuses[engine.number - 1].answer, answer);
    if (WIFEXITED(status)) _exit(WEXITSTATUS(status));
    signal(WTERMSIG(status), SIG_DFL);
    sigset_t none;
    sigemptyset(&none);
    sigprocmask(SIG_SETMASK, &none, nullptr);
    raise(WTERMSIG(status));
    _exit(127);
}

// In a process that copies a proof: which, and what the first process knows of it.
static EngineStatus *proof_status;
static std::string proof_name;

// In that process. The first process says why the proof can't be read, and names it.
static void end_unread(const char *cause) {
    std::string text = cause, name = proof_name + ": ";
    if (text.compare(0, name.size(), name) == 0) text.erase(0, name.size());
    text.copy(proof_status->stderr_end, LONGEST_CAUSE - 1);
    _exit(1);
}

namespace {

// The pipes of filters that share a proof. A pipe whose filter has ended is left out.
class ProofPipes {
  public:
    explicit ProofPipes(const std::vector<int> &files) {
        signal(SIGPIPE, SIG_IGN);
        for (int file : files) {
            fcntl(file, F_SETFL, O_NONBLOCK);
            list.push_back({ file, POLLOUT, 0 });
        }
    }

    // Waits for bytes of the proof. False if no filter is left.
    bool await(int proof) {
        while (is_any_left()) {
            std::vector<pollfd> files = { { proof, POLLIN, 0 } };
            for (const pollfd &one : list) files.push_back({ one.fd, 0, 0 });  // errors only
            if (poll(files.data(), files.size(), -1) < 0) continue;
            for (size_t k = 0; k < list.size(); k++)
                if (files[k + 1].revents != 0) close_file(list[k].fd);
            if (files[0].revents != 0) return true;
        }
        return false;
    }

    // A pipe may be full while others need these bytes, so none waits for another one within them.
    // False if no filter is left.
    bool write(const char *bytes, size_t length) {
        std::vector<size_t> written(list.size());
        for (;;) {
            std::vector<pollfd> full;
            for (size_t k = 0; k < list.size(); k++) {
                if (list[k].fd >= 0) write_to(list[k].fd, bytes, length, written[k]);
                if (list[k].fd >= 0 && written[k] < length) full.push_back(list[k]);
            }
            if (full.empty()) return is_any_left();
            poll(full.data(), full.size(), -1);
        }
    }

  private:
    std::vector<pollfd> list;

    bool is_any_left() const {
        return std::any_of(list.begin(), list.end(), [](const pollfd &one) { return one.fd >= 0; });
    }

    static void write_to(int &file, const char *bytes, size_t length, size_t &written) {
        ssize_t count = 0;
        while (written < length && (count = ::write(file, bytes + written, length - written)) > 0)
            written += size_t(count);
        if (count < 0 && errno != EAGAIN && errno != EINTR) close_file(file);
    }
};

// Keeps the bytes of a proof that comes only once, so that one filter can take the whole proof from
// several ones. The file leaves three times as much room as it takes, so that it is in nobody's way.
class KeptProof {
  public:
    KeptProof(const Proof &proof, EngineStatus &its_status)
        : file(proof.kept), keeps(proof.keeps), status(its_status) {}

    void keep(const char *bytes, size_t length) {
        struct statvfs found;
        if (!keeps || status.proof_unkept) return;
        uint64_t before = status.proof_kept, after = before + length,
                 most = hooked(test_hooks.proof_kept, UINT64_MAX);
        bool has_room = fstatvfs(file, &found) == 0 && after <= most &&
                        after <= uint64_t(found.f_bavail) * found.f_frsize / TIMES_LEFT;
        if (has_room && lseek(file, off_t(before), SEEK_SET) >= 0 && write_all(file, bytes, length))
            return STORE(status.proof_kept, after);
        STORE(status.proof_unkept, 1);
        if (ftruncate(file, 0) != 0) keeps = false;  // it stays as long as the run
    }

    // How many bytes it reads from this position on; 0 at the end.
    ssize_t read_at(uint64_t position, char *bytes, size_t length) const {
        uint64_t left = file < 0 ? 0 : status.proof_kept - position;
        return left == 0 ? 0
                         : pread(file, bytes, std::min<uint64_t>(length, left), off_t(position));
    }

  private:
    int file;
    bool keeps;
    EngineStatus &status;
};

}  // namespace

static int open_proof(const Proof &proof, Unpacking &unpacking) {
    if (proof.file >= 0) return proof.file;
    bool is_packed = proof.path != "-" && packer_of(proof.path.c_str());
    return is_packed ? unpacking_open(&unpacking, proof.path.c_str())
                     : open_if_possible(proof.path);
}

// Copies a proof, beginning with what was kept of it. Ends with 0 once no filter is left: all that it
// has read until then is kept. An existing proof is copied as if a solver had ended with 20.
void proof_process(const Engine &engine, const Proof &proof) {
    std::vector<char> bytes(1 << 16);
    ssize_t count = 0;
    ProofPipes pipes(proof.pipes);
    EngineStatus &status = engine.shared->engine_statuses[engine.number - 1];
    KeptProof kept(proof, status);
    auto copy = [&] {
        if (!pipes.write(bytes.data(), size_t(count))) _exit(0);
        STORE(status.proof_read, status.proof_read + uint64_t(count));
    };
    proof_status = &status;
    proof_name = proof.path;
    errors_handle(end_unread);
    STORE(status.proof_read, 0);
    while ((count = kept.read_at(status.proof_read, bytes.data(), bytes.size())) > 0) copy();
    Unpacking unpacking = {};
    int file = count < 0 ? -1 : open_proof(proof, unpacking);
    if (file < 0) end_unread(error_text().c_str());
    for (bool ends = false; !ends;) {
        if (!pipes.await(file)) _exit(0);
        count = read(file, bytes.data(), bytes.size());
        if (count < 0 && errno != EINTR && errno != EAGAIN) end_unread(error_text().c_str());
        if (count > 0) kept.keep(bytes.data(), size_t(count)), copy();
        ends = count == 0;
    }
    unpacking_end(&unpacking, proof.path.c_str());
    if (!engine.options->check) _exit(0);  // the solver's own process has the answer
    STORE(status.answer, 20);
    _exit(20);
}
