// Unverified, like the whole solver. Children, pipes and files.
#include <algorithm>
#include <cerrno>
#include <cmath>
#include <csignal>
#include <cstdio>
#include <cstdlib>
#include <cstring>
#include <filesystem>

#include <fcntl.h>
#include <sys/eventfd.h>
#include <sys/mman.h>
#include <sys/prctl.h>
#include <sys/resource.h>
#include <sys/stat.h>
#include <sys/wait.h>
#include <time.h>
#include <unistd.h>

#include "record.h"

namespace {

std::vector<pid_t> alive;             // this process's children that haven't been waited for
std::vector<pid_t> forwarding;        // those of them that forward signals
std::vector<int> opened;              // this process's files
const unsigned WAIT_FOR_REPORT = 30;  // seconds

// Makes a new file: an old one of that name, or the target of a link, isn't written to.
int new_file(const std::string &path) {
    Place place = place_of(path);
    if (!claim(place) || !remove_file(path)) return -1;
    return openat(place.folder, place.name.c_str(),
                  O_RDWR | O_CREAT | O_EXCL | O_NOFOLLOW | O_CLOEXEC, 0666);
}

}  // namespace

int kept_open(int file) {
    opened.push_back(file);
    return file;
}

// In a child.
void close_all_but(const std::vector<int> &files) {
    for (int file : opened)
        if (std::find(files.begin(), files.end(), file) == files.end()) close(file);
}

bool is_reported_elsewhere = false;
void (*on_refusal)() = nullptr;

// In any process and thread of the program.
void refuse(const std::string &cause) {
    if (is_reported_elsewhere) sleep(WAIT_FOR_REPORT);
    end_children();
    if (!is_reported_elsewhere) fprintf(stderr, "%s: %s\n", program_name, one_line(cause).c_str());
    if (on_refusal) on_refusal();
    _exit(1);
}

std::string error_text() { return strerror(errno); }

double now() {
    timespec time;
    clock_gettime(CLOCK_MONOTONIC, &time);
    return double(time.tv_sec) + 1e-9 * double(time.tv_nsec);
}

int milliseconds_to(double time) {
    return time == INFINITY ? -1
                            : int(std::ceil(1000 * std::min(3600.0, std::max(0.0, time - now()))));
}

// Files.

Pipe make_pipe(int bytes) {
    int ends[2];
    if (pipe2(ends, O_CLOEXEC) != 0) refuse("cannot make a pipe: " + error_text());
    if (bytes > 0) fcntl(ends[1], F_SETPIPE_SZ, bytes);
    return { kept_open(ends[0]), kept_open(ends[1]) };
}

void close_file(int &file) {
    if (file < 0) return;
    opened.erase(std::remove(opened.begin(), opened.end(), file), opened.end());
    close(file);
    file = -1;
}

int create_file(const std::string &path) {
    int file = new_file(path);
    if (file < 0) refuse("cannot write " + path + ": " + error_text());
    return kept_open(file);
}

int create_if_possible(const std::string &path) {
    int file = new_file(path);
    return file < 0 ? -1 : kept_open(file);
}

bool remove_file(const std::string &path) {
    Place place = place_of(path);
    return unlinkat(place.folder, place.name.c_str(), 0) == 0 || errno == ENOENT;
}

bool rename_file(const std::string &path, const std::string &other) {
    Place from = place_of(path), to = place_of(other);
    return claim(to) && renameat(from.folder, from.name.c_str(), to.folder, to.name.c_str()) == 0;
}

// Even if the folder doesn't exist yet.
std::string folder_of(const std::string &path) {
    std::error_code unknown;
    std::filesystem::path folder = std::filesystem::absolute(path, unknown).parent_path();
    return std::filesystem::weakly_canonical(folder / "file", unknown).parent_path();
}

void create_pipe(const std::string &path) {
    if (mkfifo(path.c_str(), 0600) != 0) refuse("cannot make " + path + ": " + error_text());
}

int open_pipe(const std::string &path, int bytes) {
    struct stat found;
    int file = open(path.c_str(), O_WRONLY | O_NONBLOCK | O_NOFOLLOW | O_CLOEXEC);
    if (file < 0) return -1;
    if (fstat(file, &found) != 0 || !S_ISFIFO(found.st_mode))
        refuse(path + ": replaced by another file");
    unlink(path.c_str());
    if (bytes > 0) fcntl(file, F_SETPIPE_SZ, bytes);
    return kept_open(file);
}

std::string write_file(const std::string &path, const std::string &text) {
    std::string begun = unfinished(path), cause;
    int file = new_file(begun);
    bool written = file >= 0 && write_all(file, text.data(), text.size());
    if (!written || !rename_file(begun, path)) cause = "cannot write " + path + ": " + error_text();
    if (file >= 0) close(file);
    if (file >= 0 && !cause.empty()) remove_file(begun);
    return cause;
}

void *shared_bytes(size_t bytes) {
    void *memory = mmap(nullptr, bytes, PROT_READ | PROT_WRITE,
                        MAP_SHARED | MAP_ANONYMOUS | MAP_NORESERVE, -1, 0);
    if (memory == MAP_FAILED) refuse("cannot share memory: " + error_text());
    return memory;
}

int file_in_memory() {
    int file = memfd_create("lrup-solve", MFD_CLOEXEC);
    if (file < 0) refuse("cannot make a file in memory: " + error_text());
    return kept_open(file);
}

std::string text_of(int file) {
    std::string text;
    char bytes[4096];
    for (ssize_t count; (count = pread(file, bytes, sizeof bytes, off_t(text.size()))) > 0;)
        text.append(bytes, size_t(count));
    return text;
}

int event_file() {
    int file = eventfd(0, EFD_CLOEXEC | EFD_NONBLOCK);
    if (file < 0) refuse("cannot make an eventfd: " + error_text());
    return file;
}

std::string name_of_file(int file) {
    return "/proc/" + std::to_string(getpid()) + "/fd/" + std::to_string(file);
}

bool write_all(int file, const char *bytes, size_t length) {
    for (size_t written = 0; written < length;) {
        ssize_t count = write(file, bytes + written, length - written);
        if (count < 0 && errno != EINTR) return false;
        if (count > 0) written += size_t(count);
    }
    return true;
}

void copy_file(int file, const std::string &name, int copy) {
    std::vector<char> bytes(1 << 16);
    for (;;) {
        ssize_t count = read(file, bytes.data(), bytes.size());
        if (count < 0 && errno == EINTR) continue;
        if (count < 0) refuse("cannot read " + name + ": " + error_text());
        if (count == 0) return;
        if (!write_all(copy, bytes.data(), size_t(count)))
            refuse("cannot write a copy of " + name + ": " + error_text());
    }
}

// Children. A child is killed when its parent ends. Signals from the terminal are left to the
// parent.

bool Child::ended_with(int code) const {
    return ended() && WIFEXITED(status) && WEXITSTATUS(status) == code;
}

std::string Child::end() const {
    if (WIFSIGNALED(status))
        return std::string("ended by a signal: ") + strsignal(WTERMSIG(status));
    return "ended with status " + std::to_string(WEXITSTATUS(status));
}

// A child that forwards signals gets SIGTERM and SIGTSTP instead of SIGKILL and SIGSTOP, which
// can't be caught. While it starts, SIGTSTP stops it, so SIGCONT follows SIGTERM.
static void send(pid_t pid, int number, bool forwards_signals) {
    if (forwards_signals)
        number = number == SIGKILL ? SIGTERM : number == SIGSTOP ? SIGTSTP : number;
    kill(pid, number);
    if (number == SIGTERM) kill(pid, SIGCONT);
}

void Child::signal(int number) const {
    if (running && pid != ELSEWHERE) send(pid, number, forwards_signals);
}

// Returns in both processes: what follows `if (begin(..))` is in the child.
bool begin(Child &child, const std::string &name, const std::vector<int> &kept) {
    fflush(nullptr);
    pid_t parent = getpid(), pid = fork();
    if (pid < 0) refuse("cannot start a process: " + error_text());
    if (pid > 0) {
        alive.push_back(pid);
        if (child.forwards_signals) forwarding.push_back(pid);
        child.pid = pid;
        child.running = true;
        return false;
    }
    on_refusal = nullptr;
    alive.clear();  // they are the parent's children: a refusal here mustn't end them
    forwarding.clear();
    prctl(PR_SET_PDEATHSIG, SIGKILL);
    prctl(PR_SET_NAME, name.c_str());
    if (getppid() != parent) _exit(1);
    sigset_t none;
    sigemptyset(&none);
    sigprocmask(SIG_SETMASK, &none, nullptr);
    signal(SIGINT, SIG_IGN);
    signal(SIGPIPE, SIG_DFL);
    close_all_but(kept);
    return true;
}

// In a child. Becomes a program, whose output goes to the file.
void become(const std::vector<std::string> &words, int file) {
    std::vector<char *> list;
    for (const std::string &word : words) list.push_back(const_cast<char *>(word.c_str()));
    list.push_back(nullptr);
    if (dup2(open("/dev/null", O_RDONLY), 0) < 0 || dup2(file, 1) < 0 || dup2(file, 2) < 0)
        _exit(127);
    execv(list[0], list.data());
    _exit(127);
}

// In a child. A run can lose an engine, but not lrupd or the first process. A process may always
// raise its own score; if that fails, the system chooses as usual.
void raise_oom_score() {
    int file = open("/proc/self/oom_score_adj", O_WRONLY | O_CLOEXEC);
    if (file < 0) return;
    write_all(file, "1000", 4);
    close(file);
}

static void take_end(Child &child, int status, const rusage &used) {
    child.running = false;
    child.status = status;
    child.seconds += double(used.ru_utime.tv_sec + used.ru_stime.tv_sec) +
                     1e-6 * double(used.ru_utime.tv_usec + used.ru_stime.tv_usec);
    alive.erase(std::remove(alive.begin(), alive.end(), child.pid), alive.end());
}

bool reap(const std::vector<Child *> &children) {
    int status;
    rusage used;
    pid_t pid = wait4(-1, &status, WNOHANG, &used);
    if (pid <= 0) return false;
    for (Child *child : children)
        if (child->pid == pid && child->running) take_end(*child, status, used);
    return true;
}

void wait_for(Child &child) {
    int status;
    rusage used;
    if (child.pid == ELSEWHERE) child.running = false;
    while (child.running && wait4(child.pid, &status, 0, &used) < 0 && errno == EINTR) {}
    if (child.running) take_end(child, status, used);
}

void end_children() {
    for (pid_t pid : alive)
        send(pid, SIGKILL,
             std::find(forwarding.begin(), forwarding.end(), pid) != forwarding.end());
    for (pid_t pid : alive)
        while (waitpid(pid, nullptr, 0) < 0 && errno == EINTR) {}
    alive.clear();
}
