// Unverified, like the whole solver. The front, and lrupd, which the front starts. Reads what both
// report, and feeds lrupd.
#include <algorithm>
#include <cerrno>
#include <cmath>
#include <cstdlib>
#include <cstring>
#include <fstream>
#include <sstream>

#include <fcntl.h>
#include <sys/ioctl.h>
#include <sys/stat.h>
#include <sys/wait.h>
#include <unistd.h>

extern "C" {  // which glibc 2.36 doesn't say
#include <sys/pidfd.h>
}

#include "checker.h"
#include "record.h"

namespace {

const int STREAM_PIPE = 1 << 20, PIECE = 1 << 16;
const uint64_t DROPPED = UINT64_C(1) << 22, PAGE = 4096;  // bytes that are given back together
const uint64_t TRIES = 1000000;  // a stream waits up to a minute for another one's line
const int FRONTS_WORDS = 3;
const double LONGEST_PAUSE = 0.02;  // seconds between two tries to open a pipe
const size_t BLOCK = 4096;          // of a message to the front; the system writes it whole

// indices of fields in /proc/PID/stat, each the first of two: a process's own processor time, and
// that of its ended children
const int OWN_TIME = 14, TIME_OF_CHILDREN = 16;

double processor_time(int pid, int first_field) {
    std::ifstream file("/proc/" + std::to_string(pid) + "/stat");
    std::string line, field;
    std::getline(file, line);
    // after the process's name, which may have any byte in it
    std::istringstream fields(line.substr(line.rfind(')') + 1));
    double ticks = 0;
    for (int number = 3; fields >> field; number++)
        if (number == first_field || number == first_field + 1) ticks += atof(field.c_str());
    return ticks / double(sysconf(_SC_CLK_TCK));
}

}  // namespace

Front front;

bool is_program(const std::string &path) {
    struct stat found;
    return stat(path.c_str(), &found) == 0 && S_ISREG(found.st_mode) &&
           access(path.c_str(), X_OK) == 0;
}

// Searches absolute folders only: programs in the current folder aren't run.
std::string on_the_path(const std::string &name) {
    const char *list = getenv("PATH");
    std::istringstream rest(list ? list : "");
    for (std::string folder; std::getline(rest, folder, ':');)
        if (folder[0] == '/' && is_program(folder + "/" + name)) return folder + "/" + name;
    return "";
}

// Finds a tool next to this program, where it is installed or built, or on the PATH.
std::string find_tool(const std::string &name) {
    std::string whole = own_path(), folder = whole.substr(0, whole.rfind('/') + 1);
    for (const char *place : { "", "../../bin/" })
        if (!folder.empty() && is_program(folder + place + name)) return folder + place + name;
    return on_the_path(name);
}

void Front::find(int &count, char **&words) {
    const char *text = getenv("LRUP_FRONT");
    if (text) given = text;
    if (count > FRONTS_WORDS && strcmp(words[1], "--front") == 0) {
        given = words[2];
        number = strtoull(words[3], nullptr, 10);
        count -= FRONTS_WORDS;
        words += FRONTS_WORDS;
    }
    unsetenv("LRUP_FRONT");
    std::istringstream all(given);
    int of_lrupd = -1;
    all >> from_front >> to_front >> of_lrupd >> formula >> assumptions;
    std::getline(all.ignore(1), lrupd, '\0');
    if (sscanf(formula.c_str(), "/proc/%d/", &pid) != 1) return;
    output_of_lrupd = name(of_lrupd);
}

// On another host, a name in /proc may lead to another file, or to none. So the words also contain
// the inode of the pipe.
std::vector<std::string> Front::words() const {
    struct stat found;
    if (fstat(incoming, &found) != 0) refuse("cannot find lrup-solve: " + error_text());
    return { "--front", given, std::to_string(found.st_ino) };
}

// Opens the front's pipes through their names in /proc.
void Front::open() {
    struct stat found;
    incoming = ::open(name(from_front).c_str(), O_RDONLY | O_NONBLOCK | O_CLOEXEC);
    bool is_its = incoming >= 0 && fstat(incoming, &found) == 0 && S_ISFIFO(found.st_mode) &&
                  (number == 0 || number == found.st_ino);
    if (is_its) outgoing = ::open(name(to_front).c_str(), O_WRONLY | O_CLOEXEC);
    if (outgoing < 0) refuse("cannot find lrup-solve, which has to be on the host of process 0");
    kept_open(incoming);
    kept_open(outgoing);
    on_refusal = [] { front.say("refused"); };
}

void Front::say(const std::string &line) const {
    std::string block = line.substr(0, BLOCK);
    block.resize(BLOCK);
    while (outgoing >= 0 && write(outgoing, block.data(), BLOCK) < 0 && errno == EINTR) {}
}

bool Front::has_unread() const {
    int bytes = 0;
    return outgoing >= 0 && ioctl(outgoing, FIONREAD, &bytes) == 0 && bytes > 0;
}

// Reads the formula while engines begin, so that a text that lrupd refuses is refused early. Nothing
// else rests on it: both checkers read the formula themselves.
void Front::start_probe() {
    int output = file_in_memory();
    std::vector<std::string> words = { lrupd, "--tries", "0", "--lines", "0", "--room", "0" };
    if (assumptions != "-") words.push_back("--assume=" + assumptions);
    words.insert(words.end(), { formula, "/dev/null" });
    probe.expect(name_of_file(output));
    if (begin(probe.child, "probe", { output })) become(words, output);
}

// Whether the probe has exited, not by a signal, with a status other than 3.
bool Front::has_refused() {
    if (!probe.child.ended()) return false;
    probe.read_on();
    return WIFEXITED(probe.child.status) && !probe.child.ended_with(UNKNOWN_STATUS);
}

// The front's other child is the supervisor, which uses no processor time.
double Front::checking() const {
    std::string id = std::to_string(pid);
    std::ifstream children("/proc/" + id + "/task/" + id + "/children");
    double seconds = probe.child.seconds + processor_time(pid, TIME_OF_CHILDREN);
    for (int child; children >> child;) seconds += processor_time(child, OWN_TIME);
    return seconds;
}

// Once the front has ended, this process is killed within a moment, too.
void Front::read_on(Checker *checker) {
    char bytes[4096];
    ssize_t count = -1;
    while (incoming >= 0 && (count = read(incoming, bytes, sizeof bytes)) > 0)
        unread.append(bytes, size_t(count));
    if (incoming >= 0 && count == 0) end_children(), _exit(1);  // the front is gone
    for (size_t end; (end = unread.find('\n')) != std::string::npos; unread.erase(0, end + 1)) {
        std::string line = unread.substr(0, end), name = line.substr(0, line.find(' ')),
                    rest = line.substr(line.find(' ') + 1);
        if (name == "lrupd" && checker) checker->take_end(rest);
        if (name == "over" && checker) checker->forget();
        if (name == "signal") stopped = rest;
    }
}

std::string Front::await_refusal(double deadline) {
    int end = probe.child.running ? pidfd_open(probe.child.pid, 0) : -1;
    while (probe.child.running && stopped.empty() && now() < deadline) {
        pollfd list[] = { to_poll(), { end, POLLIN, 0 } };
        poll(list, 2, milliseconds_to(deadline));
        if (list[0].revents != 0) read_on(nullptr);
        if (list[1].revents != 0) wait_for(probe.child);
    }
    close_file(end);
    return has_refused() ? probe.last_line() : "";
}

std::string sizes_text(size_t streams, Row row) {
    return std::to_string(streams) + " " + std::to_string(row.lines) + " " +
           std::to_string(row.room) + "\n";
}

std::string tries() { return std::to_string(hooked(test_hooks.tries, TRIES)); }

void Checker::expect(const std::string &path) {
    output = path;
    child.pid = ELSEWHERE;
    child.running = true;
}

void Checker::take_end(const std::string &words) {
    int code = 0, status = 0;
    sscanf(words.c_str(), "%d %d", &code, &status);
    child.status = code == CLD_EXITED ? W_EXITCODE(status, 0) : W_EXITCODE(0, status);
    child.running = false;
    read_on();
}

void Checker::open_streams(const std::vector<int> &files) {
    streams.clear();
    for (int file : files) {
        streams.push_back({ file, -1, next + ".stream-" + std::to_string(streams.size() + 1) });
        await_opening(streams.back().path);
        streams.back().name = streams.back().path.substr(next.rfind('/') + 1);
    }
}

// The sizes of the round whose streams are open.
std::string Checker::sizes_of(Row row) {
    std::string text = sizes_text(streams.size(), row),
                name = next.substr(next.rfind('/') + 1) + ".sizes";
    if (keeps_digests) digests.push_back(digest_of(text) + "  " + name);
    return text;
}

void Checker::start(Row row, const std::vector<int> &files) {
    next = Folder::name() + "/round-1";
    open_streams(files);
    std::string text = sizes_of(row);
    front.say("check " + text.substr(0, text.size() - 1) + " " + tries() + " " + Folder::numbers());
    expect(front.output_of_lrupd);
}

// Between rounds lrupd opens the sizes first, and then the streams in order. Each open waits for a
// writer.
void Checker::expect_round(const std::string &path) {
    next = path;
    await_opening(next + ".sizes");
}

void Checker::await_opening(const std::string &path) {
    create_pipe(path);
    unopened.push_back(path);
    waits_since = now();
}

// A pipe can be opened for writing once lrupd has opened it, and nothing else shows that.
void Checker::open_pipes() {
    for (; !unopened.empty(); unopened.pop_front()) {
        const std::string &path = unopened.front();
        bool is_of_sizes = path == next + ".sizes";
        int pipe = open_pipe(path, is_of_sizes ? 0 : STREAM_PIPE);
        if (pipe < 0 && errno == ENXIO) return;
        if (pipe < 0) refuse("cannot open " + path + ": " + error_text());
        if (is_of_sizes) sizes = pipe;
        for (Stream &stream : streams)
            if (stream.path == path) stream.path.clear(), stream.pipe = pipe;
        waits_since = now();
    }
}

// Waits a tenth as long as it has waited so far: lrupd opens streams at once, but sizes only after
// it has saved a round.
double Checker::next_opening() const {
    return unopened.empty() ? INFINITY
                            : now() + std::min(LONGEST_PAUSE, (now() - waits_since) / 10);
}

std::vector<pollfd> Checker::full_pipes() const {
    std::vector<pollfd> list;
    for (const Stream &stream : streams)
        if (stream.is_full || stream.is_empty)
            list.push_back(stream.is_full ? pollfd{ stream.pipe, POLLOUT, 0 }
                                          : pollfd{ stream.file, POLLIN, 0 });
    return list;
}

// If lrupd has ended meanwhile, the run will notice it soon.
void Checker::begin_round(Row row, const std::vector<int> &files) {
    open_streams(files);
    std::string text = sizes_of(row);
    if (write(sizes, text.data(), text.size()) < 0 && errno != EPIPE)
        refuse("cannot write the sizes of a round: " + error_text());
    close_file(sizes);
}

// Writes what the pipe takes of these bytes, and returns how many.
size_t Checker::write_to(Stream &stream, const char *bytes, size_t length) {
    ssize_t count = write(stream.pipe, bytes, length);
    if (count < 0 && errno == EAGAIN)
        stream.is_full = true;
    else if (count < 0 && errno != EINTR)
        close_file(stream.pipe);  // lrupd has ended
    if (count <= 0) return 0;
    stream.fed += uint64_t(count);
    if (keeps_digests) stream.digest.add(bytes, size_t(count));
    return size_t(count);
}

// Writes what the pipe takes. With `drop`, gives back the memory of what has been fed.
bool Checker::feed(size_t number, uint64_t bytes, bool drop) {
    Stream &stream = streams[number];
    static std::vector<char> piece(PIECE);
    if (!stream.path.empty()) return false;
    stream.is_full = false;
    while (stream.pipe >= 0 && stream.fed < bytes && !stream.is_full) {
        size_t wanted = size_t(std::min<uint64_t>(piece.size(), bytes - stream.fed));
        ssize_t got = pread(stream.file, piece.data(), wanted, off_t(stream.fed));
        if (got <= 0)
            refuse("cannot read " + stream.name +
                   " again: " + (got < 0 ? error_text() : "it was truncated"));
        write_to(stream, piece.data(), size_t(got));
    }
    if (drop && stream.fed - stream.dropped > DROPPED) {
        fallocate(stream.file, FALLOC_FL_PUNCH_HOLE | FALLOC_FL_KEEP_SIZE, 0,
                  off_t(stream.fed / PAGE * PAGE));
        stream.dropped = stream.fed;
    }
    return stream.pipe < 0 || stream.fed >= bytes;
}

bool Checker::feed_all(size_t number) {
    Stream &stream = streams[number];
    static char piece[PIECE];
    if (!stream.path.empty()) return false;
    stream.is_full = stream.is_empty = false;
    while (stream.pipe >= 0 && !stream.is_full) {
        ssize_t got = stream.unfed.empty() ? read(stream.file, piece, PIECE) : -1;
        if (stream.unfed.empty() && got == 0) return true;
        stream.is_empty = stream.unfed.empty() && got < 0 && errno == EAGAIN;
        if (stream.is_empty) return false;
        if (stream.unfed.empty() && got < 0 && errno != EINTR)
            refuse("cannot read " + stream.name + " again: " + error_text());
        if (got > 0) stream.unfed.assign(piece, size_t(got));
        stream.unfed.erase(0, write_to(stream, stream.unfed.data(), stream.unfed.size()));
    }
    return stream.pipe < 0;
}

void Checker::end_stream(size_t number) {
    Stream &stream = streams[number];
    if (stream.pipe < 0) return;
    close_file(stream.pipe);
    if (!keeps_digests) return;
    digests.push_back(stream.digest.end() + "  " + stream.name);
    stream.has_digest = true;
}

void Checker::forget() {
    for (Stream &stream : streams) close_file(stream.pipe);
    close_file(sizes);
    close_file(written);
    *this = Checker();
}

uint64_t Checker::read_of(size_t number) const {
    if (number >= streams.size()) return 0;
    const Stream &stream = streams[number];
    int waiting = 0;
    if (stream.pipe < 0 || ioctl(stream.pipe, FIONREAD, &waiting) != 0) return stream.fed;
    return stream.fed - std::min<uint64_t>(stream.fed, uint64_t(waiting));
}

// The lines of lrupd's report begin with c or s; no other line does.
void Checker::read_on() {
    char bytes[4096];
    if (child.pid == 0) return;
    if (written < 0 && (written = open(output.c_str(), O_RDONLY | O_CLOEXEC)) >= 0)
        kept_open(written);
    for (ssize_t count; (count = read(written, bytes, sizeof bytes)) > 0;)
        unread.append(bytes, size_t(count));
    for (size_t end; (end = unread.find('\n')) != std::string::npos; unread.erase(0, end + 1)) {
        bool is_report = unread.compare(0, 2, "c ") == 0 || unread.compare(0, 2, "s ") == 0;
        (is_report ? report : said).append(unread, 0, end + 1);
    }
}

bool Checker::next_line(std::string &line) {
    size_t end = said.find('\n', told);
    if (end == std::string::npos) return false;
    line = said.substr(told, end - told);
    told = end + 1;
    return true;
}

std::string Checker::last_line() const {
    std::string text = said.substr(0, said.find_last_not_of('\n') + 1);
    return text.substr(text.rfind('\n') + 1);
}
