// Unverified, like the whole solver. Messages between a Run and its carrier, through two pipes.
#include <cerrno>
#include <csignal>
#include <cstdlib>

#include <fcntl.h>
#include <unistd.h>

#include "mpi_run.h"

namespace {

const int MESSAGE_PIPE = 1 << 20;
const size_t MOST_WAITING = 1 << 22;  // bytes; if more wait, streams wait for room
const double STARTING = 120;          // seconds in which all processes have to start

}  // namespace

bool Incoming::read_from(int file) {
    char piece[1 << 16];
    if (at > 0 && 2 * at >= bytes.size()) bytes.erase(0, at), at = 0;
    for (size_t all = 0; all < 16 * sizeof piece;) {
        ssize_t count = read(file, piece, sizeof piece);
        if (count > 0)
            bytes.append(piece, size_t(count)), all += size_t(count);
        else if (count == 0)
            return false;
        else if (errno != EINTR)
            return errno == EAGAIN;
    }
    return true;
}

bool Incoming::next(Message &message) {
    message = Message();
    if (bytes.size() - at < sizeof message.head) return false;
    memcpy(&message.head, bytes.data() + at, sizeof message.head);
    if (bytes.size() - at - sizeof message.head < message.head.length) return false;
    message.bytes.assign(bytes, at + sizeof message.head, message.head.length);
    at += sizeof message.head + message.head.length;
    return true;
}

void append_message(std::string &bytes, uint32_t word, int process, const std::string &text) {
    Head head = { word, process, text.size() };
    bytes.append(reinterpret_cast<const char *>(&head), sizeof head);
    bytes += text;
}

size_t write_some(int file, const std::string &bytes, size_t from) {
    while (from < bytes.size()) {
        ssize_t count = write(file, bytes.data() + from, bytes.size() - from);
        if (count > 0)
            from += size_t(count);
        else if (count < 0 && errno != EINTR)
            break;
    }
    return from;
}

// A killed carrier leaves Open MPI's files for shared memory behind, unless they are in this
// process's folder. If the folder can't be made, process 0 says so later.
void Link::open(int engines_here) {
    if (Folder::make_if_possible().empty())
        setenv("OMPI_MCA_btl_vader_backing_directory", Folder::name().c_str(), 0);
    out = make_pipe(MESSAGE_PIPE);
    in = make_pipe(MESSAGE_PIPE);
    if (begin(carrier, "carrier", { out.read, in.write }))
        carrier_process(out.read, in.write, engines_here);
    close_file(out.read);
    close_file(in.write);
    for (int file : { out.write, in.read }) fcntl(file, F_SETFL, O_NONBLOCK);
    Message message;
    if (!wait(message, STARTING) || message.head.word != HELLO)
        refuse("the MPI processes can't reach each other");
    process = message.head.process;
    for (int32_t one; message.take(one);) engines.push_back(one);
}

void Link::send(Word word, int to, const std::string &text) {
    append_message(waiting, word, to, text);
    step();
}

bool Link::is_full() const { return waiting.size() - written >= MOST_WAITING; }

void Link::step() {
    written = write_some(out.write, waiting, written);
    if (written == waiting.size() || written > MOST_WAITING) waiting.erase(0, written), written = 0;
    if (in.read >= 0 && !incoming.read_from(in.read)) close_file(in.read);
}

bool Link::receive(Message &message) { return incoming.next(message); }

bool Link::wait(Message &message, double seconds) {
    double end = now() + seconds;
    for (;;) {
        step();
        if (receive(message)) return true;
        if (in.read < 0 || now() > end) return false;
        std::vector<pollfd> list = files();
        poll(list.data(), list.size(), milliseconds_to(end));
    }
}

std::vector<pollfd> Link::files() const {
    std::vector<pollfd> list;
    if (in.read >= 0) list.push_back({ in.read, POLLIN, 0 });
    if (written < waiting.size() && in.read >= 0) list.push_back({ out.write, POLLOUT, 0 });
    return list;
}

// The carrier ends once every process has called leave.
void Link::leave() { send(LEAVE, 0, ""); }

void Link::close() {
    if (in.read >= 0) carrier.signal(SIGKILL);
    wait_for(carrier);
}
