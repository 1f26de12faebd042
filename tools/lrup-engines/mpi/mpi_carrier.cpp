// Unverified, like the whole solver. In a carrier's process, the one process of a host that uses
// MPI. It forwards messages, broadcasts the formula, and takes part in exchanges, without reading
// their contents.
//
// Only MPI_Init, the broadcast before engines start, and MPI_Finalize wait for other processes; if
// a process dies, mpirun ends all. The bytes on their way to others are bounded: above the bound,
// nothing more is read from the Run.
#define OMPI_SKIP_MPICXX 1  // leaves out C++ bindings that cause warnings
#include <mpi.h>

#include <csignal>

#include <fcntl.h>
#include <poll.h>
#include <sys/prctl.h>
#include <unistd.h>

#include "mpi_run.h"

namespace {

const size_t MOST_FLYING = 1 << 23;  // bytes
const int IDLE = 1, FOR_EVER = -1;   // milliseconds

class Carrier {
  public:
    Carrier(int from, int to) : from_run(from), to_run(to) {}

    void run(int engines) {
        MPI_Init(nullptr, nullptr);
        MPI_Comm_rank(MPI_COMM_WORLD, &rank);
        MPI_Comm_size(MPI_COMM_WORLD, &size);
        fcntl(from_run, F_SETFL, O_NONBLOCK);
        greet(engines);
        broadcast();
        while (!left) {
            bool busy = read_run();
            busy |= send_on();
            busy |= receive();
            step_exchange();
            if (!busy) wait(IDLE);
        }
        while (!flying.empty()) send_on();
        while (receive()) {}
        MPI_Finalize();
    }

  private:
    enum { QUIET, LENGTHS, BYTES };

    struct Flying {
        MPI_Request request;
        std::string bytes;
    };

    int from_run, to_run, rank = 0, size = 1;
    Incoming incoming;
    std::deque<Flying> flying;
    size_t bytes_flying = 0;
    int state = QUIET;
    MPI_Request request = MPI_REQUEST_NULL;
    std::string gifts, found;
    bool has_gifts = false, leaves = false, left = false;
    int length = 0;  // of the gifts; -1: this process leaves
    std::vector<int> lengths, places;
    double begun = 0;

    void tell(Word word, int process, const std::string &text) {
        std::string bytes;
        append_message(bytes, word, process, text);
        if (write_some(to_run, bytes, 0) < bytes.size()) _exit(1);  // the Run has ended
    }

    void greet(int engines) {
        std::vector<int32_t> all(static_cast<size_t>(size));
        int32_t here = engines;
        MPI_Allgather(&here, 1, MPI_INT32_T, all.data(), 1, MPI_INT32_T, MPI_COMM_WORLD);
        tell(HELLO, rank,
             std::string(reinterpret_cast<const char *>(all.data()), all.size() * sizeof all[0]));
    }

    std::string read_input() {
        Message message;
        while (!incoming.next(message)) {
            wait(FOR_EVER);
            if (!incoming.read_from(from_run)) _exit(1);
        }
        return message.bytes;
    }

    // MPI's own waiting would take a core.
    void from_process_0(void *bytes, int count) {
        int done = 0;
        MPI_Ibcast(bytes, count, MPI_BYTE, 0, MPI_COMM_WORLD, &request);
        while (MPI_Test(&request, &done, MPI_STATUS_IGNORE), !done) usleep(1000 * IDLE / 4);
    }

    // Broadcasts the formula in pieces.
    void broadcast() {
        for (int count = 1; count > 0;) {
            std::string piece;
            if (rank == 0) {
                piece = read_input();
                count = int(piece.size());
            }
            from_process_0(&count, int(sizeof count));
            piece.resize(size_t(count));
            from_process_0(&piece[0], count);
            if (rank != 0) tell(INPUT, 0, piece);
        }
    }

    void wait(int milliseconds) {
        pollfd file = { from_run, POLLIN, 0 };
        bool full = bytes_flying >= MOST_FLYING;
        poll(&file, full ? 0 : 1, milliseconds);
    }

    bool read_run() {
        Message message;
        bool any = false;
        if (bytes_flying < MOST_FLYING && !incoming.read_from(from_run)) _exit(1);
        for (; bytes_flying < MOST_FLYING && incoming.next(message); any = true) {
            if (message.head.word == GIFTS)
                gifts = std::move(message.bytes), has_gifts = true;
            else if (message.head.word == LEAVE)
                leaves = true;
            else
                send(message);
        }
        return any;
    }

    void send(const Message &message) {
        flying.emplace_back();
        Flying &one = flying.back();
        append_message(one.bytes, message.head.word, rank, message.bytes);
        bytes_flying += one.bytes.size();
        MPI_Isend(one.bytes.data(), int(one.bytes.size()), MPI_BYTE, message.head.process, 0,
                  MPI_COMM_WORLD, &one.request);
    }

    // A deque doesn't move its items, whose bytes MPI may still be sending.
    bool send_on() {
        bool any = false;
        for (int done = 1; !flying.empty() && done;) {
            MPI_Test(&flying.front().request, &done, MPI_STATUS_IGNORE);
            if (!done) break;
            any = true;
            bytes_flying -= flying.front().bytes.size();
            flying.pop_front();
        }
        return any;
    }

    bool receive() {
        int there = 0, count = 0;
        MPI_Status status;
        MPI_Iprobe(MPI_ANY_SOURCE, 0, MPI_COMM_WORLD, &there, &status);
        if (!there) return false;
        MPI_Get_count(&status, MPI_BYTE, &count);
        std::string bytes(size_t(count), 0);
        MPI_Recv(&bytes[0], count, MPI_BYTE, status.MPI_SOURCE, 0, MPI_COMM_WORLD,
                 MPI_STATUS_IGNORE);
        if (write_some(to_run, bytes, 0) < bytes.size()) _exit(1);
        return true;
    }

    // All processes enter the same number of exchanges: one that leaves enters with nothing until
    // all leave.
    void step_exchange() {
        int done = 0;
        if (state == QUIET && (has_gifts || (leaves && flying.empty()))) return begin_exchange();
        if (state == QUIET) return;
        MPI_Test(&request, &done, MPI_STATUS_IGNORE);
        if (!done) return;
        if (state == LENGTHS) return gather();
        end_exchange();
    }

    void begin_exchange() {
        bool last = leaves && flying.empty();
        begun = now();
        if (!has_gifts || last) gifts.clear();
        has_gifts = false;
        length = last ? -1 : int(gifts.size());
        lengths.assign(size_t(size), 0);
        MPI_Iallgather(&length, 1, MPI_INT, lengths.data(), 1, MPI_INT, MPI_COMM_WORLD, &request);
        state = LENGTHS;
    }

    void gather() {
        int all = 0;
        left = true;
        places.clear();
        for (int &one : lengths) {
            left &= one < 0;
            one = one < 0 ? 0 : one;
            places.push_back(all);
            all += one;
        }
        found.assign(size_t(all), 0);
        if (left) return;
        MPI_Iallgatherv(gifts.data(), int(gifts.size()), MPI_BYTE, &found[0], lengths.data(),
                        places.data(), MPI_BYTE, MPI_COMM_WORLD, &request);
        state = BYTES;
    }

    void end_exchange() {
        state = QUIET;
        for (int k = 0; k < size && !leaves; k++) {
            size_t length_of_k = size_t(lengths[size_t(k)]);
            if (k != rank && length_of_k > 0)
                tell(GIFTS, k, found.substr(size_t(places[size_t(k)]), length_of_k));
        }
        Message time;
        time.put(uint64_t(1e9 * (now() - begun)));
        if (!leaves) tell(EXCHANGED, rank, time.bytes);
    }
};

}  // namespace

void carrier_process(int from_run, int to_run, int engines) {
    signal(SIGPIPE, SIG_IGN);
    Carrier(from_run, to_run).run(engines);
    _exit(0);
}
