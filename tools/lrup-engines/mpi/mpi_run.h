// Unverified, like the whole solver. lrup-engines-mpi: one run's engines in several processes of
// MPI, on several hosts.
//
//     process 0: front --> Run <--pipes--> carrier <--MPI--> carrier <--pipes--> Run :process 1
//
// Each process has engines and filters like those of a run on one host, and its own `Shared` with
// the engines of all processes, whose state arrives in messages. Process 0 leads: it feeds all
// streams to lrupd, and decides when rounds end. Every half second all processes exchange the
// clauses that their engines gave away. Clauses that arrive are put into the outboxes of the absent
// engines, but at other positions than in their own process. Only carriers use MPI; they are forked
// first, and fork nothing.
#ifndef MPI_RUN_H
#define MPI_RUN_H

#include <cstring>
#include <deque>

#include "run.h"

// Messages. A carrier handles INPUT, GIFTS and LEAVE itself, and forwards the Run's other messages
// to their processes.
enum Word : uint32_t {
    HELLO,      // from the carrier: the processes, and how many engines each has
    INPUT,      // from process 0 to all: a piece of the run's inputs; an empty piece ends them
    GIFTS,      // from each process to all: the clauses of an exchange
    LEAVE,      // from each process, the last message: it exchanges nothing more
    EXCHANGED,  // from the carrier: the nanoseconds that an exchange took
    CONTROL,    // from process 0: what it stores in `Shared`
    SAVED,      // from process 0, before a round counts as saved: the checkpoint's identities
    CUBES,      // from process 0: the user's cubes that the process gets next
    END,        // from process 0
    FACTS,      // about an engine and its filter
    STREAM,     // a piece of a filter's stream
    MODEL,      // a piece of an engine's model
    TRAFFIC     // about a process
};

struct Head {
    uint32_t word;
    int32_t process;
    uint64_t length;
};

struct Message {
    Head head = {};
    std::string bytes;

    template <typename Item> void put(const Item &item) {
        bytes.append(reinterpret_cast<const char *>(&item), sizeof item);
    }
    template <typename Item> bool take(Item &item) {
        if (bytes.size() - at < sizeof item) return false;
        memcpy(&item, bytes.data() + at, sizeof item);
        at += sizeof item;
        return true;
    }
    const char *rest() const { return bytes.data() + at; }
    size_t left() const { return bytes.size() - at; }
    void skip(size_t count) { at += count; }

  private:
    size_t at = 0;
};

// Reads whole messages from a file.
class Incoming {
  public:
    bool read_from(int file);  // what can be read; false at the end
    bool next(Message &message);

  private:
    std::string bytes;
    size_t at = 0;
};

void append_message(std::string &bytes, uint32_t word, int process, const std::string &text);
// returns how much it has written: all, unless the file is full
size_t write_some(int file, const std::string &bytes, size_t from);

// mpi_carrier.cpp: doesn't return. `engines`: how many are here.
[[noreturn]] void carrier_process(int from_run, int to_run, int engines);

// mpi_link.cpp: the Run's side.
class Link {
  public:
    Child carrier;
    int process = 0;
    std::vector<int> engines;  // by process

    void open(int engines_here);
    void send(Word word, int to, const std::string &text);
    bool is_full() const;
    void step();  // sends and receives as much as it can
    bool receive(Message &message);
    bool wait(Message &message, double seconds);  // false if none comes
    std::vector<pollfd> files() const;
    bool is_open() const { return in.read >= 0; }
    void leave();  // ends once all processes leave
    void close();  // ends at once

  private:
    Pipe out, in;
    std::string waiting;
    size_t written = 0;
    Incoming incoming;
};

// mpi_exchange.cpp: clauses given to other processes, and taken from them.
struct Traffic {
    uint64_t out, in, left_out, dropped;  // clauses
    uint64_t bytes_out, bytes_in;         // of these clauses
    uint64_t exchanges, nanoseconds;
    uint64_t bytes_of_streams;
    uint64_t cubes_taken, cubes_refuted;  // the user's cubes
};

class Exchange {
  public:
    Traffic traffic = {};

    void open(Shared *all, const std::vector<uint32_t *> &boxes);
    // call once the lines of the clauses before position `used` have been sent
    void clear(int engine, uint64_t used) { cleared[size_t(engine)] = used; }
    std::string collect();  // what was given away since the last time
    // whether it has collected clauses in this round
    bool has_begun() const { return LOAD(shared->round) == round; }
    void place(Message &message);

  private:
    Shared *shared = nullptr;
    std::vector<uint32_t *> outboxes;
    std::vector<uint64_t> read, cleared, staged;  // by engine, from 0
    uint64_t round = 1;
    int first = 0, end = 0;  // the engines here, from 0

    void begin_round();
    void pass_over();
    bool is_here(int engine) const { return engine >= first && engine < end; }
    void pass(int engine, uint64_t position);
};

// Reports about an engine and its filter.
struct Ended {
    int32_t ended, status;
    double seconds;
};

enum { ENDED_ROUND = 16, MAPPED_ROUND, COUNTS };  // indices of two counts

struct Facts {
    int32_t engine, answer, refuted, unwritten;  // engines are counted from 0
    Ended of_engine, of_filter;
    uint64_t counts[COUNTS];
    char cause[LONGEST_CAUSE];
};

struct Control {
    uint64_t over;
    uint64_t round, ending_round, saved_round, streams, most_lines, most_literals, leaving, crowded,
        cubes_left;
    struct {
        uint64_t stream, fed;
    } of_engines[MOST_ENGINES];
};

// mpi_run.cpp: what leader and followers have in common.
class Peer {
  public:
    Link &link;
    Exchange exchange;
    std::function<void(Message &)> told;  // gets messages of other processes, except for exchanges

    Peer(const Options &given, Teams &its_teams, Link &connected);
    void open();  // once shared memory exists
    void step();  // takes messages, and exchanges
    double next_step() const;
    int silent_process() const;  // one that has been silent for too long, or -1
    void leave(double seconds);  // takes the others' last messages

  private:
    const Options &options;
    Teams &teams;
    double exchanged = 0;
    bool exchanging = false;
    std::deque<Message> kept;  // for tests: messages that come late, after `awaited` gifts
    int awaited = 0;
    std::vector<double> silent;  // by process: seconds
    double stepped = now();

    int first_of(int process) const;  // its first engine, from 0
    double next_exchange() const;
    void take(Message &message);
    bool keeps(const Message &message);
    bool is_due(const Message &message) const;
    bool holds_back() const;
};

int lead(const Options &options, Link &link);    // mpi_leader.cpp
int follow(const Options &options, Link &link);  // mpi_follower.cpp

extern uint64_t EngineStatus::*const COUNTED[COUNTS];

const double SILENCE = 8;   // seconds after which a process counts as dead
const double PULSE = 0.25;  // seconds: something is sent at least this often
// TCP takes a piece of this size at once, without asking the other side
const size_t PIECE_OF_A_STREAM = 1 << 15;
const size_t PIECE_OF_INPUT = 1 << 20;
const uint64_t WINDOW = UINT64_C(1) << 22;  // bytes of a stream that lrupd hasn't got yet

#endif
