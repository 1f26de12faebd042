// Unverified, like the whole solver. Process 0: it feeds lrupd, and stores what the others report
// in its `Shared`.
#include <algorithm>
#include <cerrno>
#include <cstddef>

#include <unistd.h>

#include "mpi_run.h"

namespace {

const double LEAVING = 3;  // seconds

class Leader {
  public:
    Leader(const Options &options, Link &connected)
        : run(options), peer(run.inputs.options, run.teams, connected), link(connected) {
        peer.told = [this](Message &message) { take_message(message); };
        elsewhere.begin = [this] { begin(); };
        elsewhere.step = [this] { return step(); };
        elsewhere.next_step = [this] {
            return is_news(control(), told) ? 0 : std::min(told_at + PULSE, peer.next_step());
        };
        elsewhere.files = [this] { return link.files(); };
        elsewhere.tell_details = [this] { tell_details(); };
        elsewhere.end = [this](bool at_once) { end(at_once); };
        elsewhere.carrier = &link.carrier;
    }

    int solve() { return run.solve(&elsewhere); }

  private:
    Run run;
    Peer peer;
    Link &link;
    Elsewhere elsewhere;
    std::vector<Traffic> traffic;  // by process
    Control told = {};
    double told_at = 0;
    uint64_t told_saved = 0;
    std::vector<uint64_t> sent;  // by process: how many of the user's cubes were sent

    int processes() const { return int(link.engines.size()); }

    void to_all(Word word, const std::string &text) {
        for (int k = 1; k < processes(); k++) link.send(word, k, text);
    }

    // Broadcasts a piece of the inputs; its first byte says what the piece contains.
    void broadcast(char kind, const void *bytes, size_t length) {
        std::string text(1, kind);
        text.append(static_cast<const char *>(bytes), length);
        link.send(INPUT, 0, text);
        while (link.is_full() && link.is_open()) {
            std::vector<pollfd> list = link.files();
            poll(list.data(), list.size(), -1);
            link.step();
        }
    }

    void begin() {
        const Inputs &inputs = run.inputs;
        peer.open();
        traffic.resize(link.engines.size());
        sent.resize(link.engines.size());
        const uint64_t round = inputs.saved.count() + 1;
        broadcast('r', &round, sizeof round);
        broadcast('a', inputs.assumed.data(), inputs.assumed.size() * sizeof(Literal));
        broadcast_cubes();
        broadcast_file('f', inputs.formula_path);
        if (round > 1) broadcast_file('s', inputs.saved.checkpoint());
        link.send(INPUT, 0, "");
    }

    void broadcast_file(char kind, const std::string &path) {
        std::vector<char> piece(PIECE_OF_INPUT);
        int file = open_input(path);
        for (ssize_t count; (count = read(file, piece.data(), piece.size())) != 0;) {
            if (count < 0 && errno != EINTR)
                refuse("cannot read " + path + " again: " + error_text());
            if (count > 0) broadcast(kind, piece.data(), size_t(count));
        }
        close(file);
    }

    void broadcast_cubes() {
        std::vector<int> literals;
        for (const Cube &cube : run.inputs.cubes) {
            literals.insert(literals.end(), cube.begin(), cube.end());
            literals.push_back(0);
            if (literals.size() < PIECE_OF_INPUT / sizeof(int)) continue;
            broadcast('c', literals.data(), literals.size() * sizeof(int));
            literals.clear();
        }
        broadcast('c', literals.data(), literals.size() * sizeof(int));
    }

    // Each process gets one cube for each of its engines in advance.
    void share_cubes() {
        Dealer &dealer = run.teams.dealer;
        dealer.refuted_elsewhere = 0;
        for (int k = 1; k < processes(); k++) {
            const Traffic &theirs = traffic[size_t(k)];
            dealer.refuted_elsewhere += theirs.cubes_refuted;
            Message message;
            for (; !dealer.queue.empty() &&
                   sent[size_t(k)] < theirs.cubes_taken + uint64_t(link.engines[size_t(k)]);
                 sent[size_t(k)]++) {
                message.put(uint64_t(dealer.queue.front()));
                dealer.queue.pop_front();
            }
            if (!message.bytes.empty()) link.send(CUBES, k, message.bytes);
        }
    }

    // What the others send.

    bool is_elsewhere(int k) const {
        return k >= 0 && size_t(k) < run.teams.size() && !run.teams.is_here(size_t(k));
    }

    void take_end(Child &child, const Ended &end) {
        child.seconds = end.seconds;
        child.status = end.status;
        child.running = !end.ended;
    }

    void take_facts(const Facts &facts) {
        if (!is_elsewhere(facts.engine)) return;
        EngineStatus &engine_status = run.teams.engine_status(size_t(facts.engine));
        uint64_t mapped = LOAD(engine_status.mapped_round);
        for (size_t k = 0; k < COUNTS; k++) STORE(engine_status.*COUNTED[k], facts.counts[k]);
        if (LOAD(engine_status.mapped_round) > mapped) STORE(engine_status.bytes, 0);
        memcpy(engine_status.cause, facts.cause, sizeof engine_status.cause);
        engine_status.cause[sizeof engine_status.cause - 1] = 0;
        STORE(engine_status.unwritten, facts.unwritten);
        STORE(engine_status.answer, facts.answer);
        STORE(engine_status.refuted, facts.refuted);
        take_end(run.teams[size_t(facts.engine)].engine, facts.of_engine);
        take_end(run.teams[size_t(facts.engine)].filter, facts.of_filter);
    }

    void take_stream(Message &message) {
        int32_t k = -1;
        if (!message.take(k) || !is_elsewhere(k)) return;
        EngineStatus &engine_status = run.teams.engine_status(size_t(k));
        const char *bytes = message.rest();
        for (size_t left = message.left(); left > 0;) {
            int file = run.teams.file_to_write(size_t(k));
            ssize_t count = pwrite(file, bytes, left, off_t(engine_status.bytes));
            bool is_lost = count < 0 && errno != EINTR && !run.teams.spill(size_t(k));
            if (is_lost)
                refuse("cannot write " + run.teams.stream_path(size_t(k), run.rounds.number) +
                       ": " + error_text());
            if (count <= 0) continue;
            bytes += count;
            left -= size_t(count);
            STORE(engine_status.bytes, engine_status.bytes + uint64_t(count));
        }
    }

    void take_model(Message &message) {
        int32_t k = -1;
        uint64_t from = 0, variables = uint64_t(run.inputs.formula.variables);
        if (!message.take(k) || !message.take(from) || !is_elsewhere(k) || from > variables) return;
        memcpy(run.teams[size_t(k)].model + from, message.rest(),
               std::min<size_t>(message.left(), variables - from));
    }

    void take_message(Message &message) {
        Facts facts;
        if (message.head.word == FACTS && message.take(facts)) take_facts(facts);
        if (message.head.word == STREAM) take_stream(message);
        if (message.head.word == MODEL) take_model(message);
        if (message.head.word == TRAFFIC) message.take(traffic[size_t(message.head.process)]);
    }

    // What process 0 sends.

    // Sends the differences between saved identities, seven bits to a byte, as in binary proofs.
    void say_saved() {
        std::string text;
        uint64_t last = 0;
        const Identities &saved = run.rounds.saved.old;
        for (size_t k = 0; k < saved.length; k++) {
            uint64_t number = saved.items[k] - last;
            last = saved.items[k];
            for (; number > 127; number >>= 7) text += char((number & 127) | 128);
            text += char(number);
            if (text.size() < PIECE_OF_INPUT) continue;
            to_all(SAVED, text);
            text.clear();
        }
        to_all(SAVED, text);
    }

    Control control() const {
        Control words = {};
        const Shared *shared = run.teams.shared;
        words.over = uint64_t(LOAD(shared->over));
        words.round = LOAD(shared->round);
        words.ending_round = LOAD(shared->ending_round);
        words.saved_round = LOAD(shared->saved_round);
        words.streams = LOAD(shared->streams);
        words.most_lines = LOAD(shared->most_lines);
        words.most_literals = LOAD(shared->most_literals);
        words.leaving = LOAD(shared->leaving);
        words.crowded = uint64_t(LOAD(shared->crowded));
        words.cubes_left = run.teams.dealer.queue.size();
        for (size_t k = 0; k < run.teams.size(); k++) {
            words.of_engines[k].stream = LOAD(shared->engine_statuses[k].stream);
            words.of_engines[k].fed = LOAD(shared->engine_statuses[k].fed);
        }
        return words;
    }

    static bool is_news(const Control &one, const Control &other) {
        for (size_t k = 0; k < MOST_ENGINES; k++)
            if (one.of_engines[k].fed > other.of_engines[k].fed + WINDOW / 8 ||
                one.of_engines[k].stream != other.of_engines[k].stream)
                return true;
        return memcmp(&one, &other, offsetof(Control, of_engines)) != 0;
    }

    void say() {
        Control words = control();
        // if the next round has already begun, no filter elsewhere is left
        bool is_due = words.saved_round > told_saved && words.saved_round == words.round;
        if (is_due) say_saved(), told_saved = words.saved_round;
        if (!is_news(words, told) && now() - told_at < PULSE) return;
        Message message;
        message.put(words);
        to_all(CONTROL, message.bytes);
        told = words;
        told_at = now();
    }

    std::string step() {
        peer.step();
        for (size_t k = 0; k < run.teams.size(); k++)
            if (run.teams.is_here(k))
                peer.exchange.clear(int(k), LOAD(run.teams.engine_status(k).outbox_used));
        if (link.carrier.ended()) return "MPI's process here " + link.carrier.end();
        if (peer.silent_process() >= 0)
            return format("no message from process %d for %.0f seconds", peer.silent_process(),
                          SILENCE);
        share_cubes();
        say();
        return "";
    }

    // Some lines that cite a clause of another process could be derived without it, too.
    void tell_details() const {
        for (size_t process = 0, k = 0; process < traffic.size(); process++) {
            const Traffic &one = process == 0 ? peer.exchange.traffic : traffic[process];
            uint64_t lines = 0, citing = 0;
            double each =
                one.exchanges ? 1e-6 * double(one.nanoseconds) / double(one.exchanges) : 0;
            for (size_t end = k + size_t(link.engines[process]); k < end; k++) {
                lines += LOAD(run.teams.engine_status(k).lines);
                citing += LOAD(run.teams.engine_status(k).citing_elsewhere);
            }
            run.display.tell(format(
                "process %zu: %s; clauses: %s sent, %s received, %s beyond the budget, %s late; "
                "%s out, %s in; %.1f ms each; "
                "%.0f %% of lines cite another process; %s of streams",
                process, counted(one.exchanges, "exchange").c_str(), grouped(one.out).c_str(),
                grouped(one.in).c_str(), grouped(one.left_out).c_str(),
                grouped(one.dropped).c_str(), counted(one.bytes_out, "byte").c_str(),
                counted(one.bytes_in, "byte").c_str(), each,
                lines ? 100.0 * double(citing) / double(lines) : 0,
                counted(one.bytes_of_streams, "byte").c_str()));
        }
    }

    void end(bool at_once) {
        to_all(END, "");
        peer.leave(at_once || peer.silent_process() >= 0 ? 0 : LEAVING);
    }
};

}  // namespace

int lead(const Options &options, Link &link) { return Leader(options, link).solve(); }
