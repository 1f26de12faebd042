// Unverified, like the whole solver. A process with engines and filters, which reports to process
// 0. It writes nothing on standard output.
#include <algorithm>
#include <cmath>
#include <csignal>
#include <cstdio>
#include <tuple>

#include <fcntl.h>
#include <sys/mman.h>
#include <unistd.h>

#include "mpi_run.h"

namespace {

const double LATE = 0.002;  // seconds between pieces, in tests that send lines late
const double LEAVING = 10, ENDING = 10, STARTING = 600;   // seconds
const uint64_t DROPPED = UINT64_C(1) << 22, PAGE = 4096;  // bytes of a stream, freed together

class Follower {
  public:
    Follower(const Options &options, Link &connected)
        : inputs(options), teams(inputs), peer(inputs.options, teams, connected), link(connected) {
        inputs.options.proofs = inputs.options.assume = nullptr;
        peer.told = [this](Message &message) { take_message(message); };
    }

    int solve() {
        prepare();
        while (!ended) {
            std::vector<pollfd> files = link.files();
            loop.wait(teams.shared->events, files, next_timeout(), children());
            peer.step();
            step_here();
            for (size_t k = 0; k < teams.size(); k++)
                if (teams.is_here(k)) say(k);
            if (now() - traffic_at >= PULSE ||
                teams.dealer.taken != peer.exchange.traffic.cubes_taken)
                say_traffic();
        }
        for (Child *child : teams.children()) child->signal(SIGKILL), wait_for(*child);
        for (size_t k = 0; k < teams.size(); k++)
            if (teams.is_here(k)) say_facts(k, facts_of(k));
        say_traffic();
        peer.leave(LEAVING);
        end_children();
        Folder::remove();
        return 0;
    }

  private:
    enum State { SOLVING, BETWEEN_ROUNDS, OVER };
    struct Told {
        uint64_t sent = 0, dropped = 0;
        bool has_model = false;
        double at = 0;
        Facts facts = {};
    };

    Inputs inputs;
    Teams teams;
    Peer peer;
    Link &link;
    Loop loop;
    State state = SOLVING;
    bool ended = false;
    std::vector<Told> told;
    Checkpoint saved = {};
    std::string saved_bytes;
    int saved_file = -1;
    double traffic_at = 0, ending = INFINITY;

    std::vector<Child *> children() {
        std::vector<Child *> list = teams.children();
        list.push_back(&link.carrier);
        return list;
    }

    double next_timeout() const {
        double time = std::min({ traffic_at + PULSE, ending, peer.next_step() });
        if (state == SOLVING) time = std::min(time, teams.next_start());
        for (size_t k = 0; k < teams.size(); k++)
            if (teams.is_here(k)) time = std::min(time, told[k].at + PULSE);
        return test_hooks.late_lines ? std::min(time, now() + LATE) : time;
    }

    // Before solving.

    void prepare() {
        uint64_t round = receive_inputs();
        teams.open(round);
        told.resize(teams.size());
        teams.open_models();
        peer.open();
        loop.begin();
        Message message;
        while (LOAD(teams.shared->most_lines) == 0)
            if (link.wait(message, STARTING))
                take_message(message);
            else
                refuse("no message from process 0");
        teams.start(false);
    }

    static void keep(int file, const char *bytes, size_t length) {
        if (!write_all(file, bytes, length))
            refuse("cannot store data from process 0: " + error_text());
    }

    // Receives what process 0 broadcasts: the formula, assumptions and cubes; in a resumed run also
    // the last checkpoint. Returns the round with which this run begins.
    uint64_t receive_inputs() {
        int file = file_in_memory(), saved_before = file_in_memory();
        uint64_t round = 1;
        for (Message message;;) {
            if (!link.wait(message, STARTING)) refuse("no formula came from process 0");
            if (message.head.word != INPUT || message.bytes.empty()) break;
            char kind = 0;
            message.take(kind);
            for (Literal literal; kind == 'a' && message.take(literal);)
                inputs.assumed.push_back(literal);
            if (kind == 'c') receive_cubes(message);
            if (kind == 'f') keep(file, message.rest(), message.left());
            if (kind == 'r') message.take(round);
            if (kind == 's') keep(saved_before, message.rest(), message.left());
        }
        inputs.formula_path = OPEN_FILES + std::to_string(file);
        inputs.read_formula();
        if (round > 1) inputs.read_first_formula(OPEN_FILES + std::to_string(saved_before));
        close_file(saved_before);
        return round;
    }

    void receive_cubes(Message &message) {
        Cube cube;
        for (int literal; message.take(literal);) {
            if (literal != 0)
                cube.push_back(literal);
            else
                inputs.cubes.push_back(cube), cube.clear();
        }
    }

    // What process 0 sends.

    void take_control(const Control &control) {
        Shared *shared = teams.shared;
        STORE(shared->streams, control.streams);
        STORE(shared->most_lines, control.most_lines);
        STORE(shared->most_literals, control.most_literals);
        STORE(shared->leaving, control.leaving);
        STORE(shared->crowded, control.crowded != 0);
        teams.dealer.elsewhere = control.cubes_left;
        for (size_t k = 0; k < teams.size(); k++) {
            STORE(teams.engine_status(k).stream, control.of_engines[k].stream);
            STORE(teams.engine_status(k).fed, control.of_engines[k].fed);
        }
        if (control.ending_round > LOAD(shared->ending_round)) end_round(control.ending_round);
        if (control.saved_round > LOAD(shared->saved_round)) take_saved(control.saved_round);
        if (control.round > LOAD(shared->round)) begin_round(control.round);
        if (control.over && state != OVER) {
            ending = now() + ENDING;
            state = OVER;
        }
        teams.tell_filters();
    }

    void end_round(uint64_t number) {
        STORE(teams.shared->ending_round, number);
        state = BETWEEN_ROUNDS;
        teams.go_on();
    }

    // Writes a file that filters read like lrupd's checkpoint, but without literals.
    void take_saved(uint64_t number) {
        std::string text;
        uint64_t identity = 0, value = 0, count = 0;
        unsigned shift = 0;
        for (char letter : saved_bytes) {
            auto byte = static_cast<unsigned char>(letter);
            value |= uint64_t(byte & 127) << shift;
            shift = byte & 128 ? shift + 7 : 0;
            if (byte & 128) continue;
            identity += value;
            value = 0;
            count++;
            text += "c id " + std::to_string(identity) + "\n0\n";
        }
        text.insert(0, format("p cnf 0 %llu\n", (unsigned long long)count));
        saved_file = file_in_memory();
        keep(saved_file, text.data(), text.size());
        const std::string path = name_of_file(saved_file);
        saved_bytes.clear();
        checkpoint_read(&saved, path.c_str());
        for (size_t k = 0; k < teams.size(); k++) {
            if (!teams.is_here(k)) continue;
            if (ftruncate(teams[k].stream, 0) != 0)
                refuse("cannot empty a stream: " + error_text());
            told[k].dropped = 0;
        }
        copy_name(teams.shared->checkpoint, path);
        STORE(teams.shared->saved_round, number);
    }

    void begin_round(uint64_t number) {
        for (Told &one : told) one.sent = 0;
        teams.renew_outboxes(saved, number);
        checkpoint_free(&saved);
        close_file(saved_file);
        state = SOLVING;
        STORE(teams.shared->round, number);
    }

    void take_message(Message &message) {
        Control control;
        if (message.head.word == CONTROL && message.take(control)) take_control(control);
        if (message.head.word == SAVED) saved_bytes += message.bytes;
        if (message.head.word == CUBES) take_cubes(message);
        if (message.head.word == END) ended = true;
    }

    void take_cubes(Message &message) {
        for (uint64_t cube; message.take(cube) && cube < inputs.cubes.size();)
            teams.dealer.queue.push_back(size_t(cube));
    }

    // The processes here.

    void step_here() {
        // mpirun ends all processes, or has ended them
        if (loop.ended_by || link.carrier.ended()) end_children(), _exit(1);
        if (peer.silent_process() >= 0) refuse("no message from process 0 for some seconds");
        for (size_t k = 0; k < teams.size(); k++) {
            if (!teams.is_here(k)) continue;
            Team &team = teams[k];
            if (team.filter.ended()) STORE(teams.engine_status(k).gone, 1);
            if (told[k].facts.of_filter.ended && LOAD(teams.engine_status(k).answer) == 0)
                team.engine.signal(SIGKILL);
        }
        bool is_late = now() >= ending;
        if (is_late) ending = INFINITY;
        if (state == OVER) teams.end_streams(is_late);
        if (state == SOLVING) teams.schedule();
    }

    // What this process sends. Facts that depend on a stream are sent only after the whole stream.

    bool send_stream(size_t k) {
        EngineStatus &engine_status = teams.engine_status(k);
        Told &one = told[k];
        uint64_t round_on = LOAD(teams.shared->round);
        if (LOAD(engine_status.mapped_round) + 1 != round_on ||
            LOAD(teams.shared->saved_round) >= round_on)
            return true;
        uint64_t used = LOAD(engine_status.outbox_used), bytes = LOAD(engine_status.bytes);
        static std::vector<char> piece(PIECE_OF_A_STREAM);
        bool is_whole = teams[k].filter.ended() || LOAD(engine_status.ended_round) == round_on;
        uint64_t pieces = test_hooks.late_lines ? is_whole : UINT64_MAX;
        for (; pieces > 0 && one.sent < bytes && one.sent < LOAD(engine_status.fed) + WINDOW &&
               !link.is_full();
             pieces--) {
            size_t wanted = std::min<uint64_t>(piece.size(), bytes - one.sent);
            ssize_t count = pread(teams[k].stream, piece.data(), wanted, off_t(one.sent));
            if (count <= 0)
                refuse("cannot read a stream again: " +
                       (count < 0 ? error_text() : "it was truncated"));
            Message message;
            message.put(int32_t(k));
            message.bytes.append(piece.data(), size_t(count));
            link.send(STREAM, 0, message.bytes);
            one.sent += uint64_t(count);
            peer.exchange.traffic.bytes_of_streams += uint64_t(count);
        }
        if (one.sent - one.dropped > DROPPED) {
            fallocate(teams[k].stream, FALLOC_FL_PUNCH_HOLE | FALLOC_FL_KEEP_SIZE, 0,
                      off_t(one.sent / PAGE * PAGE));
            one.dropped = one.sent;
        }
        if (one.sent == bytes || test_hooks.without_clearing) peer.exchange.clear(int(k), used);
        return one.sent == bytes;
    }

    void send_model(size_t k) {
        size_t all = size_t(inputs.formula.variables);
        for (size_t from = 0; from < all; from += PIECE_OF_INPUT) {
            Message message;
            message.put(int32_t(k));
            message.put(uint64_t(from));
            message.bytes.append(reinterpret_cast<const char *>(teams[k].model) + from,
                                 std::min(PIECE_OF_INPUT, all - from));
            link.send(MODEL, 0, message.bytes);
        }
        told[k].has_model = true;
    }

    void say_traffic() {
        Message message;
        peer.exchange.traffic.cubes_taken = teams.dealer.taken;
        peer.exchange.traffic.cubes_refuted = teams.dealer.refuted;
        message.put(peer.exchange.traffic);
        link.send(TRAFFIC, 0, message.bytes);
        traffic_at = now();
    }

    static Ended end_of(const Child &child) {
        return { child.ended(), child.status, child.seconds };
    }

    // Reads the counts backwards, rounds first: if a round has ended, what the filter stored before
    // that is seen, too.
    Facts facts_of(size_t k) const {
        const EngineStatus &engine_status = teams.engine_status(k);
        Facts facts = {};
        facts.engine = int32_t(k);
        facts.of_engine = end_of(teams[k].engine);
        facts.of_filter = end_of(teams[k].filter);
        facts.refuted = LOAD(engine_status.refuted);
        facts.answer = LOAD(engine_status.answer);
        facts.unwritten = LOAD(engine_status.unwritten);
        if (facts.of_filter.ended) memcpy(facts.cause, engine_status.cause, sizeof facts.cause);
        for (size_t n = COUNTS; n-- > 0;) facts.counts[n] = LOAD(engine_status.*COUNTED[n]);
        return facts;
    }

    static bool is_news(const Facts &one, const Facts &other) {
        auto what_counts = [](const Facts &facts) {
            return std::make_tuple(facts.answer, facts.refuted, facts.of_engine.ended,
                                   facts.of_filter.ended, facts.counts[ENDED_ROUND],
                                   facts.counts[MAPPED_ROUND]);
        };
        return what_counts(one) != what_counts(other);
    }

    void say(size_t k) {
        Told &one = told[k];
        Facts facts = facts_of(k);
        bool late = !send_stream(k);
        if (late) {
            facts.refuted = one.facts.refuted;
            facts.unwritten = one.facts.unwritten;
            facts.of_filter = one.facts.of_filter;
            facts.counts[ENDED_ROUND] = one.facts.counts[ENDED_ROUND];
        }
        if (!is_news(facts, one.facts) && now() - one.at < PULSE) return;
        if (facts.answer == SATISFIABLE && !one.has_model) send_model(k);
        say_facts(k, facts);
    }

    void say_facts(size_t k, const Facts &facts) {
        Message message;
        message.put(facts);
        link.send(FACTS, 0, message.bytes);
        told[k].facts = facts;
        told[k].at = now();
    }
};

}  // namespace

int follow(const Options &options, Link &link) { return Follower(options, link).solve(); }
