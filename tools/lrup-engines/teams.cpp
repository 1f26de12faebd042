// Unverified, like the whole solver. Starts, pauses and ends engines and filters.
#include <algorithm>
#include <cmath>
#include <csignal>
#include <cstring>
#include <fstream>
#include <iterator>
#include <sstream>

#include <fcntl.h>
#include <sched.h>
#include <sys/stat.h>
#include <unistd.h>

#include "packed.h"
#include "display.h"
#include "teams.h"

namespace {

// the system's limit for all pipes of a user is 1 << 26
const int PROOF_PIPE = 1 << 20, ALL_PROOF_PIPES = 1 << 24;
const int CROWDED_PIPE = 1 << 16;
// the first engine runs alone for this many seconds, plus READINGS times the formula's reading time
const double MOMENT = 0.1;
const int READINGS = 2;
const uint64_t LEARNED = 1 << 18;  // literals
const uint64_t WINDOW = 1000;      // additions
// Without -j: bytes of a proof for each of its filters; how many times as long a packed proof is;
// and how many filters a proof has at most, since each of them reads all of it.
const uint64_t SHARE = 1 << 20, UNPACKED = 4;
const int MOST_FILTERS = 16, FILTERS_WITH_HINTS = 2;
const size_t HEAD = 1 << 20;  // bytes of a proof that show its form
const size_t FEW = 1000;      // .. and whether it is text

}  // namespace

static int count_cores() {
    cpu_set_t cores;
    CPU_ZERO(&cores);
    return sched_getaffinity(0, sizeof cores, &cores) == 0 ? CPU_COUNT(&cores)
                                                           : int(sysconf(_SC_NPROCESSORS_ONLN));
}

// Of these cores: those that others keep busy, on average of the last minute. If fewer processes run
// right now, these count: an earlier run of this program may just have ended.
static int count_free_cores() {
    std::ifstream file("/proc/loadavg");
    double load = 0, ignored = 0;
    uint64_t running = 1;  // with this process
    file >> load >> ignored >> ignored >> running;
    load = double(hooked(test_hooks.load, uint64_t(100 * load))) / 100;
    running = hooked(test_hooks.running, running);
    return count_cores() - int(std::min(std::lround(load), long(running) - 1));
}

// A filter works about as hard as its engine, unless CaDiCaL gives hints.
static int engines_on(int cores) {
    int engines = engines_have_hints ? (3 * cores + 2) / 4 : cores / 2;
    return std::clamp(engines, 1, int(MOST_ENGINES));
}

int usual_engines() { return engines_on(count_free_cores()); }

// The first bytes of a proof, unpacked; fewer if it can't be read, or only once.
static std::string head_of(const std::string &path) {
    std::string head(HEAD, 0);
    Unpacking unpacking = {};
    int file = is_read_again(path) ? unpacking_open(&unpacking, path.c_str()) : -1;
    size_t length = 0;
    for (ssize_t count = 1; file >= 0 && count > 0 && length < HEAD; length += size_t(count))
        count = std::max<ssize_t>(0, read(file, &head[length], HEAD - length));
    if (file >= 0) close(file);
    unpacking_leave(&unpacking);
    return head.substr(0, length);
}

// Whether the first addition of a proof in text has hints, as in LRAT, or FRAT with a list l.
static bool has_hints_in_text(const std::string &head) {
    std::istringstream lines(head);
    std::string line;
    while (std::getline(lines, line)) {
        std::istringstream list(line);
        std::vector<std::string> words{ std::istream_iterator<std::string>(list), {} };
        bool is_other = words.empty() || words[0] == "c" || words[0] == "o" || words[0] == "d" ||
                        (words.size() > 1 && (words[1] == "d" || words[1] == "i"));
        if (is_other) continue;
        return std::count(words.begin(), words.end(), words[0] == "a" ? "l" : "0") ==
               (words[0] == "a" ? 1 : 2);
    }
    return false;
}

// Whether the steps of a proof have hints. A binary one has them if its lists don't alternate with
// letters: only the lists end with a byte that is 0.
static bool has_hints(const std::string &head) {
    auto is_text = [](char byte) { return byte == '\n' || (byte >= ' ' && byte <= '~'); };
    if (std::all_of(head.begin(), head.begin() + long(std::min(head.size(), FEW)), is_text))
        return has_hints_in_text(head);
    for (size_t at = 0; at < head.size(); at = std::min(head.find('\0', at), head.size() - 1) + 1)
        if (head[at] != 'a' && head[at] != 'd') return true;
    return false;
}

// For each of several proofs, and beside engines: one; also in a resumed run, since a proof that is
// begun again begins the record again. A solver, and a pipe's writer, needs a core. With hints two
// filters are faster than more of them: reading takes most of their time.
int filters_of(const Options &options) {
    struct stat found;
    if (options.solvers.size() != 1 || options.engines > 0 || options.resumed) return 1;
    if (options.filters > 0) return options.filters;
    const char *path = options.solvers[0];
    const int cores = std::clamp(count_free_cores(), 1, MOST_FILTERS + 1);
    if (!options.check || stat(path, &found) != 0 || !S_ISREG(found.st_mode))
        return std::max(cores - 1, 1);
    uint64_t shares = uint64_t(found.st_size) * (packer_of(path) ? UNPACKED : 1) / SHARE;
    const int most = int(std::clamp<uint64_t>(shares, 1, uint64_t(std::min(cores, MOST_FILTERS))));
    return most > FILTERS_WITH_HINTS && has_hints(head_of(path)) ? FILTERS_WITH_HINTS : most;
}

void copy_name(char (&place)[LONGEST_PATH], const std::string &name) {
    if (name.size() >= sizeof place) refuse(name + ": file name too long");
    memcpy(place, name.c_str(), name.size() + 1);
}

std::string name_of_round(uint64_t number) { return "round-" + std::to_string(number); }

// Facts.

bool Teams::is_lost(size_t k) const {
    const Team &first = list[first_of(k)];
    return first.wrong || (first.told && list[k].filter.ended() &&
                           LOAD(engine_status(first_of(k)).answer) != SATISFIABLE);
}

std::string Teams::title(size_t k) const {
    const char *what = inputs.options.check ? "proof " : is_solver(k) ? "solver " : "engine ";
    return what + std::to_string(k / filters() + 1);
}

std::string Teams::name_of_proof(size_t k) const {
    return inputs.options.check ? list[k].command : title(k);
}

std::string Teams::why_lost(size_t k) const {
    const std::string &cause = list[k].cause;
    return name_of_proof(k) + (inputs.options.check ? ": " : " is lost: ") + cause;
}

bool Teams::is_any_at_work() const {
    return std::any_of(list.begin(), list.end(),
                       [](const Team &team) { return team.filter.running; });
}

uint64_t Teams::all(uint64_t EngineStatus::*field) const {
    uint64_t sum = 0;
    for (size_t k = 0; k < list.size(); k++) sum += LOAD(engine_status(k).*field);
    return sum;
}

bool Teams::have_all(uint64_t EngineStatus::*field, uint64_t wanted) const {
    for (size_t k = 0; k < list.size(); k++)
        if (list[k].filter.running && LOAD(engine_status(k).*field) != wanted) return false;
    return true;
}

// What comes first in the proof counts. A filter that was killed decides, too.
size_t Teams::decider(size_t k) const {
    size_t first = first_of(k), found = first;
    auto stop_of = [this](size_t n) { return LOAD(engine_status(n).stopped_at); };
    for (size_t n = first; n < first + filters(); n++) {
        bool is_dead =
            list[n].filter.ended() && stop_of(n) == NO_STOP && !list[n].filter.ended_with(0);
        if (is_dead) return n;
    }
    for (size_t n = first; n < first + filters(); n++) {
        if (list[n].filter.running) return n;
        if (stop_of(n) < stop_of(found)) found = n;
    }
    return found;
}

bool Teams::are_stopping() const {
    for (size_t k = 0; k < list.size() && has_windows(); k++)
        if (LOAD(engine_status(k).stopped_at) != NO_STOP && list[decider(k)].filter.running)
            return true;
    return false;
}

std::vector<Child *> Teams::children() {
    std::vector<Child *> found;
    for (Team &team : list) found.insert(found.end(), { &team.engine, &team.filter, &team.copier });
    return found;
}

// Starting.

void Teams::open(uint64_t round) {
    const Options &options = inputs.options;
    if (!shared) shared = shared_memory<Shared>(1);
    shared->engines = shared->engines_here = options.engines;
    shared->outbox_words = options.shares() ? hooked(test_hooks.outbox, OUTBOX_WORDS) : 1;
    shared->round = round;
    shared->events.file = event_file();
    if (options.proofs) record = absolute(options.proofs) + "/";
    list.resize(size_t(options.engines));
    for (size_t k = 0; k < list.size(); k++) {
        STORE(engine_status(k).stream, k + 1);
        STORE(engine_status(k).mapped_round, round - 1);
        STORE(engine_status(k).stopped_at, NO_STOP);
        STORE(engine_status(k).window, k % filters());
        engine_status(k).events.file = event_file();
        if (is_solver(k)) std::fill_n(engine_status(k).floors, MOST_ENGINES, UINT64_MAX);
        list[k].stream =
            options.proofs ? create_file(stream_path(k, shared->round)) : file_in_memory();
        if (options.proofs) list[k].spare = file_in_memory();
        outboxes.push_back(shared_memory<uint32_t>(shared->outbox_words));
    }
    STORE(shared->streams, list.size());
}

void Teams::open_models() {
    for (size_t k = 0; k < list.size(); k++)
        list[k].model = shared_memory<signed char>(size_t(inputs.formula.variables));
}

void Teams::set_here(int first, int count) {
    shared->first_here = first;
    shared->engines_here = count;
}

// Among several proofs: whether the first clause that proof k adds has an identity of stream k.
bool Teams::is_a_stream(size_t k) const {
    std::istringstream lines(head_of(inputs.options.solvers[k]));
    std::string line, second;
    while (std::getline(lines, line)) {
        std::istringstream words(line);
        uint64_t identity = 0;
        if (line.empty() || line[0] == 'c') continue;
        if (!(words >> identity >> second)) return false;
        if (second == "d" || second == "i") continue;
        return identity > inputs.formula.clauses &&
               (identity - inputs.formula.clauses - 1) % list.size() == k;
    }
    return false;
}

void Teams::find_streams() {
    bool are_streams = inputs.options.check && inputs.options.solvers.size() > 1;
    for (size_t k = 0; k < list.size(); k++) are_streams = are_streams && is_a_stream(k);
    if (are_streams) cited = inputs.options.solvers;
}

// Saved clauses may take as much room in an engine as the formula does, or LEARNED literals if that
// is more. Half of this room is for clauses that all engines get.
void Teams::find_beginning() {
    const Formula &all = inputs.first_formula;
    uint64_t own = inputs.formula.clauses,
             engines = std::max<uint64_t>(1, list.size() - inputs.options.solvers.size());
    uint64_t left = std::max<uint64_t>(LEARNED, all.starts.items[own]) / 2, taken = 0;
    std::vector<uint64_t> literals(1);  // of all clauses, by length
    for (size_t k = own; k < all.clauses; k++) {
        size_t length = all.starts.items[k + 1] - all.starts.items[k];
        if (length >= literals.size()) literals.resize(length + 1);
        literals[length] += length;
    }
    beginning = { own, 0, 0, engines };
    size_t length = 1;
    for (; length < literals.size() && taken + literals[length] <= left; length++)
        taken += literals[length];
    beginning.for_all = length - 1;
    for (taken = 0; length < literals.size() && taken + literals[length] <= engines * left;
         length++)
        taken += literals[length];
    beginning.for_one = length - 1;
}

// The first engine may start alone, so that an easy formula takes no more cores than it needs.
void Teams::start(bool is_first_alone) {
    find_streams();
    find_beginning();
    clauses = inputs.first_formula.clauses;
    dealer.open(inputs.cubes);
    STORE(shared->cubes_left, inputs.cubes.size());
    is_first_alone &= !test_hooks.at_once && !list.empty() && !is_solver(0);
    for (size_t k = 0; k < list.size(); k++)
        if (k == 0 || !is_first_alone || is_solver(k)) start_team(k);
    others_start = is_first_alone ? now() + MOMENT + READINGS * inputs.reading : 0;
}

void Teams::start_others() {
    for (size_t k = 1; k < list.size() && others_start > 0; k++)
        if (!is_solver(k)) start_team(k);
    others_start = 0;
}

// The others never start while the first engine's filter reads that engine's answer.
double Teams::next_start() const {
    if (others_start == 0) return INFINITY;
    return list[0].told ? 0 : LOAD(engine_status(0).answer) == 0 ? others_start : INFINITY;
}

// If there are fewer cores than processes, pipes are small: an engine far ahead of its filter would
// take cores from others, and its proof would come late.
int Teams::size_of_pipes() const {
    bool is_crowded = filters() == 1 && shared->engines_here > engines_on(count_cores());
    return is_crowded ? CROWDED_PIPE
                      : std::min(PROOF_PIPE, ALL_PROOF_PIPES / inputs.options.engines);
}

// No other child gets these pipes: a child that is stopped when it starts would keep them open.
// Engines of other hosts start there. An engine starts with all filters of its proof.
void Teams::start_team(size_t k) {
    if (k != first_of(k)) return;
    const size_t end = k + filters();
    if (has_windows() && comes_once(k)) open_once(k);
    if (!is_here(k)) {
        for (Child *child : { &list[k].engine, &list[k].filter })
            child->pid = ELSEWHERE, child->running = true;
        return;
    }
    for (size_t n = k; n < end; n++) list[n].proof = make_pipe(size_of_pipes());
    for (size_t n = k; n < end; n++) start_filter(n);
    if (inputs.options.check || list[k].engine.pid == 0) start_engine(k);
    if (list[k].once.read >= 0 && !inputs.options.check) start_copier(k);
    for (size_t n = k; n < end; n++)
        close_file(list[n].proof.read), close_file(list[n].proof.write);
    close_file(list[k].once.write);
}

// Returns only in the first process.
void Teams::start_filter(size_t k) {
    Team &team = list[k];
    int number = int(k) + 1;
    const std::vector<int> files = { team.proof.read, team.stream, team.spare, record_folder };
    if (!begin(team.filter, "filter " + std::to_string(number), files)) return;
    raise_oom_score();
    bool spares = has_windows() || inputs.options.may_be_resumed();
    Filtering filtering = { shared,
                            outboxes.data(),
                            number,
                            filters(),
                            k % filters(),
                            hooked(test_hooks.window, WINDOW),
                            clauses,
                            LOAD(shared->round),
                            team.proof.read,
                            team.stream,
                            team.spare,
                            record_folder,
                            is_solver(k) ? UNKNOWN_FORM : ENGINE_PROOF,
                            inputs.options.shares() && !is_solver(k),
                            cited.empty() ? nullptr : cited.data(),
                            inputs.assumed.data(),
                            inputs.assumed.size(),
                            spares ? inputs.formula.clauses : 0,
                            is_solver(k) ? Beginning{ UINT64_MAX, 0, 0, 1 } : beginning };
    filter_process(&filtering, &inputs.first_formula);
}

// A formula whose path needs quotes is opened here and named by its descriptor; so is a checkpoint,
// which is removed once there is a newer one.
std::string Teams::solver_line(size_t k, int proof, int &renamed) const {
    bool goes_on = inputs.saved.count() > 0;
    const std::string path = goes_on ? inputs.saved.checkpoint() : inputs.formula_path;
    if (goes_on || !is_plain(path)) renamed = kept_open(open_input(path));
    return solver_command(proof_of(k), renamed < 0 ? path : OPEN_FILES + std::to_string(renamed),
                          OPEN_FILES + std::to_string(proof));
}

// A terminal stops processes of the background that read from it, such as these.
static bool is_terminal(const char *path) {
    int file = open_if_possible(path);
    bool is_it = file >= 0 && isatty(file);
    if (file >= 0) close(file);
    return is_it;
}

// The proof is opened later, by its own process, which may have to wait for a pipe's writer.
static struct stat check_proof(const char *path) {
    struct stat found;
    bool is_standard = strcmp(path, "-") == 0;
    if ((is_standard ? fstat(STDIN_FILENO, &found) : stat(path, &found)) != 0)
        refuse(::title(path) + ": " + error_text());
    if (S_ISDIR(found.st_mode)) refuse(::title(path) + " is a folder");
    if (S_ISCHR(found.st_mode) && is_terminal(path))
        refuse(::title(path) + " is a terminal: name a file, or use a pipe");
    return found;
}

// Whether the shell finds the command's first word; true if that isn't clear without running it.
static bool is_command(const std::string &command) {
    size_t begin = command.find_first_not_of(" \t\n"), end = command.find_first_of(" \t\n", begin);
    if (begin == std::string::npos) return true;
    std::string word = command.substr(begin, end - begin);
    bool is_name = is_plain(word) && word.find('=') == std::string::npos;
    return !is_name || system(("command -v -- " + word + " > /dev/null 2>&1").c_str()) == 0;
}

// Refuses a proof that can't be read, and solvers of which none can be run.
void Teams::check_solvers() const {
    const Options &options = inputs.options;
    bool any = options.engines > int(options.solvers.size()) * options.filters;
    for (const char *solver : options.solvers)
        if (options.check)
            check_proof(solver), any = true;
        else
            any = any || is_command(solver);
    if (!any) refuse("nothing could run: " + quoted(options.solvers[0]) + ": command not found");
}

// Whether the proof can't be read again, and so has to be kept until several filters have checked it.
// A packed one isn't: what unpacks it ends with the process that copies the proof.
bool Teams::comes_once(size_t k) const {
    return !inputs.options.check || (!is_read_again(proof_of(k)) && !packer_of(proof_of(k)));
}

// Opens such a proof for all processes that will copy it, so that a pipe's writer always finds a
// reader. A pipe without a writer doesn't block, and isn't at its end. If the proof can't be opened,
// the process that copies it says why.
void Teams::open_once(size_t k) {
    const std::string kept = Folder::name() + "/proof";
    Pipe &once = list[k].once;
    if (!inputs.options.check)
        once = make_pipe(size_of_pipes());
    else if ((once.read = open_if_possible(proof_of(k), O_NONBLOCK)) >= 0)
        kept_open(once.read);
    list[k].kept = create_if_possible(kept);
    unlink(kept.c_str());
}

Proof Teams::proof_to_copy(size_t k) const {
    bool keeps = has_windows() && list[k].kept >= 0;
    Proof proof = { proof_of(k), list[k].once.read, list[k].kept, keeps, {} };
    for (size_t n = k; n < k + filters(); n++) proof.pipes.push_back(list[n].proof.write);
    return proof;
}

// Like an engine, but it has no number of its own. Returns only in the first process.
void Teams::start_copier(size_t k) {
    const Proof proof = proof_to_copy(k);
    std::vector<int> files = proof.pipes;
    files.insert(files.end(), { proof.file, proof.kept });
    if (!begin(list[k].copier, "copier", files)) return;
    raise_oom_score();
    Engine engine = {};
    engine.options = &inputs.options;
    engine.shared = shared;
    engine.number = int(k) + 1;
    proof_process(engine, proof);
}

// Returns only in the first process.
void Teams::start_engine(size_t k) {
    Team &team = list[k];
    int number = int(k) + 1, renamed = -1,
        pipe = team.once.write >= 0 ? team.once.write : team.proof.write;
    Engine engine = { &inputs.options, &inputs.first_formula,
                      &inputs.assumed, &inputs.cubes,
                      shared,          outboxes.data(),
                      &beginning,      team.model,
                      number,          pipe };
    bool is_proof = inputs.options.check;
    const Proof proof = is_proof ? proof_to_copy(k) : Proof();
    std::vector<int> files = is_proof ? proof.pipes : std::vector<int>{ pipe };
    if (is_proof) {
        files.insert(files.end(), { proof.file, proof.kept });
        const char *path = proof_of(k);
        struct stat found = check_proof(path);
        if (S_ISREG(found.st_mode) && !packer_of(path)) team.proof_size = uint64_t(found.st_size);
        team.command = ::title(path);
    } else if (is_solver(k))
        team.command = solver_line(k, pipe, renamed);
    if (renamed >= 0) files.push_back(renamed);
    team.engine.forwards_signals = is_solver(k) && !is_proof;
    if (!begin(team.engine, "engine " + std::to_string(number), files)) return close_file(renamed);
    raise_oom_score();
    if (is_proof) proof_process(engine, proof);
    // drops the engine's messages
    if (!inputs.options.verbose) dup2(::open("/dev/null", O_WRONLY), STDERR_FILENO);
    if (is_solver(k)) solver_process(engine, team.command, files);
    engine_process(engine);
}

// Solving.

void Teams::schedule() {
    if (now() >= next_start()) start_others();
    dealer.deal(*shared, inputs.options);
    pause_others();
}

bool Teams::has_refuted(size_t k) const {
    return LOAD(engine_status(first_of(k)).answer) == UNSATISFIABLE && list[k].filter.running;
}

// While the filter of an engine that has refuted the formula catches up, the other engines and
// filters on this host are paused, so that this filter has the cores. They continue if that filter
// stops.
void Teams::pause_others() {
    bool wanted = false;
    if (inputs.options.check) return;  // all proofs exist already
    for (size_t k = 0; k < list.size(); k++) wanted |= is_here(k) && has_refuted(k);
    if (wanted && answered == 0) answered = now();
    if (!wanted) answered = 0;
    for (size_t k = 0; k < list.size(); k++) {
        bool stops = wanted && !has_refuted(k);
        if (stops == list[k].paused || !is_here(k)) continue;
        list[k].paused = stops;
        for (Child *child : { &list[k].engine, &list[k].filter })
            child->signal(stops ? SIGSTOP : SIGCONT);
    }
}

void Teams::go_on() {
    for (Team &team : list) {
        if (!team.paused) continue;
        team.engine.signal(SIGCONT);
        team.filter.signal(SIGCONT);
        team.paused = false;
    }
}

// Chooses the engine whose clauses take the most room. It chooses an engine that has refuted the
// formula only if no other is left.
std::string Teams::choose_leaving(const std::string &cause) {
    size_t found = list.size();
    auto weight = [this](size_t k) { return has_refuted(k) ? 0 : 1 + LOAD(engine_status(k).held); };
    for (size_t k = 0; k < list.size(); k++) {
        bool is_left = list[k].filter.running && !list[k].told;
        if (is_left && (found == list.size() || weight(k) >= weight(found))) found = k;
    }
    if (found == list.size()) return "";
    list[found].told = true;
    list[found].cause = cause;
    STORE(shared->leaving, found + 1);
    return why_lost(found);
}

// Also keeps the leaving engine if it has refuted the formula meanwhile.
void Teams::keep_last() {
    uint64_t leaving = shared->leaving;
    if (leaving == 0) return;
    for (size_t k = 0; k < list.size() && !has_refuted(leaving - 1); k++)
        if (list[k].filter.running && !list[k].told) return;
    list[leaving - 1].told = false;
    STORE(shared->leaving, 0);
}

void Teams::end_leaving() {
    if (shared->leaving > 0) list[shared->leaving - 1].engine.signal(SIGKILL);
}

// Engines are killed, since they have nothing to finish.
bool Teams::end_streams(bool is_late) {
    STORE(shared->over, 1);
    tell_filters();
    bool all_ended = true;
    for (Team &team : list) {
        team.engine.signal(SIGKILL);
        team.copier.signal(SIGKILL);
        team.filter.signal(is_late ? SIGKILL : SIGCONT);
        all_ended &= !team.filter.running;
    }
    return all_ended;
}

void Teams::tell_filters() const {
    for (size_t k = 0; k < list.size(); k++) events_advance(&engine_status(k).events);
}

void Teams::tell_fed(size_t k, uint64_t bytes) const {
    if (LOAD(engine_status(k).fed) == bytes) return;
    STORE(engine_status(k).fed, bytes);
    events_advance(&engine_status(k).events);
}

// Filters that share a proof.

// How many windows of the proof are whole, and so are all before them.
uint64_t Teams::whole_windows() const {
    uint64_t least = NO_WINDOW;
    for (size_t k = 0; k < list.size(); k++) least = std::min(least, LOAD(engine_status(k).window));
    return least;
}

// How many of the filter's windows are among the first ones of its proof.
uint64_t Teams::windows_among(uint64_t first, size_t k) const {
    uint64_t number = k % filters();
    return first > number ? (first - number - 1) / filters() + 1 : 0;
}

// A line waits in lrupd for the clauses that it cites. So lrupd gets a window once all earlier ones
// are whole, and never waits for a filter.
Written Teams::written_of(size_t k) const {
    const EngineStatus &facts = engine_status(k);
    Written all = { LOAD(facts.bytes), LOAD(facts.other_hints) };
    uint64_t whole = whole_windows();
    bool is_next = !has_windows() || whole == LOAD(facts.window);
    return is_next ? all : facts.written[windows_among(whole, k) % WINDOWS_NOTED];
}

void Teams::release() {
    uint64_t whole = whole_windows();
    for (size_t k = 0; k < list.size() && has_windows() && whole != NO_WINDOW; k++) {
        EngineStatus &facts = engine_status(k);
        uint64_t released = windows_among(whole, k);
        if (released == LOAD(facts.released)) continue;
        STORE(facts.released, released);
        events_advance(&facts.events);
    }
}

void Teams::ask_to_end(uint64_t round) {
    if (has_windows()) STORE(shared->asking_round, round);
}

// Call while the round ends. None of the filters goes on before all have said how far they are.
void Teams::choose_end(uint64_t round) {
    uint64_t most = 0;
    if (!has_windows() || shared->asking_round != round || shared->chosen_round == round) return;
    for (size_t k = 0; k < list.size(); k++) {
        const EngineStatus &facts = engine_status(k);
        bool has_said = !list[k].filter.running || LOAD(facts.asked_round) == round ||
                        LOAD(facts.ended_round) == round;
        if (!has_said) return;
        most = std::max(most, LOAD(facts.steps));
    }
    STORE(shared->chosen_steps, most);
    STORE(shared->chosen_round, round);
    tell_filters();
}

bool Teams::has_died(size_t k) const {
    const size_t found = decider(k);
    return has_windows() && list[found].filter.ended() && !list[found].filter.ended_with(0) &&
           LOAD(engine_status(found).stopped_at) == NO_STOP;
}

bool Teams::is_copied_no_more(size_t k) const {
    const Child &copier = copier_of(k);
    return copier.ended() && !copier.ended_with(0) && !copier.ended_with(UNSATISFIABLE);
}

bool Teams::can_begin_again() const {
    bool is_kept = list[0].kept >= 0 && !LOAD(engine_status(0).proof_unkept);
    return has_windows() && (comes_once(0) ? is_kept : is_read_again(proof_of(0)));
}

bool Teams::end_filters(size_t k) {
    bool all_ended = !copier_of(first_of(k)).running;
    for (size_t n = first_of(k); n < first_of(k) + filters(); n++) {
        list[n].filter.signal(SIGKILL);
        all_ended &= !list[n].filter.running;
    }
    return all_ended;
}

// Forgets all but a solver, and the proof as far as it is kept. What the solver's own process has
// written stays, since that goes on; what copied the proof has ended, and is started again.
void Teams::forget_filters() {
    go_on();
    for (size_t k = 0; k < list.size(); k++) {
        EngineStatus &facts = engine_status(k);
        close_file(list[k].stream);
        close_file(list[k].spare);
        close(facts.events.file);
        memset(&facts.lines, 0, sizeof facts - offsetof(EngineStatus, lines));
        if (inputs.options.check) facts.stderr_end[0] = 0, STORE(facts.answer, 0);
        if (k > 0) list[0].filter.seconds += list[k].filter.seconds;
    }
    close(shared->events.file);
    memset(shared, 0, offsetof(Shared, engine_statuses));
    list.resize(1);
    outboxes.clear();
    lost.clear();
    answered = 0;
}

// Streams.

std::string Teams::stream_path(size_t k, uint64_t round) const {
    return record + name_of_round(round) + ".stream-" +
           std::to_string(LOAD(engine_status(k).stream));
}

std::vector<int> Teams::stream_files() const {
    std::vector<int> files;
    for (size_t k = 0; k < list.size(); k++)
        if (LOAD(engine_status(k).stream)) files.push_back(list[k].stream);
    return files;
}

// Numbers the streams of the next round, without those of lost engines.
void Teams::number_streams() {
    uint64_t count = 0;
    for (size_t k = 0; k < list.size(); k++) {
        bool goes_on = list[k].filter.running && k + 1 != shared->leaving;
        STORE(engine_status(k).stream, goes_on ? ++count : 0);
    }
    STORE(shared->streams, count);
    STORE(shared->leaving, 0);
}

void Teams::open_streams(uint64_t round) {
    check_record();
    for (size_t k = 0; k < list.size(); k++) {
        STORE(engine_status(k).fed, 0);
        STORE(engine_status(k).released, 0);
        if (!inputs.options.proofs) cut_stream(k, 0);
        if (!inputs.options.proofs || !lost.empty()) continue;
        close_file(list[k].stream);
        if (LOAD(engine_status(k).stream) == 0) continue;
        list[k].stream = create_if_possible(stream_path(k, round));
        if (list[k].stream < 0)
            lost = "cannot write " + stream_path(k, round) + ": " + error_text();
    }
    if (!lost.empty()) open_in_memory(round);
}

// Puts all streams into memory from this round on.
void Teams::open_in_memory(uint64_t round) {
    if (LOAD(shared->memory_round) == 0) STORE(shared->memory_round, round);
    for (size_t k = 0; k < list.size(); k++) {
        if (list[k].stream != list[k].spare) close_file(list[k].stream);
        list[k].stream = list[k].spare;
        STORE(engine_status(k).spilled, 0);
        cut_stream(k, 0);
    }
}

void Teams::check_record() {
    for (size_t k = 0; k < list.size() && lost.empty(); k++)
        if (LOAD(engine_status(k).spilled))
            lost = "cannot write " + stream_path(k, LOAD(shared->round)) + ": " +
                   engine_status(k).unkept;
}

uint64_t Teams::bytes_kept(size_t k) const {
    return LOAD(engine_status(k).spilled) ? LOAD(engine_status(k).kept) : UINT64_MAX;
}

int Teams::file_to_write(size_t k) const {
    return LOAD(engine_status(k).spilled) ? list[k].spare : list[k].stream;
}

bool Teams::spill(size_t k) {
    EngineStatus &facts = engine_status(k);
    if (list[k].spare < 0 || file_to_write(k) == list[k].spare) return false;
    error_text().copy(facts.unkept, sizeof facts.unkept - 1);
    STORE(facts.kept, facts.bytes);
    STORE(facts.spilled, 1);
    return true;
}

// A filter that died may have left lines in the record that lrupd didn't get, and part of a line.
void Teams::cut_streams() {
    check_record();
    for (size_t k = 0; k < list.size() && inputs.options.proofs && lost.empty(); k++)
        cut_stream(k, list[k].silent ? 0 : written_of(k).bytes);
}

void Teams::cut_stream(size_t k, uint64_t bytes) {
    if (list[k].stream >= 0 && ftruncate(list[k].stream, off_t(bytes)) != 0)
        refuse("cannot cut a stream: " + error_text());
}

// Clauses given away by a filter that has died, or is on another host, may still be taken over.
void Teams::renew_outboxes(const Checkpoint &saved, uint64_t round) {
    for (size_t k = 0; k < list.size(); k++) {
        list[k].silent = LOAD(engine_status(k).mapped_round) != round - 1;
        if (list[k].filter.ended() || !is_here(k))
            outbox_renew(shared, outboxes[k], int(k) + 1, &saved);
    }
}
