// Unverified, like the whole solver. Goes from round to round, and keeps in the record what was
// checked.
#include <algorithm>
#include <cmath>
#include <csignal>

#include <unistd.h>

#include "rounds.h"
#include "windows.h"

namespace {

const uint64_t SHORT_STREAMS = UINT64_C(1) << 20;  // bytes in all streams before lrupd starts
const uint64_t ALL_FED = UINT64_MAX / 2;  // more bytes than a stream has, so no filter waits
const double CROWDED = 0.75;              // how much of the largest row the live clauses may take

// Filters that share a proof end a round together, and then wait until lrupd has saved it. So their
// first row is larger than usual.
const uint64_t LARGER_FIRST_ROW = 4;

std::string in_a_row_of(uint64_t words) { return " in a row of " + counted(8 * words, "byte"); }

// Counts each literal of a clause once, as a row does.
uint64_t literals_of(const Formula &formula) {
    std::vector<size_t> last(2 * size_t(formula.variables));  // by literal: its last clause
    uint64_t count = 0;
    for (size_t k = 1; k <= formula.clauses; k++)
        for (size_t at = formula.starts.items[k - 1]; at < formula.starts.items[k]; at++) {
            size_t &clause = last[size_t(formula.literals.items[at])];
            count += clause != k;
            clause = k;
        }
    return count;
}

}  // namespace

// Sizes.

// Chooses the next round's row. A clause for which a filter had no room will fit.
bool Rounds::size(uint64_t clauses, uint64_t literals) {
    Shared *shared = teams.shared;
    uint64_t streams = std::max<uint64_t>(1, shared->streams), wanted = 0;
    for (size_t k = 0; k < teams.size(); k++)
        wanted = std::max(wanted, LOAD(teams.engine_status(k).wanted));
    rows.identities = teams.has_windows() ? IDENTITIES_OF_AN_ADDITION : 1;
    Row used = { teams.all(&EngineStatus::lines) - lines_before,
                 teams.all(&EngineStatus::literals) - literals_before };
    bool fits = rows_size(&rows, streams, clauses, literals, used, wanted);
    STORE(shared->most_lines, rows.row.lines);
    STORE(shared->most_literals, rows.row.room);
    return fits;
}

// Whatever --memory says, a row may be twice as large as the formula. A resumed run's row is as
// large as before.
void Rounds::begin() {
    uint64_t clauses = inputs.first_formula.clauses, literals = literals_of(inputs.first_formula),
             last = inputs.saved.count();
    number = last + 1;
    ended = inputs.saved;
    saver.saved = last > 0 ? number : 0;
    checker_program = absolute(front.lrupd);
    checker.keeps_digests = inputs.options.record != nullptr;
    rows_open(&rows, inputs.options.memory, inputs.options.most_memory, teams.size());
    if (teams.has_windows()) rows.words *= LARGER_FIRST_ROW;
    Row row = last > 0 ? inputs.saved.row(last) : Row{ 0, 0 };
    if (last > 0)
        rows.words = std::max(rows.words, inputs.saved.streams(last) * (row.lines + row.room));
    rows.words = std::min(hooked(test_hooks.first_words, rows.words), MOST_WORDS);
    rows.largest = hooked(test_hooks.largest, rows.largest);
    rows.most = std::min(rows.largest, std::max(rows.most, 2 * (1 + clauses + literals)));
    if (!size(clauses, literals)) refuse("the formula leaves no room" + in_a_row_of(rows.largest));
}

std::string Rounds::begin_message() const {
    const std::string folder = quoted(inputs.options.record);
    if (inputs.saved.count() == 0) return folder + ": no round was saved, so the run begins anew";
    return folder + ": round " + std::to_string(number) + " begins, with " +
           counted(inputs.first_formula.clauses, "clause");
}

// Makes room for the live clauses in the largest row. First, engines stop giving away clauses that
// others can do without. If that isn't enough, an engine ends with the next round, and clauses that
// only its stream keeps are dropped. The last engine never ends.
bool Rounds::make_room(bool fits) {
    Shared *shared = teams.shared;
    bool is_alone = shared->streams <= 1, was_crowded = shared->crowded;
    STORE(shared->crowded,
          !is_alone && (!fits || double(rows.formula) > CROWDED * double(rows.most)));
    if (fits || is_alone || teams.has_windows()) return fits;
    if (!was_crowded) return true;
    std::string lost =
        teams.choose_leaving("the clauses of all engines leave no room" + in_a_row_of(rows.most));
    if (!lost.empty()) display.tell_more(lost);
    return true;
}

// The row that the streams' lines need.
Row Rounds::needed_row() const {
    Row needed = { 0, 0 };
    for (size_t k = 0; k < teams.size(); k++) {
        needed.lines = std::max(needed.lines, LOAD(teams.engine_status(k).round_lines));
        needed.room = std::max(needed.room, LOAD(teams.engine_status(k).round_literals));
    }
    return needed;
}

// What the record keeps.

static std::string sizes_in_command(Row sizes) {
    return " --tries " + tries() + " --lines " + std::to_string(sizes.lines) + " --room " +
           std::to_string(sizes.room);
}

// A path in lrupd's command. If it isn't UTF-8, the shell opens the file, and lrupd gets the
// descriptor.
static std::string word_in_command(const std::string &path, int number, std::string &opened) {
    if (is_utf8(path)) return " " + quoted(path);
    opened += " " + std::to_string(number) + "< " + quoted(path);
    return " " + (OPEN_FILES + std::to_string(number));
}

// The path, without the folder if the file is in it.
static std::string within(const std::string &folder, const std::string &path) {
    if (folder.empty() || path.compare(0, folder.size(), folder) != 0) return path;
    return (path[folder.size()] == '-' ? "./" : "") + path.substr(folder.size());
}

// The command that checks round 1, with the names of a record's streams, relative to this folder.
std::string Rounds::command_of(Row sizes, const std::string &folder) const {
    std::string opened, line = quoted(checker_program) + sizes_in_command(sizes);
    const std::string assume = within(folder, absolute(inputs.assume_path));
    if (inputs.options.assume) line += " --assume" + word_in_command(assume, 4, opened);
    line += word_in_command(within(folder, absolute(inputs.formula_path)), 3, opened);
    for (size_t k = 1; k <= first_streams(); k++)
        line += " " + quoted(within(folder, teams.record + name_of_round(1) + ".stream-" +
                                                std::to_string(k)));
    return line + opened;
}

size_t Rounds::first_streams() const { return ended.count() > 0 ? ended.streams(1) : teams.size(); }

// The file's path relative to the record's folder, with symbolic links resolved.
std::string Rounds::from_record(const std::string &path) const {
    std::string whole = absolute(path);
    size_t slash = whole.rfind('/');
    std::string from = real_path(teams.record), to = real_path(whole.substr(0, slash + 1));
    if (from.empty() || to.empty()) return "";
    size_t same = 0;
    for (size_t k = 0; k < from.size() && k < to.size() && from[k] == to[k]; k++)
        if (from[k] == '/') same = k + 1;
    std::string up;
    for (size_t k = same; k < from.size(); k++)
        if (from[k] == '/') up += "../";
    return up + to.substr(same) + whole.substr(slash + 1);
}

// Has lrup-recheck check the record, even if it has moved. Names occur only as values of the
// script's variables. An input that isn't at its path relative to the record is looked for where
// formula.sha256 says. A shell reads the whole group in braces before it runs anything, so a
// truncated script doesn't end with 0, which means 'proved'.
static const char CALL_OF_RECHECK[] =
    R"sh(
case $0 in */*) here=${0%/*}/ ;; *) here=./ ;; esac
[ "$#" -gt 0 ] || [ ! -f "$here$formula" ] || set -- "$here$formula"
[ -f "$here$assume" ] && assume=$here$assume || assume=''
[ -f "$lrupd" ] && [ -x "$lrupd" ] || lrupd=''
[ -f "$recheck" ] || recheck=$(command -v lrup-recheck) || {
    echo 'no lrup-recheck, neither where it was nor on the PATH. Without it, compare formula.sha256,
unpack packed streams, and run this in a copy of the folder, with your FORMULA:'
    printf '%s\n' "$by_hand"
    exit 1
} >&2
exec "$recheck" ${lrupd:+--lrupd "$lrupd"} ${assume:+--assume "$assume"} -- "$here" "$@"
}
)sh";

std::string Rounds::command_again() const {
    const char *assume = inputs.options.assume ? " --assume ASSUMPTIONS" : "";
    std::string by_hand = "lrupd" + sizes_in_command(first) + assume + " --rounds . FORMULA";
    for (size_t k = 1; k <= first_streams(); k++) by_hand += " round-1.stream-" + std::to_string(k);
    std::string text = "{ # Checks this record again: sh command [FORMULA]\n";
    text += "recheck=" + quoted(find_tool("lrup-recheck")) + "\n";
    text += "lrupd=" + quoted(checker_program) + "\n";
    text += "formula=" + quoted(from_record(inputs.formula_path)) + "\n";
    text += "assume=" + quoted(assume[0] ? from_record(inputs.assume_path) : "") + "\n";
    return text + "by_hand='" + by_hand + "'" + CALL_OF_RECHECK;
}

// Writes the round's sizes into the record.
void Rounds::keep_sizes() const {
    if (!inputs.options.proofs || !teams.lost.empty()) return;
    std::string text = sizes_text(LOAD(teams.shared->streams), rows.row);
    teams.lost = write_file(teams.record + name_of_round(number) + ".sizes", text);
}

// Writes lrupd's report, and the command that checks the streams again.
std::string Rounds::keep_report() const {
    if (!inputs.options.record) return "";
    if (!teams.lost.empty()) return "the record is lost: " + teams.lost;
    std::string folder = std::string(inputs.options.proofs) + "/",
                unkept = write_file(folder + "report", checker.report);
    return unkept.empty() ? write_file(folder + "command", command_again()) : unkept;
}

// lrupd.

// lrupd first gets the rounds that have ended.
void Rounds::start_checker(Row wanted) {
    const std::string &record = teams.record;
    bool goes_on = ended.count() > 0;
    if (!goes_on) rows.row = wanted;
    wanted = first = goes_on ? ended.row(1) : wanted;
    checked = 1;
    keep_sizes();
    display.tell_more(is_utf8(record)
                          ? command_of(wanted, "")
                          : "cd " + quoted(record) + " && " + command_of(wanted, record));
    if (goes_on) open_saved();
    checker.start(wanted, goes_on ? saved_streams : teams.stream_files());
    if (goes_on) checker.expect_round(Folder::name() + "/" + name_of_round(checked + 1));
}

void Rounds::open_saved() { saved_streams = ended.open(checked, unpackers); }

// An unpacker that nobody reads ends by a signal.
void Rounds::close_saved() {
    for (int &file : saved_streams) close_file(file);
    for (Unpacker &unpacker : unpackers) unpacker.end();
}

std::vector<Child *> Rounds::children() {
    std::vector<Child *> list = { &saver.child, &packer.child };
    for (Unpacker &unpacker : unpackers) list.push_back(&unpacker.child);
    return list;
}

// Feeds lrupd a saved round. Meanwhile filters don't wait for lrupd.
std::string Rounds::feed_saved() {
    bool are_compared = true;
    for (size_t k = 0; k < teams.size(); k++) teams.tell_fed(k, ALL_FED);
    for (size_t k = 0; k < saved_streams.size(); k++) {
        if (checker.feed_all(k)) checker.end_stream(k);
        are_compared &= checker.has_digest(k);
    }
    const std::string changed = changed_file();
    if (!changed.empty()) return end_record(changed);
    if (are_compared) unlink(checkpoint_path().c_str());
    if (checker.awaits_sizes()) begin_next();
    return "";
}

// Returns the first changed file of those that lrupd has read; or "".
std::string Rounds::changed_file() {
    for (; compared < checker.digests.size(); compared++)
        if (ended.is_changed(checker.digests[compared]))
            return teams.record + checker.digests[compared].substr(BEFORE_NAME);
    return "";
}

// The checkpoint with which lrupd's round begins.
std::string Rounds::checkpoint_path() const {
    return Folder::name() + "/" + name_of_round(checked) + ".cnf";
}

// Returns why lrupd has read other bytes than those that were saved in this file. If the file was
// changed, its round and those after it are useless: the record now ends before this round, and the
// run can be resumed from there. The failure of an unpacker changes nothing.
std::string Rounds::end_record(const std::string &path) {
    std::vector<std::string> &digests = checker.digests;
    size_t named = 0;
    bool was_changed = false;
    for (size_t k = 0; k < unpackers.size(); k++) {
        std::string failure = checker.has_digest(k) ? unpackers[k].end() : "";
        if (!failure.empty()) return teams.record + failure;
    }
    const std::string cause = ended.fault_of(path, was_changed),
                      sizes = name_of_round(checked) + ".sizes";
    if (cause.empty())
        return path + " was read with other bytes than before: the disk or the memory is at fault";
    if (!was_changed) return cause;
    if (checked > 1) {
        while (named < digests.size() && digests[named].substr(BEFORE_NAME) != sizes) named++;
        digests.resize(named);
        saver.save(checked, inputs.options.record, checkpoint_path(), digests);
    }
    do {
        wait_for(saver.child);
        std::string unsaved = saver.collect();
        if (!unsaved.empty()) display.tell(unsaved);
    } while (saver.is_busy());
    if (saver.saved == checked) return cause;
    saver.saved = 0;
    return cause + NOT_RESUMED;
}

// Call once lrupd has again saved the clauses of a round that had ended.
void Rounds::begin_next() {
    close_saved();
    checked++;
    if (!is_behind()) {
        unlink(checkpoint_path().c_str());
        display.tell_more("lrupd has read what was saved");
        return checker.begin_round(rows.row, teams.stream_files());
    }
    open_saved();
    checker.begin_round(ended.row(checked), saved_streams);
    checker.expect_round(Folder::name() + "/" + name_of_round(checked + 1));
}

std::string Rounds::feed(bool is_last) {
    if (state != MAPPING) teams.release();
    if (!checker.child.pid) return "";
    if (is_behind()) return feed_saved();
    feed_teams(is_last);
    return "";
}

// While filters go to the next round, their counts may belong to either round.
void Rounds::feed_teams(bool is_last) {
    for (size_t k = 0; k < teams.size(); k++) {
        uint64_t stream = LOAD(teams.engine_status(k).stream);
        if (stream == 0) continue;
        bool is_empty = state == MAPPING || teams[k].silent;
        uint64_t bytes = is_empty ? 0 : teams.written_of(k).bytes;
        uint64_t kept = teams.bytes_kept(k);
        bool drop = !inputs.options.proofs || teams[k].stream == teams[k].spare;
        bool fed = checker.feed(stream - 1, std::min(bytes, kept), drop);
        if (fed && bytes > kept) {
            checker.go_on_in(stream - 1, teams[k].spare);
            fed = checker.feed(stream - 1, bytes, true);
        }
        teams.tell_fed(k, checker.fed(stream - 1));
        if (fed && (is_last || state == SAVING)) checker.end_stream(stream - 1);
    }
}

void Rounds::end_streams() {
    teams.cut_streams();
    if (!checker.child.pid) start_checker(needed_row());
}

// Goes from round to round. lrupd starts once the streams aren't short any more.
std::string Rounds::advance() {
    bool is_short_no_more =
        teams.all(&EngineStatus::bytes) >= (test_hooks.first_words ? 1 : SHORT_STREAMS);
    teams.check_record();
    if (!teams.lost.empty() && !has_told_loss) display.tell("the record is lost: " + teams.lost);
    has_told_loss = !teams.lost.empty();
    if (!checker.child.pid && (is_short_no_more || inputs.saved.count() > 0))
        start_checker(rows.row);
    for (const std::string &why :
         { saver.collect(), packer.pack_before(saver.saved, checker.digests) })
        if (!why.empty()) display.tell(why);
    for (size_t k = 0; k < teams.size() && state == OPEN; k++)
        if (LOAD(teams.engine_status(k).ended_round) == number) end_round(true);
    if (state == OPEN && ends_here && !has_more()) {
        state = SAVED;
        if (!has_lines()) next = number;
    }
    if (state == OPEN && (ends_here || now() >= next_saving())) end_round(false);
    if (state == ENDING) teams.choose_end(number);
    if (state == ENDING && !checker.child.pid) start_checker(rows.row);
    if (state == ENDING && !is_behind() && !teams.are_stopping() &&
        teams.have_all(&EngineStatus::ended_round, number)) {
        checker.expect_round(Folder::name() + "/" + name_of_round(number + 1));
        state = SAVING;
    }
    std::string cause = state == SAVING && checker.awaits_sizes() ? map_round() : "";
    if (state == MAPPING && cause.empty() &&
        teams.have_all(&EngineStatus::mapped_round, number - 1))
        go_on();
    return cause;
}

bool Rounds::has_lines() const { return teams.all(&EngineStatus::lines) > lines_before; }

// Whether there are new lines that can be saved, once lrupd has read what was saved before.
bool Rounds::has_more() const {
    return inputs.options.may_be_resumed() && teams.lost.empty() && has_lines();
}

double Rounds::next_saving() const {
    bool reads_saved = checked > 0 && is_behind();
    return state == OPEN && !reads_saved && has_more() ? begun + inputs.options.save_every
                                                       : INFINITY;
}

// Stops the engines, which leaves the cores to the filters and lrupd.
void Rounds::save_last() {
    ends_here = true;
    if (!inputs.options.may_be_resumed()) return;
    for (size_t k = 0; k < teams.size(); k++) teams[k].engine.signal(SIGSTOP);
}

bool Rounds::is_saving() const { return state != SAVED || saver.is_busy(); }

void Rounds::keep_checkpoint() {
    if (!inputs.options.may_be_resumed() || !teams.lost.empty()) return;
    saver.save(number + 1, inputs.options.record, teams.shared->checkpoint, checker.digests);
}

// Empty if nothing was saved.
std::string Rounds::resume_message() {
    std::string unsaved = saver.end();
    if (!unsaved.empty()) display.tell(unsaved);
    if (!inputs.options.may_be_resumed() || saver.saved == 0) return "";
    bool is_all = next != 0 ? saver.saved == next : saver.saved == number && !has_lines();
    const std::string folder = quoted(inputs.options.record);
    std::string line = folder + " has " + counted(saver.saved - 1, "round");
    line += (is_all ? "" : ", but not what came after") + (": lrup-solve --resume " + folder);
    if (inputs.options.assume) line += " --assume " + quoted(inputs.assume_path);
    return line + " " + quoted(inputs.formula_path) + " continues the run";
}

// Ends all streams. Paused filters continue, so that they can end their streams.
void Rounds::end_round(bool full) {
    is_full = full;
    teams.start_others();  // every engine takes part in round 1
    if (!full) teams.ask_to_end(number);
    STORE(teams.shared->ending_round, number);
    teams.tell_filters();
    pause_begun = now();
    state = ENDING;
    teams.go_on();
}

// lrupd has saved the round: filters take the new identities, and meanwhile lrupd begins the next
// round.
std::string Rounds::map_round() {
    uint64_t streams = teams.shared->streams;
    teams.cut_streams();
    teams.end_leaving();
    teams.number_streams();
    copy_name(teams.shared->checkpoint, Folder::name() + "/" + name_of_round(number + 1) + ".cnf");
    STORE(teams.shared->saved_round, number);
    teams.tell_filters();
    state = MAPPING;
    checkpoint_read(&saved, teams.shared->checkpoint);
    said = words(streams);
    keep_checkpoint();
    if (ends_here) {
        state = SAVED;
        next = number + 1;
        return "";
    }
    uint64_t before = rows.words;
    if (is_full) rows_grow(&rows);
    if (test_hooks.same_words) rows.words = before;
    if (!make_room(size(saved.old.length, saved.literals)))
        return "the remaining clauses leave no room" + in_a_row_of(rows.largest);
    begin_round();
    return "";
}

void Rounds::begin_round() {
    checked = ++number;
    teams.clauses = saved.old.length;
    lines_before = teams.all(&EngineStatus::lines);
    literals_before = teams.all(&EngineStatus::literals);
    teams.open_streams(number);
    keep_sizes();
    checker.begin_round(rows.row, teams.stream_files());
}

void Rounds::go_on() {
    teams.renew_outboxes(saved, number);
    checkpoint_free(&saved);
    unlink(teams.shared->checkpoint);
    double pause = now() - pause_begun;
    paused += pause;
    display.tell_more(said + format("; a pause of %.2f s", pause));
    state = OPEN;
    begun = now();
    STORE(teams.shared->round, number);
    teams.tell_filters();
}

// A message about the round that lrupd has saved.
std::string Rounds::words(uint64_t streams) const {
    uint64_t lines = teams.all(&EngineStatus::lines) - lines_before,
             literals = teams.all(&EngineStatus::literals) - literals_before;
    uint64_t taken = rows.formula + streams * (rows.row.lines + rows.row.room);
    return format("round %llu: %s with %s, in a row of %s%s; %s carried over",
                  (unsigned long long)number, counted(lines, "clause").c_str(),
                  counted(literals, "literal").c_str(), counted(taken, "word").c_str(),
                  taken > rows.usual ? ", more than --memory" : "",
                  grouped(saved.old.length).c_str());
}
