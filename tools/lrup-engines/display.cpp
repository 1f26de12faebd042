// Unverified, like the whole solver. All messages of the first process.
#include <algorithm>
#include <cmath>
#include <cstdarg>
#include <cstdio>

#include <poll.h>
#include <sys/ioctl.h>
#include <unistd.h>

#include "display.h"
#include "rounds.h"

namespace {

const size_t SIGNS = 4000;   // in a line for the front
const double SHOWING = 0.2;  // seconds between updates of the progress and of lrupd's lines
const double REPORTING = 1;  // seconds between lines of JSON

// Writes a text that a pipe takes whole to standard error. It is left out if that would block.
void show_on_error(const std::string &text) {
    pollfd error = { STDERR_FILENO, POLLOUT, 0 };
    if (poll(&error, 1, 0) > 0) write_all(STDERR_FILENO, text.data(), text.size());
}

size_t terminal_columns() {
    winsize size = {};
    return ioctl(STDERR_FILENO, TIOCGWINSZ, &size) == 0 && size.ws_col > 0 ? size.ws_col : 80;
}

}  // namespace

std::string format(const char *text, ...) {
    char line[512];
    va_list rest;
    va_start(rest, text);
    vsnprintf(line, sizeof line, text, rest);
    va_end(rest);
    return line;
}

std::string grouped(uint64_t number) {
    std::string digits = std::to_string(number);
    for (size_t at = digits.size(); at > 3; at -= 3) digits.insert(at - 3, ",");
    return digits;
}

std::string counted(uint64_t number, const char *what) {
    return grouped(number) + " " + what + (number == 1 ? "" : "s");
}

std::vector<std::string> lines_of(const std::string &text) {
    std::vector<std::string> lines;
    for (size_t begin = 0, end; (end = text.find('\n', begin)) != std::string::npos;
         begin = end + 1)
        lines.push_back(text.substr(begin, end - begin));
    return lines;
}

std::string title(const std::string &path) { return path == "-" ? "standard input" : quoted(path); }

// During the run.

void Display::begin() {
    const Options &options = inputs.options;
    shows_progress = !options.quiet && !options.reports_progress && isatty(STDERR_FILENO);
}

bool Display::shows_lines() const { return inputs.options.verbose && !inputs.options.quiet; }

double Display::next_reading() const {
    return shows_progress ? std::max({ started, shown, told }) + SHOWING : INFINITY;
}

void Display::show_reading() {
    if (now() < next_reading()) return;
    shown = now();
    std::string name = one_line(title(inputs.options.formula));
    std::string line = format("%.1f s, reading ", shown - started) + name + " ..";
    show_progress(line);
}

void Display::end_reading() const {
    if (shown > 0) hide();
}

double Display::next_show() const {
    double next = shows_progress || shows_lines() ? std::max(shown, told) + SHOWING : INFINITY;
    return std::min(next, next_report());
}

double Display::next_report() const {
    return inputs.options.reports_progress ? reported + REPORTING : INFINITY;
}

void Display::show() {
    if (now() >= next_report()) report("");
    if (now() < next_show()) return;
    double time = shown = now();
    show_lines();
    if (shows_progress && told < time) show_progress(progress());
}

// The front prints comments, and doesn't say when it has. So the progress isn't shown again before
// the front has read them, and some time has passed: a comment begins in the first column.
void Display::show_progress(const std::string &line) const {
    if (!front.has_unread()) show_on_error("\r" + line.substr(0, terminal_columns() - 1) + "\33[K");
}

void Display::show_lines() {
    std::string line;
    if (!shows_lines()) return;
    checker.read_on();
    while (checker.next_line(line)) tell(line);
}

void Display::hide() const {
    if (shows_progress) show_on_error("\r\33[K");
}

void Display::tell(const std::string &line) const {
    if (inputs.options.quiet) return;
    hide();
    front.say("c " + one_line(line));
    told = now();
}

void Display::tell_more(const std::string &line) const {
    if (inputs.options.verbose) tell(line);
}

// How full the fullest stream's part of the row is, from 0 to 1.
double Display::fullness() const {
    double fullest = 0;
    for (size_t k = 0; k < teams.size(); k++) {
        const EngineStatus &engine_status = teams.engine_status(k);
        fullest = std::max(fullest, double(LOAD(engine_status.round_lines)) /
                                        double(std::max<uint64_t>(1, rounds.rows.row.lines)));
        fullest = std::max(fullest, double(LOAD(engine_status.round_literals)) /
                                        double(std::max<uint64_t>(1, rounds.rows.row.room)));
    }
    return fullest;
}

// How many clauses lrupd has checked, by how much it has read of this round's streams.
uint64_t Display::checked() const {
    uint64_t bytes = teams.all(&EngineStatus::bytes), lines = teams.all(&EngineStatus::round_lines),
             read = 0;
    for (size_t k = 0; k < teams.size() && checker.child.pid && !rounds.is_behind(); k++)
        if (uint64_t number = LOAD(teams.engine_status(k).stream))
            read += checker.read_of(number - 1);
    double share = bytes > 0 ? std::min(1.0, double(read) / double(bytes)) : 0;
    return rounds.lines_before + uint64_t(share * double(lines));
}

// The answer is a line of standard output. Between rounds the count of checked clauses may become
// smaller for a moment.
void Display::report(const std::string &answer) {
    const Options &options = inputs.options;
    std::string free = options.proofs ? std::to_string(free_bytes()) : "null";
    reported = now();
    most_checked = std::max(most_checked, checked());
    show_on_error(format(
        "{\"seconds\": %.1f, \"clauses_checked\": %llu, \"round\": %llu, "
        "\"bytes_behind\": %llu, \"bytes_free\": %s, \"cubes_refuted\": %llu, "
        "\"cubes\": %zu, \"answer\": %s}\n",
        reported - started, (unsigned long long)most_checked, (unsigned long long)rounds.number,
        (unsigned long long)teams.all(&EngineStatus::behind), free.c_str(),
        (unsigned long long)(teams.dealer.refuted + teams.dealer.refuted_elsewhere),
        inputs.cubes.size(), answer.empty() ? "null" : ("\"" + answer + "\"").c_str()));
}

void Display::report_end(const std::string &answer) {
    if (inputs.options.reports_progress) report(answer);
}

// What may end a long run comes first, since a narrow terminal shows only the beginning.
std::string Display::progress() const {
    double time = now() - started;
    uint64_t conflicts = uint64_t(double(teams.all(&EngineStatus::conflicts)) / time);
    std::string work = inputs.options.check ? proofs_read() : grouped(conflicts) + " conflicts/s";
    std::string free, kept;
    if (inputs.options.proofs) {
        free = format("%.1f GB free, ", double(free_bytes()) / 1e9);
        kept = format(", %.1f MB kept", double(bytes_of_record()) / 1e6);
    }
    std::string of_lrupd = grouped(checked()) + " checked";
    if (rounds.checked > 0 && rounds.is_behind())
        of_lrupd = format("lrupd at round %llu", (unsigned long long)rounds.checked);
    return format("%.1f s, %s%s, %s, %s kB behind, round %llu at %.0f %%", time, free.c_str(),
                  (cubes_to_come() + work).c_str(), of_lrupd.c_str(),
                  grouped(teams.all(&EngineStatus::behind) / 1000).c_str(),
                  (unsigned long long)rounds.number, 100 * fullness()) +
           kept;
}

// In order, each cube that an engine has refuted, and the one that can be satisfied.
void Display::tell_cubes(bool is_open) {
    if (!inputs.options.in_order) return;
    auto tell_next = [this](const char *what) {
        tell(format("%.2f s: ", now() - started) + inputs.cube_names[cubes_told++] + what);
    };
    while (cubes_told < teams.dealer.refuted) tell_next(" refuted");
    if (is_open && cubes_told < inputs.cubes.size()) tell_next(" satisfied");
}

// Cubes of the user's file.
std::string Display::cubes_refuted() const {
    return grouped(teams.dealer.refuted + teams.dealer.refuted_elsewhere) + " of " +
           counted(inputs.cubes.size(), "cube");
}

std::string Display::cubes_to_come() const {
    if (inputs.cubes.empty()) return "";
    double refuted = double(teams.dealer.refuted + teams.dealer.refuted_elsewhere),
           rate = refuted / (now() - started);
    std::string rest = format(", %.1f/s, %.0f s for the rest", rate,
                              (double(inputs.cubes.size()) - refuted) / rate);
    return cubes_refuted() + (refuted > 0 ? rest : "") + ", ";
}

// The size of a proof in a pipe isn't known.
std::string Display::proofs_read() const {
    uint64_t read = teams.all(&EngineStatus::proof_read), size = 0;
    bool is_known = true;
    for (size_t k = 0; k < teams.size(); k += teams.filters()) {
        size += teams[k].proof_size;
        is_known &= teams[k].proof_size > 0;
    }
    return is_known ? format("%.0f %% read", 100.0 * double(read) / double(size))
                    : grouped(read / 1000) + " kB read";
}

// At the end.

void Display::tell_details() const {
    for (size_t k = 0; k < teams.size() && !inputs.options.check; k += teams.filters()) {
        const EngineStatus &engine_status = teams.engine_status(k);
        uint64_t lines = 0, citing = 0;
        double filters = teams[k].copier.seconds;
        for (size_t n = k; n < k + teams.filters(); n++) {
            lines += LOAD(teams.engine_status(n).lines);
            citing += LOAD(teams.engine_status(n).citing_others);
            filters += teams[n].filter.seconds;
        }
        std::string its = teams.filters() > 1 ? counted(teams.filters(), "filter") : "filter";
        tell(format("%s: %.2f s, its %s %.2f s; %s conflicts; clauses: %s taken over, %s "
                    "refused, %s given away; "
                    "%s, %.0f %% of them cite another stream",
                    teams.title(k).c_str(), teams[k].engine.seconds, its.c_str(), filters,
                    grouped(LOAD(engine_status.conflicts)).c_str(),
                    grouped(LOAD(engine_status.taken)).c_str(),
                    grouped(LOAD(engine_status.refused)).c_str(),
                    grouped(LOAD(engine_status.given)).c_str(), counted(lines, "line").c_str(),
                    lines ? 100.0 * double(citing) / double(lines) : 0));
    }
    if (teams.dealer.dealt > 0)
        tell(format("cubes: %s dealt out, %s refuted, %s handed on from lost engines",
                    grouped(teams.dealer.dealt).c_str(),
                    grouped(teams.all(&EngineStatus::refuted_cubes)).c_str(),
                    grouped(teams.dealer.reassigned).c_str()));
    if (teams.answered > 0)
        tell(format("the verdict came %.2f s after an engine's answer", now() - teams.answered));
}

bool Display::tells_at_once() const { return inputs.options.verbose || inputs.options.check; }

void Display::tell_lost() const {
    for (size_t k = 0; k < teams.size() && !tells_at_once() && inputs.contradiction().empty(); k++)
        if (teams[k].told) tell(teams.why_lost(k));
}

void Display::tell_other_hints() const {
    for (size_t k = 0; k < teams.size() && inputs.options.check; k += teams.filters()) {
        uint64_t count = 0;
        for (size_t n = k; n < k + teams.filters(); n++) count += teams.written_of(n).other_hints;
        std::string whose = teams.engines() > 1 ? teams[k].command + ": " : "";
        if (count > 0 && !teams[k].told) tell(whose + counted(count, "line") + " had other hints");
    }
}

void Display::tell_causes(const std::string &cause) const {
    if (!checker.last_line().empty() && !inputs.options.verbose) tell(checker.last_line());
    for (const std::string &line : lines_of(checker.report))
        if (line.compare(0, 2, "c ") == 0) tell("lrupd: " + line.substr(2));
    tell(cause);
}

void Display::tell_record() const {
    const char *folder = inputs.options.record;
    if (folder)
        tell(quoted(folder) + format(": %.1f MB kept, %s MB free", double(bytes_of_record()) / 1e6,
                                     grouped(free_bytes() / 1000000).c_str()));
}

void Display::tell_summary() const {
    double engines = 0, filters = 0, lrupd = front.checking(), wall = now() - started;
    size_t left = 0;
    for (size_t k = 0; k < teams.size(); k++) {
        engines += teams[k].engine.seconds;
        filters += teams[k].filter.seconds + teams[k].copier.seconds;
        left += k == teams.first_of(k) && !teams[k].told;
    }
    std::string left_of = left < teams.engines() && inputs.contradiction().empty()
                              ? std::to_string(left) + " of "
                              : "";
    std::string of_rounds = format("%llu rounds with %.1f %% of the time in pauses, ",
                                   (unsigned long long)rounds.number, 100 * rounds.paused / wall);
    const char *what = inputs.options.check ? "proof" : "engine",
               *ran = inputs.options.check ? "reading" : "engines";
    if (inputs.options.cubes) tell(cubes_refuted() + " refuted");
    tell(format("%.2f s, %s%s, %s%s checked; %.2f s of processor time: %s %.2f, filters "
                "%.2f, lrupd %.2f",
                wall, left_of.c_str(), counted(teams.engines(), what).c_str(),
                rounds.number > 1 ? of_rounds.c_str() : "",
                counted(teams.all(&EngineStatus::lines), "clause").c_str(),
                engines + filters + lrupd, ran, engines, filters, lrupd));
}

void tell_model(const std::vector<signed char> &model) {
    std::string signs;
    for (signed char value : model) signs += value > 0 ? '+' : '-';
    for (size_t at = 0; at < signs.size(); at += SIGNS) front.say("v " + signs.substr(at, SIGNS));
    front.say("model");
}
