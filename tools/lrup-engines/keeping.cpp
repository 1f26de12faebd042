// Unverified, like the whole solver. Calls other tools once there is a proof.
#include <algorithm>
#include <cinttypes>
#include <csignal>
#include <ctime>

#include <fcntl.h>
#include <sys/utsname.h>
#include <unistd.h>

#include "checker.h"
#include "keeping.h"

namespace {

// Runs a tool; `said` gets what it prints. False if this run is ended meanwhile.
bool run_tool(const std::vector<std::string> &words, Child &child, std::string &said,
              const Keeping::Wait &wait) {
    int file = file_in_memory();
    if (begin(child, "tool", { file })) become(words, file);
    bool goes_on = wait(child);
    said = text_of(file);
    close_file(file);
    return goes_on;
}

// The path as a word that isn't an option.
std::string as_word(const char *path) {
    return path ? (path[0] == '-' ? "./" : "") + std::string(path) : "";
}

}  // namespace

// lrup-trim needs the streams: they are kept in the temporary folder, unless the user names one.
void Keeping::prepare(const std::string &program) {
    Options &options = inputs.options;
    checker_program = program;
    if (!is_wanted()) return;
    for (const char *path : { options.core, options.lrat })
        if (path && is_there(path)) refuse(std::string(path) + ": exists, not overwritten");
    check_outputs(false);
    if (find_tool("lrup-trim").empty())
        refuse("no lrup-trim next to this program or on the PATH: `make trim` builds it");
    folder = Folder::name() + "/kept";
    if (!options.proofs) options.proofs = folder.c_str();
}

// lrupd's verdict on the output, in rounds if no row is given that holds it; empty if lrupd rejects
// the output. lrupd gets open files, since it doesn't accept every name.
std::string Keeping::verdict_on(const Output &output, const Row *row, const Wait &wait) const {
    static const char in_rounds[] = "exact=$1 lrupd=$2 folder=$3 formula=$4 stream=$5; shift 5; "
                                    "\"$exact\" --rounds \"$folder\" \"$formula\" \"$stream\" | "
                                    "{ read ready && \"$lrupd\" --rounds \"$folder\" \"$@\" "
                                    "\"$formula\" \"$folder/round-1.stream-1\"; }";
    std::vector<int> files;
    for (const std::string &path : { output.over, output.stream, inputs.assume_path })
        files.push_back(open(path.c_str(), O_RDONLY | O_NONBLOCK | O_CLOEXEC));
    const std::string over = name_of_file(files[0]), stream = name_of_file(files[1]);
    std::vector<std::string> last = { over, stream };
    std::vector<std::string> words = { checker_program };
    if (row)
        words.insert(words.end(), { "--lines", std::to_string(row->lines), "--room",
                                    std::to_string(row->room) });
    else {
        std::string place = Folder::open_name() + "/checked " + output.what;
        words = { "/bin/sh",       "-c",  in_rounds, "sh",  find_tool("lrup-exact"),
                  checker_program, place, over,      stream };
        last.clear();
    }
    if (inputs.options.assume) words.insert(words.end(), { "--assume", name_of_file(files[2]) });
    words.insert(words.end(), last.begin(), last.end());
    Child child;
    std::string said;
    bool goes_on = run_tool(words, child, said, wait);
    for (int file : files) close(file);
    bool is_proved = child.ended_with(0) || (inputs.options.assume && child.ended_with(8));
    return goes_on && is_proved && !said.empty() ? lines_of(said).back() : "";
}

// Whether the output will be a file of the record's folder, which may not exist yet.
bool Keeping::is_in_record(const std::string &path) const {
    const char *record = inputs.options.record;
    return record && folder_of(path) == folder_of(std::string(record) + "/report");
}

// Creates each output for a moment; those in the record's folder only once the folder exists.
void Keeping::check_outputs(bool has_record) const {
    const int how = O_WRONLY | O_CREAT | O_EXCL | O_NOFOLLOW | O_CLOEXEC;
    std::string why;
    std::vector<const char *> made;
    for (const char *path : { inputs.options.core, inputs.options.lrat }) {
        if (!path || !why.empty() || (!has_record && is_in_record(path))) continue;
        int file = open(path, how, 0666);
        if (file < 0)
            why = "cannot write " + std::string(path) + ": " + error_text();
        else
            made.push_back(path), close(file);
    }
    for (const char *path : made) unlink(path);
    if (!why.empty()) refuse(why);
}

bool Keeping::wait_for_version(Child &child, std::string &said, const Wait &wait) const {
    bool goes_on = run_tool({ checker_program, "--version" }, child, said, wait);
    said = said.substr(0, said.find('\n'));
    return goes_on;
}

// Removes the output if lrupd rejects it.
std::string Keeping::keep_if_right(const char *path, const Output &output, const Row *row,
                                   const Wait &wait) const {
    std::string verdict = verdict_on(output, row, wait);
    if (!verdict.empty()) display.tell(quoted(path) + ": lrupd's verdict: " + verdict);
    if (!verdict.empty()) return "";
    unlink(path);
    return "lrupd rejects " + quoted(path) + ", which was removed";
}

// The number of clauses and lines, and the command that checks LRAT text. A name may have a line
// feed.
void Keeping::tell_comments(const std::string &said) const {
    size_t end = said.find('\n'), next = end == std::string::npos ? said.size() : end + 1;
    for (std::string line : { said.substr(0, end), said.substr(next, said.rfind('\n') - next) })
        if (line.size() > 2) display.tell(line.substr(2));
}

std::string Keeping::keep(bool is_proved, const std::string &lost, const Wait &wait) const {
    const Options &options = inputs.options;
    if (is_wanted() && !is_proved) display.tell("no proof, and so no core and no LRAT text");
    if (!is_wanted() || !is_proved) return "";
    Output core = { "core", as_word(options.core), Folder::name() + "/core.lrup" };
    Output lrat = { "LRAT text", inputs.formula_path, as_word(options.lrat) };
    std::vector<std::string> words = { find_tool("lrup-trim") };
    if (options.core) words.insert(words.end(), { "--core", core.over, "--stream", core.stream });
    if (options.lrat) words.insert(words.end(), { "--lrat", lrat.stream });
    if (options.assume) words.insert(words.end(), { "--assume", inputs.assume_path });
    if (options.rehint) words.push_back("--re-hint");
    words.insert(words.end(), { "--sizes", "--", inputs.formula_path, options.proofs });
    Child child;
    std::string said;
    const std::string none = "no core and no LRAT text: ";
    if (!lost.empty()) return none + lost;
    if (!run_tool(words, child, said, wait)) return none + "the run was ended";
    const std::vector<std::string> lines = lines_of(said);
    if (!child.ended_with(0) || lines.empty())
        return none + (lines.empty() ? "lrup-trim " + child.end() : lines.back());
    int core_fits = 0, lrat_fits = 0;
    Row row = {};
    sscanf(lines[0].c_str(), "%" SCNu64 " %" SCNu64 " %d %d", &row.lines, &row.room, &core_fits,
           &lrat_fits);
    tell_comments(said.substr(lines[0].size() + 1));
    std::string why, other;
    if (options.core) why = keep_if_right(options.core, core, core_fits ? &row : nullptr, wait);
    if (options.lrat) other = keep_if_right(options.lrat, lrat, lrat_fits ? &row : nullptr, wait);
    return other.empty() ? why : other;
}

// Digests that are known already. The front doesn't wait long after lrupd's end, so large files
// aren't read again.
std::vector<std::string> Keeping::known_digests(const Checker &checker) const {
    std::vector<std::string> known = checker.digests, lines = lines_of(inputs.digests);
    const std::string *const paths[] = { &inputs.formula_path, &inputs.assume_path };
    for (size_t k = 0; k < lines.size(); k++) {
        Place place = place_of(*paths[k]);
        std::string digest = lines[k].substr(lines[k][0] == '\\', DIGEST_DIGITS);
        if (place.folder == record_folder) known.push_back(digest + "  " + place.name);
    }
    return known;
}

// Writes the file `about`: what ran, where and when, and the record's files. lrupd prints its
// version to standard error.
std::string Keeping::describe(const Checker &checker, uint64_t rounds, const Wait &wait) const {
    const Options &options = inputs.options;
    Child child;
    std::string said, here = absolute("");
    if (!options.record || !wait_for_version(child, said, wait)) return "";
    char date[64];
    time_t seconds = time(nullptr);
    strftime(date, sizeof date, "%Y-%m-%d %H:%M:%S UTC", gmtime(&seconds));
    utsname machine = {};
    uname(&machine);
    double memory = double(sysconf(_SC_PHYS_PAGES)) * double(sysconf(_SC_PAGESIZE)) / 1e6;
    std::string text = format("date: %s\n", date);
    text += "words: " + one_line(options.words) + "\n";
    text += "folder: " + one_line(here.substr(0, here.size() - 1)) + "\n";
    text += "programs: " + one_line(said) + "; " + version() + ", for engines and filters\n";
    text += "kit: " KIT "\n";
    text += format("machine: %s %s %s, %ld processors, %.0f MB\n", machine.sysname, machine.release,
                   machine.machine, sysconf(_SC_NPROCESSORS_ONLN), memory);
    const std::vector<std::string> report = lines_of(checker.report);
    text += "verdict: " + (report.empty() ? "" : report.back()) + "\n";
    text += format("record: %s, %s\n", counted(rounds, "round").c_str(),
                   counted(bytes_of_record(), "byte").c_str());
    if (has_packed_streams())
        text += "packed: streams by zstd, whose SHA-256s are those of the unpacked ones\n";
    text += "\n" + digest_line(digest_of_file(checker_program), checker_program) +
            digests_of_record(known_digests(checker));
    return write_file(std::string(options.proofs) + "/about", text);
}

// Shows why lrupd rejected a line.
void Keeping::explain(const std::string &report, const Wait &wait) const {
    if (!inputs.options.verbose || report.find(", bad line ") == std::string::npos) return;
    std::string program = find_tool("lrup-explain");
    if (program.empty() || !inputs.options.proofs)
        return display.tell_more("lrup-explain shows why, if --proofs DIR keeps the streams");
    Child child;
    std::string said;
    run_tool({ program, "--", inputs.formula_path, inputs.options.proofs }, child, said, wait);
    for (const std::string &line : lines_of(said)) display.tell_more(line);
}
