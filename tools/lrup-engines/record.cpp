// Unverified, like the whole solver. Paths; the folder of --proofs; and the rounds in it, from
// which a run can be resumed.
#include <algorithm>
#include <cctype>
#include <cerrno>
#include <cstdio>
#include <cstdlib>
#include <cstring>
#include <set>
#include <sstream>

#include <dirent.h>
#include <fcntl.h>
#include <sys/file.h>
#include <sys/stat.h>
#include <sys/statvfs.h>
#include <sys/wait.h>
#include <unistd.h>

#include "checker.h"
#include "digest.h"
#include "display.h"
#include "errors.h"
#include "folder.h"
#include "packed.h"
#include "packers.h"
#include "packing.h"
#include "record.h"
#include "teams.h"

namespace {

const double ENDING = 10;  // seconds that an earlier run's processes have to end
const useconds_t PAUSE = 20000;
const size_t PIECE = 1 << 16;
const off_t LONGEST_TEXT = 1 << 28;  // bytes of a list or the like, of a record with many rounds

std::string record_name;  // absolute, with a slash

using FileId = std::pair<dev_t, ino_t>;  // names are never compared: a file has many of them

FileId id_of(const struct stat &found) { return { found.st_dev, found.st_ino }; }

bool find(const std::string &path, struct stat &found) {
    Place place = place_of(path);
    return (path == "-" ? fstat(STDIN_FILENO, &found)
                        : fstatat(place.folder, place.name.c_str(), &found, 0)) == 0;
}

// The files to which these paths lead.
std::set<FileId> files_at(const std::vector<std::string> &paths) {
    std::set<FileId> files;
    struct stat found;
    for (const std::string &path : paths)
        if (find(path, found)) files.insert(id_of(found));
    return files;
}

bool leads_to(const std::string &path, const std::set<FileId> &files) {
    struct stat found;
    return find(path, found) && files.count(id_of(found)) != 0;
}

bool is_standard_input(const std::string &path) {
    return path == "-" || leads_to(path, files_at({ "-" }));
}

// The record's files, besides those of rounds.
const char *const NAMES[] = { "about",         COPY_OF_ASSUMPTIONS, "command",
                              COPY_OF_FORMULA, "formula.sha256",    "report",
                              LIST_OF_ROUNDS };

// The list of the record's files begins with its own name. A name is listed before its file is
// made.
const char LIST[] = "files", NEW_LIST[] = ".files.new";
int list_file = -1;
std::set<std::string> listed;

// The name without the ending of a compressed file.
std::string without_ending(const std::string &name) {
    for (const auto &form : PACKED) {
        size_t length = name.size() - std::min(name.size(), strlen(form.ending));
        if (name.substr(length) == form.ending) return name.substr(0, length);
    }
    return name;
}

// round-R.stream-K (perhaps compressed), round-R.sizes, or checkpoint-R.cnf.
bool is_of_a_round(const std::string &name) {
    auto is_number = [](const std::string &word) {
        return !word.empty() && word[0] != '0' &&
               word.find_first_not_of("0123456789") == std::string::npos;
    };
    size_t line = name.find('-'), dot = name.find('.');
    if (line == std::string::npos || dot == std::string::npos || dot < line) return false;
    if (!is_number(name.substr(line + 1, dot - line - 1))) return false;
    std::string rest = name.substr(dot + 1);
    if (name.compare(0, line, "checkpoint") == 0) return rest == "cnf";
    bool is_stream = rest.rfind("stream-", 0) == 0 && is_number(without_ending(rest).substr(7));
    return name.compare(0, line, "round") == 0 && (rest == "sizes" || is_stream);
}

// Whether runs give this name to a file, complete or unfinished.
bool is_of_a_record(const std::string &name) {
    for (const char *known : NAMES)
        if (name == known || name == unfinished(known)) return true;
    size_t length = name.size();
    bool is_unfinished = length > 5 && name[0] == '.' && name.compare(length - 4, 4, ".new") == 0;
    return is_of_a_round(is_unfinished ? name.substr(1, length - 5) : name);
}

// The paths of all files with a record's names, including files that no run made.
std::vector<std::string> files_of(const std::string &folder) {
    std::vector<std::string> paths;
    int file = openat(record_folder, ".", O_RDONLY | O_DIRECTORY | O_CLOEXEC);
    if (DIR *list = file < 0 ? nullptr : fdopendir(file)) {
        while (const dirent *entry = readdir(list))
            if (entry->d_name == std::string(LIST) || is_of_a_record(entry->d_name))
                paths.push_back(folder + "/" + entry->d_name);
        closedir(list);
    }
    std::sort(paths.begin(), paths.end());
    return paths;
}

[[noreturn]] void refuse_own(const std::string &path) {
    refuse(path + " is there, but isn't from an earlier run: choose another --proofs");
}

bool write_list(const std::string &text) {
    return write(list_file, text.data(), text.size()) == ssize_t(text.size());
}

// A last name without LF has no file, since the run ended before making the file. Another user's
// list is refused: it may name files that this user can remove, but the other user can't.
void read_list(const std::string &path) {
    struct stat found;
    const int how = O_RDWR | O_APPEND | O_NOFOLLOW | O_NONBLOCK | O_CLOEXEC;
    list_file = openat(record_folder, LIST, how);
    if (list_file < 0 && errno == ENOENT) return;
    if (fstatat(record_folder, LIST, &found, AT_SYMLINK_NOFOLLOW) == 0 && found.st_uid != geteuid())
        refuse(path + " is another user's: copy the folder, or name another one");
    bool is_ours = list_file >= 0 && fstat(list_file, &found) == 0 && S_ISREG(found.st_mode) &&
                   found.st_nlink == 1 && found.st_uid == geteuid();
    if (!is_ours) refuse_own(path);
    std::string text = found.st_size > LONGEST_TEXT ? "" : text_of(list_file);
    size_t begin = 0;
    for (size_t end; (end = text.find('\n', begin)) != std::string::npos; begin = end + 1) {
        std::string name = text.substr(begin, end - begin);
        if (begin == 0 ? name != LIST : !is_of_a_record(name)) refuse_own(path);
        listed.insert(name);
    }
    if (begin == 0 || ftruncate(list_file, off_t(begin)) != 0) refuse_own(path);
    kept_open(list_file);
}

// Whether the record has a proof, according to lrupd's report.
bool has_proof() {
    if (listed.count("report") == 0) return false;
    std::string report;
    read_in_record("report", report);
    report = "\n" + report;
    return report.find("\ns UNSATISFIABLE") != std::string::npos;
}

// How many rounds an unfinished run has saved: the list of rounds names a file of sizes for each.
size_t rounds_to_resume() {
    const std::string ending = ".sizes\n";
    std::string list;
    if (listed.count(LIST_OF_ROUNDS) != 0) read_in_record(LIST_OF_ROUNDS, list);
    size_t count = 0, at = 0;
    for (; (at = list.find(ending, at)) != std::string::npos; at += ending.size()) count++;
    return count;
}

// Writes a new list, which replaces the old one once it is complete.
bool list_anew(const std::set<std::string> &names) {
    std::string text = std::string(LIST) + "\n";
    for (const std::string &name : names)
        if (name != LIST) text += name + "\n";
    unlinkat(record_folder, NEW_LIST, 0);
    int file = kept_open(
        openat(record_folder, NEW_LIST, O_RDWR | O_APPEND | O_CREAT | O_EXCL | O_CLOEXEC, 0666));
    if (file < 0 || !write_all(file, text.data(), text.size())) return false;
    if (renameat(record_folder, NEW_LIST, record_folder, LIST) != 0) return false;
    close_file(list_file);
    list_file = file;
    listed = names;
    listed.insert(LIST);
    return true;
}

[[noreturn]] void refuse_unlisted(const std::string &folder) {
    refuse("cannot write " + folder + "/" + LIST + ": " + error_text());
}

}  // namespace

int record_folder = -1;

Place place_of(const std::string &path) {
    std::string whole = absolute(path);
    bool is_in_record = record_folder >= 0 &&
                        whole.compare(0, record_name.size(), record_name) == 0 &&
                        whole.find('/', record_name.size()) == std::string::npos;
    return is_in_record ? Place{ record_folder, whole.substr(record_name.size()) }
                        : Place{ AT_FDCWD, path };
}

bool is_there(const std::string &path) {
    struct stat found;
    Place place = place_of(path);
    return fstatat(place.folder, place.name.c_str(), &found, AT_SYMLINK_NOFOLLOW) == 0;
}

// Whether a shell reads the unquoted text as one word.
bool is_plain(const std::string &word) {
    auto is_usual = [](unsigned char letter) {
        return isalnum(letter) || strchr("-_./+=,:@%", letter);
    };
    return !word.empty() && std::all_of(word.begin(), word.end(), is_usual);
}

// The word, quoted for a shell.
std::string quoted(const std::string &word) {
    if (is_plain(word)) return word;
    std::string text = "'";
    for (char letter : word) text += letter == '\'' ? std::string("'\\''") : std::string(1, letter);
    return text + "'";
}

// Reads the UTF-8 character at this index. Returns its length in bytes, or 0 if there is none.
static size_t read_letter(const std::string &text, size_t at, uint32_t &letter) {
    static const uint32_t least[] = { 0, 0x80, 0x800, 0x10000 };
    auto first = static_cast<unsigned char>(text[at]);
    int more = first < 0x80 ? 0 : first < 0xc0 ? -1 : first < 0xe0 ? 1 : first < 0xf0 ? 2 : 3;
    if (more < 0 || first >= 0xf8) return 0;
    letter = more > 0 ? first & (0x3fu >> more) : first;
    for (int k = 0; k < more; k++) {
        if (++at == text.size() || (text[at] & 0xc0) != 0x80) return 0;
        letter = letter << 6 | (text[at] & 0x3f);
    }
    bool is_surrogate = letter >= 0xd800 && letter < 0xe000;
    return letter < least[more] || letter > 0x10ffff || is_surrogate ? 0 : size_t(more) + 1;
}

// lrupd's arguments have to be UTF-8.
bool is_utf8(const std::string &text) {
    uint32_t letter;
    for (size_t at = 0, length; at < text.size(); at += length)
        if ((length = read_letter(text, at, letter)) == 0) return false;
    return true;
}

// The text with LF as \n, and other control characters as '?', since a name may contain any byte.
// Control characters are ASCII's, and 128 to 159, also as single bytes.
std::string one_line(const std::string &text) {
    std::string line;
    for (size_t at = 0, length; at < text.size(); at += length) {
        uint32_t letter = static_cast<unsigned char>(text[at]);
        length = std::max<size_t>(1, read_letter(text, at, letter));
        if (length == 1) letter = static_cast<unsigned char>(text[at]);
        bool is_control = letter < ' ' || (letter >= 127 && letter < 160);
        line += letter == '\n' ? "\\n" : is_control ? "?" : text.substr(at, length);
    }
    return line;
}

// This program's path, or "" if it isn't known. The system gives a path that can't be reached
// without a slash at its start.
std::string own_path() {
    char path[LONGEST_PATH];
    ssize_t length = readlink("/proc/self/exe", path, sizeof path);
    bool is_known = length > 0 && size_t(length) < sizeof path && path[0] == '/';
    return std::string(path, is_known ? size_t(length) : 0);
}

std::string absolute(const std::string &path) {
    char folder[4096];
    return path[0] == '/' || !getcwd(folder, sizeof folder) ? path
                                                            : std::string(folder) + "/" + path;
}

std::string real_path(const std::string &folder) {
    char *found = realpath(folder.c_str(), nullptr);
    std::string path = found ? found : "";
    free(found);
    return path.empty() || path.back() == '/' ? path : path + "/";
}

// A file's name until the file is complete.
std::string unfinished(const std::string &path) {
    size_t name = path.rfind('/') + 1;
    return path.substr(0, name) + "." + path.substr(name) + ".new";
}

// Opening files.

void check_input(const std::string &path) {
    if (!is_standard_input(path) && access(path.c_str(), R_OK) != 0)
        refuse(quoted(path) + ": " + error_text());
}

// Whether lrupd can open the path again. It can't if the path is a name of standard input, since
// lrupd has another standard input.
bool is_read_again(const std::string &path) {
    struct stat found;
    bool is_ours =
        is_standard_input(path) || path.rfind("/dev/fd/", 0) == 0 || path.rfind("/proc/", 0) == 0;
    return !is_ours && find(path, found) && (S_ISREG(found.st_mode) || S_ISDIR(found.st_mode));
}

int open_if_possible(const std::string &path, int how) {
    int file = path == "-" ? -1 : open(path.c_str(), O_RDONLY | O_CLOEXEC | how);
    bool is_standard = file < 0 && is_standard_input(path);
    return is_standard ? fcntl(STDIN_FILENO, F_DUPFD_CLOEXEC, 3) : file;
}

int open_input(const std::string &path) {
    int file = open_if_possible(path);
    if (file < 0) refuse(quoted(path) + ": " + error_text());
    return file;
}

void check_plain(const std::string &path, const std::string &name) {
    unsigned char bytes[2] = { 0, 0 };
    int file = open(path.c_str(), O_RDONLY | O_CLOEXEC);
    const char *program =
        file >= 0 && pread(file, bytes, 2, 0) == 2 ? unpacked_by(bytes[0], bytes[1]) : nullptr;
    if (file >= 0) close(file);
    if (program) refuse(name + ": compressed: unpack it with " + program);
}

// The folder.

// Locks the folder until this process ends, however that happens; if the file system has no locks,
// another run isn't noticed. Refuses a folder in which others may write, since they could replace
// streams that are opened again by name. Waits, since an earlier run's processes may still be
// ending.
static void hold_folder(const std::string &folder, double seconds) {
    int file = open(folder.c_str(), O_RDONLY | O_DIRECTORY | O_CLOEXEC);
    if (file < 0) refuse(folder + ": " + error_text());
    if (others_may_write(file))
        refuse(folder + ": others may write there: choose another --proofs");
    kept_open(file);
    for (double until = now() + seconds;
         flock(file, LOCK_EX | LOCK_NB) != 0 && errno == EWOULDBLOCK; usleep(PAUSE))
        if (now() >= until)
            refuse(folder +
                   ": another run has its files there, and hasn't ended: choose another --proofs");
    // opened again, so that this descriptor doesn't hold the lock
    record_folder = kept_open(openat(file, ".", O_PATH | O_DIRECTORY | O_CLOEXEC));
    record_name = absolute(folder) + "/";
}

// Refuses files with a record's names that aren't in the list, since no run made them; a listed
// stream may have been compressed later.
static void check_own(const std::string &folder, const std::vector<std::string> &paths) {
    for (const std::string &path : paths) {
        const std::string name = path.substr(folder.size() + 1);
        if (listed.count(name) + listed.count(without_ending(name)) == 0) refuse_own(path);
    }
}

// The place in the text of the first %n, which stands for a number.
static size_t place_of_number(const std::string &text) { return text.find("%n"); }

bool is_numbered(const std::string &folder) { return place_of_number(folder) != std::string::npos; }

// Runs that begin at the same time get different folders.
std::string make_numbered(const std::string &pattern) {
    for (uint64_t number = 1;; number++) {
        std::string folder = pattern;
        folder.replace(place_of_number(pattern), strlen("%n"), std::to_string(number));
        if (mkdir(folder.c_str(), 0775) == 0) return folder;
        if (errno != EEXIST) refuse("cannot make " + folder + ": " + error_text());
    }
}

void open_record(const std::string &folder, const std::vector<std::string> &inputs, bool replaces) {
    if (mkdir(folder.c_str(), 0775) != 0 && errno != EEXIST)
        refuse("cannot make " + folder + ": " + error_text());
    hold_folder(folder, 0);
    std::vector<std::string> paths = files_of(folder);
    const std::set<FileId> files = files_at(inputs);
    for (const std::string &path : paths)
        if (leads_to(path, files)) refuse(path + " would be overwritten: choose another --proofs");
    read_list(folder + "/" + LIST);
    if (!replaces && has_proof())
        refuse(folder +
               " has the proof of an earlier run: add --replace, or choose another --proofs");
    check_own(folder, paths);
    if (size_t rounds = replaces ? 0 : rounds_to_resume())
        refuse(folder + " has " + counted(rounds, "round") +
               " of an earlier run: lrup-solve --resume " + quoted(folder) +
               " continues it, --replace removes it");
    if (list_file < 0 && !list_anew({})) refuse_unlisted(folder);
}

// Opens the record of an unfinished run.
void open_record_again(const std::string &folder) {
    hold_folder(folder, ENDING);
    read_list(folder + "/" + LIST);
    if (list_file < 0) refuse(folder + " has no record: --proofs makes one");
    if (has_proof() && is_there(folder + "/command"))
        refuse(folder + " already has a proof: sh " + quoted(folder + "/command") + " checks it");
    check_own(folder, files_of(folder));
}

// A resumed run's inputs may be the record's own copies, but no other files of the record.
void check_inputs_again(const std::string &folder, const std::vector<std::string> &inputs) {
    const std::set<FileId> files = files_at(inputs);
    for (const std::string &path : files_of(folder)) {
        std::string name = path.substr(folder.size() + 1);
        bool is_copy = name == COPY_OF_FORMULA || name == COPY_OF_ASSUMPTIONS;
        if (!is_copy && leads_to(path, files))
            refuse(path + " would be overwritten: name a copy of it");
    }
}

bool claim(const Place &place) {
    if (place.folder != record_folder || listed.count(place.name) != 0) return true;
    struct stat found;
    bool is_another = fstatat(record_folder, place.name.c_str(), &found, AT_SYMLINK_NOFOLLOW) == 0;
    if (is_another)
        errno = EEXIST;
    else if (write_list(place.name + "\n"))
        return listed.insert(place.name).second;
    return false;
}

// Removes the record's files, including compressed streams, except those in `kept`.
void clear_record(const std::string &folder, const std::vector<std::string> &kept) {
    const std::set<FileId> files = files_at(kept);
    std::set<std::string> left, names = listed;
    for (const auto &form : PACKED)
        for (const std::string &name : listed)
            if (is_of_a_round(name + form.ending)) names.insert(name + form.ending);
    for (const std::string &name : names) {
        std::string path = folder + "/" + name;
        if (leads_to(path, files))
            left.insert(name);
        else if (name != LIST && !remove_file(path))
            refuse("cannot remove " + path + ": " + error_text());
    }
    if (!list_anew(left)) refuse_unlisted(folder);
}

// Opens a file of the record for reading.
int open_in_record(const std::string &name) {
    return openat(record_folder, name.c_str(), O_RDONLY | O_NOFOLLOW | O_NONBLOCK | O_CLOEXEC);
}

// A FIFO's writer may never come, and a device may have no end.
std::string fault_of_file(int file) {
    struct stat found;
    if (file < 0 || fstat(file, &found) != 0) return ": " + error_text();
    return S_ISREG(found.st_mode) ? "" : " isn't a regular file";
}

std::string read_in_record(const std::string &name, std::string &text) {
    struct stat found;
    int file = open_in_record(name);
    std::string fault = fault_of_file(file);
    if (fault.empty() && fstat(file, &found) == 0 && found.st_size > LONGEST_TEXT)
        fault = " is longer than a run writes it";
    if (fault.empty()) text = text_of(file);
    if (file >= 0) close(file);
    return fault;
}

// Removes the files for resuming the run, which has a proof and needs them no longer.
void remove_checkpoints(const std::string &folder) {
    std::set<std::string> left;
    for (const std::string &name : listed) {
        bool is_one = name.find("checkpoint-") != std::string::npos ||
                      name.find(LIST_OF_ROUNDS) != std::string::npos;
        if (!is_one || !remove_file(folder + "/" + name)) left.insert(name);
    }
    if (left.size() < listed.size()) list_anew(left);
}

// A stream's digest is known; if it is compressed, the digest is that of the unpacked one.
std::string digests_of_record(const std::vector<std::string> &known) {
    std::string lines;
    std::set<std::string> left = listed;
    for (const std::string &line : known) {
        lines += line + "\n";
        left.erase(line.substr(BEFORE_NAME));
    }
    for (const std::string &name : left) {
        if (name == LIST || name == "about" || name != without_ending(name)) continue;
        int file = open_in_record(name);
        if (fault_of_file(file).empty()) lines += digest_of(file, name) + "  " + name + "\n";
        if (file >= 0) close(file);
    }
    return lines;
}

bool has_packed_streams() {
    return std::any_of(listed.begin(), listed.end(), [](const std::string &name) {
        return name != without_ending(name) && is_there(record_name + name);
    });
}

uint64_t bytes_of_record() {
    uint64_t bytes = 0;
    struct stat found;
    for (const std::string &name : listed)
        if (fstatat(record_folder, name.c_str(), &found, AT_SYMLINK_NOFOLLOW) == 0)
            bytes += uint64_t(found.st_size);
    return bytes;
}

uint64_t free_bytes() {
    struct statvfs found;
    return fstatvfs(record_folder, &found) == 0 ? uint64_t(found.f_bavail) * found.f_frsize : 0;
}

// The digests of an open file, read to its end, and of a text.
std::string digest_of(int file, const std::string &path) {
    static char bytes[PIECE];
    Digest digest;
    for (ssize_t count; (count = read(file, bytes, PIECE)) != 0;) {
        if (count > 0)
            digest.add(bytes, size_t(count));
        else if (errno != EINTR)
            stop("%s: %s", path.c_str(), strerror(errno));
    }
    return digest.end();
}

std::string digest_of(const std::string &text) {
    Digest digest;
    digest.add(text.data(), text.size());
    return digest.end();
}

std::string digest_of_file(const std::string &path) {
    int file = open_input(path);
    std::string digest = digest_of(file, path);
    close(file);
    return digest;
}

// A line in sha256sum's form, which begins with a backslash if bytes of the name are escaped.
std::string digest_line(const std::string &digest, const std::string &path) {
    std::string name, whole = absolute(path);
    for (char letter : whole)
        name += letter == '\\'   ? "\\\\"
                : letter == '\n' ? "\\n"
                : letter == '\r' ? "\\r"
                                 : std::string(1, letter);
    return (name == whole ? "" : "\\") + digest + "  " + name + "\n";
}

// Rounds.

namespace {

std::string checkpoint_name(uint64_t round) {
    return "checkpoint-" + std::to_string(round) + ".cnf";
}

std::string sizes_name(uint64_t round) { return name_of_round(round) + ".sizes"; }

std::string stream_name(uint64_t round, size_t number) {
    return name_of_round(round) + ".stream-" + std::to_string(number);
}

[[noreturn]] void refuse_file(const std::string &why) { refuse(why + NOT_RESUMED); }

std::string change_of(const std::string &path) { return path + " was changed since it was saved"; }

// Opens a file of the record, which has to be a regular one.
int open_regular(const std::string &path) {
    int file = open_in_record(path.substr(path.rfind('/') + 1));
    std::string fault = fault_of_file(file);
    if (!fault.empty()) refuse_file(path + fault);
    return file;
}

std::string read_text(const std::string &path) {
    std::string text, fault = read_in_record(path.substr(path.rfind('/') + 1), text);
    if (!fault.empty()) refuse_file(path + fault);
    return text;
}

}  // namespace

const char NOT_RESUMED[] =
    ": the run can't be resumed: restore the file, or begin again with --proofs and --replace";

// Reading rounds.

void SavedRounds::read_list(const std::string &text) {
    const std::string path = folder + LIST_OF_ROUNDS;
    std::istringstream lines(text);
    std::string line, name;
    for (uint64_t number = 1; std::getline(lines, line); number++) {
        bool is_digest = line.find_first_not_of("0123456789abcdef") == DIGEST_DIGITS &&
                         line.compare(DIGEST_DIGITS, 2, "  ") == 0;
        name = is_digest ? line.substr(BEFORE_NAME) : "";
        bool is_right =
            !name.empty() && name.find('/') == std::string::npos && digests.count(name) == 0;
        if (!is_right)
            refuse_file(path + ", line " + std::to_string(number) + ", isn't as it was written");
        digests[name] = line.substr(0, DIGEST_DIGITS);
    }
    if (text.empty() || text.back() != '\n') refuse_file(path + " is truncated");
}

SavedRounds::Sizes SavedRounds::read_sizes(uint64_t round) const {
    unsigned long long streams = 0, lines = 0, room = 0;
    const std::string path = folder + sizes_name(round), text = read_text(path);
    bool is_right = sscanf(text.c_str(), "%llu %llu %llu", &streams, &lines, &room) == 3 &&
                    streams >= 1 && streams <= MOST_ENGINES && lines <= MOST_WORDS &&
                    room <= MOST_WORDS;
    if (!is_right || is_changed(digest_of(text) + "  " + sizes_name(round)))
        refuse_file(change_of(path));
    return { size_t(streams), { lines, room } };
}

// All files in the list have to exist; streams are compared with their digests while lrupd reads
// them.
void SavedRounds::read(const std::string &record) {
    folder = record + "/";
    if (!is_there(folder + LIST_OF_ROUNDS)) return;
    read_list(read_text(folder + LIST_OF_ROUNDS));
    size_t named = 1;  // the checkpoint
    for (uint64_t round = 1; digests.count(sizes_name(round)) != 0; round++) {
        sizes.push_back(read_sizes(round));
        for (size_t k = 1; k <= streams(round); k++) check_stream(round, k);
        named += 1 + streams(round);
    }
    bool has_checkpoint = count() > 0 && digests.count(checkpoint_name(count() + 1)) != 0;
    if (!has_checkpoint || digests.size() != named)
        refuse_file(folder + LIST_OF_ROUNDS + " names other files than a run saves");
}

void SavedRounds::check_stream(uint64_t round, size_t number) const {
    const std::string name = stream_name(round, number), there = name_in_record(name);
    if (digests.count(name) == 0) refuse_file(folder + LIST_OF_ROUNDS + " doesn't name " + name);
    close(open_regular(folder + there));
    const char *program = packer_of(there.c_str());
    if (program && on_the_path(program).empty())
        refuse(folder + there + ": no " + program + " on the PATH");
}

// The file, or a pipe with what a child unpacks from it.
static int open_unpacked(const std::string &folder, const std::string &name, Unpacker &unpacker) {
    const std::string there = name_in_record(name);
    int file = open_regular(folder + there);
    return there == name ? file : unpacker.start(file, there);
}

std::vector<int> SavedRounds::open(uint64_t round, std::vector<Unpacker> &unpackers) const {
    std::vector<int> files;
    unpackers.assign(streams(round), Unpacker());
    for (size_t k = 0; k < streams(round); k++)
        files.push_back(kept_open(open_unpacked(folder, stream_name(round, k + 1), unpackers[k])));
    return files;
}

std::string SavedRounds::checkpoint() const { return folder + checkpoint_name(count() + 1); }

bool SavedRounds::is_changed(const std::string &line) const {
    auto found = digests.find(line.substr(BEFORE_NAME));
    return found == digests.end() || line.compare(0, DIGEST_DIGITS, found->second) != 0;
}

std::string SavedRounds::fault_of(const std::string &path, bool &was_changed) const {
    const std::string name = path.substr(path.rfind('/') + 1);
    Unpacker unpacker;
    int file = open_unpacked(folder, name, unpacker);
    fcntl(file, F_SETFL, 0);
    bool is_as_saved = !is_changed(digest_of(file, path) + "  " + name);
    close_file(file);
    const std::string failure = unpacker.end();
    was_changed = !is_as_saved && failure.empty();
    return is_as_saved ? "" : was_changed ? change_of(path) : folder + failure;
}

void SavedRounds::check(const std::string &path) const {
    bool was_changed;
    const std::string fault = fault_of(path, was_changed);
    if (!fault.empty()) refuse_file(fault);
}

std::vector<std::string> SavedRounds::paths() const {
    std::vector<std::string> found;
    if (count() > 0) found.push_back(folder + LIST_OF_ROUNDS);
    for (const auto &entry : digests) found.push_back(folder + name_in_record(entry.first));
    return found;
}

// Saving rounds.

namespace {

// The saver's statuses. If a stream's bytes didn't reach the disk, they may be gone, although the
// system says so only once. LOST: no later round can be saved, since each would need that stream.
enum { UNSAVED = 1, LOST = 2 };

// In the saver's process. Returns the cause if the file may not be on disk. EINVAL: the file system
// can't say.
std::string bring_to_disk(const std::string &folder, const std::string &name) {
    int file = open_in_record(name_in_record(name));
    bool is_there = file >= 0 && (fdatasync(file) == 0 || errno == EINVAL);
    std::string cause = is_there ? "" : "cannot write " + folder + name + ": " + error_text();
    if (file >= 0) close(file);
    return cause;
}

// In the saver's process. Gives a whole file its name once it is on disk; otherwise removes it, and
// returns the cause.
std::string written(const std::string &path, int file, bool is_whole) {
    const std::string begun = unfinished(path);
    if (is_whole && file >= 0 && fsync(file) == 0 && rename_file(begun, path)) return "";
    std::string cause = "cannot write " + path + ": " + error_text();
    if (file >= 0) remove_file(begun);
    return cause;
}

// In the saver's process. Copies the checkpoint, and finds its digest.
std::string copy_checkpoint(int file, const std::string &path, std::string &digest) {
    static char bytes[PIECE];
    Digest found;
    int copy = create_if_possible(unfinished(path));
    bool is_whole = copy >= 0;
    for (ssize_t count = 1; is_whole && count > 0;) {
        count = read(file, bytes, PIECE);
        is_whole = count >= 0 && write_all(copy, bytes, size_t(count));
        if (count > 0) found.add(bytes, size_t(count));
    }
    digest = found.end();
    return written(path, copy, is_whole);
}

}  // namespace

void Saver::save(uint64_t round, const std::string &record, const std::string &checkpoint,
                 const std::vector<std::string> &all) {
    if (is_lost) return;
    if (!cause) cause = shared_memory<char>(LONGEST_CAUSE);
    folder = record + "/";
    close_file(next.file);
    next = { round, kept_open(::open(checkpoint.c_str(), O_RDONLY | O_CLOEXEC)), all };
    if (!child.running) start();
}

// Lists the names of the new files here, since the saving process doesn't have the list.
void Saver::start() {
    now = next;
    next = Work();
    const std::string path = folder + checkpoint_name(now.round), list = folder + LIST_OF_ROUNDS;
    for (const std::string &name : { path, unfinished(path), list, unfinished(list) })
        claim(place_of(name));
    child = Child();
    if (begin(child, "saver", { now.file, record_folder })) {
        raise_oom_score();
        std::string lost = bring_streams_to_disk(), why = lost.empty() ? write() : lost;
        snprintf(cause, LONGEST_CAUSE, "%s", why.c_str());
        _exit(!lost.empty() ? LOST : !why.empty() ? UNSAVED : 0);
    }
    close_file(now.file);
}

// In the saver's process.
std::string Saver::bring_streams_to_disk() const {
    std::string why;
    for (size_t k = on_disk; k < now.digests.size() && why.empty(); k++)
        why = bring_to_disk(folder, now.digests[k].substr(BEFORE_NAME));
    return why;
}

// In the saver's process. Once the list names the new checkpoint, the previous one isn't needed any
// more.
std::string Saver::write() const {
    const std::string path = folder + checkpoint_name(now.round), list = folder + LIST_OF_ROUNDS;
    std::string text, digest, why = copy_checkpoint(now.file, path, digest);
    if (!why.empty()) return why;
    for (const std::string &line : now.digests) text += line + "\n";
    text += digest + "  " + checkpoint_name(now.round) + "\n";
    int file = create_if_possible(unfinished(list));
    why = written(list, file, file >= 0 && write_all(file, text.data(), text.size()));
    if (!why.empty()) return why;
    why = bring_to_disk(folder, ".");
    if (why.empty() && saved != 0 && saved != now.round)
        remove_file(folder + checkpoint_name(saved));
    return why;
}

void Saver::end_next() {
    close_file(next.file);
    next = Work();
}

std::string Saver::end() {
    end_next();
    return collect();
}

std::string Saver::collect() {
    if (now.round == 0 || child.running) return "";
    bool is_saved = child.ended_with(0), has_cause = child.ended_with(UNSAVED);
    is_lost = child.ended_with(LOST);
    std::string why = has_cause || is_lost ? cause : "its process " + child.end();
    std::string line = "round " + std::to_string(now.round - 1) + " couldn't be saved: " + why;
    if (is_lost) end_next(), line += ", nor can any later one";
    if (is_saved) saved = now.round, on_disk = now.digests.size();
    now = Work();
    if (next.round != 0) start();
    return is_saved ? "" : line;
}
