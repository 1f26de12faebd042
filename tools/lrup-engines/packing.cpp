// Unverified, like the whole solver. Packs and unpacks streams of a record.
#include <algorithm>
#include <cerrno>
#include <cstdio>
#include <cstdlib>
#include <iterator>

#include <fcntl.h>
#include <sys/stat.h>
#include <unistd.h>

#include "checker.h"
#include "packed.h"
#include "packers.h"
#include "packing.h"
#include "record.h"

namespace {

const std::string PACKS = "zstd", ENDING = ".zst";
const uint64_t LEAST = 1 << 20;  // bytes of a stream that is worth packing

// What xz, gzip, bzip2 and zstd say, in C's locale, of a file that was truncated or has other bytes.
// Whatever else one says, or however else it ends, the file may be as it was.
const char *const WRONG_BYTES[] = { "Compressed data is corrupt", "File format not recognized",
                                    "Unexpected end of input",    "invalid compressed data",
                                    "not in gzip format",         "unexpected end of file",
                                    "Data integrity error",       "is not a bzip2 file",
                                    "ends unexpectedly",          "corruption detected",
                                    "doesn't match checksum",     "premature end",
                                    "unsupported format",         "unknown header" };

// In a child. Becomes a program that reads the first file and writes the others.
[[noreturn]] void become(const std::string &program, const char *how, int file, int out,
                         int error) {
    packers_forget_options();
    setenv("LC_ALL", "C", 1);
    if (dup2(file, 0) == 0 && dup2(out, 1) == 1 && dup2(error, 2) == 2)
        execl(program.c_str(), program.c_str(), how, static_cast<char *>(nullptr));
    _exit(127);
}

bool is_in_record(const std::string &name, uint64_t least = 0) {
    struct stat found;
    return fstatat(record_folder, name.c_str(), &found, AT_SYMLINK_NOFOLLOW) == 0 &&
           uint64_t(found.st_size) >= least;
}

void remove(const std::string &name) { unlinkat(record_folder, name.c_str(), 0); }

// In the packer's process. The packed stream gets its name once it is on disk.
bool pack(const std::string &program, const std::string &name) {
    const std::string packed = name + ENDING, begun = unfinished(packed);
    const int how = O_WRONLY | O_CREAT | O_EXCL | O_NOFOLLOW | O_CLOEXEC;
    int file = open_in_record(name);
    if (!fault_of_file(file).empty()) return false;
    remove(begun);
    int made = openat(record_folder, begun.c_str(), how, 0666);
    if (made < 0) return false;
    Child child;
    if (begin(child, PACKS, { file, made }))
        become(program, "-1qc", file, made, open("/dev/null", O_WRONLY | O_CLOEXEC));
    wait_for(child);
    bool is_packed = child.ended_with(0) && fsync(made) == 0;
    close(made);
    close(file);
    return is_packed && renameat(record_folder, begun.c_str(), record_folder, packed.c_str()) == 0;
}

// In the packer's process. Streams are removed once the names of the packed ones are on disk.
[[noreturn]] void pack_all(const std::string &program, const std::vector<std::string> &names) {
    raise_oom_score();
    for (const std::string &name : names)
        if (!pack(program, name)) _exit(1);
    int folder = openat(record_folder, ".", O_RDONLY | O_DIRECTORY | O_CLOEXEC);
    if (fsync(folder) != 0 && errno != EINVAL) _exit(1);
    for (const std::string &name : names) remove(name);
    _exit(0);
}

}  // namespace

std::string Packer::pack_before(uint64_t round, const std::vector<std::string> &digests) {
    unsigned long long of_round = 0;
    if (!has_begun) program = on_the_path(PACKS);
    has_begun = true;
    if (program.empty() || child.running) return "";
    std::string why = failure(round);
    if (round <= next) return why;
    for (; considered < digests.size(); considered++) {
        const std::string name = digests[considered].substr(BEFORE_NAME);
        if (sscanf(name.c_str(), "round-%llu.", &of_round) != 1 || of_round >= round) break;
        bool is_stream = name.find(".stream-") != std::string::npos;
        if (is_stream && is_in_record(name, hooked(test_hooks.packed_from, LEAST)))
            names.push_back(name);
    }
    if (!names.empty()) start();
    return why;
}

// After a failure, tries again once another round is saved.
std::string Packer::failure(uint64_t round) {
    bool has_failed = !names.empty() && !child.ended_with(0);
    end();
    if (!has_failed) packed = considered;
    if (!has_failed) return "";
    considered = packed;
    next = round;
    std::string why = has_told ? "" : "streams aren't packed yet: " + PACKS + " couldn't";
    has_told = true;
    return why;
}

// Lists the names of the new files here, since the packing process doesn't have the list.
void Packer::start() {
    child = Child();
    for (const std::string &name : names)
        for (const std::string &made : { name + ENDING, unfinished(name + ENDING) })
            if (!claim({ record_folder, made })) return;
    if (begin(child, "packer", { record_folder })) pack_all(program, names);
}

void Packer::end() {
    for (const std::string &name : names) {
        remove(unfinished(name + ENDING));
        if (is_in_record(name)) remove(name + ENDING);
    }
    names.clear();
}

std::string name_in_record(const std::string &stream) {
    for (const auto &form : PACKED)
        if (!is_in_record(stream) && is_in_record(stream + form.ending))
            return stream + form.ending;
    return stream;
}

// Without -q, since bzip2 would say nothing of a truncated file.
int Unpacker::start(int file, const std::string &its_name) {
    name = its_name;
    program = packer_of(name.c_str());
    const std::string found = on_the_path(program);
    Pipe pipe = make_pipe(0);
    said = file_in_memory();
    if (begin(child, "unpacker", { file, pipe.write, said }))
        become(found, "-dc", file, pipe.write, said);
    close(file);
    close_file(pipe.write);
    fcntl(pipe.read, F_SETFL, O_NONBLOCK);
    return pipe.read;
}

std::string Unpacker::end() {
    wait_for(child);
    const std::string text = said < 0 ? "" : text_of(said);
    close_file(said);
    auto is_said = [&](const char *words) { return text.find(words) != std::string::npos; };
    bool is_right = child.pid == 0 || child.ended_with(0);
    if (is_right || std::any_of(std::begin(WRONG_BYTES), std::end(WRONG_BYTES), is_said)) return "";
    const std::string first = text.substr(0, text.find('\n'));
    return name + ": " + program + " " + child.end() + (first.empty() ? "" : ": ") + first;
}
