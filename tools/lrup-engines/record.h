// Unverified, like the whole solver. The record: the folder of --proofs, and the complete rounds in
// it, from which a run can be resumed. The record's rounds.sha256 has the digests of their sizes
// and streams, and of checkpoint-R.cnf, the clauses with which round R begins. Round R is the first
// one that the record doesn't have. None of this is trusted: lrupd begins with FORMULA, and gets
// these streams before those of the current round.
#ifndef RECORD_H
#define RECORD_H

#include <map>

#include "packing.h"

struct Place {
    int folder;
    std::string name;
};  // for openat and the like

const char LIST_OF_ROUNDS[] = "rounds.sha256";
// inputs that can't be read again, or with --with-formula any
const char COPY_OF_FORMULA[] = "formula.cnf", COPY_OF_ASSUMPTIONS[] = "assumptions";
extern int record_folder;                 // open; -1: none
Place place_of(const std::string &path);  // files of the record are named relative to record_folder
bool is_numbered(const std::string &folder);  // whether it has %n
// Makes the first folder that isn't there yet, with a number from 1 on in place of %n.
std::string make_numbered(const std::string &pattern);
// Refuses to write over these inputs.
void open_record(const std::string &folder, const std::vector<std::string> &inputs, bool replaces);
void open_record_again(const std::string &folder);  // of a resumed run
void check_inputs_again(const std::string &folder, const std::vector<std::string> &inputs);
// of an earlier run
void clear_record(const std::string &folder, const std::vector<std::string> &kept);
int open_in_record(const std::string &name);  // -1: it can't be opened
std::string fault_of_file(int file);          // for a message; "": a regular file
// the same; a text isn't longer than a run can have written it
std::string read_in_record(const std::string &name, std::string &text);
void remove_checkpoints(const std::string &folder);  // of a run that needs them no longer
bool claim(const Place &place);                      // before making a file; false: see errno
bool is_there(const std::string &path);
std::string digest_of(int file, const std::string &path);
std::string digest_of(const std::string &text);
std::string digest_of_file(const std::string &path);
std::string digest_line(const std::string &digest, const std::string &path);  // for a record
std::string digests_of_record(const std::vector<std::string> &known);         // of all its files
bool has_packed_streams();                                                    // of the record
uint64_t bytes_of_record();
uint64_t free_bytes();  // where the record is

extern const char NOT_RESUMED[];  // the end of a message

// The rounds that an earlier run saved.
class SavedRounds {
  public:
    void read(const std::string &record);  // refuses a record that can't be right
    uint64_t count() const { return sizes.size(); }
    size_t streams(uint64_t round) const { return sizes[round - 1].streams; }
    Row row(uint64_t round) const { return sizes[round - 1].row; }
    // its streams, of which children unpack the packed ones into pipes
    std::vector<int> open(uint64_t round, std::vector<Unpacker> &unpackers) const;
    std::string checkpoint() const;             // its path
    void check(const std::string &path) const;  // refuses a file that was changed
    // reads the file again; returns why it isn't as it was saved, or ""
    std::string fault_of(const std::string &path, bool &was_changed) const;
    bool is_changed(const std::string &line) const;  // the line: a digest, a name
    std::vector<std::string> paths() const;          // of all files of these rounds

  private:
    struct Sizes {
        size_t streams;
        Row row;
    };

    std::string folder;                          // with a slash
    std::map<std::string, std::string> digests;  // by name
    std::vector<Sizes> sizes;

    void read_list(const std::string &text);
    Sizes read_sizes(uint64_t round) const;
    void check_stream(uint64_t round, size_t number) const;
};

// Saves the rounds of this run. A separate process writes the files, so that nobody waits for the
// disk.
class Saver {
  public:
    Child child;
    uint64_t saved = 0;  // the first round of a resumed run; 0: none is saved

    // Saves what a resumed run needs to begin with this round. If another round is still being
    // saved, this one comes next, unless a later one replaces it.
    void save(uint64_t round, const std::string &record, const std::string &checkpoint,
              const std::vector<std::string> &all);
    std::string collect();  // returns why a round couldn't be saved, or ""
    std::string end();      // returns the same; nothing is saved after it
    bool is_busy() const { return child.running || next.round != 0; }

  private:
    struct Work {
        uint64_t round = 0;
        int file = -1;
        std::vector<std::string> digests = {};
    };

    Work now, next;         // round 0: none
    std::string folder;     // with a slash
    size_t on_disk = 0;     // how many of the digests' files are on disk
    char *cause = nullptr;  // from the process
    bool is_lost = false;   // a saved stream isn't on disk

    void start();
    void end_next();
    std::string bring_streams_to_disk() const;
    std::string write() const;
};

#endif
