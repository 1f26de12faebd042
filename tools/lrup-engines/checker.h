// Unverified, like the whole solver. An lrupd, and what it reads; and the front, which starts it.
#ifndef CHECKER_H
#define CHECKER_H

#include <deque>

#include <poll.h>

#include "digest.h"
#include "solve.h"

const int UNKNOWN_STATUS = 3, UNSAVED_STATUS = 9;  // lrupd's statuses

// An lrupd.
class Checker {
  public:
    Child child;
    std::string report, said;  // its lines on standard output, and on standard error
    bool keeps_digests = false;
    // of each round's sizes, and of each finished stream, as sha256sum prints them
    std::vector<std::string> digests;

    void expect(const std::string &path);  // lrupd runs, or will; path: the file with its output
    // asks the front to start it; round 1 reads these files
    void start(Row row, const std::vector<int> &files);

    // Call expect_round before a round's streams end, with the beginning of the names that the next
    // round's files have in lrupd's folder. Once lrupd has saved the round, begin_round gives it
    // the next round's sizes, and the files of that round's streams.
    void expect_round(const std::string &path);
    bool awaits_sizes() const { return sizes >= 0; }
    void begin_round(Row row, const std::vector<int> &files);

    void open_pipes();                       // opens the pipes that lrupd has opened
    double next_opening() const;             // INFINITY: it needn't open another one
    std::vector<pollfd> full_pipes() const;  // to wait until they have room, or empty ones bytes
    // feeds the file up to this byte; true once all of that has been fed
    bool feed(size_t stream, uint64_t bytes, bool drop);
    bool feed_all(size_t stream);  // to its end; the file may be a pipe that doesn't block
    // this file has the stream's next bytes
    void go_on_in(size_t stream, int file) { streams[stream].file = file; }
    void end_stream(size_t stream);
    bool has_digest(size_t stream) const { return streams[stream].has_digest; }
    void forget();  // an lrupd that was ended, since it isn't needed any more
    uint64_t fed(size_t stream) const { return streams[stream].fed; }
    uint64_t read_of(size_t stream) const;    // bytes that lrupd has read
    void read_on();                           // reads its output
    bool next_line(std::string &line);        // of standard error, each line once
    std::string last_line() const;            // of standard error
    void take_end(const std::string &words);  // from the front: si_code and si_status

  private:
    struct Stream {
        int file, pipe;
        std::string path;       // until lrupd has opened the pipe
        bool is_full = false;   // is the pipe full?
        bool is_empty = false;  // is the file a pipe without bytes now?
        uint64_t fed = 0, dropped = 0;
        std::string name = "";   // without its folder
        std::string unfed = "";  // bytes of the file that the pipe didn't take
        Digest digest = {};
        bool has_digest = false;  // `digests` has its digest
    };

    std::vector<Stream> streams;
    std::string next;                  // the beginning of the next round's file names
    std::deque<std::string> unopened;  // pipes, in the order in which lrupd opens them
    double waits_since = 0;            // for the first of them
    std::string output, unread;        // the file with its output; an unfinished line
    int sizes = -1, written = -1;
    size_t told = 0;

    void await_opening(const std::string &path);
    void open_streams(const std::vector<int> &files);
    std::string sizes_of(Row row);
    size_t write_to(Stream &stream, const char *bytes, size_t length);
};

// The front, which trusts nothing that this process reports through a pipe (front/front.c). Files
// are given by the names of the front's descriptors.
struct Front {
    // empty if no front has started this process
    std::string output_of_lrupd, lrupd, formula, assumptions;
    std::string stopped;  // describes the signal that ends the run; empty: none has come
    Checker probe;        // this process's own lrupd, which reads the formula, and no stream

    void find(int &count, char **&words);    // from LRUP_FRONT, or from words, which it removes
    std::vector<std::string> words() const;  // for a process that MPI starts
    void open();                             // in one process only
    pollfd to_poll() const { return { incoming, POLLIN, 0 }; }
    bool is_there() const { return pid != 0; }
    bool is_elsewhere() const { return number != 0; }  // found by words, perhaps on another host
    void say(const std::string &line) const;           // cut if it is too long
    bool has_unread() const;         // lines that it hasn't read, and so hasn't printed
    void read_on(Checker *checker);  // reads what it reports
    void start_probe();
    bool has_refused();                          // the probe has refused the formula
    double checking() const;                     // processor time of all lrupds, in seconds
    std::string await_refusal(double deadline);  // lrupd's words; empty if it doesn't refuse

  private:
    int pid = 0, from_front = -1, to_front = -1;  // its descriptors
    uint64_t number = 0;                          // the inode of its pipe to us; 0: unknown
    int incoming = -1, outgoing = -1;             // pipes: from the front, and to it
    std::string given, unread;

    std::string name(int number_of_file) const {
        return "/proc/" + std::to_string(pid) + "/fd/" + std::to_string(number_of_file);
    }
};

extern Front front;
bool is_program(const std::string &path);
std::string on_the_path(const std::string &name);  // empty: not found
std::string find_tool(const std::string &name);    // also next to this program
std::string sizes_text(size_t streams, Row row);   // as lrupd reads it
std::string tries();

#endif
