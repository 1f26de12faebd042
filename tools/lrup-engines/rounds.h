// Unverified, like the whole solver. Rounds: lrupd makes a row before it reads the first line, and
// the row doesn't grow. When the row is full, all streams end after a whole line, and lrupd
// continues in a new row, whose formula has the clauses that are live. lrupd has also saved them as
// a checkpoint, from which filters take the clauses' new identities (filtering.c).
// tools/lib/row.c chooses the sizes of rows.
#ifndef ROUNDS_H
#define ROUNDS_H

#include "checker.h"
#include "display.h"
#include "packing.h"
#include "record.h"
#include "teams.h"

class Rounds {
  public:
    // The engines solve until a filter finds the row full; then all streams end, lrupd saves the
    // live clauses, and filters take their new identities. A run that has to end saves its last
    // round.
    enum State { OPEN, ENDING, SAVING, MAPPING, SAVED };

    State state = OPEN;
    uint64_t number = 1;
    uint64_t checked = 0;  // lrupd's round; below `number`: one that ended; 0: none
    Saver saver;
    Packer packer;
    uint64_t lines_before = 0;  // of earlier rounds
    double paused = 0;          // seconds in all
    Rows rows = {};
    Checkpoint saved = {};  // the last round's, while filters take its identities

    Rounds(const Inputs &its_inputs, Teams &its_teams, Checker &its_checker,
           const Display &its_display)
        : inputs(its_inputs), teams(its_teams), checker(its_checker), display(its_display) {}
    Rounds(const Rounds &) = delete;
    ~Rounds() { checkpoint_free(&saved); }
    void begin();
    std::string begin_message() const;  // a message about a resumed run
    std::string advance();              // returns why the run can't continue, or ""
    std::string feed(bool is_last);     // feeds lrupd; returns why it can't, or ""
    bool is_behind() const { return checked < number; }  // lrupd still checks earlier rounds
    void save_last();                                    // saves the last round, for a resumed run
    bool is_saving() const;
    std::string resume_message();     // a message
    double next_saving() const;       // when a round that has room ends; INFINITY: never
    std::vector<Child *> children();  // those that save a round, and unpack or pack streams
    void end_streams();               // those of the last round, which are whole
    std::string keep_report() const;  // returns why it can't, or ""

  private:
    const Inputs &inputs;
    Teams &teams;
    Checker &checker;
    const Display &display;
    std::string checker_program, said;
    SavedRounds ended;                // of a resumed run: those that lrupd gets first
    Row first = {};                   // of round 1
    std::vector<int> saved_streams;   // of the saved round that lrupd is in
    std::vector<Unpacker> unpackers;  // of these streams
    size_t compared = 0;              // how many of the checker's digests
    uint64_t literals_before = 0;
    double pause_begun = 0, begun = now();  // when the last pause and the round began
    bool is_full = false;                   // the row is full, so the round ends
    bool ends_here = false;                 // the run ends with this round
    uint64_t next = 0;                      // a resumed run's first round, if it is saved
    bool has_told_loss = false;

    bool size(uint64_t clauses, uint64_t literals);
    bool make_room(bool fits);
    Row needed_row() const;
    size_t first_streams() const;
    void open_saved();
    void close_saved();
    std::string feed_saved();
    std::string changed_file();
    std::string end_record(const std::string &path);
    std::string checkpoint_path() const;
    void feed_teams(bool is_last);
    void begin_next();
    void start_checker(Row wanted);
    bool has_lines() const;  // new ones in this round
    bool has_more() const;
    void keep_checkpoint();
    void end_round(bool full);
    std::string map_round();
    void begin_round();
    void go_on();
    std::string words(uint64_t streams) const;
    std::string command_of(Row sizes, const std::string &folder) const;
    std::string from_record(const std::string &path) const;
    std::string command_again() const;
    void keep_sizes() const;
};

#endif
