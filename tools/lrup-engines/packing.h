// Unverified, like the whole solver. Packed streams of a record: zstd packs those of saved rounds,
// so that long runs need less room. A record's digests are those of the unpacked streams.
#ifndef PACKING_H
#define PACKING_H

#include "solve.h"

// Packs the streams of saved rounds, in a process of its own. A stream that can't be packed stays
// as it is, and so do all without zstd on the PATH.
class Packer {
  public:
    Child child;

    // Goes on with the rounds before this one that have digests (each line: a digest, a name).
    // Returns why streams aren't packed, once, or "".
    std::string pack_before(uint64_t round, const std::vector<std::string> &digests);
    void end();  // once the process has ended: removes what is unfinished

  private:
    bool has_begun = false, has_told = false;
    std::string program;                // empty: nothing is packed
    std::vector<std::string> names;     // of the streams that the process packs
    size_t packed = 0, considered = 0;  // how many of the digests, before and with these streams
    uint64_t next = 0;                  // after a failure, the round before which it waits

    std::string failure(uint64_t round);
    void start();
};

std::string name_in_record(const std::string &stream);  // with the ending of a packed one

// Unpacks a stream of a record.
class Unpacker {
  public:
    Child child;  // of a stream that isn't packed: none

    // A pipe with what the child unpacks from the file, which is closed. Reading it doesn't block.
    int start(int file, const std::string &its_name);
    // Waits for the child, once nobody needs the pipe. Returns its name and why it failed, or "" if
    // it didn't, or if it says that the file's bytes are wrong.
    std::string end();

  private:
    std::string name, program;
    int said = -1;  // a file with its standard error
};

#endif
