// Unverified, like the whole filter. Option --rounds: writes a stream for each round of lrupd
// --rounds, through FIFOs. Each FIFO exists before the previous round's stream ends, since lrupd
// looks for the next FIFO when a stream ends. Once lrupd has opened the FIFO, this program removes
// both the FIFO and the file of sizes; it removes each checkpoint after reading it. So the folder
// has files of an unfinished round only while this program waits for lrupd.
#define _XOPEN_SOURCE 700
#include <dirent.h>
#include <errno.h>
#include <fcntl.h>
#include <poll.h>
#include <signal.h>
#include <stdio.h>
#include <string.h>
#include <sys/file.h>
#include <sys/stat.h>
#include <unistd.h>

#include "chain.h"
#include "errors.h"
#include "folder.h"
#include "next_round.h"
#include "row.h"
#include "write.h"

enum { LONGEST_PATH = 4096, LONGEST_NAME = 64, PAUSE = 5 };  // PAUSE: milliseconds
enum { USUAL_LINES = 65536 };  // lrupd's default in round 1; the room never exceeds lrupd's default
#define OF_A_ROUND "round-"
#define ANOTHER_FILE "another file is in its place"

static const char *folder;
static int held;  // the open folder, even if it is renamed
static Filter *filter;
static Rows rows;
static Row used;                                        // what the round has used of its row
static uint64_t round_number;                           // from 1
static char sizes[LONGEST_PATH], stream[LONGEST_PATH];  // paths
static volatile sig_atomic_t is_awaited;                // whether the program waits for lrupd
static int file;
static struct stat made;  // the FIFO

// Locks the folder until this process ends; on a file system without locks it stays unlocked. Other
// users must not be able to replace files in the folder.
static void lock_folder(void) {
    held = open(folder, O_RDONLY | O_DIRECTORY | O_CLOEXEC);
    if (held < 0) fail_file(folder, strerror(errno));
    if (others_may_write(held)) fail_file(folder, "other users may write to this folder");
    if (flock(held, LOCK_EX | LOCK_NB) != 0 && errno == EWOULDBLOCK)
        fail_file(folder, "another run uses this folder");
}

// Opens the folder, which must not have files of rounds: lrupd would read them, or refuse to
// overwrite them.
void chain_open(const char *path) {
    folder = path;
    if (strlen(folder) > LONGEST_PATH - LONGEST_NAME) fail_file(folder, "name too long");
    if (mkdir(folder, 0775) != 0 && errno != EEXIST) fail_file(folder, strerror(errno));
    lock_folder();
    int listed = openat(held, ".", O_RDONLY | O_DIRECTORY | O_CLOEXEC);
    DIR *list = listed < 0 ? NULL : fdopendir(listed);
    if (list == NULL) fail_file(folder, strerror(errno));
    for (const struct dirent *entry; (entry = readdir(list)) != NULL;) {
        if (strncmp(entry->d_name, OF_A_ROUND, strlen(OF_A_ROUND)) != 0) continue;
        snprintf(stream, sizeof stream, "%s/%s", folder, entry->d_name);
        fail_file(stream, "exists, but --rounds needs a folder without files of rounds");
    }
    closedir(list);
}

// The file's name in the folder.
static const char *name_in(const char *path) { return strrchr(path, '/') + 1; }

static void name_file(char path[LONGEST_PATH], const char *what) {
    snprintf(path, LONGEST_PATH, "%s/" OF_A_ROUND "%llu.%s", folder,
             (unsigned long long)round_number, what);
}

// The file of sizes is made first: lrupd reads it as soon as the stream exists.
static void make_files(void) {
    char text[LONGEST_NAME];
    int length = snprintf(text, sizeof text, "1 %llu %llu\n", (unsigned long long)rows.row.lines,
                          (unsigned long long)rows.row.room);
    name_file(sizes, "sizes");
    name_file(stream, "stream-1");
    int out = openat(held, name_in(sizes), O_WRONLY | O_CREAT | O_EXCL, 0666);
    if (out < 0) fail_file(sizes, strerror(errno));
    bool written = write_whole(out, text, (size_t)length);
    is_awaited = 1;
    if (close(out) == 0 && written && mkfifoat(held, name_in(stream), 0666) == 0 &&
        fstatat(held, name_in(stream), &made, AT_SYMLINK_NOFOLLOW) == 0)
        return;
    int error = errno;
    unlinkat(held, name_in(sizes), 0);
    fail_file(stream, strerror(error));
}

static void remove_files(void) {
    unlinkat(held, name_in(stream), 0);
    unlinkat(held, name_in(sizes), 0);
    is_awaited = 0;
}

// Before a signal ends the program. An lrupd that is opening the FIFO gets an empty stream; one that
// comes later finds no file.
static void leave_no_files(void) {
    if (!is_awaited) return;
    openat(held, name_in(stream), O_RDWR | O_NONBLOCK | O_NOFOLLOW);  // until this process ends
    remove_files();
}

// Waits until lrupd opens the FIFO. That never happens if standard output is a pipe and its reader,
// which runs lrupd, has ended.
static void open_stream(void) {
    struct pollfd reader = { .fd = STDOUT_FILENO };
    struct stat found;
    while ((file = openat(held, name_in(stream), O_WRONLY | O_NONBLOCK | O_NOFOLLOW)) < 0) {
        if (errno == ELOOP) fail_file(stream, ANOTHER_FILE);
        if (errno != ENXIO && errno != EINTR) fail_file(stream, strerror(errno));
        if (poll(&reader, 1, PAUSE) <= 0) continue;
        if (reader.revents & POLLERR) {
            remove_files();
            stop("the reader of standard output, which runs lrupd, ended before it read %s",
                 stream);
        }
        reader.fd = -1;
    }
    if (fstat(file, &found) != 0 || found.st_dev != made.st_dev || found.st_ino != made.st_ino)
        fail_file(stream, ANOTHER_FILE);
    fcntl(file, F_SETFL, 0);
    remove_files();
}

void chain_end(void) {
    write_flush();
    if (close(file) != 0) fail("cannot write the stream:", strerror(errno));
}

static void to_stream(const char *bytes, size_t length) {
    if (!write_whole(file, bytes, length)) fail("cannot write the stream:", strerror(errno));
}

static void take_checkpoint(void) {
    char path[LONGEST_PATH];
    Checkpoint checkpoint;
    name_file(path, "cnf");
    checkpoint_read(&checkpoint, path);
    unlinkat(held, name_in(path), 0);
    round_begin(filter, &checkpoint, 1, 1);
    checkpoint_free(&checkpoint);
}

static void size_round(uint64_t clauses, uint64_t literals, uint64_t wanted, const char *holds) {
    if (!rows_size(&rows, 1, clauses, literals, used, wanted))
        stop("%s no room in a row of %llu bytes", holds, (unsigned long long)MOST_MEMORY);
    used = (Row){ 0 };
    if (++round_number == 1 && rows.row.lines > USUAL_LINES) rows.row.lines = USUAL_LINES;
    make_files();
}

static void next_round(uint64_t wanted) {
    static const Identities none;
    uint64_t literals;
    round_delete(filter, &none, true);
    uint64_t clauses = round_clauses(filter, &literals);
    rows_grow(&rows);
    size_round(clauses, literals, wanted, "the solver's clauses leave");
    chain_end();
    open_stream();
    take_checkpoint();
}

static bool has_room(uint64_t literals) { return row_holds(rows.row, used, literals); }

static void before_line(const Filter *one) { round_make_room(one, has_room, next_round); }

static void after_line(const Filter *one) {
    used.lines++;
    used.room += one->literals.length;
}

static bool never_stops(void) { return false; }

// Call after the formula has been read. Prints the path of the first stream once lrupd may start.
void chain_begin(Filter *one, uint64_t memory) {
    static const Hooks hooks = { .should_stop = never_stops,
                                 .before_line = before_line,
                                 .after_line = after_line };
    filter = one;
    filter->hooks = &hooks;
    filter->keeps_clauses = true;
    write_to(to_stream);
    signals_handle(leave_no_files);
    rows_open(&rows, memory, 0, 1);
    size_round(filter->formula.clauses, filter->formula.literals.length, 0, "the formula leaves");
    if (!write_whole(STDOUT_FILENO, stream, strlen(stream)) ||
        !write_whole(STDOUT_FILENO, "\n", 1)) {
        remove_files();
        fail("cannot write to standard output:", strerror(errno));
    }
    open_stream();
}
