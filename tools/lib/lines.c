// Unverified and untrusted. Mapped files, the lines of streams, and the names of a record's files.
// Other processes may write to a mapped file, so a line is copied, and the copy is read.
#define _GNU_SOURCE
#include <errno.h>
#include <fcntl.h>
#include <signal.h>
#include <stdio.h>
#include <stdlib.h>
#include <string.h>
#include <sys/mman.h>
#include <sys/stat.h>
#include <unistd.h>

#include <sha256.h>

#include "errors.h"
#include "packed.h"
#include "packers.h"
#include "line_limits.h"
#include "words.h"
#include "lines.h"

enum { BEYOND = 8 };  // bytes that words.c reads after a line
enum { LONGEST_PATH = 4096 };

static Words words;
static struct {
    unsigned char *items;
    size_t capacity;
} copy;  // of the last line

// /dev/null takes the place of a stream that is left out.
static bool is_null(const struct stat *found) {
    struct stat null;
    return S_ISCHR(found->st_mode) && stat("/dev/null", &null) == 0 &&
           found->st_rdev == null.st_rdev;
}

static int file_open(const char *path, size_t *length) {
    struct stat found;
    int file = open(path, O_RDONLY | O_NONBLOCK | O_CLOEXEC);
    if (file < 0 || fstat(file, &found) != 0) stop("%s: %s", path, strerror(errno));
    if (!S_ISREG(found.st_mode) && !is_null(&found))
        stop("%s: has to be a regular file, since it is read more than once", path);
    *length = (size_t)found.st_size;
    return file;
}

void file_check(const char *path) {
    size_t length;
    close(file_open(path, &length));
}

static int file_without_name(void) {
    char name[LONGEST_PATH];
    const char *folder = getenv("TMPDIR");
    int length = snprintf(name, sizeof name, "%s/lrup-XXXXXX", folder && *folder ? folder : "/tmp");
    int file = length < LONGEST_PATH ? mkostemp(name, O_CLOEXEC) : -1;
    if (file < 0)
        stop("cannot create a file in %s: %s", folder && *folder ? folder : "/tmp",
             strerror(errno));
    unlink(name);
    return file;
}

// Unpacks the file into a temporary one.
static int unpacked(int packed, const char *path) {
    int file = file_without_name();
    Unpacking unpacking;
    unpacking_start(&unpacking, path, packed, file);
    unpacking_end(&unpacking, path);
    return file;
}

static const char *reader;
static void (*remove_outputs)(void);

// SIGBUS: bytes were read that the file doesn't have any more. A handler of signals may call only a
// few functions of the library.
static void file_was_cut(int number) {
    static const char cause[] = ": a file was truncated while it was read\n";
    (void)number;
    if (remove_outputs) remove_outputs();
    bool is_told = write(STDERR_FILENO, reader, strlen(reader)) >= 0;
    if (is_told && write(STDERR_FILENO, cause, sizeof cause - 1) < 0) _exit(1);
    _exit(1);
}

void files_watch(const char *program, void (*removes)(void)) {
    reader = program;
    remove_outputs = removes;
    signal(SIGBUS, file_was_cut);
}

// Maps the file over zeros, which then follow its bytes; so an empty file has memory, too.
unsigned char *file_map(const char *path, size_t *length) {
    int file = file_open(path, length);
    if (packer_of(path)) {
        struct stat found;
        file = unpacked(file, path);
        if (fstat(file, &found) != 0) stop("%s: %s", path, strerror(errno));
        *length = (size_t)found.st_size;
    }
    unsigned char *start =
        mmap(NULL, *length + BEYOND, PROT_READ, MAP_PRIVATE | MAP_ANONYMOUS, -1, 0);
    if (start != MAP_FAILED && *length > 0)
        start = mmap(start, *length, PROT_READ, MAP_PRIVATE | MAP_FIXED, file, 0);
    if (start == MAP_FAILED) stop("cannot map %s: %s", path, strerror(errno));
    close(file);
    return start;
}

void file_unmap(unsigned char *start, size_t length) { munmap(start, length + BEYOND); }

const int64_t *numbers_read(const char *path, size_t *count) {
    size_t length;
    unsigned char *start = file_map(path, &length);
    if (length == 0 || length > LONGEST_STEP) return NULL;
    if (memchr(start, '\n', length) != start + length - 1) return NULL;
    words_read(&words, line_copy((Line){ start, start + length - 1, true }));
    *count = words.numbers.length;
    return words.plain ? words.numbers.items : NULL;
}

// Lines.

// A line of LONGEST_STEP bytes is wrong in any case, so a longer one may be cut.
Line line_copy(Line line) {
    size_t length = (size_t)(line.end - line.start);
    if (length > LONGEST_STEP) length = LONGEST_STEP;
    RESERVE(&copy, length + 1 + BEYOND);
    memcpy(copy.items, line.start, length);
    memset(copy.items + length, 0, 1 + BEYOND);
    copy.items[length] = '\n';
    return (Line){ copy.items, copy.items + length, true };
}

static bool is_positive(const int64_t *numbers, size_t count) {
    int64_t signs = 0;
#pragma GCC unroll 8
    for (size_t k = 0; k < count; k++) signs |= numbers[k];
    return signs >= 0;
}

// Finds the letter of a deletion or an import, which follows a number; or returns NULL.
static unsigned char *mark_of(unsigned char *at, uint64_t *lead) {
    unsigned char *start = at;
    uint64_t value = 0;
    for (; *at >= '0' && *at <= '9' && at - start <= DIGITS; at++)
        value = 10 * value + (uint64_t)(*at - '0');
    *lead = value;
    bool is_number = at > start && *start != '0' && at - start <= DIGITS;
    return is_number && at[0] == ' ' && (at[1] == 'd' || at[1] == 'i') && at[2] == ' ' ? at + 1
                                                                                       : NULL;
}

const char *line_read(Line line, Reading *reading) {
    line = line_copy(line);
    reading->text = (const char *)line.start;
    unsigned char *mark = mark_of(line.start, &reading->identity);
    reading->kind = mark ? (char)*mark : 'a';
    if (mark) line.start = mark + 2;
    words_read(&words, line);
    const int64_t *numbers = words.numbers.items;
    size_t length = words.numbers.length;
    if (!words.plain || numbers[length - 1] != 0 || words.zeros != (mark ? 1 : 2))
        return "spelling";
    if (!mark && numbers[0] <= 0) return "spelling";
    if (!mark) reading->identity = (uint64_t)numbers[0];
    reading->hints = (const char *)words.zero + 2;
    reading->literals = numbers + !mark;
    reading->length = reading->kind == 'd' ? 0 : words.first_zero - !mark;
    reading->cited = mark ? numbers : reading->literals + reading->length + 1;
    reading->count = reading->kind == 'i' ? 0 : (size_t)(numbers + length - 1 - reading->cited);
    if (!is_positive(reading->cited, reading->count)) return mark ? "spelling" : "rat hint";
    return reading->length > LITERALS_OF_A_LINE || reading->count > IDENTITIES_OF_A_LINE
               ? "too long"
               : NULL;
}

const int64_t *line_hints(Line line, size_t *count) {
    words_read(&words, line_copy(line));
    const int64_t *numbers = words.numbers.items;
    *count = words.numbers.length - 1;
    return words.plain && numbers[*count] == 0 ? numbers : NULL;
}

void lines_free(void) {
    words.numbers = (Numbers){ .items = grow(words.numbers.items, 0) };
    copy.items = grow(copy.items, copy.capacity = 0);
}

// A record.

static bool is_folder(const char *path) {
    struct stat found;
    return stat(path, &found) == 0 && S_ISDIR(found.st_mode);
}

static bool is_there(const char *path) { return access(path, F_OK) == 0; }

// A record of lrup-exact has no list of files.
static void check_record(const char *folder) {
    char list[LONGEST_PATH];
    bool is_short = snprintf(list, sizeof list, "%s/files", folder) < LONGEST_PATH;
    if (is_short && !is_there(record_file(folder, 1, "stream-", 1)) && !is_there(list))
        stop("%s has no record: lrup-solve --proofs makes one", folder);
}

const char *folder_of(const Texts *files) {
    if (files->length < 1) refuse("no", "FORMULA");
    if (files->length < 2) refuse("no", "DIR or STREAM");
    if (files->length > 1 + STREAMS)
        refuse("more than 64 streams, from", files->items[1 + STREAMS]);
    for (size_t k = 1; k < files->length && files->length > 2; k++)
        if (is_folder(files->items[k]))
            stop("%s: a folder has to be the only input", files->items[k]);
    if (!is_folder(files->items[1])) return NULL;
    check_record(files->items[1]);
    return files->items[1];
}

// Streams have a number, and may be compressed.
const char *record_file(const char *folder, size_t round, const char *kind, uint32_t number) {
    static char path[LONGEST_PATH];
    const int most = LONGEST_PATH - LONGEST_ENDING;
    int length = snprintf(path, LONGEST_PATH, "%s/round-%zu.%s", folder, round, kind);
    if (number > 0 && length < most)
        length += snprintf(path + length, (size_t)(LONGEST_PATH - length), "%u", number);
    if (length >= most) stop("%s: name too long", folder);
    for (size_t k = 0; k < PACKED_FORMS && number > 0 && !is_there(path); k++) {
        strcpy(path + length, PACKED[k].ending);
        if (is_there(path)) return path;
        path[length] = 0;
    }
    return path;
}

// The kept digest is as sha256sum writes it, with \ before the line if the file's name is unusual.
void record_check(const char *folder, const char *formula) {
    char path[LONGEST_PATH], found[SHA256_DIGEST_STRING_LENGTH], kept[sizeof found + 1] = "";
    size_t length = (size_t)snprintf(path, sizeof path, "%s/formula.sha256", folder);
    if (length >= sizeof path || !is_there(path)) return;
    int file = file_open(path, &length);
    if (read(file, kept, sizeof kept - 1) < 0) stop("%s: %s", path, strerror(errno));
    close(file);
    unsigned char *start = file_map(formula, &length);
    SHA256_Data(start, length, found);
    file_unmap(start, length);
    if (strncmp(kept + (kept[0] == '\\'), found, sizeof found - 1) != 0)
        stop("%s isn't the formula of %s, or was changed since: its digest isn't the one in %s",
             formula, folder, path);
}

// Counts the streams' files in round 1; a later round has as many streams as its file of sizes
// says, or, without that file, as the round before. In round 1 the sizes are read only if `row`
// isn't NULL. Without a file of sizes the row stays as it is.
uint32_t record_streams(const char *folder, size_t round, uint32_t before, Row *row) {
    const char *first = record_file(folder, round, "stream-", 1);
    if (round == 1 && !is_there(first)) stop("%s: No such file or directory", first);
    if (!is_there(first)) return 0;
    uint32_t count = round == 1 ? 1 : before;
    while (round == 1 && count < STREAMS &&
           is_there(record_file(folder, round, "stream-", count + 1)))
        count++;
    const char *path = record_file(folder, round, "sizes", 0);
    if ((round == 1 && !row) || !is_there(path)) return count;
    size_t length;
    const int64_t *sizes = numbers_read(path, &length);
    bool are_sizes = sizes && length == 3 && sizes[0] >= 1 && sizes[0] <= STREAMS;
    for (size_t k = 1; k < 3 && are_sizes; k++)
        are_sizes = sizes[k] >= 0 && sizes[k] <= (int64_t)MOST_WORDS;
    if (!are_sizes) stop("%s: not STREAMS LINES ROOM", path);
    if (row) *row = (Row){ (uint64_t)sizes[1], (uint64_t)sizes[2] };
    return round == 1 ? count : (uint32_t)sizes[0];
}
