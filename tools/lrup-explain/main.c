// Unverified and untrusted: only lrupd's verdict counts. lrup-explain replays the streams of a run,
// or of a record of rounds, and says why a line is bad, and what would be right.
// man/lrup-explain.1 describes it, and is also the source of its --help.
#include <stdio.h>

#include "explain.h"

static void flush(void) { fflush(stdout); }

// The command line.

static const char help[] =
#include "lrup-explain.help.h"
    ;

static Replay replay;
static struct { const char *lines, *room, *tries; } given;
static const Option options[] = {
    { .name = "lines", .value = &given.lines }, { .name = "room", .value = &given.room },
    { .name = "tries", .value = &given.tries }, { .name = "serial", .flag = &replay.serial },
    { .name = "all", .flag = &replay.all },     HELP_AND_VERSION
};

static uint64_t number(const char *word, uint64_t usual, uint64_t most) {
    uint64_t found = 0;
    if (word == NULL) return usual;
    for (const char *at = word; *at; at++) {
        if (*at < '0' || *at > '9') refuse("not a number:", word);
        found = 10 * found + (uint64_t)(*at - '0');
        if (found > most) refuse("too large:", word);
    }
    if (*word == 0) refuse("no", "number");
    return found;
}

enum { USUAL_LINES = 65536, USUAL_ROOM = 1048576, MOST_TRIES = 1000000, BAD = 3 };

int main(int count, char **words) {
    errors_name("lrup-explain", flush);
    files_watch("lrup-explain", NULL);
    const Texts *files = arguments_read("lrup-explain", help, options, count, words);
    replay.row = (Row){ number(given.lines, USUAL_LINES, MOST_WORDS),
                        number(given.room, USUAL_ROOM, MOST_WORDS) };
    number(given.tries, 0, MOST_TRIES);
    const char *folder = folder_of(files);
    replay_all(&replay, files->items[0], folder, files->items + 1, (uint32_t)files->length - 1);
    if (!replay.faulty)
        printf("no line is bad\n"
               "  if lrupd found one: missing and retired may depend on time%s\n",
               folder ? "" : "; were --lines and --room the same?");
    if (fflush(stdout) != 0) stop("cannot write to standard output");
    return replay.faulty ? BAD : 0;
}
