// Unverified: reads the words of a command line, using a table of options. lrup-solve's front reads
// them by itself, since it is trusted.
#ifndef OPTIONS_H
#define OPTIONS_H

#include <stdbool.h>

#include "errors.h"
#include "lists.h"

#ifdef __cplusplus
extern "C" {
#endif

typedef LIST_OF(const char *) Texts;

// An option without a flag, value or values, such as --help, ends the reading.
typedef struct {
    const char *name;    // without --; NULL if it has only a letter: such options come last
    char letter;         // 0: none
    bool *flag;          // becomes true
    const char **value;  // becomes the value
    Texts *values;       // gets each value of an option that may be given several times
} Option;

// Puts the words that aren't options, and those after --, into `files`. Returns the name of an
// option that ended the reading, or NULL. `refusing` must not return. A value that begins with --
// has to be in the option's word, after =, so that no option is taken for a value.
const char *options_read(const Option *options, int count, char **words, Texts *files,
                         bool last_counts, void (*refusing)(const char *cause, const char *word));

// Occupies descriptors 0 to 2, so that no file or pipe opened later is mistaken for a closed
// standard stream. Each program calls this before it opens anything.
void hold_first_files(void);

// Like `options_read`, for a program that has the two options below; calls `hold_first_files`.
// Refuses an option whose value is given twice, and the word -, which doesn't mean standard input
// here.
#define HELP_AND_VERSION                                                                           \
    { .name = "help", .letter = 'h' }, { .name = "version" }, { .name = NULL }
const Texts *arguments_read(const char *program, const char *help, const Option *options, int count,
                            char **words);
_Noreturn void refuse(const char *cause, const char *word);  // prints the usage; status 2

#ifdef __cplusplus
}
#endif

#endif
