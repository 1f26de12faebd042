// Unverified, like every program that uses it. Reads a command line.
#include <fcntl.h>
#include <getopt.h>
#include <stdio.h>
#include <stdlib.h>
#include <string.h>
#include <unistd.h>

#include "options.h"

#ifndef VERSION
#define VERSION "unknown"  // make passes the version
#endif

enum { MOST_OPTIONS = 64, NAMED = 256 };  // NAMED + an option's index: the code of its name

// NULL if there is no such option; a name can't be abbreviated.
static const Option *option_of(const Option *options, int code, const char *word) {
    if (code == '?') return NULL;
    if (code >= NAMED)
        options += code - NAMED;
    else
        while (options->letter != code) options++;
    return code < NAMED || strlen(options->name) == strcspn(word + 2, "=") ? options : NULL;
}

const char *options_read(const Option *options, int count, char **words, Texts *files,
                         bool last_counts, void (*refusing)(const char *cause, const char *word)) {
    struct option list[MOST_OPTIONS] = { { 0 } };
    char letters[2 * MOST_OPTIONS + 3] = "-:", *end = letters + 2;
    int code;
    for (int k = 0; options[k].name || options[k].letter; k++) {
        bool has_value = options[k].value || options[k].values;
        list[k] = (struct option){ options[k].name, has_value, NULL, NAMED + k };
        if (options[k].letter) end += sprintf(end, has_value ? "%c:" : "%c", options[k].letter);
    }
    opterr = 0;
    for (int at = optind; (code = getopt_long(count, words, letters, list, NULL)) != -1;
         at = optind) {
        bool is_next = optarg && optarg == words[at + 1];
        if (code == ':' || (is_next && strncmp(optarg, "--", 2) == 0))
            refusing("no value after", words[at]);
        if (code == 1) PUSH(files, optarg);
        if (code == ':' || code == 1) continue;
        const Option *option = option_of(options, code, words[at]);
        if (!option)
            refusing("no such option:", words[at]);
        else if (option->flag)
            *option->flag = true;
        else if (option->values)
            PUSH(option->values, optarg);
        else if (!option->value)
            return option->name;
        else if (*option->value && !last_counts)
            refusing("given twice:", words[at]);
        else
            *option->value = optarg;
    }
    while (optind < count) PUSH(files, words[optind++]);
    return NULL;
}

void hold_first_files(void) {
    for (int file = 0; file <= 2; file++)
        if (fcntl(file, F_GETFD) < 0 && open("/dev/null", O_RDONLY) != file) _exit(1);
}

static const char *program_name, *program_help;

// The help begins with a paragraph on usage.
_Noreturn void refuse(const char *cause, const char *word) {
    const char *end = strstr(program_help, "\n\n");
    fprintf(stderr, "%.*s%s: error: %s %s\n", (int)(end - program_help) + 1, program_help,
            program_name, cause, word);
    exit(2);
}

const Texts *arguments_read(const char *program, const char *help, const Option *options, int count,
                            char **words) {
    static Texts files;
    hold_first_files();
    program_name = program;
    program_help = help;
    const char *shown = options_read(options, count, words, &files, false, refuse);
    if (shown) {
        if (strcmp(shown, "help") == 0)
            fputs(help, stdout);
        else
            printf("%s " VERSION "\n", program);
        exit(fflush(stdout) == 0 && !ferror(stdout) ? 0 : 1);
    }
    for (size_t k = 0; k < files.length; k++)
        if (strcmp(files.items[k], "-") == 0) refuse("no such option:", "-");
    return &files;
}
