// Unverified and untrusted: lrupd checks the output like any other stream. lrup-exact makes a
// stream for lrupd from a proof whose hints are missing or not exact. man/lrup-exact.1 describes
// it, and is also the source of its --help.
#include <errno.h>
#include <signal.h>
#include <string.h>
#include <unistd.h>

#include "chain.h"
#include "detect.h"
#include "errors.h"
#include "filter.h"
#include "options.h"
#include "readers.h"
#include "row.h"
#include "write.h"

// The command line.

static const char help[] =
#include "lrup-exact.help.h"
    ;

static Filter filter;
static struct {
    const char *stream, *streams, *format, *rounds, *memory;
    Texts others;
} given;
static const Option options[] = { { .name = "stream", .value = &given.stream },
                                  { .name = "streams", .value = &given.streams },
                                  { .name = "other", .values = &given.others },
                                  { .name = "format", .value = &given.format },
                                  { .name = "ignore-deletions", .flag = &filter.ignores_deletions },
                                  { .name = "rounds", .value = &given.rounds },
                                  { .name = "memory", .value = &given.memory },
                                  HELP_AND_VERSION };

static Form form_named(const char *word) {
    static const char *const names[] = { [LRAT] = "lrat",
                                         [DRAT] = "drat",
                                         [FRAT] = "frat",
                                         [BINARY_LRAT] = "binary-lrat",
                                         [BINARY_DRAT] = "binary-drat" };
    for (Form form = LRAT; word && form <= BINARY_DRAT; form++)
        if (strcmp(word, names[form]) == 0) return form;
    if (word) refuse("unknown form:", word);
    return UNKNOWN_FORM;
}

// What follows the number, which has at most nine digits; NULL if there is no number.
static const char *after_number(const char *word, uint64_t *number) {
    const char *at = word;
    *number = 0;
    while (*at >= '0' && *at <= '9' && at - word < 9)
        *number = 10 * *number + (uint64_t)(*at++ - '0');
    return at == word ? NULL : at;
}

static uint64_t number_of(const char *word) {
    uint64_t number = 1;
    const char *rest = word ? after_number(word, &number) : "";
    if (!rest || *rest != 0) refuse("not a stream's number:", word);
    return number;
}

// Reads T=STREAM, the number and the path of another stream.
static const char *path_of(const char *word, uint64_t *number) {
    const char *rest = after_number(word, number);
    if (!rest || rest[0] != '=' || rest[1] == 0) refuse("not T=STREAM:", word);
    return rest + 1;
}

static uint64_t memory_of(const char *word) {
    uint64_t bytes = word ? memory_read(word) : 0;
    if (word && bytes == 0) refuse("not a size like 500000000, 500M or 2G:", word);
    if (bytes > MOST_MEMORY) refuse("more than 2147483648 bytes:", word);
    return bytes;
}

static void check(const Texts *files) {
    uint64_t number;
    if (files->length == 0) refuse("no", "FORMULA");
    if (files->length > 2) refuse("unexpected argument:", files->items[2]);
    if (given.memory && !given.rounds) refuse("--memory without", "--rounds");
    if (given.rounds && given.rounds[0] == 0) refuse("no folder after", "--rounds");
    if (given.rounds && given.others.length > 0)
        refuse("--rounds takes one stream, and no", "--other");
    if (given.rounds && (filter.stream != 1 || filter.streams != 1))
        refuse("--rounds takes", "one stream");
    if (filter.stream < 1 || filter.stream > filter.streams)
        refuse("--stream takes 1 to the number of", "--streams");
    for (size_t k = 0; k < given.others.length; k++) path_of(given.others.items[k], &number);
}

static void open_others(void) {
    uint64_t number;
    for (size_t k = 0; k < given.others.length; k++) {
        const char *path = path_of(given.others.items[k], &number);
        others_open(&filter.others, number, path, filter.formula.variables);
    }
}

static void run(Input *input, Form form) {
    if (form == UNKNOWN_FORM)
        form = form_of(input, &filter.formula);
    else
        check_plain(input);
    if (form == UNKNOWN_FORM) {
        position_set("byte", 1);
        stop("the first bytes don't show the form: use --format "
             "lrat|drat|frat|binary-lrat|binary-drat");
    }
    filter_open(&filter, form == FRAT);
    proof_run(&filter, input, form);
    write_flush();
}

int main(int count, char **words) {
    static Input input;
    errors_name("lrup-exact", write_flush);
    const Texts *files = arguments_read("lrup-exact", help, options, count, words);
    filter.stream = number_of(given.stream);
    filter.streams = number_of(given.streams);
    Form form = form_named(given.format);
    uint64_t memory = memory_of(given.memory);
    check(files);
    signal(SIGPIPE, SIG_IGN);  // a write fails instead once the reader has closed its end
    if (given.rounds) chain_open(given.rounds);
    input_open(&input, files->length > 1 ? files->items[1] : NULL);
    formula_read(&filter.formula, files->items[0]);
    open_others();
    if (given.rounds) chain_begin(&filter, memory);
    run(&input, form);
    if (given.rounds) chain_end();
    if (close(STDOUT_FILENO) != 0) fail("cannot write the stream:", strerror(errno));
    return 0;
}
