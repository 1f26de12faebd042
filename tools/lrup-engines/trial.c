// Unverified, like the whole solver. In a process of its own: tools/filter tries whether a step of a
// proof would follow if no clause had been deleted before it.
#include <unistd.h>

#include "detect.h"
#include "errors.h"
#include "filter.h"
#include "readers.h"
#include "shared.h"
#include "write.h"

static Filter filter;
static Input input;
static uint64_t tried;  // the step, counted from 1

static bool should_stop(void) { return filter.refuted || filter.steps >= tried; }

static void pass(const Filter *one) { (void)one; }

static void drop(const char *bytes, size_t length) {
    (void)bytes;
    (void)length;
}

static void end(const char *cause) {
    (void)cause;
    _exit(filter.steps == tried ? STILL_NO_STEP : ANOTHER_STOP);
}

void trial_process(const void *formula, const char *path, uint64_t step) {
    static const Hooks hooks = { .should_stop = should_stop,
                                 .before_line = pass,
                                 .after_line = pass };
    tried = step;
    errors_handle(end);
    write_to(drop);
    input_open(&input, path);
    filter.formula = *(const Formula *)formula;
    filter.stream = filter.streams = 1;
    filter.ignores_deletions = filter.keeps_clauses = true;
    filter.hooks = &hooks;
    Form form = form_of(&input, &filter.formula);
    if (form == UNKNOWN_FORM) form = BINARY_DRAT;
    filter_open(&filter, form == FRAT);
    proof_run(&filter, &input, form);
    _exit(should_stop() ? FOLLOWS : ANOTHER_STOP);
}
