// Unverified: functions that read a proof to its end, or to the end of the stream.
#ifndef READERS_H
#define READERS_H

#include "filter.h"
#include "form.h"
#include "input.h"

void text_run(Filter *filter, Input *input, Form form);    // text.c: LRAT, DRUP and DRAT
void frat_run(Filter *filter, Input *input);               // frat.c
void binary_run(Filter *filter, Input *input, Form form);  // binary.c

static inline void proof_run(Filter *filter, Input *input, Form form) {
    if (form == FRAT)
        frat_run(filter, input);
    else if (form >= BINARY_LRAT)
        binary_run(filter, input, form);
    else
        text_run(filter, input, form);
}

#endif
