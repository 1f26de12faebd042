// Unverified: detects the form of a proof from its first bytes.
#ifndef DETECT_H
#define DETECT_H

#include "form.h"
#include "formula.h"
#include "input.h"

void check_plain(Input *input);  // stops if the input is compressed
Form form_of(Input *input, const Formula *formula);

#endif
