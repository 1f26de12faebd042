// Unverified: the forms of a proof.
#ifndef FORM_H
#define FORM_H

// Engines of lrup-solve write the last form; no option names it.
typedef enum { UNKNOWN_FORM, TEXT, LRAT, DRAT, FRAT, BINARY_LRAT, BINARY_DRAT, ENGINE_PROOF } Form;

#endif
