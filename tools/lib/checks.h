// Unverified: invariants, checked only in builds for tests (-DCHECKED): by `assert`, or, if the
// check goes through a whole structure, by a function that CHECK calls.
#ifndef CHECKS_H
#define CHECKS_H

#undef NDEBUG
#ifdef CHECKED
#define CHECK(call) call
#else
#define CHECK(call) ((void)0)
#define NDEBUG
#endif
#include <assert.h>

#endif
