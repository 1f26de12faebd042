// Unverified, like every program that uses it. Fatal errors, and signals that end the program.
#define _POSIX_C_SOURCE 200809L
#include <signal.h>
#include <stdarg.h>
#include <stdio.h>
#include <stdlib.h>

#include "errors.h"

enum { LONGEST_TEXT = 1 << 14 };  // room for two paths

static const char *position_unit;
static uint64_t position_number, position_step;  // step 0: not in a step

static const char *name = "error";
static void (*before_error)(void), (*before_signal)(void);

static void say(const char *cause) {
    if (before_error) before_error();
    fprintf(stderr, "%s: %s\n", name, cause);
    exit(1);
}

static void (*told)(const char *cause) = say;

void errors_name(const char *program, void (*before)(void)) {
    name = program;
    before_error = before;
}

void errors_handle(void (*handler)(const char *cause)) { told = handler; }

static void end_by_signal(int number) {
    before_signal();
    signal(number, SIG_DFL);
    raise(number);
}

void signals_handle(void (*before)(void)) {
    static const int numbers[] = { SIGHUP, SIGINT, SIGTERM };
    before_signal = before;
    for (size_t k = 0; k < sizeof numbers / sizeof *numbers; k++)
        if (signal(numbers[k], end_by_signal) == SIG_IGN) signal(numbers[k], SIG_IGN);
}

void position_set(const char *unit, uint64_t number) {
    position_unit = unit;
    position_number = number;
    position_step = 0;
}

void position_set_step(uint64_t step, uint64_t byte) {
    position_set("byte", byte);
    position_step = step;
}

_Noreturn void stop(const char *cause, ...) {
    char text[LONGEST_TEXT];
    int length = 0;
    if (position_step)
        length = snprintf(text, sizeof text, "step %llu, ", (unsigned long long)position_step);
    if (position_unit)
        length += snprintf(text + length, sizeof text - (size_t)length, "%s %llu: ", position_unit,
                           (unsigned long long)position_number);
    va_list rest;
    va_start(rest, cause);
    vsnprintf(text + length, sizeof text - (size_t)length, cause, rest);
    va_end(rest);
    told(text);
    abort();
}

_Noreturn void fail(const char *cause, const char *object) {
    char text[LONGEST_TEXT];
    snprintf(text, sizeof text, "%s %s", cause, object);
    told(text);
    abort();
}

_Noreturn void fail_file(const char *path, const char *cause) {
    char where[LONGEST_TEXT];
    snprintf(where, sizeof where, "%s:", path);
    fail(where, cause);
}
