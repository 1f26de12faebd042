// Unverified, like the whole filter. Reads LRAT text, whose hints may be in any order, too many or
// too few, and DRUP or DRAT text, which has no hints. A step is a line. Each form may have
// comments, empty lines, extra spaces, and a first line that begins with %.
#include "errors.h"
#include "readers.h"
#include "words.h"

static const char *name_of(Form form) { return form == LRAT ? "LRAT" : "DRUP or DRAT"; }

// All steps have the form of the first one.
static void check_form(Form *form, Form found) {
    if (*form != TEXT && *form != found)
        stop("a step of %s text, but those before were %s", name_of(found), name_of(*form));
    *form = found;
}

static void add(Filter *filter, const Words *words, const Line *line, bool named) {
    const int64_t *numbers = words->numbers.items;
    size_t length = words->numbers.length, end = words->first_zero;
    filter_add(filter, &(Addition){ .named = named,
                                    .name = named ? numbers[0] : 0,
                                    .literals = numbers + named,
                                    .length = end - named,
                                    .hints = numbers + end + 1,
                                    .hinted = named ? length - end - 2 : 0,
                                    .line = words->plain ? line : NULL });
}

static void step(Filter *filter, const Words *words, const Line *line, Form *form) {
    const int64_t *numbers = words->numbers.items;
    size_t length = words->numbers.length;
    int64_t second = length > 1 ? numbers[1] : 0;
    bool ends = numbers[length - 1] == 0,
         one = words->zeros - (numbers[0] == 0) == 1 && ends && length > 2;
    bool deletion = second == LETTER('d') && one, import = second == LETTER('i') && one;
    bool addition = !deletion && !import && words->zeros == 2 && ends && words->first_zero > 0;
    if (!deletion && !import && !addition && !(words->zeros == 1 && ends))
        stop("neither a step of LRAT text nor one of DRUP or DRAT text");
    check_form(form, deletion || import || addition ? LRAT : DRAT);
    if (words->strange) {
        bool letter = *form == DRAT && numbers[0] == LETTER('d');
        words_check(words, deletion ? 2 : letter, import ? 1 : length);
        words_check(words, import ? 2 : length, length);
    }
    if (deletion)
        filter_delete(filter, numbers + 2, length - 3);
    else if (import)
        filter_import(filter, numbers[0], numbers + 2, length - 3);
    else if (*form == DRAT && numbers[0] == LETTER('d'))
        filter_delete_literals(filter, numbers + 1, length - 2);
    else
        add(filter, words, line, addition);
}

void text_run(Filter *filter, Input *input, Form form) {
    Words words = { 0 };
    Line line;
    for (uint64_t number = 1;
         position_set("line", number), !filter_ends(filter) && input_line(input, &line); number++) {
        if (number == 1 && *line.start == '%') continue;  // PicoSAT's header
        words_read(&words, line);
        if (words.numbers.length == 0) continue;
        if (words.numbers.items[0] == LETTER('c') || words.numbers.items[0] == LETTER('o'))
            continue;
        if (words.garbled && !line_is_text(line))
            stop(filter->hooks ? "neither text nor a binary proof"
                               : "not text: use --format for a binary proof");
        words_check_whole(&words, line);
        step(filter, &words, &line, &form);
    }
    grow(words.numbers.items, 0);
}
