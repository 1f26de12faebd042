// Unverified, like the whole filter. Reads FRAT text. Clauses get new identities in the stream,
// since FRAT numbers them in its own way.
//
//     o id literals 0                 a clause of the formula
//     a id literals 0 [l hints 0]     an addition
//     d id literals 0                 a deletion
//     f id literals 0                 a clause that is left at the end
//     r id id .. 0                    new identities for old ones
#include "errors.h"
#include "readers.h"
#include "words.h"

// The index after the list that begins at `start` and ends with 0.
static size_t end_of(const Words *words, size_t start) {
    size_t end = start;
    while (end < words->numbers.length && words->numbers.items[end] != 0) end++;
    if (end >= words->numbers.length) stop("not a step of FRAT text: a list doesn't end with 0");
    words_check(words, start, end);
    return end + 1;
}

static void add(Filter *filter, const Words *words, size_t end) {
    const int64_t *numbers = words->numbers.items;
    size_t length = words->numbers.length;
    Addition addition = {
        .named = true, .name = numbers[1], .literals = numbers + 2, .length = end - 3
    };
    if (end < length) {
        if (numbers[end] != LETTER('l') || end_of(words, end + 1) != length)
            stop("not a step of FRAT text");
        addition.hints = numbers + end + 1;
        addition.hinted = length - end - 2;
    }
    filter_add(filter, &addition);
}

static void step(Filter *filter, const Words *words) {
    const int64_t *numbers = words->numbers.items;
    size_t length = words->numbers.length;
    char letter = numbers[0] > LETTER('a') - 1 && numbers[0] <= LETTER('z')
                      ? (char)(numbers[0] - INT64_MIN)
                      : ' ';
    if (letter != 'o' && letter != 'a' && letter != 'd' && letter != 'f' && letter != 'r')
        stop("not a step of FRAT text");
    if (letter == 'r') {
        if (end_of(words, 1) != length || length % 2 != 0) stop("not a step of FRAT text");
        filter_rename(filter, numbers + 1, length - 2);
        return;
    }
    words_check(words, 1, length > 1 ? 2 : 1);
    size_t end = end_of(words, 2);
    if (letter == 'a')
        add(filter, words, end);
    else if (end != length)
        stop("not a step of FRAT text");
    else if (letter == 'o')
        filter_original(filter, numbers[1], numbers + 2, length - 3);
    else if (letter == 'd')
        filter_delete(filter, numbers + 1, 1);
}

void frat_run(Filter *filter, Input *input) {
    Words words = { 0 };
    Line line;
    for (uint64_t number = 1;
         position_set("line", number), !filter_ends(filter) && input_line(input, &line); number++) {
        words_read(&words, line);
        if (words.numbers.length == 0 || words.numbers.items[0] == LETTER('c')) continue;
        words_check_whole(&words, line);
        step(filter, &words);
    }
    grow(words.numbers.items, 0);
}
