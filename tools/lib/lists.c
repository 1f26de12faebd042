// Unverified, like every program that uses it. Memory, and growing lists.
#include <stdlib.h>

#include "errors.h"
#include "lists.h"

void *grow(void *memory, size_t bytes) {
    if (bytes == 0) {
        free(memory);
        return NULL;
    }
    memory = realloc(memory, bytes);
    if (memory == NULL) fail("out of", "memory");
    return memory;
}

void *zeroed(size_t count, size_t bytes) {
    void *memory = calloc(count > 0 ? count : 1, bytes);
    if (memory == NULL) fail("out of", "memory");
    return memory;
}

void identities_reverse(Identities *list) {
    for (size_t low = 0, high = list->length; low + 1 < high; low++) {
        uint64_t identity = list->items[low];
        list->items[low] = list->items[--high];
        list->items[high] = identity;
    }
}
