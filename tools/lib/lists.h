// Unverified: growing lists, and memory.
#ifndef LISTS_H
#define LISTS_H

#include <stddef.h>
#include <stdint.h>

#ifdef __cplusplus
extern "C" {
#endif

#define LIST_OF(Item)                                                                              \
    struct {                                                                                       \
        Item *items;                                                                               \
        size_t length, capacity;                                                                   \
    }

typedef LIST_OF(uint64_t) Identities;
typedef LIST_OF(int64_t) Numbers;

#define PUSH(list, item)                                                                           \
    do {                                                                                           \
        if ((list)->length == (list)->capacity) {                                                  \
            (list)->capacity = (list)->capacity ? 2 * (list)->capacity : 8;                        \
            (list)->items = grow((list)->items, (list)->capacity * sizeof *(list)->items);         \
        }                                                                                          \
        (list)->items[(list)->length++] = (item);                                                  \
    } while (0)

// Makes room for `count` items in all.
#define RESERVE(list, count)                                                                       \
    do {                                                                                           \
        if ((list)->capacity < (count)) {                                                          \
            (list)->capacity = 2 * (count);                                                        \
            (list)->items = grow((list)->items, (list)->capacity * sizeof *(list)->items);         \
        }                                                                                          \
    } while (0)

void *grow(void *memory, size_t bytes);    // realloc, or the program ends; 0 bytes: free
void *zeroed(size_t count, size_t bytes);  // calloc, or the program ends
void identities_reverse(Identities *list);

#ifdef __cplusplus
}
#endif

#endif
