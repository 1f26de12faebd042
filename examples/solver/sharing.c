// Unverified, like the whole solver. What one solver gives to the others: a lock-free list with one
// writer and many readers.
#include <string.h>

#include "solver.h"

Gift *gift_of(uint64_t identity, unsigned lbd, const Literal *literals, size_t length) {
    Gift *gift = grow(NULL, sizeof *gift + length * sizeof *literals);
    gift->identity = identity;
    gift->lbd = lbd;
    gift->length = (unsigned)length;
    memcpy(gift->literals, literals, length * sizeof *literals);
    return gift;
}

void outbox_open(Outbox *outbox) {
    outbox->first = outbox->last = zeroed(1, sizeof *outbox->first);
}

// The count is stored last: a reader that sees it also sees the gift, and its page.
void outbox_give(Outbox *outbox, Gift *gift) {
    size_t given = atomic_load_explicit(&outbox->given, memory_order_relaxed);
    if (given > 0 && given % GIFTS_OF_A_PAGE == 0) {
        outbox->last->next = zeroed(1, sizeof *outbox->last);
        outbox->last = outbox->last->next;
    }
    outbox->last->gifts[given % GIFTS_OF_A_PAGE] = gift;
    atomic_store_explicit(&outbox->given, given + 1, memory_order_release);
}

const Gift *inbox_take(Inbox *inbox, Outbox *outbox) {
    if (inbox->taken == atomic_load_explicit(&outbox->given, memory_order_acquire)) return NULL;
    if (inbox->taken == 0)
        inbox->page = outbox->first;
    else if (inbox->taken % GIFTS_OF_A_PAGE == 0)
        inbox->page = inbox->page->next;
    return inbox->page->gifts[inbox->taken++ % GIFTS_OF_A_PAGE];
}
