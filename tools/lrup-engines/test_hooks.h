// Unverified, like the whole solver. Everything that tests change in a run, in one table. In a
// build for tests (SOLVE_TESTS), the variable LRUP_SOLVE_HOOKS, which is read first, sets entries
// that aren't 0: 'slice=20;late_gifts=1;set=elimint=10 probeint=10'. In other builds the table is
// constant, so that the compiler removes all code for it. 0 means the usual behaviour.
#ifndef TEST_HOOKS_H
#define TEST_HOOKS_H

#include <stddef.h>
#include <stdint.h>

#define HOOKS(NUMBER)                                                                              \
    NUMBER(at_once)     /* all engines start with the first one */                                 \
    NUMBER(first_words) /* words of the first row; lrupd starts with the first line */             \
    NUMBER(same_words)  /* rows don't grow */                                                      \
    NUMBER(largest)     /* words of the largest row of one stream */                               \
    NUMBER(slice)       /* conflicts after which an engine takes over clauses */                   \
    NUMBER(outbox)      /* words of an outbox */                                                   \
    NUMBER(ahead)       /* how many bytes a filter may be ahead of lrupd before it waits */        \
    NUMBER(window)      /* additions in a window of a filter that shares its proof */              \
    NUMBER(proof_kept)  /* bytes of a proof that comes only once that are kept at most */          \
    NUMBER(tries)       /* of lrupd */                                                             \
    NUMBER(load)        /* the load of the last minute, in hundredths */                           \
    NUMBER(running)     /* processes that run, with this one */                                    \
    NUMBER(packed_from) /* bytes of the shortest stream that is packed */                          \
    NUMBER(exchanging)  /* milliseconds between exchanges of processes */                          \
    NUMBER(last_gift)   /* the gift of engine 1 at which its filter dies, unflushed */             \
    /* Leave out a rule that sharing depends on: */                                                \
    NUMBER(without_guard)    /* clauses over eliminated variables are taken over */                \
    NUMBER(without_order)    /* a clause is added before the line of its import */                 \
    NUMBER(without_floor)    /* what others may ask for is overwritten, and deleted */             \
    NUMBER(without_renewal)  /* gifts keep the identities of their round */                        \
    NUMBER(without_flush)    /* clauses are given away before their lines are in the stream */     \
    NUMBER(without_keeping)  /* filters delete what they gave away */                              \
    NUMBER(without_passing)  /* clauses of the next round are sent as those of this one */         \
    NUMBER(without_lateness) /* clauses of another round are placed */                             \
    NUMBER(without_clearing) /* clauses are sent before their lines */                             \
    /* Make messages of other processes late: */                                                   \
    NUMBER(late_gifts) /* a round's gifts come in the next round */                                \
    NUMBER(late_saved) /* the message that a round is saved, and all later ones of */              \
                       /* process 0, come after gifts that it collected once its */                \
                       /* outboxes had the identities of the next round */                         \
    NUMBER(late_lines) /* a stream's lines come once it is whole, in pieces */

typedef struct {
#define FIELD(name) uint64_t name;
    HOOKS(FIELD)
#undef FIELD
    const char *set;  // options of CaDiCaL, with spaces between them; or NULL
} TestHooks;

#ifdef __cplusplus
extern "C" {
#endif

#ifdef SOLVE_TESTS
extern TestHooks test_hooks;
void test_hooks_read(void);  // test_hooks.c
#else
#define ZERO(name) 0,
static const TestHooks test_hooks = { HOOKS(ZERO) NULL };
#undef ZERO
static inline void test_hooks_read(void) {}
#endif

#ifdef __cplusplus
}
#endif

static inline uint64_t hooked(uint64_t hook, uint64_t usual) { return hook ? hook : usual; }

#endif
