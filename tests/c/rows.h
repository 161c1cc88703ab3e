/* What programs of rows have in common: a row that does not hold is printed, and ends its program with 1. */
#include "bac.h"

#include <stdio.h>
#include <string.h>

#ifdef __cplusplus
extern "C" {
#endif
extern unsigned long heap_count, heap_refused;
#ifdef __cplusplus
}
#endif

static unsigned long refusals;

/* a call, made again where memory was refused */
#define CALL(want, call) \
    do { \
        bac_status got_ = (call); \
        if (got_ == BAC_NO_MEMORY && (want) != BAC_NO_MEMORY) { \
            refusals++; \
            got_ = (call); \
        } \
        if (got_ != (bac_status)(want)) { \
            printf("line %d: %s, not %s\n", __LINE__, bac_text(got_), bac_text(want)); \
            return 1; \
        } \
    } while (0)

#define HOLDS(fact) \
    do { \
        if (!(fact)) { \
            printf("line %d: not so: %s\n", __LINE__, #fact); \
            return 1; \
        } \
    } while (0)

/* rows that are run once, and then with each of their allocations refused in turn: the call that met it answers BAC_NO_MEMORY, does it when it is called again,
 * and all that follows is the same */
static int refuse_each(int (*run)(void))
{
    heap_count = 0;
    if (run()) { return 1; }
    unsigned long all = heap_count;
    for (heap_refused = 1; heap_refused <= all; heap_refused++) {
        unsigned long before = refusals;
        heap_count = 0;
        if (run() || refusals != before + 1) {
            printf("with allocation %lu of %lu refused\n", heap_refused, all);
            return 1;
        }
    }
    printf("each of %lu allocations refused in turn: %lu calls said so, and did it when called again\n", all, refusals);
    return 0;
}
