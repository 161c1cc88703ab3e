/* The heap that the library asks of the program: three functions over malloc. The installed archive has them (include/Makefile) as weak symbols, so a program
 * that defines the three itself uses its own.
 *
 * A heap of your own: a block begins at a multiple of align (a power of two, at most 16, as malloc's do) and has at least size octets; where it refuses to make
 * a block longer, the old block stays. The library sees ok = false as a refusal, and answers BAC_NO_MEMORY. With -DHEAP_REFUSES the allocation of number
 * heap_refused (from 1) is refused, for tests. */
#include <stdbool.h>
#include <stddef.h>
#include <stdlib.h>

typedef struct {
    bool ok;
    void *at; /* not null, also where ok is false */
} heap_block;

#ifdef HEAP_REFUSES
unsigned long heap_count, heap_refused;
#define REFUSED (++heap_count == heap_refused)
#else
#define REFUSED 0
#endif

static heap_block block(void *at)
{
    static char none;
    heap_block answer = { at != NULL, at != NULL ? at : &none };
    return answer;
}

#if defined(__GNUC__) && !defined(HEAP_REFUSES)
#define WEAK __attribute__((weak))
#else
#define WEAK
#endif

WEAK heap_block rattle_alloc(size_t size, size_t align);
WEAK heap_block rattle_realloc(void *at, size_t kept, size_t size, size_t align);
WEAK void rattle_dealloc(void *at);

heap_block rattle_alloc(size_t size, size_t align)
{
    return block(REFUSED ? NULL : malloc(size != 0 ? size : align));
}

heap_block rattle_realloc(void *at, size_t kept, size_t size, size_t align)
{
    (void)kept;
    return block(REFUSED ? NULL : realloc(at, size != 0 ? size : align));
}

void rattle_dealloc(void *at)
{
    free(at);
}
