/* Refuses allocations of a program: a library that is loaded before the C library (LD_PRELOAD).
 *
 * It counts the calls of malloc and realloc that the program's own code makes, from 1. REFUSE=N refuses call N; REFUSE=N- refuses call N and every later one.
 * REFUSE_NOTES names a file of 16 octets that is there: it holds how many calls there were, and how many were refused, as two numbers of this machine.
 */
#define _GNU_SOURCE
#include <errno.h>
#include <fcntl.h>
#include <link.h>
#include <stdint.h>
#include <stdlib.h>
#include <sys/mman.h>
#include <unistd.h>

struct notes {
    uint64_t calls;
    uint64_t refused;
};

void *__libc_malloc(size_t size);
void *__libc_realloc(void *memory, size_t size);

/* Where the program's own code is. */
static uintptr_t code, code_end;
/* The first call that is refused, 0 for none, and the last one. */
static uint64_t first, last;
static struct notes unread;
static struct notes *notes = &unread;

static int find_code(struct dl_phdr_info *program, size_t size, void *unused) {
    (void)size;
    (void)unused;
    for (int i = 0; i < program->dlpi_phnum; i++) {
        const ElfW(Phdr) *part = &program->dlpi_phdr[i];
        if (part->p_type == PT_LOAD && (part->p_flags & PF_X)) {
            code = program->dlpi_addr + part->p_vaddr;
            code_end = code + part->p_memsz;
        }
    }
    return 1; /* the program comes first, and no other object is looked at */
}

__attribute__((constructor)) static void begin(void) {
    const char *path = getenv("REFUSE_NOTES");
    if (path) {
        int file = open(path, O_RDWR);
        notes = mmap(NULL, sizeof *notes, PROT_READ | PROT_WRITE, MAP_SHARED, file, 0);
        if (file < 0 || notes == MAP_FAILED)
            _exit(99);
        close(file);
    }
    const char *refuse = getenv("REFUSE");
    if (refuse) {
        char *rest;
        first = strtoull(refuse, &rest, 10);
        last = *rest == '-' ? UINT64_MAX : first;
    }
    dl_iterate_phdr(find_code, NULL);
}

static int is_refused(void *from) {
    uintptr_t at = (uintptr_t)from;
    if (at < code || at >= code_end)
        return 0;
    uint64_t call = ++notes->calls;
    if (first == 0 || call < first || call > last)
        return 0;
    notes->refused++;
    errno = ENOMEM;
    return 1;
}

void *malloc(size_t size) {
    return is_refused(__builtin_return_address(0)) ? NULL : __libc_malloc(size);
}

void *realloc(void *memory, size_t size) {
    return is_refused(__builtin_return_address(0)) ? NULL : __libc_realloc(memory, size);
}
