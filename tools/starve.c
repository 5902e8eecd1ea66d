/* Refuses allocations by number: the library that tools/starve loads before libc.
 *
 * Every allocation of the built program is a malloc or a realloc. STARVE_COUNTER names a file of eight bytes in which
 * they are counted, STARVE_AT the one that is refused, from 1, and STARVE_ON is 1 where each later one is refused too.
 */
#define _GNU_SOURCE
#include <errno.h>
#include <fcntl.h>
#include <stdatomic.h>
#include <stdlib.h>
#include <sys/mman.h>
#include <unistd.h>

extern void *__libc_malloc(size_t);
extern void *__libc_realloc(void *, size_t);

static _Atomic unsigned long unmapped;
static _Atomic unsigned long *counter = &unmapped;
static unsigned long at;
static int on;

__attribute__((constructor)) static void begin(void) {
    const char *name = getenv("STARVE_COUNTER"), *first = getenv("STARVE_AT"), *more = getenv("STARVE_ON");
    int file = name ? open(name, O_RDWR) : -1;
    void *page = file < 0 ? MAP_FAILED : mmap(0, sizeof *counter, PROT_READ | PROT_WRITE, MAP_SHARED, file, 0);
    if (page == MAP_FAILED) _exit(99);
    close(file);
    counter = page;
    at = first ? strtoul(first, 0, 10) : 0;
    on = more && *more == '1';
}

static int is_refused(void) {
    unsigned long number = atomic_fetch_add(counter, 1) + 1;
    return at && (on ? number >= at : number == at);
}

void *malloc(size_t bytes) {
    if (!is_refused()) return __libc_malloc(bytes);
    errno = ENOMEM;
    return 0;
}

void *realloc(void *place, size_t bytes) {
    if (!is_refused()) return __libc_realloc(place, bytes);
    errno = ENOMEM;
    return 0;
}
