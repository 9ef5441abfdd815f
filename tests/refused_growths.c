/* Preloaded into a program of tests, it refuses growths of memory as the tests tell it.

   Such a program can't call this library, so it tells it by the size of a block that it asks for, and gets:
     MARK + n                the n-th growth from here on fails, and each one after it
     MARK + NUMBERS + n      the n-th growth from here on fails, and no other
     MARK                    none fails from here on
   A growth is a call of malloc, calloc, realloc or an aligned form of them, by any thread. None of the tested calls
   asks for a block of such a size. */
#define _GNU_SOURCE
#include <errno.h>
#include <stdatomic.h>
#include <stddef.h>
#include <stdlib.h>

/* The same as in crates/c104_tests_growths/src/growths.rt. */
enum { MARK = 12648449, NUMBERS = 65536 };

/* How many growths there were since the last mark, which is refused, 0 for none, and whether that one alone. */
static atomic_size_t growths, refused;
static atomic_int is_alone;

static int is_refused(size_t size) {
    if (size >= MARK && size < MARK + 2 * NUMBERS) {
        size_t said = size - MARK;
        atomic_store(&growths, 0);
        atomic_store(&is_alone, said >= NUMBERS);
        atomic_store(&refused, said % NUMBERS);
        return 0;
    }
    size_t first = atomic_load(&refused);
    if (!first) return 0;
    size_t number = atomic_fetch_add(&growths, 1) + 1;
    return number == first || (number > first && !atomic_load(&is_alone));
}

/* The C library's own allocators, by the names under which it has them besides. */
extern void *__libc_malloc(size_t), *__libc_calloc(size_t, size_t), *__libc_realloc(void *, size_t);
extern void *__libc_memalign(size_t, size_t);

#define ALLOCATED(size, value) (is_refused(size) ? (errno = ENOMEM, NULL) : (value))

void *malloc(size_t size) { return ALLOCATED(size, __libc_malloc(size)); }
void *calloc(size_t count, size_t size) { return ALLOCATED(count * size, __libc_calloc(count, size)); }
void *realloc(void *old, size_t size) { return ALLOCATED(size, __libc_realloc(old, size)); }
void *aligned_alloc(size_t alignment, size_t size) { return ALLOCATED(size, __libc_memalign(alignment, size)); }

int posix_memalign(void **made, size_t alignment, size_t size) {
    void *found = ALLOCATED(size, __libc_memalign(alignment, size));
    if (found) *made = found;
    return found ? 0 : ENOMEM;
}
