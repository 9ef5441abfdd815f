/* Preloaded into a program, it refuses one of the program's calls, so that tests can see what the program does then.

   REFUSED=KIND:N     the Nth call of this kind fails, counted from 1; KIND:N+ refuses all after it, too
   REFUSED_ERRNO=E    a refused read, write or open has this error (EIO unless said); 0: it answers 0, which is no error
   SINGLE_BYTES=1     each read and each write moves one byte at the most
   CALLS=FILE         how many calls of each kind there were is written to this file at the end

   A kind is alloc, read, write or open. Writing to standard error is none of them, nor is what comes before main. */
#define _GNU_SOURCE
#include <dlfcn.h>
#include <errno.h>
#include <fcntl.h>
#include <stdio.h>
#include <stdlib.h>
#include <string.h>
#include <unistd.h>

enum kind { ALLOC, READ, WRITE, OPEN, KINDS };
static const char *const names[KINDS] = {"alloc", "read", "write", "open"};
static long calls[KINDS], refused_at[KINDS];
static int goes_on, error = EIO, single_bytes, has_begun;

__attribute__((constructor)) static void begin(void) {
    const char *refused = getenv("REFUSED"), *said = getenv("REFUSED_ERRNO");
    for (int kind = 0; refused && kind < KINDS; kind++) {
        size_t length = strlen(names[kind]);
        if (!strncmp(refused, names[kind], length) && refused[length] == ':')
            refused_at[kind] = atol(refused + length + 1);
    }
    goes_on = refused && strchr(refused, '+') != NULL;
    if (said) error = atoi(said);
    single_bytes = getenv("SINGLE_BYTES") != NULL;
    has_begun = 1;
}

__attribute__((destructor)) static void end(void) {
    const char *path = getenv("CALLS");
    has_begun = 0;
    FILE *file = path ? fopen(path, "w") : NULL;
    if (!file) return;
    for (int kind = 0; kind < KINDS; kind++) fprintf(file, "%s %ld\n", names[kind], calls[kind]);
    fclose(file);
}

/* Counts a call, and says whether it is to be refused. */
static int is_refused(enum kind kind) {
    if (!has_begun) return 0;
    long number = ++calls[kind], at = refused_at[kind];
    return at && (number == at || (goes_on && number > at));
}

/* What a refused call answers that isn't an allocation. */
static int refusal(void) {
    errno = error;
    return error ? -1 : 0;
}

/* The C library's own allocators, by the names under which it has them besides. */
extern void *__libc_malloc(size_t), *__libc_calloc(size_t, size_t), *__libc_realloc(void *, size_t);
extern void *__libc_memalign(size_t, size_t);

#define ALLOCATED(value) (is_refused(ALLOC) ? (errno = ENOMEM, NULL) : (value))

void *malloc(size_t size) { return ALLOCATED(__libc_malloc(size)); }
void *calloc(size_t count, size_t size) { return ALLOCATED(__libc_calloc(count, size)); }
void *realloc(void *old, size_t size) { return ALLOCATED(__libc_realloc(old, size)); }
void *aligned_alloc(size_t alignment, size_t size) { return ALLOCATED(__libc_memalign(alignment, size)); }

int posix_memalign(void **made, size_t alignment, size_t size) {
    void *found = ALLOCATED(__libc_memalign(alignment, size));
    if (found) *made = found;
    return found ? 0 : ENOMEM;
}

/* The function of this name that the program would call without this library. */
#define NEXT(name) __typeof__(name) *next = (__typeof__(name) *)dlsym(RTLD_NEXT, #name)

static size_t moved(size_t size) { return single_bytes && size > 1 ? 1 : size; }

ssize_t read(int file, void *to, size_t size) {
    NEXT(read);
    /* one of no bytes only asks whether a file is open */
    return size && is_refused(READ) ? refusal() : next(file, to, moved(size));
}

ssize_t write(int file, const void *from, size_t size) {
    NEXT(write);
    if (file == STDERR_FILENO) return next(file, from, size);
    return is_refused(WRITE) ? refusal() : next(file, from, moved(size));
}

/* A program that has threads ends by this, and no destructor is called then. */
_Noreturn void _exit(int status) {
    NEXT(_exit);
    end();
    next(status);
    __builtin_unreachable();
}

/* The program makes no file, so these have no mode. */

int open(const char *path, int flags, ...) {
    NEXT(open);
    return is_refused(OPEN) ? refusal() : next(path, flags);
}

int openat(int folder, const char *path, int flags, ...) {
    NEXT(openat);
    return is_refused(OPEN) ? refusal() : next(folder, path, flags);
}
