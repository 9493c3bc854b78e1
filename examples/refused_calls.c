/* Refuses one call of the program. REFUSED_GROWTH has its number, from 1, among the calls of malloc and realloc, which
   then give no memory, or REFUSED_READ among those of read and pread, which then fail with EIO. Calls that the C
   library makes itself are not counted. If the program ends before that call, the file named in REFUSED_NONE is
   made. */
#define _GNU_SOURCE
#include <dlfcn.h>
#include <errno.h>
#include <fcntl.h>
#include <link.h>
#include <stdint.h>
#include <stdlib.h>
#include <unistd.h>

static uintptr_t first, last; /* where the program lies */
/* how many growths, or reads, come up to the one that is refused; 0 if none of that kind is */
static long growths, reads;

/* The first object is the program. */
static int find_program(struct dl_phdr_info *info, size_t size, void *data)
{
    first = UINTPTR_MAX;
    for (int i = 0; i < info->dlpi_phnum; i++) {
        const ElfW(Phdr) *part = &info->dlpi_phdr[i];
        uintptr_t at = info->dlpi_addr + part->p_vaddr;
        if (part->p_type != PT_LOAD)
            continue;
        if (at < first)
            first = at;
        if (at + part->p_memsz > last)
            last = at + part->p_memsz;
    }
    return 1;
}

static long number_in(const char *name)
{
    const char *number = getenv(name);
    return number ? strtol(number, NULL, 10) : 0;
}

__attribute__((constructor)) static void begin(void)
{
    growths = number_in("REFUSED_GROWTH");
    reads = number_in("REFUSED_READ");
    dl_iterate_phdr(find_program, NULL);
}

__attribute__((destructor)) static void end(void)
{
    const char *none = getenv("REFUSED_NONE");
    int file = (growths > 0 || reads > 0) && none ? open(none, O_CREAT | O_WRONLY, 0600) : -1;
    if (file >= 0)
        close(file);
}

static int is_refused(long *left, void *caller)
{
    uintptr_t at = (uintptr_t)caller;
    return at >= first && at < last && *left > 0 && --*left == 0;
}

void *malloc(size_t size)
{
    static void *(*next)(size_t);
    if (!next)
        next = (void *(*)(size_t))dlsym(RTLD_NEXT, "malloc");
    if (is_refused(&growths, __builtin_return_address(0))) {
        errno = ENOMEM;
        return NULL;
    }
    return next(size);
}

void *realloc(void *block, size_t size)
{
    static void *(*next)(void *, size_t);
    if (!next)
        next = (void *(*)(void *, size_t))dlsym(RTLD_NEXT, "realloc");
    if (is_refused(&growths, __builtin_return_address(0))) {
        errno = ENOMEM;
        return NULL;
    }
    return next(block, size);
}

ssize_t read(int file, void *buffer, size_t size)
{
    static ssize_t (*next)(int, void *, size_t);
    if (!next)
        next = (ssize_t (*)(int, void *, size_t))dlsym(RTLD_NEXT, "read");
    if (is_refused(&reads, __builtin_return_address(0))) {
        errno = EIO;
        return -1;
    }
    return next(file, buffer, size);
}

ssize_t pread(int file, void *buffer, size_t size, off_t at)
{
    static ssize_t (*next)(int, void *, size_t, off_t);
    if (!next)
        next = (ssize_t (*)(int, void *, size_t, off_t))dlsym(RTLD_NEXT, "pread");
    if (is_refused(&reads, __builtin_return_address(0))) {
        errno = EIO;
        return -1;
    }
    return next(file, buffer, size, at);
}
