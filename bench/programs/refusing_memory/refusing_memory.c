/* Refuses memory to a program that it is loaded into by LD_PRELOAD.

   The program's own calls of malloc and realloc are counted from 1, those of the C library not. The call with the number REFUSED gets no
   memory, and with EVER set no call behind it either. The count stands in the first eight bytes of the file COUNTED, in the machine's
   order, since a program may end without a last word. Processes that the program starts don't load this library. */
#define _GNU_SOURCE
#include <errno.h>
#include <fcntl.h>
#include <link.h>
#include <stdatomic.h>
#include <stdint.h>
#include <stdlib.h>
#include <sys/mman.h>
#include <unistd.h>

extern void *__libc_malloc(size_t);
extern void *__libc_realloc(void *, size_t);

static atomic_ulong *calls;
static unsigned long refused;
static int ever;
static uintptr_t first, last;

/* The first object is the program. */
static int find_program(struct dl_phdr_info *info, size_t size, void *data) {
    (void)size, (void)data;
    for (int n = 0; n < info->dlpi_phnum; n++) {
        if (info->dlpi_phdr[n].p_type == PT_LOAD && (info->dlpi_phdr[n].p_flags & PF_X)) {
            first = info->dlpi_addr + info->dlpi_phdr[n].p_vaddr;
            last = first + info->dlpi_phdr[n].p_memsz;
        }
    }
    return 1;
}

__attribute__((constructor)) static void begin(void) {
    const char *number = getenv("REFUSED"), *counted = getenv("COUNTED");
    int file = counted ? open(counted, O_RDWR | O_CREAT | O_CLOEXEC, 0600) : -1;
    if (file < 0 || ftruncate(file, sizeof *calls))
        abort();
    calls = mmap(NULL, sizeof *calls, PROT_READ | PROT_WRITE, MAP_SHARED, file, 0);
    if (calls == MAP_FAILED)
        abort();
    close(file);
    refused = number ? strtoul(number, NULL, 10) : 0;
    ever = getenv("EVER") != NULL;
    unsetenv("LD_PRELOAD");
    dl_iterate_phdr(find_program, NULL);
}

static int refuses(void *caller) {
    if ((uintptr_t)caller < first || (uintptr_t)caller >= last)
        return 0;
    unsigned long call = atomic_fetch_add(calls, 1) + 1;
    return refused && (call == refused || (ever && call > refused));
}

void *malloc(size_t size) {
    if (refuses(__builtin_return_address(0))) {
        errno = ENOMEM;
        return NULL;
    }
    return __libc_malloc(size);
}

void *realloc(void *place, size_t size) {
    if (refuses(__builtin_return_address(0))) {
        errno = ENOMEM;
        return NULL;
    }
    return __libc_realloc(place, size);
}
