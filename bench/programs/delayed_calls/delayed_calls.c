/* Delays calls of a program that it is loaded into by LD_PRELOAD, by times drawn at random: each call of futex before it is made and behind
   it, and each opening of a file before it is made, so that items take their time and workers fall asleep.

   The program has to make calls of futex by the C library's function syscall, as the kit's runtime and Rust's std do. Those that the C
   library makes itself aren't seen. A delay has at most MOST microseconds, and more than half of them have at most an eighth of that.
   Each thread draws its own, from SEED and from how many threads drew before it. How many calls of futex were delayed stands in the first
   eight bytes of the file COUNTED, in the machine's order. */
#undef _FORTIFY_SOURCE /* Its `open` is no function. */
#define _GNU_SOURCE
#include <dlfcn.h>
#include <errno.h>
#include <fcntl.h>
#include <stdarg.h>
#include <stdatomic.h>
#include <stdint.h>
#include <stdlib.h>
#include <sys/mman.h>
#include <sys/syscall.h>
#include <time.h>
#include <unistd.h>

static atomic_ulong *calls;
static atomic_ulong threads;
static unsigned long seed, most;
static long (*plain_call)(long, ...);
static int (*plain_open)(const char *, int, ...);
static __thread uint64_t drawn;

__attribute__((constructor)) static void begin(void) {
    const char *first = getenv("SEED"), *limit = getenv("MOST"), *counted = getenv("COUNTED");
    int file = counted ? openat(AT_FDCWD, counted, O_RDWR | O_CREAT | O_CLOEXEC, 0600) : -1;
    if (file < 0 || ftruncate(file, sizeof *calls))
        abort();
    calls = mmap(NULL, sizeof *calls, PROT_READ | PROT_WRITE, MAP_SHARED, file, 0);
    plain_call = (long (*)(long, ...))dlsym(RTLD_NEXT, "syscall");
    plain_open = (int (*)(const char *, int, ...))dlsym(RTLD_NEXT, "open");
    if (calls == MAP_FAILED || !plain_call || !plain_open)
        abort();
    close(file);
    seed = first ? strtoul(first, NULL, 10) : 0;
    most = limit ? strtoul(limit, NULL, 10) : 0;
    unsetenv("LD_PRELOAD");
}

/* One step of splitmix64. */
static uint64_t draw(void) {
    if (!drawn)
        drawn = (seed << 8) + atomic_fetch_add(&threads, 1) + 1;
    uint64_t mixed = drawn += 0x9e3779b97f4a7c15;
    mixed = (mixed ^ mixed >> 30) * 0xbf58476d1ce4e5b9;
    mixed = (mixed ^ mixed >> 27) * 0x94d049bb133111eb;
    return mixed ^ mixed >> 31;
}

static void delay(void) {
    int error = errno;
    uint64_t length = draw() % (most * 1000 + 1) >> draw() % 8;
    nanosleep(&(struct timespec){length / 1000000000, length % 1000000000}, NULL);
    errno = error;
}

static int open_late(const char *name, int flags, mode_t mode) {
    delay();
    return plain_open(name, flags, mode);
}

int open(const char *name, int flags, ...) {
    va_list given;
    va_start(given, flags);
    mode_t mode = va_arg(given, mode_t);
    va_end(given);
    return open_late(name, flags, mode);
}

/* The same call on this machine, by the name that Rust's std uses. */
int open64(const char *name, int flags, ...) {
    va_list given;
    va_start(given, flags);
    mode_t mode = va_arg(given, mode_t);
    va_end(given);
    return open_late(name, flags, mode);
}

long syscall(long number, ...) {
    long words[6];
    va_list given;
    va_start(given, number);
    for (int n = 0; n < 6; n++)
        words[n] = va_arg(given, long);
    va_end(given);
    if (number != SYS_futex)
        return plain_call(number, words[0], words[1], words[2], words[3], words[4], words[5]);
    atomic_fetch_add(calls, 1);
    delay();
    long answer = plain_call(number, words[0], words[1], words[2], words[3], words[4], words[5]);
    delay();
    return answer;
}
