/* What it takes to have a history taken while its service runs.
 *
 *     c_taking memory THREADS ROUNDS MICROSECONDS    so many rounds in all, and a part is taken each so many microseconds, into two by turns: the
 *                                                    kilobytes of memory at most beyond those at the beginning, the parts, the entries, and the
 *                                                    microseconds from a taking to the next at most
 *     c_taking kept THREADS ROUNDS ENTRIES           the same of a service that keeps the last entries alone, from which nobody takes
 *     c_taking hold ENTRIES                          nanoseconds that a taking of so many entries takes, and one into a part that has as many yet
 *     c_taking waits THREADS SECONDS MICROSECONDS    the longest call in microseconds, the longest of 999 in 1,000, and the calls; nobody takes
 *                                                    where MICROSECONDS is 0 */
#include "../c_common.h"
#include <stdatomic.h>
#include <sys/resource.h>

enum { MAX_THREADS = 32, TURNS = 21, WORK = 5000, LONGEST_NOTED = 1000 };

typedef struct {
    uint32_t worker;
    long longest, calls;
    long lasted[LONGEST_NOTED + 1]; /* How many calls took so many microseconds; the last of them so many or more. */
} waits;

static wakhurmi_service *service;
static atomic_bool ended;
static long rounds, pause_length;
static unsigned long parts_taken;
static long longest_between;

/* The most memory that the process had so far. */
static long most_kilobytes(void) {
    struct rusage used;
    getrusage(RUSAGE_SELF, &used);
    return used.ru_maxrss;
}

static void make_round(uint32_t worker) {
    EXPECT(OK, wakhurmi_take(service, worker, NULL, 0));
    EXPECT(OK, wakhurmi_hand_back(service, worker));
}

static void *make_rounds(void *worker) {
    for (long round = 0; round < rounds; round++) make_round((uint32_t)(size_t)worker);
    return NULL;
}

static void *take_by_turns(void *argument) {
    wakhurmi_part *parts[2] = {NULL, NULL};
    (void)argument;
    for (long last = now(); !atomic_load(&ended); sleep_for(pause_length)) {
        EXPECT(OK, wakhurmi_take_history(service, &parts[parts_taken++ % 2]));
        long taken = now();
        if (taken - last > longest_between) longest_between = taken - last;
        last = taken;
    }
    wakhurmi_close_part(parts[0]);
    wakhurmi_close_part(parts[1]);
    return NULL;
}

static void run(void *(*body)(void *), size_t threads, void *const *arguments) {
    pthread_t started[MAX_THREADS + 1];
    size_t takers = pause_length > 0 ? 1 : 0;
    if (takers > 0) started[threads] = start(take_by_turns, NULL);
    for (size_t at = 0; at < threads; at++) started[at] = start(body, arguments[at]);
    for (size_t at = 0; at < threads; at++) pthread_join(started[at], NULL);
    atomic_store(&ended, true);
    for (size_t at = threads; at < threads + takers; at++) pthread_join(started[at], NULL);
}

static void measure_memory(size_t threads, uint64_t kept) {
    void *workers[MAX_THREADS] = {NULL};
    for (size_t at = 0; at < threads; at++) workers[at] = (void *)at;
    EXPECT(OK, wakhurmi_open_keeping((uint32_t)threads, (uint32_t)threads, 1, kept, &service));
    long first = most_kilobytes();
    rounds /= (long)threads;
    run(make_rounds, threads, workers);
    printf("%ld %lu %ld %ld\n", most_kilobytes() - first, parts_taken, 2 * rounds * (long)threads, longest_between / 1000);
    wakhurmi_close(service);
}

static long time_taking(wakhurmi_part **part) {
    long begin = now();
    EXPECT(OK, wakhurmi_take_history(service, part));
    return now() - begin;
}

static int is_longer(const void *one, const void *other) {
    long left = *(const long *)one, right = *(const long *)other;
    return (left > right) - (left < right);
}

static long middle_of(long times[TURNS]) {
    qsort(times, TURNS, sizeof *times, is_longer);
    return times[TURNS / 2];
}

/* First into a part that is without entries, and then the next entries into the part that has these. */
static void measure_hold(long entries) {
    long empty[TURNS], full[TURNS];
    wakhurmi_part *part = NULL;
    EXPECT(OK, wakhurmi_open(1, 1, 1, &service));
    for (int turn = 0; turn < TURNS; turn++) {
        time_taking(&part);
        time_taking(&part);
        for (long entry = 0; entry < entries; entry += 2) make_round(0);
        empty[turn] = time_taking(&part);
        for (long entry = 0; entry < entries; entry += 2) make_round(0);
        full[turn] = time_taking(&part);
    }
    printf("%ld %ld\n", middle_of(empty), middle_of(full));
    wakhurmi_close(service);
    wakhurmi_close_part(part);
}

static void note(waits *own, long length) {
    long microseconds = length / 1000;
    if (length > own->longest) own->longest = length;
    own->lasted[microseconds < LONGEST_NOTED ? microseconds : LONGEST_NOTED]++;
    own->calls++;
}

static void *work_and_note(void *argument) {
    waits *own = argument;
    long end = now() + rounds * SECOND, begin;
    while ((begin = now()) < end) {
        EXPECT(OK, wakhurmi_take(service, own->worker, NULL, 0));
        note(own, now() - begin);
        for (begin = now(); now() - begin < WORK;) {}
        begin = now();
        EXPECT(OK, wakhurmi_hand_back(service, own->worker));
        note(own, now() - begin);
        for (begin = now(); now() - begin < WORK;) {}
    }
    return NULL;
}

static void measure_waits(size_t threads) {
    void *all[MAX_THREADS] = {NULL};
    waits sum = {0};
    EXPECT(OK, wakhurmi_open((uint32_t)threads, (uint32_t)threads, 1, &service));
    for (size_t at = 0; at < threads; at++) {
        waits *own = calloc(1, sizeof *own);
        demand(own != NULL, "memory");
        own->worker = (uint32_t)at;
        all[at] = own;
    }
    run(work_and_note, threads, all);
    for (size_t at = 0; at < threads; at++) {
        waits *own = all[at];
        if (own->longest > sum.longest) sum.longest = own->longest;
        for (long length = 0; length <= LONGEST_NOTED; length++) sum.lasted[length] += own->lasted[length];
        sum.calls += own->calls;
        free(own);
    }
    long longest = LONGEST_NOTED, beyond = sum.lasted[LONGEST_NOTED];
    while (longest > 0 && beyond * 1000 < sum.calls) beyond += sum.lasted[--longest];
    printf("%.1f %ld %ld\n", (double)sum.longest / 1000, longest + 1, sum.calls);
    wakhurmi_close(service);
}

int main(int count, char **words) {
    if (count == 3 && strcmp(words[1], "hold") == 0) {
        measure_hold(atol(words[2]));
        return 0;
    }
    demand(count == 5, "c_taking memory|kept|waits THREADS .. or c_taking hold ENTRIES");
    size_t threads = (size_t)atoi(words[2]);
    rounds = atol(words[3]);
    bool keeps_few = strcmp(words[1], "kept") == 0;
    if (!keeps_few) pause_length = 1000 * atol(words[4]);
    demand(threads >= 1 && threads <= MAX_THREADS, "threads");
    if (strcmp(words[1], "waits") == 0) {
        measure_waits(threads);
    } else {
        measure_memory(threads, keeps_few ? (uint64_t)atol(words[4]) : UINT64_MAX);
    }
    return 0;
}
