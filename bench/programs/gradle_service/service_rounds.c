/* Rounds of a service: threads that take a project lock and a lease, work, and give both back. What GradleRounds.java does with Gradle's service.
 *
 *     service_rounds THREADS LEASES LOCKS NANOSECONDS WARMING SECONDS
 *
 * A thread's lock is that of its number, modulo LOCKS. The work is a loop until so many nanoseconds have gone by, and a sleep from half a millisecond
 * on. After WARMING seconds the rounds of SECONDS more are counted. It prints how many there were, the fewest and the most of a thread, and how many
 * nanoseconds they took by the clock and of processors. Where two threads have one lock at once it ends with status 1. */
#include "../c_common.h"
#include <stdatomic.h>

enum { MOST_THREADS = 256, WORK_BY_SLEEP = 500000 };

/* Those of two aren't in one cache line. */
typedef struct {
    _Alignas(128) atomic_long count;
} counter;

static wakhurmi_service *service;
static counter rounds[MOST_THREADS], owners[MOST_THREADS];
static atomic_bool ended;
static uint32_t locks;
static long length;

static void work(uint32_t lock) {
    demand(atomic_fetch_add(&owners[lock].count, 1) == 0, "one owner");
    if (length >= WORK_BY_SLEEP) {
        sleep_for(length);
    } else if (length > 0) {
        for (long begin = now(); now() - begin < length;) {}
    }
    atomic_store_explicit(&owners[lock].count, 0, memory_order_release);
}

static void *turn_after_turn(void *argument) {
    uint32_t worker = (uint32_t)(size_t)argument, lock = worker % locks;
    for (long round = 1; !atomic_load(&ended); round++) {
        EXPECT(OK, wakhurmi_take(service, worker, &lock, 1));
        work(lock);
        EXPECT(OK, wakhurmi_hand_back(service, worker));
        atomic_store_explicit(&rounds[worker].count, round, memory_order_release);
    }
    return NULL;
}

static void measure(uint32_t threads, double warming, double seconds) {
    long first[MOST_THREADS], last[MOST_THREADS], sum = 0, fewest = 0, most = 0;
    sleep_for((long)(warming * SECOND));
    for (uint32_t at = 0; at < threads; at++) first[at] = atomic_load(&rounds[at].count);
    long clock = now(), processor = nanoseconds_of(CLOCK_PROCESS_CPUTIME_ID);
    sleep_for((long)(seconds * SECOND));
    for (uint32_t at = 0; at < threads; at++) last[at] = atomic_load(&rounds[at].count) - first[at];
    clock = now() - clock;
    processor = nanoseconds_of(CLOCK_PROCESS_CPUTIME_ID) - processor;
    for (uint32_t at = 0; at < threads; at++) {
        sum += last[at];
        if (at == 0 || last[at] < fewest) fewest = last[at];
        if (last[at] > most) most = last[at];
    }
    printf("%ld %ld %ld %ld %ld\n", sum, fewest, most, clock, processor);
}

int main(int count, char **words) {
    demand(count == 7, "service_rounds THREADS LEASES LOCKS NANOSECONDS WARMING SECONDS");
    uint32_t threads = (uint32_t)atoi(words[1]);
    locks = (uint32_t)atoi(words[3]);
    length = atol(words[4]);
    demand(threads >= 1 && threads <= MOST_THREADS && locks >= 1 && locks <= MOST_THREADS, "threads and locks");
    EXPECT(OK, wakhurmi_open(threads, (uint32_t)atoi(words[2]), locks, &service));
    pthread_t started[MOST_THREADS];
    for (uint32_t at = 0; at < threads; at++) started[at] = start(turn_after_turn, (void *)(size_t)at);
    measure(threads, atof(words[5]), atof(words[6]));
    atomic_store(&ended, true);
    for (uint32_t at = 0; at < threads; at++) pthread_join(started[at], NULL);
    wakhurmi_close(service);
    return 0;
}
