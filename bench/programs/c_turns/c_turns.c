/* Threads that take locks again and again: how many rounds each has, and how long a take waits at most.
 *
 *     c_turns KIND THREADS LOCKS NANOSECONDS SECONDS
 *
 * In each round a thread takes the lock of its number, modulo LOCKS, works for so many nanoseconds, which is a sleep from half a millisecond
 * on, and hands back. KIND says by what: `service` is a service with a lease for each thread, `mutex` a plain mutex for each lock. With
 * `several` the service's first thread takes all locks at once, and rests for a millisecond between its rounds. `all` is the same by the all-projects
 * lock, and `uses` by uses of shared services, of which each may have one user. With `leaving` the first thread takes its lock once, and from then on
 * enters a blocking section in place of each hand-back, and leaves it in place of each take.
 *
 * It prints all rounds, the fewest and the most of a thread, those of the first, and the longest wait in microseconds of all and of the
 * first. Where two threads have one lock at once it ends with status 1. */
#include "../c_common.h"
#include <stdatomic.h>

enum { MOST_THREADS = 32, MOST_LOCKS = 8, WORK_BY_SLEEP = 500000, REST = 1000000 };

typedef struct {
    uint32_t worker;
    long rounds, longest;
} turns;

static wakhurmi_service *service;
static pthread_mutex_t mutexes[MOST_LOCKS];
static atomic_uint owners[MOST_LOCKS];
static atomic_bool ended;
static bool by_mutex, several, by_all, by_uses, leaving;
static uint32_t locks;
static long length;

static void work(void) {
    if (length >= WORK_BY_SLEEP) {
        sleep_for(length);
    } else {
        for (long begin = now(); now() - begin < length;) {}
    }
}

static bool is_in_sections(uint32_t worker) { return leaving && worker == 0; }

static wakhurmi_answer take(uint32_t worker, const uint32_t *wanted, size_t count) {
    if (by_uses) return wakhurmi_take_uses(service, worker, wanted, count);
    bool takes_all = by_all && worker == 0;
    return wakhurmi_take(service, worker, takes_all ? &locks : wanted, takes_all ? 1 : count);
}

static void get(uint32_t worker, const uint32_t *wanted, size_t count) {
    if (by_mutex) {
        pthread_mutex_lock(&mutexes[wanted[0]]);
    } else {
        EXPECT(OK, is_in_sections(worker) ? wakhurmi_leave(service, worker) : take(worker, wanted, count));
    }
}

static void give_back(uint32_t worker, const uint32_t *wanted) {
    if (by_mutex) {
        pthread_mutex_unlock(&mutexes[wanted[0]]);
    } else {
        EXPECT(OK, is_in_sections(worker) ? wakhurmi_enter(service, worker) : wakhurmi_hand_back(service, worker));
    }
}

static void *turn_after_turn(void *argument) {
    turns *own = argument;
    bool takes_all = several && own->worker == 0;
    uint32_t wanted[MOST_LOCKS] = {own->worker % locks};
    size_t count = takes_all ? locks : 1;
    for (uint32_t lock = 0; takes_all && lock < locks; lock++) wanted[lock] = lock;
    if (is_in_sections(own->worker)) {
        EXPECT(OK, wakhurmi_take(service, own->worker, wanted, count));
        EXPECT(OK, wakhurmi_enter(service, own->worker));
    }
    while (!atomic_load(&ended)) {
        long begin = now();
        get(own->worker, wanted, count);
        long waited = now() - begin;
        if (waited > own->longest) own->longest = waited;
        for (size_t at = 0; at < count; at++) demand(atomic_exchange(&owners[wanted[at]], own->worker + 1) == 0, "one owner");
        work();
        for (size_t at = 0; at < count; at++) atomic_store(&owners[wanted[at]], 0);
        give_back(own->worker, wanted);
        own->rounds++;
        if (takes_all) sleep_for(REST);
    }
    return NULL;
}

static void print(const turns *all, uint32_t threads) {
    long sum = 0, fewest = all[0].rounds, most = 0, longest = 0;
    for (uint32_t at = 0; at < threads; at++) {
        sum += all[at].rounds;
        if (all[at].rounds < fewest) fewest = all[at].rounds;
        if (all[at].rounds > most) most = all[at].rounds;
        if (all[at].longest > longest) longest = all[at].longest;
    }
    printf("%ld %ld %ld %ld %ld %ld\n", sum, fewest, most, all[0].rounds, longest / 1000, all[0].longest / 1000);
}

int main(int count, char **words) {
    demand(count == 6, "c_turns KIND THREADS LOCKS NANOSECONDS SECONDS");
    by_mutex = strcmp(words[1], "mutex") == 0;
    by_all = strcmp(words[1], "all") == 0;
    by_uses = strcmp(words[1], "uses") == 0;
    several = by_all || by_uses || strcmp(words[1], "several") == 0;
    leaving = strcmp(words[1], "leaving") == 0;
    uint32_t threads = (uint32_t)atoi(words[2]);
    locks = (uint32_t)atoi(words[3]);
    length = atol(words[4]);
    demand(threads >= 1 && threads <= MOST_THREADS && locks >= 1 && locks <= MOST_LOCKS, "threads and locks");
    for (uint32_t lock = 0; lock < locks; lock++) pthread_mutex_init(&mutexes[lock], NULL);
    const uint32_t maxima[MOST_LOCKS] = {1, 1, 1, 1, 1, 1, 1, 1};
    wakhurmi_options options = {.size = sizeof options, .workers = threads, .max_leases = threads, .all_projects = by_all};
    if (by_uses) {
        options.maxima = maxima;
        options.services = locks;
    } else {
        options.locks = locks;
    }
    EXPECT(OK, wakhurmi_open_with(&options, &service));
    turns all[MOST_THREADS] = {{0}};
    pthread_t started[MOST_THREADS];
    for (uint32_t at = 0; at < threads; at++) {
        all[at].worker = at;
        started[at] = start(turn_after_turn, &all[at]);
    }
    sleep_for((long)(atof(words[5]) * SECOND));
    atomic_store(&ended, true);
    for (uint32_t at = 0; at < threads; at++) pthread_join(started[at], NULL);
    print(all, threads);
    wakhurmi_close(service);
    return 0;
}
