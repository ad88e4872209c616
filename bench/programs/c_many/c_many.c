/* Many workers of one service, each by a thread of its own. The history comes on standard output.
 *
 *     c_many apart WORKERS ROUNDS               each takes a lease and a lock that no other takes, and nobody waits
 *     c_many meeting WORKERS LEASES ROUNDS      they share LOCKS locks and fewer leases, and also enter and leave sections */
#include "../c_common.h"
#include <sched.h>
#include <stdatomic.h>
#include <string.h>
#include <unistd.h>

enum { LOCKS = 8, MAX_THREADS = 256, LIMIT = 300 };

static int threads, leases, rounds;
static wakhurmi_service *service;
static pthread_barrier_t begin; /* So that all are at it at once. */
static atomic_int at_work, owners[LOCKS];

static void *take_apart(void *argument) {
    uint32_t worker = (uint32_t)(size_t)argument;
    pthread_barrier_wait(&begin);
    for (int round = 0; round < rounds; round++) {
        EXPECT(OK, wakhurmi_try_take(service, worker, &worker, 1));
        demand(atomic_fetch_add(&at_work, 1) < threads, "more at work than there are");
        atomic_fetch_sub(&at_work, 1);
        EXPECT(OK, wakhurmi_enter(service, worker));
        EXPECT(OK, wakhurmi_leave(service, worker));
        EXPECT(OK, wakhurmi_hand_back(service, worker));
    }
    return NULL;
}

/* Others get the processor meanwhile. */
static void work_with(const uint32_t *locks, size_t count) {
    demand(atomic_fetch_add(&at_work, 1) < leases, "more at work than may be");
    for (size_t at = 0; at < count; at++) demand(atomic_fetch_add(&owners[locks[at]], 1) == 0, "two owners of a lock");
    sched_yield();
    for (size_t at = 0; at < count; at++) atomic_fetch_sub(&owners[locks[at]], 1);
    atomic_fetch_sub(&at_work, 1);
}

/* Takes no lock, one, or two, and sometimes enters a section with what it has. */
static void *meet(void *argument) {
    uint32_t worker = (uint32_t)(size_t)argument;
    pthread_barrier_wait(&begin);
    for (int round = 0; round < rounds; round++) {
        uint32_t first = (worker + (uint32_t)round) % (LOCKS - 1);
        const uint32_t locks[2] = {first, first + 1};
        size_t count = (size_t)(round + (int)worker) % 3;
        EXPECT(OK, wakhurmi_take(service, worker, locks, count));
        end_round(service, worker, locks, count, round % 3 == 0, work_with);
    }
    return NULL;
}

static void run(void *(*body)(void *)) {
    static pthread_t started[MAX_THREADS];
    demand(pthread_barrier_init(&begin, NULL, (unsigned)threads) == 0, "a barrier");
    for (int at = 0; at < threads; at++) started[at] = start(body, (void *)(size_t)at);
    for (int at = 0; at < threads; at++) pthread_join(started[at], NULL);
}

int main(int count, char **words) {
    bool is_apart = count == 4 && strcmp(words[1], "apart") == 0, meets = count == 5 && strcmp(words[1], "meeting") == 0;
    demand(is_apart || meets, "c_many apart WORKERS ROUNDS, or c_many meeting WORKERS LEASES ROUNDS");
    alarm(LIMIT);
    threads = atoi(words[2]);
    leases = is_apart ? threads : atoi(words[3]);
    rounds = atoi(words[count - 1]);
    demand(threads >= 1 && threads <= MAX_THREADS && leases >= 1 && rounds > 0, "numbers");
    EXPECT(OK, wakhurmi_open((uint32_t)threads, (uint32_t)leases, is_apart ? (uint32_t)threads : LOCKS, &service));
    run(is_apart ? take_apart : meet);
    print_history(service);
    return 0;
}
