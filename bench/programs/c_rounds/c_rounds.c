/* Rounds of the C interface, and of a plain mutex with a counter.
 *
 *     c_rounds check THREADS ROUNDS       tests, and the history on standard output
 *     c_rounds time THREADS ROUNDS        nanoseconds of processor time that a take and a hand-back have together
 *     c_rounds plain THREADS ROUNDS       the same of the counter */
#include "../c_common.h"
#include <stdatomic.h>

enum { MOST = 2, LOCKS = 3, MAX_THREADS = 32, OBSERVE_EACH = 20000 };

static int threads, rounds;
static wakhurmi_service *service;
static atomic_int at_work, owners[LOCKS], ended;

static void work_with(const uint32_t *locks, size_t count) {
    demand(atomic_fetch_add(&at_work, 1) < MOST, "more at work than may be");
    for (size_t at = 0; at < count; at++) demand(atomic_fetch_add(&owners[locks[at]], 1) == 0, "two owners of a lock");
    for (size_t at = 0; at < count; at++) atomic_fetch_sub(&owners[locks[at]], 1);
    atomic_fetch_sub(&at_work, 1);
}

static void *check_rounds(void *argument) {
    uint32_t worker = (uint32_t)(size_t)argument;
    static const uint32_t all[LOCKS] = {0, 1, 2};
    for (int round = 0; round < rounds; round++) {
        const uint32_t *locks = &all[(round + worker) % LOCKS];
        size_t count = round % 7 == 0 ? (size_t)(all + LOCKS - locks) : (size_t)(round % 2);
        if (round % 11 == 5) {
            wakhurmi_answer tried = wakhurmi_try_take(service, worker, locks, count);
            demand(tried == WAKHURMI_OK || tried == WAKHURMI_BUSY, "what a try answers");
            if (tried == WAKHURMI_BUSY) continue;
        } else {
            demand(wakhurmi_take(service, worker, locks, count) == WAKHURMI_OK, "taken");
        }
        work_with(locks, count);
        if (round % 5 == 0) {
            demand(wakhurmi_enter(service, worker) == WAKHURMI_OK, "entered");
            demand(wakhurmi_hand_back(service, worker) == WAKHURMI_MISUSED, "nothing is handed back in a section");
            demand(wakhurmi_leave(service, worker) == WAKHURMI_OK, "left");
            work_with(locks, count);
        }
        demand(wakhurmi_hand_back(service, worker) == WAKHURMI_OK, "handed back");
    }
    return NULL;
}

static void *time_rounds(void *argument) {
    uint32_t worker = (uint32_t)(size_t)argument;
    for (int round = 0; round < rounds; round++) {
        wakhurmi_take(service, worker, NULL, 0);
        wakhurmi_hand_back(service, worker);
    }
    return NULL;
}

/* What a build tool has without a library: a mutex, a condition, and how many may still work. */
static pthread_mutex_t mutex = PTHREAD_MUTEX_INITIALIZER;
static pthread_cond_t freed = PTHREAD_COND_INITIALIZER;
static int left = MOST, waiting;

static void *plain_rounds(void *argument) {
    (void)argument;
    for (int round = 0; round < rounds; round++) {
        pthread_mutex_lock(&mutex);
        waiting++;
        while (left == 0) pthread_cond_wait(&freed, &mutex);
        waiting--;
        left--;
        pthread_mutex_unlock(&mutex);
        pthread_mutex_lock(&mutex);
        left++;
        if (waiting > 0) pthread_cond_signal(&freed);
        pthread_mutex_unlock(&mutex);
    }
    return NULL;
}

static void run(void *(*body)(void *)) {
    pthread_t started[MAX_THREADS];
    for (int at = 0; at < threads; at++) started[at] = start(body, (void *)(size_t)at);
    for (int at = 0; at < threads; at++) pthread_join(started[at], NULL);
}

/* Asks how many leases are out all the while, without a worker. */
static void *observe(void *argument) {
    (void)argument;
    while (!atomic_load(&ended)) {
        uint32_t leases = MOST + 1;
        demand(wakhurmi_leases_out(service, &leases) == WAKHURMI_OK && leases <= MOST, "how many leases are out");
        sleep_for(OBSERVE_EACH);
    }
    return NULL;
}

static void run_observed(void) {
    pthread_t observer = start(observe, NULL);
    run(check_rounds);
    atomic_store(&ended, 1);
    pthread_join(observer, NULL);
}

int main(int count, char **words) {
    demand(count == 4, "c_rounds check|time|plain THREADS ROUNDS");
    threads = atoi(words[2]);
    rounds = atoi(words[3]);
    demand(threads >= 1 && threads <= MAX_THREADS && rounds > 0, "numbers");
    service = open_to_check((size_t)threads, MOST, LOCKS);
    if (strcmp(words[1], "check") == 0) {
        run_observed();
        print_history(service);
        return 0;
    }
    long begin = nanoseconds_of(CLOCK_PROCESS_CPUTIME_ID);
    run(strcmp(words[1], "time") == 0 ? time_rounds : plain_rounds);
    printf("%.1f\n", (double)(nanoseconds_of(CLOCK_PROCESS_CPUTIME_ID) - begin) / threads / rounds);
    wakhurmi_close(service);
    return 0;
}
