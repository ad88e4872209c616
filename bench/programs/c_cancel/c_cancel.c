/* Threads that are cancelled at random moments of their calls.
 *
 *     c_cancel COUNT      so many cancellations, and the history on standard output
 *
 * Two threads take and hand back all the time and are never cancelled. Four others have a thread each that works with one
 * of their locks, which they cancel again and again, and whose worker they clear. Who is cancelled inside a call mustn't keep another from its own. */
#include "../c_common.h"
#include <stdatomic.h>
#include <unistd.h>

enum { MOST = 3, LOCKS = 3, STEADY = 2, CANCELLERS = 4, LONGEST_DELAY = 300000, BODY = 10000, PAUSE = 100000, LIMIT = 300 };

static wakhurmi_service *service;
static atomic_int ended;
static int each;

static void *work_steadily(void *argument) {
    uint32_t worker = (uint32_t)(size_t)argument;
    while (!atomic_load(&ended)) {
        demand(wakhurmi_take(service, worker, &worker, 1) == WAKHURMI_OK, "taken by one who is never cancelled");
        sleep_for(BODY);
        demand(wakhurmi_hand_back(service, worker) == WAKHURMI_OK, "handed back by one who is never cancelled");
        sleep_for(PAUSE);
    }
    return NULL;
}

static void *work_until_cancelled(void *argument) {
    uint32_t worker = (uint32_t)(size_t)argument;
    uint32_t lock = worker % LOCKS;
    do {
        demand(wakhurmi_take(service, worker, &lock, 1) == WAKHURMI_OK, "taken");
        pthread_testcancel();
        demand(wakhurmi_enter(service, worker) == WAKHURMI_OK, "entered");
        pthread_testcancel();
        demand(wakhurmi_leave(service, worker) == WAKHURMI_OK, "left");
        sleep_for(BODY);
        demand(wakhurmi_hand_back(service, worker) == WAKHURMI_OK, "handed back");
        pthread_testcancel();
    } while (!atomic_load(&ended));
    return NULL;
}

/* The worker of a thread that has been cancelled has nothing, or what it took, or is in a section. */
static void clear(uint32_t worker) {
    wakhurmi_answer answer = wakhurmi_hand_back(service, worker);
    if (answer == WAKHURMI_MISUSED && wakhurmi_leave(service, worker) == WAKHURMI_OK) answer = wakhurmi_hand_back(service, worker);
    demand(answer == WAKHURMI_OK || answer == WAKHURMI_MISUSED, "cleared");
}

/* One at a time, as a tool would else take it for a race that the system uses stacks again. */
static pthread_t start_alone(void *(*body)(void *), void *argument) {
    static pthread_mutex_t mutex = PTHREAD_MUTEX_INITIALIZER;
    pthread_mutex_lock(&mutex);
    pthread_t thread = start(body, argument);
    pthread_mutex_unlock(&mutex);
    return thread;
}

static void *cancel(void *argument) {
    uint32_t worker = (uint32_t)(size_t)argument;
    unsigned seed = worker;
    for (int turn = 0; turn < each; turn++) {
        void *result;
        pthread_t victim = start_alone(work_until_cancelled, argument);
        sleep_for(rand_r(&seed) % LONGEST_DELAY);
        pthread_cancel(victim);
        pthread_join(victim, &result);
        demand(result == PTHREAD_CANCELED, "cancelled");
        clear(worker);
    }
    return NULL;
}

int main(int count, char **words) {
    demand(count == 2, "c_cancel COUNT");
    each = atoi(words[1]) / CANCELLERS;
    // Where a call hangs, nobody else would end this.
    alarm(LIMIT);
    service = open_to_check(STEADY + CANCELLERS, MOST, LOCKS);
    pthread_t threads[STEADY + CANCELLERS];
    for (size_t at = 0; at < STEADY + CANCELLERS; at++) threads[at] = start_alone(at < STEADY ? work_steadily : cancel, (void *)at);
    for (size_t at = STEADY; at < STEADY + CANCELLERS; at++) pthread_join(threads[at], NULL);
    atomic_store(&ended, 1);
    for (size_t at = 0; at < STEADY; at++) pthread_join(threads[at], NULL);
    print_history(service);
    return 0;
}
