/* Answers of the C interface that are known beforehand, also to calls that a caller shouldn't make. It prints nothing where all are right.
 *
 *     c_calls */
#include "../c_common.h"
#include <stdatomic.h>
#include <sys/wait.h>
#include <unistd.h>

enum { MOST = 2, LOCKS = 3, CROWD = 8, ROUNDS = 2000, LONGEST_LINE = 100000, LIMIT = 300 };
#define MILLISECOND 1000000L

static const uint32_t zero[1] = {0}, one[1] = {1}, both[2] = {0, 1}, high[1] = {LOCKS};
static const struct timespec long_past = {0, 0};
static wakhurmi_service *service;

static void open_service(uint32_t workers) { EXPECT(OK, wakhurmi_open(workers, MOST, LOCKS, &service)); }

static struct timespec after(long nanoseconds) {
    struct timespec time;
    clock_gettime(CLOCK_MONOTONIC, &time);
    long behind = time.tv_nsec + nanoseconds % SECOND;
    return (struct timespec){time.tv_sec + nanoseconds / SECOND + behind / SECOND, behind % SECOND};
}

static int is_before(struct timespec time, struct timespec other) {
    return time.tv_sec < other.tv_sec || (time.tv_sec == other.tv_sec && time.tv_nsec < other.tv_nsec);
}

static size_t result_of(pthread_t thread) {
    void *result;
    pthread_join(thread, &result);
    return (size_t)result;
}

static void close_ended(void) {
    EXPECT(OK, wakhurmi_finish(service));
    wakhurmi_close(service);
}

/* How many entries the ended service has, by the last line of its history. */
static unsigned count_entries(void) {
    static char buffer[LONGEST_LINE];
    uint64_t place = 0;
    size_t written;
    unsigned lines = 0;
    do {
        EXPECT(OK, wakhurmi_history(service, &place, buffer, sizeof buffer, &written));
        for (size_t at = 0; at < written; at++) lines += buffer[at] == '\n';
    } while (written > 0);
    return lines - 3;
}

static void check_numbers(void) {
    static const uint32_t falling[2] = {1, 0}, same[2] = {1, 1};
    wakhurmi_service *other = NULL;
    EXPECT(BAD_NUMBER, wakhurmi_open(0, 1, 1, &other));
    EXPECT(BAD_NUMBER, wakhurmi_open(257, 1, 1, &other));
    EXPECT(BAD_NUMBER, wakhurmi_open(1, 0, 1, &other));
    EXPECT(BAD_NUMBER, wakhurmi_open(1, 257, 1, &other));
    EXPECT(BAD_NUMBER, wakhurmi_open(1, 1, 65537, &other));
    demand(other == NULL, "nothing is written where nothing is opened");
    open_service(3);
    EXPECT(BAD_NUMBER, wakhurmi_take(service, 3, NULL, 0));
    EXPECT(BAD_NUMBER, wakhurmi_leave_until(service, UINT32_MAX, &long_past));
    EXPECT(BAD_NUMBER, wakhurmi_take(service, 0, falling, 2));
    EXPECT(BAD_NUMBER, wakhurmi_try_take(service, 0, same, 2));
    EXPECT(BAD_NUMBER, wakhurmi_take(service, 0, high, 1));
    close_ended();
}

/* As many workers, leases and locks as may be. */
static void check_limits(void) {
    static const uint32_t last[1] = {65535}, behind[1] = {65536};
    EXPECT(OK, wakhurmi_open(256, 256, 65536, &service));
    EXPECT(OK, wakhurmi_take(service, 255, last, 1));
    EXPECT(BUSY, wakhurmi_try_take(service, 0, last, 1));
    EXPECT(BAD_NUMBER, wakhurmi_take(service, 0, behind, 1));
    EXPECT(BAD_NUMBER, wakhurmi_take(service, 256, NULL, 0));
    EXPECT(OK, wakhurmi_enter(service, 255));
    EXPECT(OK, wakhurmi_leave(service, 255));
    EXPECT(OK, wakhurmi_hand_back(service, 255));
    close_ended();
}

static void check_places(void) {
    uint64_t place = 0;
    size_t written = 0;
    char buffer[64];
    uint32_t leases = 9;
    open_service(3);
    EXPECT(MISUSED, wakhurmi_hand_back(service, 0));
    EXPECT(MISUSED, wakhurmi_enter(service, 0));
    EXPECT(MISUSED, wakhurmi_leave(service, 0));
    EXPECT(OK, wakhurmi_take(service, 0, zero, 1));
    EXPECT(BUSY, wakhurmi_try_take(service, 1, zero, 1));
    EXPECT(OK, wakhurmi_take(service, 0, one, 1));
    EXPECT(OK, wakhurmi_try_take(service, 1, NULL, 0));
    EXPECT(BUSY, wakhurmi_try_take(service, 2, NULL, 0));
    EXPECT(OK, wakhurmi_leases_out(service, &leases));
    demand(leases == 2, "two leases are out");
    EXPECT(OK, wakhurmi_enter(service, 0));
    EXPECT(MISUSED, wakhurmi_take(service, 0, NULL, 0));
    EXPECT(MISUSED, wakhurmi_hand_back(service, 0));
    EXPECT(OK, wakhurmi_leave(service, 0));
    EXPECT(MISUSED, wakhurmi_history(service, &place, buffer, sizeof buffer, &written));
    EXPECT(OK, wakhurmi_finish(service));
    EXPECT(MISUSED, wakhurmi_finish(service));
    EXPECT(MISUSED, wakhurmi_take(service, 0, NULL, 0));
    EXPECT(BAD_NUMBER, wakhurmi_take(service, 3, NULL, 0));
    EXPECT(MISUSED, wakhurmi_stop(service));
    EXPECT(MISUSED, wakhurmi_leases_out(service, &leases));
    EXPECT(BAD_NUMBER, wakhurmi_history(service, &place, buffer, 10, &written));
    EXPECT(BAD_NUMBER, wakhurmi_history(service, &place, NULL, 0, &written));
    demand(place == 0 && written == 0, "a small buffer");
    demand(count_entries() == 7, "entries");
    wakhurmi_close(service);
    open_service(3);
    wakhurmi_close(service);
    wakhurmi_close(NULL);
}

static void check_null_pointers(void) {
    uint64_t place = 0;
    size_t written = 0;
    char buffer[64];
    EXPECT(MISUSED, wakhurmi_open(1, 1, 1, NULL));
    EXPECT(MISUSED, wakhurmi_take(NULL, 0, NULL, 0));
    EXPECT(MISUSED, wakhurmi_take_until(NULL, 0, NULL, 0, &long_past));
    EXPECT(MISUSED, wakhurmi_try_take(NULL, 0, NULL, 0));
    EXPECT(MISUSED, wakhurmi_hand_back(NULL, 0));
    EXPECT(MISUSED, wakhurmi_enter(NULL, 0));
    EXPECT(MISUSED, wakhurmi_leave(NULL, 0));
    EXPECT(MISUSED, wakhurmi_leave_until(NULL, 0, &long_past));
    EXPECT(MISUSED, wakhurmi_stop(NULL));
    EXPECT(MISUSED, wakhurmi_leases_out(NULL, &(uint32_t){0}));
    EXPECT(MISUSED, wakhurmi_finish(NULL));
    EXPECT(MISUSED, wakhurmi_history(NULL, &place, buffer, sizeof buffer, &written));
    open_service(1);
    EXPECT(MISUSED, wakhurmi_take(service, 0, NULL, 1));
    EXPECT(MISUSED, wakhurmi_try_take(service, 0, NULL, 1));
    EXPECT(MISUSED, wakhurmi_take_until(service, 0, NULL, 1, &long_past));
    EXPECT(MISUSED, wakhurmi_take_until(service, 0, NULL, 0, NULL));
    EXPECT(MISUSED, wakhurmi_leave_until(service, 0, NULL));
    EXPECT(MISUSED, wakhurmi_leases_out(service, NULL));
    EXPECT(OK, wakhurmi_finish(service));
    EXPECT(MISUSED, wakhurmi_history(service, NULL, buffer, sizeof buffer, &written));
    EXPECT(MISUSED, wakhurmi_history(service, &place, NULL, 1, &written));
    EXPECT(MISUSED, wakhurmi_history(service, &place, buffer, sizeof buffer, NULL));
    demand(count_entries() == 0, "no entry");
    wakhurmi_close(service);
}

static void *take_zero(void *worker) { return (void *)(size_t)wakhurmi_take(service, (uint32_t)(size_t)worker, zero, 1); }

static void *leave_section(void *worker) { return (void *)(size_t)wakhurmi_leave(service, (uint32_t)(size_t)worker); }

static void *take_zero_until(void *until) { return (void *)(size_t)wakhurmi_take_until(service, 1, zero, 1, until); }

/* For a moment the thread that started this one may be in a call with worker 1. */
static void *take_zero_by_one(void *argument) {
    wakhurmi_answer answer;
    (void)argument;
    while ((answer = wakhurmi_take(service, 1, zero, 1)) == WAKHURMI_MISUSED) sleep_for(MILLISECOND);
    return (void *)(size_t)answer;
}

/* Has a thread wait for lock 0 as worker 1. A call that would be refused else tells when it is in its call. */
static pthread_t start_waiter(void) {
    pthread_t waiter = start(take_zero_by_one, NULL);
    while (wakhurmi_try_take(service, 1, high, 1) == WAKHURMI_BAD_NUMBER) sleep_for(MILLISECOND);
    sleep_for(50 * MILLISECOND);
    return waiter;
}

/* Worker 1 waits for what worker 0 has. Meanwhile nobody else may use worker 1, and the service can't be ended. */
static void check_worker_in_a_call(void) {
    uint32_t leases = 9;
    open_service(2);
    EXPECT(OK, wakhurmi_take(service, 0, zero, 1));
    pthread_t waiter = start_waiter();
    EXPECT(MISUSED, wakhurmi_take(service, 1, NULL, 0));
    EXPECT(MISUSED, wakhurmi_try_take(service, 1, NULL, 0));
    EXPECT(MISUSED, wakhurmi_take_until(service, 1, NULL, 0, &long_past));
    EXPECT(MISUSED, wakhurmi_hand_back(service, 1));
    EXPECT(MISUSED, wakhurmi_enter(service, 1));
    EXPECT(MISUSED, wakhurmi_leave(service, 1));
    EXPECT(MISUSED, wakhurmi_finish(service));
    EXPECT(OK, wakhurmi_leases_out(service, &leases));
    demand(leases == 1, "one lease is out");
    EXPECT(OK, wakhurmi_hand_back(service, 0));
    demand(result_of(waiter) == WAKHURMI_OK, "who waited got it");
    EXPECT(OK, wakhurmi_hand_back(service, 1));
    close_ended();
}

static atomic_uint made;

/* All threads of a crowd use one worker. A take that fits and one that doesn't answer one of these. */
static void *share_a_worker(void *argument) {
    (void)argument;
    for (int round = 0; round < ROUNDS; round++) {
        wakhurmi_answer taken = wakhurmi_take(service, 0, zero, 1);
        wakhurmi_answer back = wakhurmi_hand_back(service, 0);
        demand(taken == WAKHURMI_OK || taken == WAKHURMI_MISUSED, "a take of a shared worker");
        demand(back == WAKHURMI_OK || back == WAKHURMI_MISUSED, "a hand-back of a shared worker");
        atomic_fetch_add(&made, (unsigned)(taken == WAKHURMI_OK) + (unsigned)(back == WAKHURMI_OK));
    }
    return NULL;
}

static void check_shared_worker(void) {
    pthread_t crowd[CROWD];
    open_service(1);
    for (size_t at = 0; at < CROWD; at++) crowd[at] = start(share_a_worker, NULL);
    for (size_t at = 0; at < CROWD; at++) pthread_join(crowd[at], NULL);
    EXPECT(OK, wakhurmi_finish(service));
    demand(count_entries() == atomic_load(&made), "an entry for each call that was done");
    wakhurmi_close(service);
}

static atomic_int worked;

static void *work(void *worker) {
    for (int round = 0; round < ROUNDS; round++) {
        EXPECT(OK, wakhurmi_take(service, (uint32_t)(size_t)worker, NULL, 0));
        EXPECT(OK, wakhurmi_hand_back(service, (uint32_t)(size_t)worker));
    }
    atomic_store(&worked, 1);
    return NULL;
}

/* One tries to end the service while another waits. That keeps nobody from a call. */
static void check_early_end(void) {
    open_service(3);
    EXPECT(OK, wakhurmi_take(service, 2, zero, 1));
    pthread_t waiter = start_waiter();
    pthread_t worker = start(work, NULL);
    while (!atomic_load(&worked)) EXPECT(MISUSED, wakhurmi_finish(service));
    pthread_join(worker, NULL);
    EXPECT(OK, wakhurmi_hand_back(service, 2));
    demand(result_of(waiter) == WAKHURMI_OK, "who waited got it");
    close_ended();
}

/* What the child of a fork says of its parent's service, and of one of its own. */
static void be_a_child(void) {
    uint64_t place = 0;
    size_t written = 0;
    char buffer[64];
    EXPECT(MISUSED, wakhurmi_take(service, 0, NULL, 0));
    EXPECT(MISUSED, wakhurmi_hand_back(service, 0));
    EXPECT(MISUSED, wakhurmi_stop(service));
    EXPECT(MISUSED, wakhurmi_leases_out(service, &(uint32_t){0}));
    EXPECT(MISUSED, wakhurmi_finish(service));
    EXPECT(MISUSED, wakhurmi_history(service, &place, buffer, sizeof buffer, &written));
    wakhurmi_close(service);
    EXPECT(MISUSED, wakhurmi_enter(service, 0));
    wakhurmi_service *own;
    EXPECT(OK, wakhurmi_open(1, 1, 1, &own));
    EXPECT(OK, wakhurmi_take(own, 0, zero, 1));
    EXPECT(OK, wakhurmi_hand_back(own, 0));
    EXPECT(OK, wakhurmi_finish(own));
    wakhurmi_close(own);
    // At an exit a tool would judge what the parent's other threads had. So the child becomes another program.
    execlp("true", "true", (char *)NULL);
}

static void check_fork(void) {
    int status;
    open_service(2);
    EXPECT(OK, wakhurmi_take(service, 0, zero, 1));
    pthread_t waiter = start(take_zero, (void *)1);
    sleep_for(50 * MILLISECOND);
    pid_t child = fork();
    if (child == 0) be_a_child();
    demand(waitpid(child, &status, 0) == child && WIFEXITED(status) && WEXITSTATUS(status) == 0, "the child of a fork");
    EXPECT(OK, wakhurmi_hand_back(service, 0));
    demand(result_of(waiter) == WAKHURMI_OK, "the parent's call goes on");
    close_ended();
}

/* A call that comes too late, in time, and never. */
static void check_deadlines(void) {
    struct timespec soon, late = after(100 * SECOND), wrong = {late.tv_sec, SECOND}, negative = {late.tv_sec, -1};
    open_service(3);
    EXPECT(BAD_NUMBER, wakhurmi_take_until(service, 1, NULL, 0, &wrong));
    EXPECT(BAD_NUMBER, wakhurmi_leave_until(service, 1, &negative));
    EXPECT(OK, wakhurmi_take_until(service, 0, both, 2, &long_past));
    EXPECT(TIMED_OUT, wakhurmi_take_until(service, 1, one, 1, &long_past));
    soon = after(200 * MILLISECOND);
    long begin = nanoseconds_of(CLOCK_THREAD_CPUTIME_ID);
    EXPECT(TIMED_OUT, wakhurmi_take_until(service, 1, zero, 1, &soon));
    demand(nanoseconds_of(CLOCK_THREAD_CPUTIME_ID) - begin < 20 * MILLISECOND, "who waits for a deadline sleeps");
    demand(!is_before(after(0), soon) && is_before(after(0), late), "the deadline has passed, and not much more");
    EXPECT(MISUSED, wakhurmi_hand_back(service, 1));
    EXPECT(OK, wakhurmi_enter(service, 0));
    EXPECT(OK, wakhurmi_take_until(service, 1, zero, 1, &late));
    EXPECT(TIMED_OUT, wakhurmi_leave_until(service, 0, &long_past));
    soon = after(60 * MILLISECOND);
    EXPECT(TIMED_OUT, wakhurmi_leave_until(service, 0, &soon));
    EXPECT(MISUSED, wakhurmi_hand_back(service, 0));
    EXPECT(OK, wakhurmi_hand_back(service, 1));
    EXPECT(OK, wakhurmi_leave_until(service, 0, &long_past));
    pthread_t waiter = start(take_zero_until, &late);
    sleep_for(50 * MILLISECOND);
    EXPECT(OK, wakhurmi_hand_back(service, 0));
    demand(result_of(waiter) == WAKHURMI_OK && is_before(after(0), late), "got before the deadline");
    EXPECT(OK, wakhurmi_hand_back(service, 1));
    EXPECT(OK, wakhurmi_finish(service));
    demand(count_entries() == 8, "no entry of a call that timed out");
    wakhurmi_close(service);
}

static void *stop(void *argument) {
    (void)argument;
    return (void *)(size_t)wakhurmi_stop(service);
}

static void *take_one_by_zero(void *argument) {
    (void)argument;
    return (void *)(size_t)wakhurmi_take(service, 0, one, 1);
}

/* All workers wait: two for each other, one to leave, and one with a deadline. Stops from any number of threads without a worker end that. */
static void check_stops(void) {
    struct timespec late = after(100 * SECOND);
    pthread_t crowd[CROWD];
    uint32_t leases = 9;
    open_service(4);
    EXPECT(OK, wakhurmi_take(service, 2, one, 1));
    EXPECT(OK, wakhurmi_enter(service, 2));
    EXPECT(OK, wakhurmi_take(service, 0, zero, 1));
    EXPECT(OK, wakhurmi_take(service, 3, one, 1));
    pthread_t waiters[4] = {start(take_one_by_zero, NULL), start(take_zero_until, &late), start(leave_section, (void *)2), start(take_zero, (void *)3)};
    sleep_for(50 * MILLISECOND);
    EXPECT(OK, wakhurmi_leases_out(service, &leases));
    demand(leases == 2, "two leases are out while all wait");
    for (size_t at = 0; at < CROWD; at++) crowd[at] = start(stop, NULL);
    for (size_t at = 0; at < CROWD; at++) demand(result_of(crowd[at]) == WAKHURMI_OK, "stopped");
    for (size_t at = 0; at < 4; at++) demand(result_of(waiters[at]) == WAKHURMI_STOPPED, "who waited hears of the stop");
    EXPECT(STOPPED, wakhurmi_take(service, 1, zero, 1));
    EXPECT(STOPPED, wakhurmi_take_until(service, 1, zero, 1, &long_past));
    EXPECT(BUSY, wakhurmi_try_take(service, 1, zero, 1));
    EXPECT(OK, wakhurmi_hand_back(service, 3));
    EXPECT(OK, wakhurmi_leave(service, 2));
    EXPECT(OK, wakhurmi_hand_back(service, 2));
    EXPECT(OK, wakhurmi_take(service, 1, NULL, 0));
    close_ended();
}

/* A stop before anybody waits is heard by the first who would, without any wake. A stop without a mark would be heard by nobody, and the
 * deadline would end the call. */
static void check_stop_beforehand(void) {
    struct timespec soon = after(SECOND);
    open_service(2);
    EXPECT(OK, wakhurmi_stop(service));
    EXPECT(OK, wakhurmi_take(service, 0, zero, 1));
    EXPECT(STOPPED, wakhurmi_take_until(service, 1, zero, 1, &soon));
    EXPECT(STOPPED, wakhurmi_take(service, 1, zero, 1));
    close_ended();
}

static atomic_bool is_served, may_end;
static atomic_int rounds;
static atomic_long longest;
static bool first_leaves, later_leaves;

/* Has worker 1 in a section whose leave takes both locks. It took them one after the other, and calls that were refused have changed nothing. */
static void enter_with_both(void) {
    EXPECT(OK, wakhurmi_take(service, 1, one, 1));
    EXPECT(BAD_NUMBER, wakhurmi_take(service, 1, high, 1));
    EXPECT(OK, wakhurmi_try_take(service, 1, zero, 1));
    EXPECT(MISUSED, wakhurmi_leave(service, 1));
    EXPECT(OK, wakhurmi_enter(service, 1));
    EXPECT(MISUSED, wakhurmi_take(service, 1, high, 1));
    EXPECT(OK, wakhurmi_take(service, 0, zero, 1));
    EXPECT(TIMED_OUT, wakhurmi_leave_until(service, 1, &long_past));
}

static void *get_both(void *argument) {
    (void)argument;
    EXPECT(OK, first_leaves ? wakhurmi_leave(service, 1) : wakhurmi_take(service, 1, both, 2));
    atomic_store(&is_served, true);
    while (!atomic_load(&may_end)) sleep_for(MILLISECOND);
    return (void *)(size_t)wakhurmi_hand_back(service, 1);
}

/* Worker 2 gets the second lock again and again, until worker 1 has been served, and notes for how long it waits in nanoseconds at most. */
static void *get_one_again(void *argument) {
    (void)argument;
    if (later_leaves) {
        EXPECT(OK, wakhurmi_take(service, 2, one, 1));
        EXPECT(OK, wakhurmi_enter(service, 2));
    }
    while (!atomic_load(&is_served)) {
        long begin = now();
        EXPECT(OK, later_leaves ? wakhurmi_leave(service, 2) : wakhurmi_take(service, 2, one, 1));
        long length = now() - begin;
        if (length > atomic_load(&longest)) atomic_store(&longest, length);
        EXPECT(OK, later_leaves ? wakhurmi_enter(service, 2) : wakhurmi_hand_back(service, 2));
        atomic_fetch_add(&rounds, 1);
    }
    return NULL;
}

/* Who waits for two locks is queued, also while one of them is free most of the time: who wants that one later is kept back, but not for
 * longer than a tenth of a second. Once the other lock is handed back the one that is queued goes first. There are leases for all, so it's the
 * locks that the queued one waits for. */
static void check_queue(void) {
    EXPECT(OK, wakhurmi_open(3, 3, LOCKS, &service));
    atomic_store(&is_served, false);
    atomic_store(&may_end, false);
    atomic_store(&longest, 0);
    if (first_leaves) {
        enter_with_both();
    } else {
        EXPECT(OK, wakhurmi_take(service, 0, zero, 1));
    }
    pthread_t first = start(get_both, NULL);
    sleep_for(20 * MILLISECOND);
    pthread_t later = start(get_one_again, NULL);
    for (int looks = 0; atomic_load(&longest) < 90 * MILLISECOND; looks++) {
        demand(looks < 3000, "who comes later is kept back");
        sleep_for(10 * MILLISECOND);
    }
    int before = atomic_load(&rounds);
    EXPECT(OK, wakhurmi_hand_back(service, 0));
    while (!atomic_load(&is_served)) sleep_for(MILLISECOND);
    demand(atomic_load(&rounds) <= before + 2, "who is queued goes first");
    atomic_store(&may_end, true);
    result_of(later);
    demand(atomic_load(&longest) < 10 * SECOND, "and is so for a while alone");
    demand(result_of(first) == WAKHURMI_OK, "handed back");
    close_ended();
}

/* A leave is queued and kept back as a take. */
static void check_queues(void) {
    for (int turn = 0; turn < 4; turn++) {
        first_leaves = turn / 2 == 1;
        later_leaves = turn % 2 == 1;
        check_queue();
    }
}

int main(void) {
    // Where a call hangs, nobody else would end this.
    alarm(LIMIT);
    check_numbers();
    check_limits();
    check_places();
    check_null_pointers();
    check_worker_in_a_call();
    check_shared_worker();
    check_early_end();
    check_fork();
    check_deadlines();
    check_stop_beforehand();
    check_stops();
    check_queues();
    return 0;
}
