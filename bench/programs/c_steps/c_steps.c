/* Calls that wait, made step by step in one thread, so that their steps come in the order that is said here. Tried is who is woken for a lease, and who
 * goes on that was kept back. It prints nothing where that is as c/sleeps.h says.
 *
 *     c_steps
 *
 * It has the layer's own functions, whose names c_common.h has too. */
#pragma GCC diagnostic ignored "-Wunused-function"
#include "../../../c/sleeps.h"
#include <stdio.h>

enum { WORKERS = 5, LEASES = 2, LOCKS = 2 };

static wakhurmi_service *service;
static request asked[WORKERS];
static const uint32_t locks[LOCKS] = {0, 1};

static void demand(bool holds, const char *what) {
    if (holds) return;
    fprintf(stderr, "wrong: %s\n", what);
    exit(1);
}

/* No worker's turn ends. */
static void open_service(void) {
    demand(wakhurmi_open(WORKERS, LEASES, LOCKS, &service) == WAKHURMI_OK, "opened");
    for (uint32_t worker = 0; worker < WORKERS; worker++) service->sleeping[worker].turn_began = NEVER / 2;
}

/* A worker takes a lease and so many of these locks at once. */
static void take(uint32_t worker, const uint32_t *wanted, size_t count) {
    demand(wakhurmi_take(service, worker, wanted, count) == WAKHURMI_OK, "taken at once");
}

static void hand_back(uint32_t worker) { demand(wakhurmi_hand_back(service, worker) == WAKHURMI_OK, "handed back"); }

static sleeper *call_of(uint32_t worker) { return &service->sleeping[worker]; }

/* How the next look of a call ends. */
typedef enum { KEPT, IN_VAIN, TAKEN } ending;

/* Begins a look. False says that the call is kept back. */
static bool begins(uint32_t worker) {
    claim(&service->workers[worker], ASLEEP, IN_CALL);
    if (begin_look(service, call_of(worker), false)) return true;
    let_go(&service->workers[worker], ASLEEP);
    return false;
}

static bool can_take(uint32_t worker) { return look(&service->workers[worker], asked[worker]).answer == WAKHURMI_OK; }

/* A call ends, and its worker has what it has taken, or nothing. */
static void end(uint32_t worker, bool has_taken) {
    end_sleep(service, call_of(worker), has_taken);
    let_go(&service->workers[worker], has_taken ? HOLDING : EMPTY);
}

static void end_in_vain(uint32_t worker) {
    end_vain_look(service, &service->workers[worker], call_of(worker));
    let_go(&service->workers[worker], ASLEEP);
}

static ending go_on(uint32_t worker) {
    if (!begins(worker)) return KEPT;
    bool has_taken = can_take(worker);
    if (has_taken) {
        end(worker, true);
    } else {
        end_in_vain(worker);
    }
    return has_taken ? TAKEN : IN_VAIN;
}

/* A call comes to the list of those that sleep, and hasn't looked there. */
static void come(uint32_t worker, const uint32_t *wanted, size_t count) {
    slot *held = &service->workers[worker];
    demand(claim(held, EMPTY, IN_CALL), "a call");
    asked[worker] = (request){TAKE, wanted, count, NEVER};
    held->marks = marks_of(wanted, count, NO_LOCK);
    begin_sleep(service, worker, asked[worker], EMPTY);
    let_go(held, ASLEEP);
}

static void sleep_in_vain(uint32_t worker, const uint32_t *wanted, size_t count) {
    come(worker, wanted, count);
    demand(go_on(worker) == IN_VAIN, "a look in vain");
}

/* These calls have news, by bits, and no others. */
static void demand_news(unsigned wanted, const char *what) {
    unsigned found = 0;
    for (uint32_t at = 0; at < service->asleep_count; at++) found |= (unsigned)service->asleep[at]->has_news << (service->asleep[at] - service->sleeping);
    demand(found == wanted, what);
}

#define ONLY(worker) (1u << (worker))
#define NOBODY 0u

/* Two workers have the leases, and calls of the others wait for one. */
static void open_with_three_asleep(void) {
    open_service();
    for (uint32_t worker = 0; worker < 2; worker++) take(worker, locks, 0);
    for (uint32_t worker = 2; worker < WORKERS; worker++) sleep_in_vain(worker, locks, 0);
}

/* Two leases are given back while one call is awake for the first. */
static void try_next_behind_taker(void) {
    open_with_three_asleep();
    hand_back(0);
    demand_news(ONLY(2), "the first is woken for a lease");
    hand_back(1);
    demand_news(ONLY(2), "one is awake for a lease");
    demand(go_on(2) == TAKEN, "the first lease is taken");
    demand_news(ONLY(3), "the next is woken for the lease that is left");
    demand(go_on(3) == TAKEN, "the second lease is taken");
    if (call_of(4)->has_news) demand(go_on(4) == IN_VAIN, "no lease is left");
    demand_news(NOBODY, "nobody is woken where all leases are out");
    hand_back(2);
    demand_news(ONLY(4), "the last is woken");
    demand(go_on(4) == TAKEN, "the last takes a lease");
    wakhurmi_close(service);
}

/* Those that gave leases back are quicker than the call that is woken. */
static void try_nobody_behind_one_in_vain(void) {
    open_with_three_asleep();
    for (uint32_t worker = 0; worker < 2; worker++) hand_back(worker);
    demand_news(ONLY(2), "one is awake for a lease");
    for (uint32_t worker = 0; worker < 2; worker++) take(worker, locks, 0);
    demand(go_on(2) == IN_VAIN, "all leases are out again");
    demand_news(NOBODY, "nobody is woken behind a call that found all leases out");
    hand_back(0);
    demand_news(ONLY(2), "the first is woken again");
    wakhurmi_close(service);
}

/* A call that is woken for a lease lacks a lock, or ends without. */
static void try_next_behind_others(void) {
    open_service();
    take(0, locks, 1);
    take(1, locks, 0);
    sleep_in_vain(2, locks, 1);
    for (uint32_t worker = 3; worker < WORKERS; worker++) sleep_in_vain(worker, locks, 0);
    hand_back(1);
    demand_news(ONLY(2), "the first is woken, which takes a lock too");
    demand(go_on(2) == IN_VAIN, "another has the lock");
    demand_news(ONLY(3), "the next is woken for the lease");
    demand(begins(3), "a call that looks");
    end(3, false);
    demand_news(ONLY(4), "the next is woken where one ends without the lease");
    demand(go_on(4) == TAKEN, "the lease is taken");
    demand_news(NOBODY, "nobody is woken where all leases are out");
    hand_back(0);
    demand_news(ONLY(2), "the lock wakes the call that lacks it");
    demand(go_on(2) == TAKEN, "lock and lease are taken");
    wakhurmi_close(service);
}

/* A lease is given back while a call looks. */
static void try_news_in_a_look(void) {
    open_service();
    for (uint32_t worker = 0; worker < 2; worker++) take(worker, locks, 0);
    come(2, locks, 0);
    sleep_in_vain(3, locks, 0);
    demand(begins(2) && !can_take(2), "all leases are out");
    hand_back(0);
    end_in_vain(2);
    demand_news(ONLY(2), "the call that looked is woken for the lease");
    demand(go_on(2) == TAKEN, "the lease is taken");
    wakhurmi_close(service);
}

/* A lease is given back behind the look of a call that has taken one, and hasn't left the list. */
static void try_news_behind_a_look(void) {
    open_service();
    for (uint32_t worker = 0; worker < 2; worker++) take(worker, locks, 0);
    come(2, locks, 0);
    sleep_in_vain(3, locks, 0);
    hand_back(0);
    demand(begins(2) && can_take(2), "the first lease is taken");
    demand(go_on(3) == IN_VAIN, "all leases are out");
    hand_back(1);
    end(2, true);
    demand_news(ONLY(3), "who waits is woken for the second lease");
    demand(go_on(3) == TAKEN, "the second lease is taken");
    wakhurmi_close(service);
}

static void queue_call(uint32_t worker) {
    tell_in_turn(service, call_of(worker), true);
    demand(call_of(worker)->is_queued, "queued");
}

/* A queued call keeps later ones back for a lease as long as it waits for one itself. */
static void try_kept_back_by_one_that_is(void) {
    open_service();
    take(0, locks, 1);
    sleep_in_vain(2, locks, 2);
    take(1, locks, 0);
    sleep_in_vain(3, locks + 1, 1);
    queue_call(3);
    come(4, locks, 0);
    call_of(4)->turn_began = 0; /* In its turn it wouldn't be kept back. */
    demand(go_on(4) == KEPT, "a later call is kept back for the lease");
    queue_call(2);
    hand_back(1);
    demand_news(ONLY(2) | ONLY(3), "those that are queued are woken");
    demand(go_on(3) == KEPT, "an earlier queued call takes the same lock");
    demand_news(ONLY(2) | ONLY(4), "who waits for no lease keeps nobody back for one");
    demand(go_on(2) == IN_VAIN && go_on(4) == TAKEN, "the later call takes the lease");
    wakhurmi_close(service);
}

int main(void) {
    try_next_behind_taker();
    try_nobody_behind_one_in_vain();
    try_next_behind_others();
    try_news_in_a_look();
    try_news_behind_a_look();
    try_kept_back_by_one_that_is();
    return 0;
}
