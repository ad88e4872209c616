/* Services that are opened with options.
 *
 *     c_options calls                  what is refused, and what the all-projects lock and uses keep from whom; nothing is said where all is as it has to be
 *     c_options all THREADS ROUNDS     threads that take projects or all of them, and the history on standard output
 *     c_options uses THREADS ROUNDS    threads that take uses of shared services, and the history on standard output */
#include "../c_common.h"
#include <stdatomic.h>

enum { MOST = 4, PROJECTS = 3, MAX_THREADS = 32, SERVICES = 3 };

/* In nanoseconds: where a wait is sure to have begun, and where it is sure to have ended. A call is kept back for 100 ms at most. */
#define A_WHILE (SECOND / 50)
#define LONG (20 * SECOND)
#define MOST_KEPT_BACK (SECOND / 1000 * 80)

static const uint32_t maxima[SERVICES] = {2, 1, 3};

static int rounds;
static wakhurmi_service *service;
static atomic_int owners[PROJECTS];
static atomic_uint users[SERVICES];

static wakhurmi_options options_of(uint32_t workers) {
    return (wakhurmi_options){.size = sizeof(wakhurmi_options), .workers = workers, .max_leases = MOST, .locks = PROJECTS, .all_projects = true};
}

static wakhurmi_options with_maxima(uint32_t workers) {
    return (wakhurmi_options){.size = sizeof(wakhurmi_options), .workers = workers, .max_leases = MOST, .maxima = maxima, .services = SERVICES};
}

/* What isn't in its range is refused, and `opened` stays as it was. */
static void demand_ranges(void) {
    wakhurmi_service *const before = (wakhurmi_service *)&service;
    wakhurmi_service *opened = before;
    const wakhurmi_options fit = options_of(2);
    wakhurmi_options other = fit;
    EXPECT(MISUSED, wakhurmi_open_with(NULL, &opened));
    EXPECT(MISUSED, wakhurmi_open_with(&fit, NULL));
    /* Of another size no other member is read. */
    other.size--;
    other.services = 1;
    EXPECT(BAD_NUMBER, wakhurmi_open_with(&other, &opened));
    EXPECT(BAD_NUMBER, wakhurmi_open_with((const wakhurmi_options *)&(const size_t){sizeof(size_t)}, &opened));
    other = fit, other.services = 1;
    EXPECT(MISUSED, wakhurmi_open_with(&other, &opened));
    other = fit, other.workers = 0;
    EXPECT(BAD_NUMBER, wakhurmi_open_with(&other, &opened));
    other = fit, other.workers = 257;
    EXPECT(BAD_NUMBER, wakhurmi_open_with(&other, &opened));
    other = fit, other.max_leases = 0;
    EXPECT(BAD_NUMBER, wakhurmi_open_with(&other, &opened));
    other = fit, other.max_leases = 257;
    EXPECT(BAD_NUMBER, wakhurmi_open_with(&other, &opened));
    other = fit, other.locks = 65536;
    EXPECT(BAD_NUMBER, wakhurmi_open_with(&other, &opened));
    other = fit, other.locks = UINT32_MAX;
    EXPECT(BAD_NUMBER, wakhurmi_open_with(&other, &opened));
    demand(opened == before, "nothing is written where a service isn't opened");
    other = fit, other.locks = 65535;
    EXPECT(OK, wakhurmi_open_with(&other, &opened));
    wakhurmi_close(opened);
    other = fit, other.locks = 0;
    EXPECT(OK, wakhurmi_open_with(&other, &opened));
    EXPECT(OK, wakhurmi_take(opened, 0, &(uint32_t){0}, 1));
    EXPECT(BAD_NUMBER, wakhurmi_take(opened, 1, &(uint32_t){1}, 1));
    wakhurmi_close(opened);
}

/* A call of a thread of its own. */
typedef struct {
    wakhurmi_answer (*call)(uint32_t worker, const uint32_t *numbers, size_t count);
    uint32_t worker;
    const uint32_t *numbers;
    size_t count;
    wakhurmi_answer answer;
    long took;
    atomic_bool has_ended;
} waiting;

static wakhurmi_answer take(uint32_t worker, const uint32_t *numbers, size_t count) { return wakhurmi_take(service, worker, numbers, count); }
static wakhurmi_answer take_uses(uint32_t worker, const uint32_t *numbers, size_t count) { return wakhurmi_take_uses(service, worker, numbers, count); }
static wakhurmi_answer leave(uint32_t worker, const uint32_t *numbers, size_t count) {
    (void)numbers, (void)count;
    return wakhurmi_leave(service, worker);
}

static struct timespec moment_in(long nanoseconds) {
    long at = now() + nanoseconds;
    return (struct timespec){at / SECOND, at % SECOND};
}

static wakhurmi_answer take_until(uint32_t worker, const uint32_t *numbers, size_t count) {
    struct timespec deadline = moment_in(LONG);
    return wakhurmi_take_until(service, worker, numbers, count, &deadline);
}
static wakhurmi_answer take_uses_until(uint32_t worker, const uint32_t *numbers, size_t count) {
    struct timespec deadline = moment_in(LONG);
    return wakhurmi_take_uses_until(service, worker, numbers, count, &deadline);
}

static void *make_call(void *argument) {
    waiting *own = argument;
    long begin = now();
    own->answer = own->call(own->worker, own->numbers, own->count);
    own->took = now() - begin;
    atomic_store(&own->has_ended, true);
    return NULL;
}

static wakhurmi_answer stop(wakhurmi_service *of, uint32_t worker) {
    (void)worker;
    return wakhurmi_stop(of);
}

/* A call waits, until another worker's call has it answer. */
static void demand_woken(waiting call, wakhurmi_answer wanted, wakhurmi_answer (*by)(wakhurmi_service *of, uint32_t worker), uint32_t worker) {
    pthread_t thread = start(make_call, &call);
    sleep_for(A_WHILE);
    demand(!atomic_load(&call.has_ended), "a call that has to wait waits");
    EXPECT(OK, by(service, worker));
    pthread_join(thread, NULL);
    expect(wanted, call.answer, "a call that has waited");
}

/* Who waits for all projects is woken by a give-back of any lock, and who waits for a lock by one of all projects; and they hear a stop. */
static void demand_waits_for_all(void) {
    const wakhurmi_options options = options_of(3);
    static const uint32_t all[1] = {PROJECTS}, first[1] = {0}, last[1] = {PROJECTS - 1};
    const struct timespec passed = {0}, soon = moment_in(A_WHILE);
    EXPECT(OK, wakhurmi_open_with(&options, &service));
    EXPECT(OK, take(0, all, 1));
    EXPECT(TIMED_OUT, wakhurmi_take_until(service, 1, first, 1, &passed));
    EXPECT(TIMED_OUT, wakhurmi_take_until(service, 1, all, 1, &soon));
    demand_woken((waiting){.call = take, .worker = 1, .numbers = last, .count = 1}, WAKHURMI_OK, wakhurmi_enter, 0);
    EXPECT(TIMED_OUT, wakhurmi_leave_until(service, 0, &passed));
    demand_woken((waiting){.call = leave, .worker = 0}, WAKHURMI_OK, wakhurmi_hand_back, 1);
    demand_woken((waiting){.call = take_until, .worker = 2, .numbers = first, .count = 1}, WAKHURMI_OK, wakhurmi_hand_back, 0);
    demand_woken((waiting){.call = take, .worker = 1, .numbers = all, .count = 1}, WAKHURMI_OK, wakhurmi_hand_back, 2);
    EXPECT(OK, wakhurmi_enter(service, 1));
    EXPECT(OK, take(0, last, 1));
    demand_woken((waiting){.call = leave, .worker = 1}, WAKHURMI_OK, wakhurmi_enter, 0);
    demand_woken((waiting){.call = take, .worker = 2, .numbers = first, .count = 1}, WAKHURMI_STOPPED, stop, 0);
    EXPECT(STOPPED, wakhurmi_leave(service, 0));
    EXPECT(OK, wakhurmi_hand_back(service, 1));
    EXPECT(OK, wakhurmi_leave(service, 0));
    EXPECT(STOPPED, take(1, all, 1));
    wakhurmi_close(service);
}

/* Who waits for a use is woken by a give-back of any use of that service. */
static void demand_waits_for_uses(void) {
    const wakhurmi_options options = with_maxima(4);
    static const uint32_t first[1] = {0}, both[2] = {0, 1}, second[1] = {1};
    const struct timespec passed = {0}, soon = moment_in(A_WHILE), wrong = {0, SECOND};
    EXPECT(OK, wakhurmi_open_with(&options, &service));
    EXPECT(OK, take_uses(0, both, 2));
    EXPECT(OK, take_uses(1, first, 1));
    EXPECT(TIMED_OUT, wakhurmi_take_uses_until(service, 2, first, 1, &passed));
    EXPECT(TIMED_OUT, wakhurmi_take_uses_until(service, 2, second, 1, &soon));
    EXPECT(BAD_NUMBER, wakhurmi_take_uses_until(service, 2, first, 1, &wrong));
    EXPECT(MISUSED, wakhurmi_take_uses_until(service, 2, first, 1, NULL));
    EXPECT(MISUSED, wakhurmi_take_uses_until(service, 2, NULL, 1, &soon));
    demand_woken((waiting){.call = take_uses, .worker = 2, .numbers = first, .count = 1}, WAKHURMI_OK, wakhurmi_hand_back, 1);
    demand_woken((waiting){.call = take_uses_until, .worker = 3, .numbers = both, .count = 2}, WAKHURMI_OK, wakhurmi_enter, 0);
    EXPECT(TIMED_OUT, wakhurmi_leave_until(service, 0, &passed));
    demand_woken((waiting){.call = leave, .worker = 0}, WAKHURMI_OK, wakhurmi_enter, 3);
    EXPECT(OK, wakhurmi_hand_back(service, 2));
    demand_woken((waiting){.call = take_uses, .worker = 1, .numbers = both, .count = 2}, WAKHURMI_OK, wakhurmi_hand_back, 0);
    demand_woken((waiting){.call = take_uses, .worker = 2, .numbers = second, .count = 1}, WAKHURMI_STOPPED, stop, 0);
    EXPECT(OK, take_uses(0, first, 1));
    EXPECT(STOPPED, take_uses(2, first, 1));
    wakhurmi_close(service);
}

/* Two calls that wait for a use of one service get the two that are given back at once: neither has to wait for the other. */
static void demand_both_woken(void) {
    const wakhurmi_options options = with_maxima(4);
    static const uint32_t first[1] = {0};
    for (int round = 0; round < 10; round++) {
        waiting calls[2] = {{.call = take_uses_until, .numbers = first, .count = 1}, {.call = take_uses_until, .numbers = first, .count = 1}};
        pthread_t threads[2];
        EXPECT(OK, wakhurmi_open_with(&options, &service));
        for (uint32_t at = 0; at < 2; at++) EXPECT(OK, take_uses(at, first, 1));
        for (uint32_t at = 0; at < 2; at++) {
            calls[at].worker = 2 + at;
            threads[at] = start(make_call, &calls[at]);
        }
        sleep_for(A_WHILE / 2);
        for (uint32_t at = 0; at < 2; at++) EXPECT(OK, round % 2 == 0 ? wakhurmi_hand_back(service, at) : wakhurmi_enter(service, at));
        for (uint32_t at = 0; at < 2; at++) pthread_join(threads[at], NULL);
        for (uint32_t at = 0; at < 2; at++) expect(WAKHURMI_OK, calls[at].answer, "one of two calls that wait for one service");
        wakhurmi_close(service);
    }
}

/* How long a call took that was kept back for one that is queued, in nanoseconds: of the service that both use another use is free, so it goes on once
 * the queued one has what it wants. */
static long time_kept_back(void) {
    const wakhurmi_options options = with_maxima(4);
    static const uint32_t first[1] = {0}, both[2] = {0, 1}, second[1] = {1};
    waiting queued = {.call = take_uses, .worker = 1, .numbers = both, .count = 2}, kept = {.call = take_uses, .worker = 3, .numbers = first, .count = 1};
    EXPECT(OK, wakhurmi_open_with(&options, &service));
    EXPECT(OK, take_uses(0, second, 1));
    pthread_t threads[2] = {start(make_call, &queued)};
    for (int round = 0; round < 20; round++) {
        EXPECT(OK, take_uses(2, first, 1));
        sleep_for(SECOND / 1000);
        EXPECT(OK, wakhurmi_hand_back(service, 2));
    }
    sleep_for(A_WHILE);
    threads[1] = start(make_call, &kept);
    sleep_for(A_WHILE / 2);
    EXPECT(OK, wakhurmi_hand_back(service, 0));
    for (int at = 0; at < 2; at++) pthread_join(threads[at], NULL);
    expect(WAKHURMI_OK, queued.answer, "a queued call");
    expect(WAKHURMI_OK, kept.answer, "a call that was kept back");
    wakhurmi_close(service);
    return kept.took;
}

/* Else it would sleep as long as a call is kept back at most. Where the machine is busy that takes some tries. */
static void demand_kept_back_goes_on(void) {
    for (int tries = 1; time_kept_back() >= MOST_KEPT_BACK; tries++) demand(tries < 20, "a call goes on that isn't kept back any more");
}

/* Who has all projects keeps the others from each, and the other way round. */
static void demand_conflicts(void) {
    const wakhurmi_options options = options_of(3);
    const uint32_t all = PROJECTS, first = 0, second = 1;
    EXPECT(OK, wakhurmi_open_with(&options, &service));
    EXPECT(OK, wakhurmi_take(service, 0, &all, 1));
    EXPECT(BUSY, wakhurmi_try_take(service, 1, &first, 1));
    EXPECT(BUSY, wakhurmi_try_take(service, 1, &all, 1));
    EXPECT(OK, wakhurmi_take(service, 1, NULL, 0));
    EXPECT(OK, wakhurmi_take(service, 0, &first, 1));
    EXPECT(OK, wakhurmi_hand_back(service, 0));
    EXPECT(OK, wakhurmi_take(service, 1, &first, 1));
    EXPECT(OK, wakhurmi_take(service, 2, &second, 1));
    EXPECT(BUSY, wakhurmi_try_take(service, 0, &all, 1));
    EXPECT(BUSY, wakhurmi_try_take(service, 1, &all, 1));
    EXPECT(OK, wakhurmi_hand_back(service, 2));
    EXPECT(OK, wakhurmi_take(service, 1, &all, 1));
    EXPECT(BAD_NUMBER, wakhurmi_take(service, 2, &(uint32_t){PROJECTS + 1}, 1));
    wakhurmi_close(service);
}

static void demand_ranges_of_maxima(void) {
    static const uint32_t none[1] = {0}, many[1] = {33}, more[65] = {1};
    wakhurmi_options other = with_maxima(2);
    other.maxima = NULL;
    EXPECT(MISUSED, wakhurmi_open_with(&other, &service));
    other = with_maxima(2), other.services = 0;
    EXPECT(BAD_NUMBER, wakhurmi_open_with(&other, &service));
    other = with_maxima(2), other.maxima = more, other.services = 65;
    EXPECT(BAD_NUMBER, wakhurmi_open_with(&other, &service));
    other = with_maxima(2), other.maxima = none, other.services = 1;
    EXPECT(BAD_NUMBER, wakhurmi_open_with(&other, &service));
    other.maxima = many;
    EXPECT(BAD_NUMBER, wakhurmi_open_with(&other, &service));
    other = with_maxima(2), other.locks = 1;
    EXPECT(BAD_NUMBER, wakhurmi_open_with(&other, &service));
    other = with_maxima(2), other.all_projects = true;
    EXPECT(BAD_NUMBER, wakhurmi_open_with(&other, &service));
}

/* As many as may use a service at once, and no more; and what the calls are told where they don't fit. */
static void demand_uses(void) {
    const wakhurmi_options options = with_maxima(4);
    const uint32_t both[2] = {0, 2}, falling[2] = {2, 0}, first = 0, second = 1, last = 2, none = SERVICES;
    EXPECT(OK, wakhurmi_open_with(&options, &service));
    EXPECT(MISUSED, wakhurmi_take_uses(service, 0, NULL, 1));
    EXPECT(BAD_NUMBER, wakhurmi_take_uses(service, 4, &first, 1));
    EXPECT(BAD_NUMBER, wakhurmi_take_uses(service, 0, &none, 1));
    EXPECT(BAD_NUMBER, wakhurmi_take_uses(service, 0, falling, 2));
    EXPECT(BAD_NUMBER, wakhurmi_take(service, 0, &first, 1));
    EXPECT(BAD_NUMBER, wakhurmi_try_take(service, 0, &first, 1));
    EXPECT(BAD_NUMBER, wakhurmi_take(service, 4, &first, 1));
    EXPECT(OK, wakhurmi_take_uses(service, 0, both, 2));
    EXPECT(MISUSED, wakhurmi_take_uses(service, 0, &second, 1));
    EXPECT(BAD_NUMBER, wakhurmi_take(service, 0, &second, 1));
    EXPECT(OK, wakhurmi_take(service, 0, NULL, 0));
    EXPECT(OK, wakhurmi_take_uses(service, 1, &first, 1));
    EXPECT(BUSY, wakhurmi_try_take_uses(service, 2, &first, 1));
    EXPECT(OK, wakhurmi_try_take_uses(service, 2, &last, 1));
    EXPECT(OK, wakhurmi_enter(service, 1));
    EXPECT(MISUSED, wakhurmi_take_uses(service, 1, &second, 1));
    EXPECT(MISUSED, wakhurmi_take(service, 1, &second, 1));
    EXPECT(OK, wakhurmi_try_take_uses(service, 3, &first, 1));
    EXPECT(OK, wakhurmi_stop(service));
    EXPECT(STOPPED, wakhurmi_leave(service, 1));
    EXPECT(OK, wakhurmi_hand_back(service, 3));
    EXPECT(OK, wakhurmi_leave(service, 1));
    EXPECT(STOPPED, wakhurmi_take_uses(service, 3, &first, 1));
    EXPECT(OK, wakhurmi_take(service, 3, NULL, 0));
    EXPECT(OK, wakhurmi_finish(service));
    EXPECT(MISUSED, wakhurmi_take_uses(service, 3, &first, 1));
    EXPECT(MISUSED, wakhurmi_try_take_uses(service, 3, &first, 1));
    EXPECT(MISUSED, wakhurmi_take(service, 3, &first, 1));
    wakhurmi_close(service);
    EXPECT(MISUSED, wakhurmi_take_uses(NULL, 0, &first, 1));
    EXPECT(OK, wakhurmi_open(1, 1, 3, &service));
    EXPECT(BAD_NUMBER, wakhurmi_take_uses(service, 1, &first, 1));
    EXPECT(MISUSED, wakhurmi_take_uses(service, 0, &first, 1));
    EXPECT(MISUSED, wakhurmi_try_take_uses(service, 0, NULL, 0));
    wakhurmi_close(service);
}

/* The last entries are kept alone where that is asked for. */
static void demand_kept(bool drops, bool begins_with_head) {
    wakhurmi_options options = options_of(1);
    char buffer[4096];
    uint64_t place = 0;
    size_t written = 0;
    options.drops_history = drops;
    options.kept_entries = 10;
    EXPECT(OK, wakhurmi_open_with(&options, &service));
    for (int round = 0; round < 20000; round++) {
        EXPECT(OK, wakhurmi_take(service, 0, NULL, 0));
        EXPECT(OK, wakhurmi_hand_back(service, 0));
    }
    EXPECT(OK, wakhurmi_finish(service));
    EXPECT(OK, wakhurmi_history(service, &place, buffer, sizeof buffer, &written));
    demand((written >= 7 && memcmp(buffer, "history", 7) == 0) == begins_with_head, "whether a history begins with its head");
    wakhurmi_close(service);
}

/* Counts itself as the owner of some projects. */
static void work_with(const uint32_t *projects, size_t count) {
    for (size_t at = 0; at < count; at++) demand(atomic_fetch_add(&owners[projects[at]], 1) == 0, "two owners of a project");
    for (size_t at = 0; at < count; at++) atomic_fetch_sub(&owners[projects[at]], 1);
}

static void *take_rounds(void *argument) {
    static const uint32_t all[PROJECTS] = {0, 1, 2};
    uint32_t worker = (uint32_t)(size_t)argument;
    for (int round = 0; round < rounds; round++) {
        uint32_t lock = (uint32_t)(round + (int)worker) % (PROJECTS + 1);
        EXPECT(OK, wakhurmi_take(service, worker, &lock, 1));
        end_round(service, worker, lock == PROJECTS ? all : &all[lock], lock == PROJECTS ? PROJECTS : 1, round % 5 == 0, work_with);
    }
    return NULL;
}

/* Counts itself as a user of some services. */
static void use(const uint32_t *services, size_t count) {
    for (size_t at = 0; at < count; at++) demand(atomic_fetch_add(&users[services[at]], 1) < maxima[services[at]], "more users than may be");
    for (size_t at = 0; at < count; at++) atomic_fetch_sub(&users[services[at]], 1);
}

static void *use_rounds(void *argument) {
    static const uint32_t all[SERVICES] = {0, 1, 2};
    uint32_t worker = (uint32_t)(size_t)argument;
    for (int round = 0; round < rounds; round++) {
        const uint32_t *services = &all[(round + (int)worker) % SERVICES];
        size_t count = round % 7 == 0 ? (size_t)(all + SERVICES - services) : 1;
        if (round % 11 == 5) {
            wakhurmi_answer tried = wakhurmi_try_take_uses(service, worker, services, count);
            demand(tried == WAKHURMI_OK || tried == WAKHURMI_BUSY, "what a try answers");
            if (tried == WAKHURMI_BUSY) continue;
        } else {
            EXPECT(OK, wakhurmi_take_uses(service, worker, services, count));
        }
        end_round(service, worker, services, count, round % 5 == 0, use);
    }
    return NULL;
}

static void run(wakhurmi_options options, void *(*body)(void *)) {
    const uint32_t threads = options.workers;
    pthread_t started[MAX_THREADS];
    EXPECT(OK, wakhurmi_open_with(&options, &service));
    for (uint32_t at = 0; at < threads; at++) started[at] = start(body, (void *)(size_t)at);
    for (uint32_t at = 0; at < threads; at++) pthread_join(started[at], NULL);
    print_history(service);
}

int main(int count, char **words) {
    if (count == 2 && strcmp(words[1], "calls") == 0) {
        demand_ranges();
        demand_conflicts();
        demand_waits_for_all();
        demand_ranges_of_maxima();
        demand_uses();
        demand_waits_for_uses();
        demand_both_woken();
        demand_kept_back_goes_on();
        demand_kept(false, true);
        demand_kept(true, false);
        return 0;
    }
    bool takes_all = count == 4 && strcmp(words[1], "all") == 0;
    demand(takes_all || (count == 4 && strcmp(words[1], "uses") == 0), "c_options calls | all|uses THREADS ROUNDS");
    int threads = atoi(words[2]);
    rounds = atoi(words[3]);
    demand(threads >= 1 && threads <= MAX_THREADS && rounds > 0, "numbers");
    if (takes_all) {
        run(options_of((uint32_t)threads), take_rounds);
    } else {
        run(with_maxima((uint32_t)threads), use_rounds);
    }
    return 0;
}
