/* Plans that are made by numbers, run on threads through the C interface, and compared with a reckoning of one's own.
 *
 *     c_plan run PLANS THREADS        so many plans, each on so many threads with fewer leases: what ran, where, and each outcome; 0 threads stand for
 *                                     1 to 32, by the plan's number
 *     c_plan history PLANS THREADS [FIRST]
 *                                     the same; prints each plan as a line of JSON, and behind it its history, for examples/plan-in-c/replay.py. The
 *                                     plans' numbers begin with FIRST, or 0
 *     c_plan calls                    each call in each state of a worker; refusals of a plan; a worker that comes to no more call
 *     c_plan stop ROUNDS              a stop from another thread at some moment, and by one worker behind each of its calls
 *     c_plan tasks THREADS TASKS      so many tasks of an item each; prints nanoseconds a task by the clock and by processor
 *     c_plan items THREADS ITEMS [M]  so many items that work for M microseconds, 0 where it isn't there; prints the same
 *
 * Nothing is printed where all is well, but by history, tasks and items. */
#include <pthread.h>
#include <stdatomic.h>
#include <stdio.h>
#include <stdlib.h>
#include <string.h>
#include <time.h>
#include <wakhurmi.h>

enum { TASKS = 24, ACTIONS = 3, ITEMS = 6, LOCKS = 5, MOST_NAMES = 4 };

#define FETCH UINT32_MAX

static void demand(bool holds, const char *what) {
    if (holds) return;
    fprintf(stderr, "not so: %s\n", what);
    exit(1);
}

/* ---- plans by numbers */

typedef struct {
    wakhurmi_retention retention;
    uint32_t items;
    bool fetch;
} action;

typedef struct {
    uint32_t lock, names, actions;
    uint32_t after[MOST_NAMES];
    action action[ACTIONS];
} task;

typedef struct {
    uint64_t state;
    uint32_t tasks, leases;
    task task[TASKS];
    uint32_t faulty, salt; /* One unit in so many fails, or none for 0; which, the salt says. */
    /* What happened. */
    atomic_uint closed[TASKS][ACTIONS][ITEMS + 1];
    atomic_uint started[TASKS];
    atomic_int owners[LOCKS + 1], leased;
} plan;

static uint32_t draw(plan *of, uint32_t below) {
    of->state = of->state * UINT64_C(6364136223846793005) + UINT64_C(1442695040888963407);
    return (uint32_t)(of->state >> 33) % below;
}

static void draw_task(plan *of, uint32_t number) {
    task *to = &of->task[number];
    to->lock = draw(of, 8) == 0 ? WAKHURMI_ALL_PROJECTS : draw(of, LOCKS);
    to->names = number == 0 ? 0 : draw(of, MOST_NAMES);
    for (uint32_t name = 0; name < to->names; name++) to->after[name] = draw(of, number);
    to->actions = draw(of, ACTIONS + 1);
    for (uint32_t place = 0; place < to->actions; place++) {
        wakhurmi_retention retention = place + 1 == to->actions ? draw(of, 3) : draw(of, 2) * 2;
        to->action[place] = (action){retention, 1 + draw(of, ITEMS), draw(of, 3) == 0};
    }
}

static void draw_plan(plan *of, uint64_t seed) {
    memset(of, 0, sizeof *of);
    of->state = seed * UINT64_C(0x9E3779B97F4A7C15) + 1;
    of->tasks = 1 + draw(of, TASKS);
    of->faulty = draw(of, 2) * 37;
    of->salt = draw(of, 1000);
    for (uint32_t number = 0; number < of->tasks; number++) draw_task(of, number);
}

static wakhurmi_plan *made(const plan *of) {
    wakhurmi_plan *to;
    demand(wakhurmi_make_plan(LOCKS, &to) == WAKHURMI_OK, "a plan");
    for (uint32_t number = 0; number < of->tasks; number++) {
        const task *from = &of->task[number];
        uint32_t given;
        demand(wakhurmi_plan_task(to, from->lock, &given) == WAKHURMI_OK && given == number, "a task");
        demand(wakhurmi_plan_after(to, number, from->after, from->names) == WAKHURMI_OK, "names");
        for (uint32_t place = 0; place < from->actions; place++) {
            const action *one = &from->action[place];
            demand(wakhurmi_plan_action(to, number, one->retention, one->items, one->fetch) == WAKHURMI_OK, "an action");
        }
    }
    return to;
}

/* ---- the reckoning */

static bool passes(const plan *of, uint32_t number, uint32_t place, uint32_t item) {
    if (of->faulty == 0) return true;
    uint32_t mixed = (of->salt + number * 31 + place * 17 + (item == FETCH ? 7 : item)) * UINT32_C(2654435761);
    return (mixed >> 16) % of->faulty != 0;
}

static bool action_passes(const plan *of, uint32_t number, uint32_t place) {
    const action *one = &of->task[number].action[place];
    bool all = !one->fetch || passes(of, number, place, FETCH);
    for (uint32_t item = 0; item < one->items; item++) all = all && passes(of, number, place, item);
    return all;
}

/* By the outcomes of the tasks before. */
static wakhurmi_outcome reckoned(const plan *of, uint32_t number, const wakhurmi_outcome *before) {
    const task *one = &of->task[number];
    for (uint32_t name = 0; name < one->names; name++) {
        if (before[one->after[name]] != WAKHURMI_PASSED) return WAKHURMI_SKIPPED;
    }
    for (uint32_t place = 0; place < one->actions; place++) {
        if (!action_passes(of, number, place)) return WAKHURMI_FAILED;
    }
    return WAKHURMI_PASSED;
}

static void compare_unit(plan *of, wakhurmi_service *service, uint32_t number, uint32_t place, uint32_t item, bool ran) {
    wakhurmi_outcome got;
    uint64_t value = 0;
    demand(wakhurmi_item_outcome(service, number, place, item, &got, &value) == WAKHURMI_OK, "an item's outcome");
    bool passed = passes(of, number, place, item);
    demand(got == (!ran ? WAKHURMI_SKIPPED : passed ? WAKHURMI_PASSED : WAKHURMI_FAILED), "the outcome of an item");
    demand(got != WAKHURMI_PASSED || value == (item == FETCH ? 99 : item), "the number of an item");
    unsigned closed = atomic_load(&of->closed[number][place][item == FETCH ? ITEMS : item]);
    demand(closed == (ran ? 1u : 0u), "each unit is closed once, or never");
}

static void compare(plan *of, wakhurmi_service *service) {
    wakhurmi_outcome before[TASKS];
    for (uint32_t number = 0; number < of->tasks; number++) {
        const task *one = &of->task[number];
        wakhurmi_outcome got;
        before[number] = reckoned(of, number, before);
        demand(wakhurmi_task_outcome(service, number, &got) == WAKHURMI_OK && got == before[number], "the outcome of a task");
        bool ran = before[number] != WAKHURMI_SKIPPED;
        demand(atomic_load(&of->started[number]) == (ran ? 1u : 0u), "each task is started once, or never");
        for (uint32_t place = 0; place < one->actions; place++) {
            if (one->action[place].fetch) compare_unit(of, service, number, place, FETCH, ran);
            for (uint32_t item = 0; item < one->action[place].items; item++) compare_unit(of, service, number, place, item, ran);
            ran = ran && action_passes(of, number, place);
        }
    }
}

/* ---- the work */

/* What each task's worker holds is counted, so that two owners of a lock or too many leases are seen. */
static void hold(plan *of, uint32_t number, int by) {
    const task *one = &of->task[number];
    uint32_t lock = one->lock == WAKHURMI_ALL_PROJECTS ? LOCKS : one->lock;
    int owners = atomic_fetch_add(&of->owners[lock], by) + by;
    demand(owners >= 0 && owners <= 1, "a lock has one owner");
    if (by > 0 && lock == LOCKS) {
        for (uint32_t other = 0; other < LOCKS; other++) demand(atomic_load(&of->owners[other]) == 0, "all projects are one's own");
    }
}

static void lease(plan *of, int by) {
    int leased = atomic_fetch_add(&of->leased, by) + by;
    demand(leased >= 0 && leased <= (int)of->leases, "no more leases than may be");
}

/* Work of a task's own, between two calls. It may step aside. */
static void work_alone(plan *of, wakhurmi_service *service, uint32_t worker, uint32_t number) {
    hold(of, number, 1);
    lease(of, 1);
    lease(of, -1);
    hold(of, number, -1);
    if ((number + worker) % 3 != 0) return;
    demand(wakhurmi_enter(service, worker) == WAKHURMI_OK && wakhurmi_leave(service, worker) == WAKHURMI_OK, "a section");
}

static bool do_work(void *context, wakhurmi_service *service, uint32_t worker, const wakhurmi_work *work, uint64_t *number) {
    plan *of = context;
    switch (work->what) {
    case WAKHURMI_TASK:
        atomic_fetch_add(&of->started[work->task], 1);
        work_alone(of, service, worker, work->task);
        return true;
    case WAKHURMI_ACTION:
        demand(work->passed == action_passes(of, work->task, work->action), "whether an action has passed");
        if (of->task[work->task].action[work->action].retention != WAKHURMI_RELEASE) work_alone(of, service, worker, work->task);
        return true;
    case WAKHURMI_FETCH:
        demand(work->item == FETCH, "a fetch has no place among the items");
        break;
    default:
        lease(of, 1);
        lease(of, -1);
        break;
    }
    atomic_fetch_add(&of->closed[work->task][work->action][work->item == FETCH ? ITEMS : work->item], 1);
    *number = work->item == FETCH ? 99 : work->item;
    return passes(of, work->task, work->action, work->item);
}

static void print_plan(const plan *of) {
    static const char *const retentions[] = {"retain", "release", "release_and_reacquire"};
    printf("{\"locks\": %d, \"tasks\": [", LOCKS);
    for (uint32_t number = 0; number < of->tasks; number++) {
        const task *one = &of->task[number];
        printf("%s{\"lock\": %u, \"after\": [", number == 0 ? "" : ", ", one->lock == WAKHURMI_ALL_PROJECTS ? LOCKS : one->lock);
        for (uint32_t name = 0; name < one->names; name++) printf("%s%u", name == 0 ? "" : ", ", one->after[name]);
        printf("], \"actions\": [");
        for (uint32_t place = 0; place < one->actions; place++) {
            const action *found = &one->action[place];
            printf("%s{\"retention\": \"%s\", \"items\": %u, \"fetch\": %s}", place == 0 ? "" : ", ", retentions[found->retention], found->items,
                   found->fetch ? "true" : "false");
        }
        printf("]}");
    }
    puts("]}");
}

static void run_plan(uint64_t seed, uint32_t most, bool prints) {
    static plan of;
    draw_plan(&of, seed);
    uint32_t threads = most > 0 ? most : 1 + (uint32_t)(seed * 7 % 32);
    of.leases = 1 + (uint32_t)(seed % threads);
    if (prints) print_plan(&of);
    wakhurmi_plan *to = made(&of);
    wakhurmi_service *service;
    demand(wakhurmi_run(to, threads, of.leases, do_work, &of, &service) == WAKHURMI_OK, "a run");
    wakhurmi_close_plan(to);
    compare(&of, service);
    char buffer[1 << 16];
    size_t written;
    for (uint64_t place = 0; prints;) {
        demand(wakhurmi_history(service, &place, buffer, sizeof buffer, &written) == WAKHURMI_OK, "a history");
        if (written == 0) break;
        fwrite(buffer, 1, written, stdout);
    }
    wakhurmi_close(service);
}

/* ---- each call in each state */

typedef enum { MAY_NEXT = 1, MAY_DONE = 2, MAY_ENTER = 4, MAY_LEAVE = 8 } may;

static void refuses(wakhurmi_service *service, unsigned allowed, const char *where) {
    wakhurmi_work work = {77, 77, 77, 77, true};
    uint32_t lock = 0;
    if (!(allowed & MAY_NEXT)) {
        demand(wakhurmi_next(service, 0, &work) == WAKHURMI_MISUSED && wakhurmi_try_next(service, 0, &work) == WAKHURMI_MISUSED, where);
    }
    if (!(allowed & MAY_DONE)) {
        demand(wakhurmi_done(service, 0, true, 0) == WAKHURMI_MISUSED && wakhurmi_done_next(service, 0, true, 0, &work) == WAKHURMI_MISUSED, where);
    }
    if (!(allowed & MAY_ENTER)) demand(wakhurmi_enter(service, 0) == WAKHURMI_MISUSED, where);
    if (!(allowed & MAY_LEAVE)) demand(wakhurmi_leave(service, 0) == WAKHURMI_MISUSED, where);
    demand(wakhurmi_take(service, 0, &lock, 1) == WAKHURMI_MISUSED && wakhurmi_try_take(service, 0, &lock, 1) == WAKHURMI_MISUSED, where);
    demand(wakhurmi_hand_back(service, 0) == WAKHURMI_MISUSED && wakhurmi_next(service, 2, &work) == WAKHURMI_BAD_NUMBER, where);
    demand(work.what == 77, "what is written stays");
}

static void comes(wakhurmi_service *service, uint32_t what) {
    wakhurmi_work work;
    demand(wakhurmi_next(service, 0, &work) == WAKHURMI_OK && work.what == what, "what is next");
}

static void make_calls(void) {
    wakhurmi_plan *to;
    wakhurmi_service *service;
    wakhurmi_work work;
    wakhurmi_outcome outcome;
    uint32_t number, leases = 0;
    demand(wakhurmi_make_plan(65536, &to) == WAKHURMI_BAD_NUMBER && wakhurmi_make_plan(1, NULL) == WAKHURMI_MISUSED, "no plan");
    demand(wakhurmi_make_plan(1, &to) == WAKHURMI_OK && wakhurmi_plan_task(to, 2, &number) == WAKHURMI_BAD_NUMBER, "no such lock");
    demand(wakhurmi_plan_task(to, 0, &number) == WAKHURMI_OK && number == 0, "a task");
    demand(wakhurmi_plan_after(to, 0, &(uint32_t){1}, 1) == WAKHURMI_BAD_NUMBER, "no such task");
    demand(wakhurmi_plan_action(to, 0, WAKHURMI_RETAIN, 0, true) == WAKHURMI_BAD_NUMBER, "no items");
    demand(wakhurmi_plan_action(to, 0, (wakhurmi_retention)3, 1, true) == WAKHURMI_BAD_NUMBER, "no such retention");
    demand(wakhurmi_plan_action(to, 0, WAKHURMI_RETAIN, 4194304, true) == WAKHURMI_TOO_MANY, "too many units");
    demand(wakhurmi_plan_action(to, 0, WAKHURMI_RELEASE_AND_REACQUIRE, 1, true) == WAKHURMI_OK, "an action");
    demand(wakhurmi_plan_action(to, 0, WAKHURMI_RELEASE, 1, false) == WAKHURMI_OK, "another");
    demand(wakhurmi_plan_action(to, 0, WAKHURMI_RETAIN, 1, false) == WAKHURMI_MISUSED, "none behind a release");
    demand(wakhurmi_open_plan(to, 257, 1, &service) == WAKHURMI_BAD_NUMBER && wakhurmi_open_plan(to, 1, 0, &service) == WAKHURMI_BAD_NUMBER, "numbers");
    demand(wakhurmi_open_plan(to, 2, 1, &service) == WAKHURMI_OK, "a service");
    demand(wakhurmi_plan_after(to, 0, &(uint32_t){0}, 1) == WAKHURMI_OK, "a task after itself");
    wakhurmi_service *none = NULL;
    demand(wakhurmi_open_plan(to, 2, 1, &none) == WAKHURMI_CYCLE && none == NULL, "a cycle is told");
    wakhurmi_close_plan(to);

    demand(wakhurmi_task_outcome(service, 0, &outcome) == WAKHURMI_MISUSED, "no outcome before the end");
    refuses(service, MAY_NEXT, "idle");
    comes(service, WAKHURMI_TASK);
    refuses(service, MAY_NEXT | MAY_ENTER, "in a task");
    demand(wakhurmi_try_next(service, 1, &work) == WAKHURMI_BUSY, "nothing for another");
    demand(wakhurmi_enter(service, 0) == WAKHURMI_OK && wakhurmi_leases_out(service, &leases) == WAKHURMI_OK && leases == 0, "a section");
    refuses(service, MAY_LEAVE, "in a section");
    demand(wakhurmi_leave(service, 0) == WAKHURMI_OK, "out of it");
    comes(service, WAKHURMI_FETCH);
    refuses(service, MAY_DONE, "in a fetch");
    demand(wakhurmi_done(service, 0, true, 5) == WAKHURMI_OK, "a fetch is done");
    comes(service, WAKHURMI_ITEM);
    refuses(service, MAY_DONE, "in an item");
    demand(wakhurmi_done_next(service, 0, true, 6, &work) == WAKHURMI_OK && work.what == WAKHURMI_ACTION && work.passed, "an action has ended");
    refuses(service, MAY_NEXT | MAY_ENTER, "behind an action");
    comes(service, WAKHURMI_ITEM);
    demand(wakhurmi_done_next(service, 0, false, 7, &work) == WAKHURMI_OK && work.what == WAKHURMI_ACTION && !work.passed, "one has failed");
    refuses(service, MAY_NEXT, "behind a release");
    comes(service, WAKHURMI_ENDED);
    comes(service, WAKHURMI_ENDED);
    refuses(service, MAY_NEXT, "at the end");
    demand(wakhurmi_finish(service) == WAKHURMI_OK && wakhurmi_next(service, 0, &work) == WAKHURMI_MISUSED, "the end");
    demand(wakhurmi_task_outcome(service, 0, &outcome) == WAKHURMI_OK && outcome == WAKHURMI_FAILED, "the task has failed");
    demand(wakhurmi_task_outcome(service, 1, &outcome) == WAKHURMI_BAD_NUMBER, "no such task");
    demand(wakhurmi_item_outcome(service, 0, 1, 1, &outcome, NULL) == WAKHURMI_BAD_NUMBER, "no such item");
    wakhurmi_close(service);

    demand(wakhurmi_open(1, 1, 0, &service) == WAKHURMI_OK && wakhurmi_next(service, 0, &work) == WAKHURMI_OK, "without a plan");
    demand(work.what == WAKHURMI_ENDED && wakhurmi_done(service, 0, true, 0) == WAKHURMI_MISUSED, "all has ended");
    wakhurmi_close(service);
}

/* A worker that begins a task and comes to no more call keeps the others from nothing else. */
static void stay_away(void) {
    wakhurmi_plan *to;
    wakhurmi_service *service;
    wakhurmi_work work;
    wakhurmi_outcome outcome;
    uint32_t task, closed = 0;
    demand(wakhurmi_make_plan(2, &to) == WAKHURMI_OK, "a plan");
    for (uint32_t lock = 0; lock < 2; lock++) {
        demand(wakhurmi_plan_task(to, lock, &task) == WAKHURMI_OK, "a task");
        demand(wakhurmi_plan_action(to, task, WAKHURMI_RETAIN, ITEMS, false) == WAKHURMI_OK, "its items");
    }
    demand(wakhurmi_open_plan(to, 2, 2, &service) == WAKHURMI_OK, "a service");
    wakhurmi_close_plan(to);
    demand(wakhurmi_next(service, 1, &work) == WAKHURMI_OK && work.what == WAKHURMI_TASK && work.task == 0, "its task");
    while (wakhurmi_try_next(service, 0, &work) == WAKHURMI_OK) {
        if (work.what != WAKHURMI_ITEM) continue;
        demand(work.task == 1 && wakhurmi_done(service, 0, true, 0) == WAKHURMI_OK, "an item of the other's");
        closed++;
    }
    demand(closed == ITEMS && wakhurmi_finish(service) == WAKHURMI_OK, "the other's items");
    demand(wakhurmi_task_outcome(service, 0, &outcome) == WAKHURMI_OK && outcome == WAKHURMI_NOT_ENDED, "its task hasn't ended");
    demand(wakhurmi_task_outcome(service, 1, &outcome) == WAKHURMI_OK && outcome == WAKHURMI_PASSED, "the other's has");
    wakhurmi_close(service);
}

/* ---- stops */

static bool is_unit(const wakhurmi_work *work) { return work->what == WAKHURMI_ITEM || work->what == WAKHURMI_FETCH; }

static wakhurmi_answer ask_on(wakhurmi_service *service, uint32_t worker, wakhurmi_work *work) {
    return is_unit(work) ? wakhurmi_done_next(service, worker, true, 9, work) : wakhurmi_next(service, worker, work);
}

/* One worker stops the service behind so many calls. It can end what it has begun, and is given no more. Whether the plan hadn't ended by then. */
static bool stop_behind(uint64_t seed, uint32_t calls) {
    static plan of;
    draw_plan(&of, seed);
    wakhurmi_plan *to = made(&of);
    wakhurmi_service *service;
    wakhurmi_work work = {.what = WAKHURMI_TASK};
    demand(wakhurmi_open_plan(to, 1, 1, &service) == WAKHURMI_OK, "a service");
    wakhurmi_close_plan(to);
    for (uint32_t call = 0; call < calls && work.what != WAKHURMI_ENDED; call++) demand(ask_on(service, 0, &work) == WAKHURMI_OK, "what is next");
    wakhurmi_work last = work;
    demand(wakhurmi_stop(service) == WAKHURMI_OK && ask_on(service, 0, &work) == WAKHURMI_STOPPED, "a stop");
    demand(work.what == (is_unit(&last) ? (uint32_t)WAKHURMI_CLOSED : last.what), "whether a unit is closed is told");
    demand(wakhurmi_try_next(service, 0, &work) == WAKHURMI_STOPPED && wakhurmi_finish(service) == WAKHURMI_OK, "no more work");
    wakhurmi_outcome outcome;
    uint64_t number;
    if (is_unit(&last)) {
        demand(wakhurmi_item_outcome(service, last.task, last.action, last.item, &outcome, &number) == WAKHURMI_OK, "the last unit");
        demand(outcome == WAKHURMI_PASSED && number == 9, "the last unit has passed");
    }
    wakhurmi_close(service);
    return last.what != WAKHURMI_ENDED;
}

static void *stop_later(void *of) {
    nanosleep(&(struct timespec){.tv_nsec = (long)(rand() % 300) * 1000}, NULL);
    wakhurmi_stop(of);
    return NULL;
}

static void *work_until_stopped(void *of) {
    wakhurmi_service *service = of;
    static atomic_uint next_worker;
    uint32_t worker = atomic_fetch_add(&next_worker, 1) % 3;
    wakhurmi_work work;
    wakhurmi_answer answer = wakhurmi_next(service, worker, &work);
    while (answer == WAKHURMI_OK && work.what != WAKHURMI_ENDED) answer = ask_on(service, worker, &work);
    demand(answer == WAKHURMI_OK || answer == WAKHURMI_STOPPED, "a stop");
    if (answer == WAKHURMI_STOPPED) demand(wakhurmi_next(service, worker, &work) != WAKHURMI_OK, "no more work");
    return NULL;
}

static void stop_once(uint64_t seed) {
    static plan of;
    draw_plan(&of, seed);
    wakhurmi_plan *to = made(&of);
    wakhurmi_service *service;
    demand(wakhurmi_open_plan(to, 3, 2, &service) == WAKHURMI_OK, "a service");
    wakhurmi_close_plan(to);
    pthread_t threads[4];
    for (int i = 0; i < 3; i++) pthread_create(&threads[i], NULL, work_until_stopped, service);
    pthread_create(&threads[3], NULL, stop_later, service);
    for (int i = 0; i < 4; i++) pthread_join(threads[i], NULL);
    demand(wakhurmi_finish(service) == WAKHURMI_OK, "the end");
    wakhurmi_close(service);
}

/* ---- items that do nothing */

static double seconds(clockid_t clock) {
    struct timespec time;
    clock_gettime(clock, &time);
    return (double)time.tv_sec + (double)time.tv_nsec * 1e-9;
}

/* Works for so many seconds of its thread's. */
static bool work_for(void *length, wakhurmi_service *service, uint32_t worker, const wakhurmi_work *work, uint64_t *number) {
    (void)service, (void)worker, (void)number;
    if (work->what != WAKHURMI_ITEM || *(double *)length == 0) return true;
    for (double begin = seconds(CLOCK_THREAD_CPUTIME_ID); seconds(CLOCK_THREAD_CPUTIME_ID) - begin < *(double *)length;) {
    }
    return true;
}

/* So many tasks, each with so many items, in as many projects as may be. Each comes after one that was made 64 tasks before. */
static void time_items(uint32_t threads, uint32_t tasks, uint32_t items, double length) {
    wakhurmi_plan *to;
    wakhurmi_service *service;
    uint32_t locks = tasks < 65535 ? tasks : 65535, number;
    demand(wakhurmi_make_plan(locks, &to) == WAKHURMI_OK, "a plan");
    for (uint32_t task = 0; task < tasks; task++) {
        demand(wakhurmi_plan_task(to, task % locks, &number) == WAKHURMI_OK, "a task");
        demand(task < 64 || wakhurmi_plan_after(to, task, &(uint32_t){task - 64}, 1) == WAKHURMI_OK, "one before");
        demand(wakhurmi_plan_action(to, task, WAKHURMI_RETAIN, items, false) == WAKHURMI_OK, "its items");
    }
    double begin = seconds(CLOCK_MONOTONIC), used = seconds(CLOCK_PROCESS_CPUTIME_ID);
    demand(wakhurmi_run(to, threads, threads, work_for, &length, &service) == WAKHURMI_OK, "a run");
    double clock = seconds(CLOCK_MONOTONIC) - begin, processor = seconds(CLOCK_PROCESS_CPUTIME_ID) - used;
    double all = (double)tasks * items;
    printf("%.0f ns by the clock, %.0f ns of processor %s\n", clock / all * 1e9, processor / all * 1e9, tasks > 1 ? "a task" : "an item");
    for (number = 0; number < tasks; number++) {
        wakhurmi_outcome outcome;
        demand(wakhurmi_task_outcome(service, number, &outcome) == WAKHURMI_OK && outcome == WAKHURMI_PASSED, "each task has passed");
    }
    wakhurmi_close(service);
    wakhurmi_close_plan(to);
}

int main(int count, char **words) {
    demand(count >= 2, "usage: c_plan run PLANS THREADS | history PLANS THREADS [FIRST] | calls | stop ROUNDS | tasks THREADS TASKS | items THREADS ITEMS [M]");
    const char *what = words[1];
    uint32_t first = count > 2 ? (uint32_t)strtoul(words[2], NULL, 10) : 1, second = count > 3 ? (uint32_t)strtoul(words[3], NULL, 10) : 1;
    if (strcmp(what, "run") == 0) {
        for (uint32_t seed = 0; seed < first; seed++) run_plan(seed, second, false);
    } else if (strcmp(what, "calls") == 0) {
        make_calls();
        stay_away();
    } else if (strcmp(what, "stop") == 0) {
        for (uint32_t round = 0; round < first; round++) stop_once(round);
        for (uint32_t calls = 0; stop_behind(first, calls); calls++) demand(calls < 10000, "an end");
    } else if (strcmp(what, "items") == 0) {
        time_items(first, 1, second, count > 4 ? strtod(words[4], NULL) * 1e-6 : 0);
    } else if (strcmp(what, "tasks") == 0) {
        time_items(first, second, 1, 0);
    } else if (strcmp(what, "history") == 0) {
        uint32_t begin = count > 4 ? (uint32_t)strtoul(words[4], NULL, 10) : 0;
        for (uint32_t seed = begin; seed < begin + first; seed++) run_plan(seed, second, true);
    } else {
        demand(false, "a word that is known");
    }
    return 0;
}
