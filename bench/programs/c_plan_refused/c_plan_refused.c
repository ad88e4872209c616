/* Refuses memory to each allocation of a plan's calls, its opening, its run and its history, one after the other. Each call that answers NO_MEMORY is
 * made again, and then all is as where nothing was refused: outcomes, and the history of one worker, byte for byte. It prints nothing where that is
 * so.
 *
 *     c_plan_refused
 *
 * It is linked with --wrap for malloc, realloc, calloc and aligned_alloc. */
#include "../c_refusing.h"
#include <unistd.h>

enum { TASKS = 6, ITEMS = 3, MOST_REFUSED = 20000, ROOM = 1 << 16, LIMIT = 600 };

void *__wrap_malloc(size_t size) { return refuses() ? NULL : __real_malloc(size); }

/* How many calls have answered NO_MEMORY. One refused allocation gives at most one. */
static int unmade;

/* Makes a call again while there is no memory. */
#define MAKE(call)                                             \
    do {                                                       \
        wakhurmi_answer answer;                                \
        while ((answer = (call)) == WAKHURMI_NO_MEMORY) ++unmade; \
        expect(WAKHURMI_OK, answer, #call);                    \
    } while (0)

static wakhurmi_plan *make_plan(void) {
    wakhurmi_plan *plan = NULL;
    MAKE(wakhurmi_make_plan(2, &plan));
    for (uint32_t number = 0; number < TASKS; number++) {
        uint32_t task = TASKS, before[] = {number - 1, number - 2};
        MAKE(wakhurmi_plan_task(plan, number == 3 ? WAKHURMI_ALL_PROJECTS : number % 2, &task));
        demand(task == number, "a refused call makes no task");
        if (number >= 2) MAKE(wakhurmi_plan_after(plan, task, before, 2));
        MAKE(wakhurmi_plan_action(plan, task, WAKHURMI_RELEASE_AND_REACQUIRE, ITEMS, number % 2 == 0));
        MAKE(wakhurmi_plan_action(plan, task, WAKHURMI_RELEASE, 1, false));
    }
    return plan;
}

/* What a call that says what is next answered: where there was no memory, the call to make says so itself. */
static void go_on(wakhurmi_service *service, wakhurmi_answer answer, wakhurmi_work *work) {
    while (answer == WAKHURMI_NO_MEMORY) {
        ++unmade;
        demand(work->what == WAKHURMI_CLOSED || work->what == WAKHURMI_ENDED, "what is closed is told, and nothing else is written");
        answer = wakhurmi_next(service, 0, work);
        if (answer == WAKHURMI_MISUSED) {
            work->what = WAKHURMI_ENDED;
            answer = wakhurmi_done_next(service, 0, true, 5, work);
        }
    }
    expect(WAKHURMI_OK, answer, "what is next");
}

static void work_through(wakhurmi_service *service) {
    wakhurmi_work work = {.what = WAKHURMI_ENDED};
    go_on(service, wakhurmi_next(service, 0, &work), &work);
    while (work.what != WAKHURMI_ENDED) {
        bool is_unit = work.what == WAKHURMI_ITEM || work.what == WAKHURMI_FETCH;
        if (work.what == WAKHURMI_TASK && work.task % 2 == 0) {
            MAKE(wakhurmi_enter(service, 0));
            MAKE(wakhurmi_leave(service, 0));
        }
        if (work.what == WAKHURMI_FETCH) {
            MAKE(wakhurmi_done(service, 0, true, 5));
            is_unit = false;
        }
        work.what = WAKHURMI_ENDED;
        go_on(service, is_unit ? wakhurmi_done_next(service, 0, true, 5, &work) : wakhurmi_next(service, 0, &work), &work);
    }
}

static void demand_outcomes(wakhurmi_service *service) {
    for (uint32_t task = 0; task < TASKS; task++) {
        wakhurmi_outcome outcome;
        uint64_t number;
        MAKE(wakhurmi_task_outcome(service, task, &outcome));
        demand(outcome == WAKHURMI_PASSED, "a task has passed");
        MAKE(wakhurmi_item_outcome(service, task, 0, ITEMS - 1, &outcome, &number));
        demand(outcome == WAKHURMI_PASSED && number == 5, "an item has passed");
    }
}

/* The history of the ended service, where `text` has room for it. */
static void read_history(wakhurmi_service *service, char *text) {
    uint64_t place = 0;
    size_t length = 0, written;
    do {
        MAKE(wakhurmi_history(service, &place, text + length, ROOM - 1 - length, &written));
        length += written;
    } while (written > 0);
    text[length] = 0;
}

static char wanted[ROOM], found[ROOM];

static void check_history(wakhurmi_service *service) {
    read_history(service, wanted[0] == 0 ? wanted : found);
    demand(found[0] == 0 || strcmp(found, wanted) == 0, "the history is the one where nothing is refused");
}

static bool check_calls(int number) {
    wakhurmi_service *service = NULL;
    refuse(number);
    unmade = 0;
    wakhurmi_plan *plan = make_plan();
    MAKE(wakhurmi_open_plan(plan, 1, 1, &service));
    work_through(service);
    MAKE(wakhurmi_finish(service));
    demand_outcomes(service);
    check_history(service);
    bool was = was_refused();
    demand(unmade <= (was ? 1 : 0), "a call has no memory only where it was refused some");
    wakhurmi_close(service);
    wakhurmi_close_plan(plan);
    return was;
}

static bool pass(void *context, wakhurmi_service *service, uint32_t worker, const wakhurmi_work *work, uint64_t *number) {
    (void)context, (void)service, (void)worker, (void)work;
    *number = 5;
    return true;
}

/* Of a run no call can be made again. Where one of its workers has no memory nothing is written. */
static bool check_run(int number) {
    wakhurmi_service *service = NULL;
    wakhurmi_plan *plan = make_plan();
    refuse(number);
    wakhurmi_answer answer = wakhurmi_run(plan, 2, 1, pass, NULL, &service);
    bool was = was_refused();
    demand((answer == WAKHURMI_OK) == (service != NULL), "a service is written where the plan has run");
    demand(answer == WAKHURMI_OK || (was && answer == WAKHURMI_NO_MEMORY), "what a run answers");
    if (answer == WAKHURMI_OK) demand_outcomes(service);
    wakhurmi_close(service);
    wakhurmi_close_plan(plan);
    return was;
}

int main(void) {
    alarm(LIMIT);
    refuse(0);
    check_calls(0);
    demand(refuse_each(check_calls, MOST_REFUSED) > 20, "a plan's calls take memory");
    demand(refuse_each(check_run, MOST_REFUSED) > 5, "a run takes memory");
    return 0;
}
