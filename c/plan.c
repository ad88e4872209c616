/* Plans, and workers that are told what to do next. No proof covers this file. What a worker does next, and the entry which that makes, is one call of
 * the proved library, which never waits and says whom it wakes.
 *
 * Each worker has a seat with a count of rings. A worker that is to wait reads the count, then looks, and the look notes it as asleep in the very hold
 * that finds nothing; then it sleeps while the count is the same. No wake-up of it is lost:
 *   1. A later hold that could let it go on finds the note, since the notes lie with the book, and names it, or some worker looks, whose own hold is
 *      still to come and ends by the same rule. That is proved (`Planned`): between two holds somebody looks, or nobody sleeps that could go on. Who
 *      looks is inside a call of this file on its way to a hold, and never in the caller's code: only behind a task that was skipped or ended, items
 *      that were queued, and the wait for them that has begun, where this file looks again at once.
 *   2. Whoever was told a name rings behind that hold, before it sleeps, goes on or returns.
 *   3. The sleeper read the count before its hold. A ring for the note comes later, and changes the number that it compares.
 *   4. The mutex is held between the comparison and the wait. `asleep` and `rings` are sequentially consistent: who rings and reads that it isn't
 *      asleep has raised the count before the sleeper compares it.
 * A ring that comes late costs a look. A stop is noted first and then rings each seat: who sleeps had not read the note before its hold, so its ring is
 * still to come. Whoever counts the leases by the handle of a sleeper takes its note back, and rings it.
 *
 * `wakhurmi_done` leaves its worker away, as the caller may come no more: the closing wakes another for the work that it could do itself a moment
 * later. `wakhurmi_done_next` does both in one hold, and wakes nobody in vain. */
#define _GNU_SOURCE
#include "planned.h"
#include <stdlib.h>
#include <string.h>

/* The use of `held` is EMPTY, or IN_CALL while a call has it. */
struct wakhurmi_plan {
    slot held;
    unsigned forks;
};

/* ---- plans */

static bool claim_plan(wakhurmi_plan *plan) {
    return plan != NULL && is_of_this_process(plan->forks) && claim_at_once(&plan->held, EMPTY, IN_CALL);
}

static wakhurmi_answer answer_of(uint32_t answer) {
    switch (answer) {
    case CYCLE: return WAKHURMI_CYCLE;
    case TOO_MANY: return WAKHURMI_TOO_MANY;
    case STUCK: return WAKHURMI_MISUSED;
    default: return (wakhurmi_answer)answer;
    }
}

wakhurmi_answer wakhurmi_make_plan(uint32_t locks, wakhurmi_plan **made) {
    if (made == NULL) return WAKHURMI_MISUSED;
    if (!wakhurmi_has_forks_counted()) return WAKHURMI_NO_MEMORY;
    wakhurmi_plan *plan = aligned_alloc(_Alignof(wakhurmi_plan), sizeof *plan);
    if (plan == NULL) return WAKHURMI_NO_MEMORY;
    memset(plan, 0, sizeof *plan);
    plan->forks = atomic_load(&wakhurmi_forks);
    uint32_t answer = wakhurmi_c_make_plan(&plan->held.held, locks);
    if (answer == WAKHURMI_OK) {
        *made = plan;
    } else {
        free(plan);
    }
    return answer_of(answer);
}

/* The call with a plan is over. */
static wakhurmi_answer let_plan_go(wakhurmi_plan *plan, uint32_t answer) {
    let_go(&plan->held, EMPTY);
    return answer_of(answer);
}

wakhurmi_answer wakhurmi_plan_task(wakhurmi_plan *plan, uint32_t lock, uint32_t *task) {
    if (task == NULL || !claim_plan(plan)) return WAKHURMI_MISUSED;
    return let_plan_go(plan, wakhurmi_c_plan_task(&plan->held.held, lock, task));
}

wakhurmi_answer wakhurmi_plan_after(wakhurmi_plan *plan, uint32_t task, const uint32_t *before, size_t count) {
    static const uint32_t nothing[1];
    if ((before == NULL && count > 0) || !claim_plan(plan)) return WAKHURMI_MISUSED;
    return let_plan_go(plan, wakhurmi_c_plan_after(&plan->held.held, task, before == NULL ? nothing : before, count));
}

wakhurmi_answer wakhurmi_plan_action(wakhurmi_plan *plan, uint32_t task, wakhurmi_retention retention, uint32_t items, bool fetch) {
    if (!claim_plan(plan)) return WAKHURMI_MISUSED;
    return let_plan_go(plan, wakhurmi_c_plan_action(&plan->held.held, task, retention, items, fetch));
}

void wakhurmi_close_plan(wakhurmi_plan *plan) {
    if (plan == NULL || !is_of_this_process(plan->forks)) return;
    wakhurmi_c_close_plan(&plan->held.held);
    free(plan);
}

/* ---- seats */

wakhurmi_seat *wakhurmi_make_seats(uint32_t count) {
    wakhurmi_seat *seats = aligned_alloc(_Alignof(wakhurmi_seat), count * sizeof *seats);
    if (seats == NULL) return NULL;
    memset(seats, 0, count * sizeof *seats);
    for (uint32_t number = 0; number < count; number++) {
        wakhurmi_seat *seat = &seats[number];
        if (pthread_mutex_init(&seat->mutex, NULL) == 0) {
            if (pthread_cond_init(&seat->bell, NULL) == 0) continue;
            pthread_mutex_destroy(&seat->mutex);
        }
        wakhurmi_free_seats(seats, number);
        return NULL;
    }
    return seats;
}

void wakhurmi_free_seats(wakhurmi_seat *seats, uint32_t count) {
    for (uint32_t number = 0; seats != NULL && number < count; number++) {
        pthread_cond_destroy(&seats[number].bell);
        pthread_mutex_destroy(&seats[number].mutex);
    }
    free(seats);
}

/* Where nobody sleeps there is no call of the system. */
static void ring(wakhurmi_seat *seat) {
    atomic_fetch_add(&seat->rings, 1);
    if (!atomic_load(&seat->asleep)) return;
    pthread_mutex_lock(&seat->mutex);
    pthread_cond_signal(&seat->bell);
    pthread_mutex_unlock(&seat->mutex);
}

static void sleep_while(wakhurmi_seat *seat, unsigned known) {
    int state;
    pthread_setcancelstate(PTHREAD_CANCEL_DISABLE, &state);
    pthread_mutex_lock(&seat->mutex);
    atomic_store(&seat->asleep, true);
    while (atomic_load(&seat->rings) == known) pthread_cond_wait(&seat->bell, &seat->mutex);
    atomic_store(&seat->asleep, false);
    pthread_mutex_unlock(&seat->mutex);
    pthread_setcancelstate(state, NULL);
}

void wakhurmi_ring_all(wakhurmi_service *service) {
    for (uint32_t worker = 0; worker < service->count; worker++) ring(&service->seats[worker]);
}

/* Rings whom a hold named. */
static void deliver(wakhurmi_service *service, plan_told said) {
    if (said.wakes_all) {
        wakhurmi_ring_all(service);
        return;
    }
    if (said.wakes != NONE) ring(&service->seats[said.wakes]);
    if (said.wakes_too != NONE) ring(&service->seats[said.wakes_too]);
}

/* ---- workers */

typedef enum { NEXT, DONE, DONE_NEXT, PLAN_ENTER, PLAN_LEAVE } plan_deed;

typedef struct {
    plan_deed what;
    bool sleeps; /* Whether it waits. */
    bool passed;
    uint64_t number;
} plan_request;

static plan_told look_once_planned(slot *own, plan_request asked, plan_work *work) {
    plan_told said;
    go_in();
    switch (asked.what) {
    case NEXT: said = wakhurmi_c_next(&own->held, asked.sleeps, work); break;
    case DONE: said = wakhurmi_c_done(&own->held, asked.sleeps, asked.passed, asked.number); break;
    case DONE_NEXT: said = wakhurmi_c_done_next(&own->held, asked.sleeps, asked.passed, asked.number, work); break;
    case PLAN_ENTER: said = wakhurmi_c_plan_enter(&own->held); break;
    default: said = wakhurmi_c_plan_leave(&own->held, asked.sleeps); break;
    }
    go_out();
    return said;
}

/* Looks until no other worker is inside. */
static plan_told look_planned(slot *own, plan_request asked, plan_work *work) {
    plan_told said = look_once_planned(own, asked, work);
    for (unsigned looks = 1; said.answer == AGAIN; looks++) {
        wait_a_moment(looks);
        said = look_once_planned(own, asked, work);
    }
    return said;
}

static void tell_plan_stop(slot *own) {
    go_in();
    wakhurmi_c_plan_stop(&own->held);
    go_out();
}

/* Does what is asked, and waits where it is to. `closed` says whether a unit was closed on the way. */
static uint32_t go_through(wakhurmi_service *service, uint32_t worker, plan_request asked, plan_work *work, bool *closed) {
    slot *own = &service->workers[worker];
    wakhurmi_seat *seat = &service->seats[worker];
    for (;;) {
        unsigned known = atomic_load(&seat->rings);
        if (atomic_load(&service->stopped)) tell_plan_stop(own);
        plan_told said = look_planned(own, asked, work);
        deliver(service, said);
        if (said.answer == GOES_ON) {
            *closed = *closed || asked.what == DONE_NEXT;
            asked.what = NEXT;
            continue;
        }
        if (said.answer != WAKHURMI_BUSY || !asked.sleeps) return said.answer;
        let_go(own, ASLEEP);
        sleep_while(seat, known);
        claim(own, ASLEEP, IN_CALL);
    }
}

/* What a caller sees of work. */
static wakhurmi_work shown(plan_work found) { return (wakhurmi_work){found.what, found.task, found.action, found.item, found.passed}; }

/* A call of a worker. `work` is null where none is told. */
static wakhurmi_answer perform_planned(wakhurmi_service *service, uint32_t worker, plan_request asked, wakhurmi_work *work) {
    if (!is_ours(service)) return WAKHURMI_MISUSED;
    if (worker >= service->count) return WAKHURMI_BAD_NUMBER;
    slot *own = &service->workers[worker];
    if (!claim(own, EMPTY, IN_CALL)) return WAKHURMI_MISUSED;
    plan_work found = {.what = WAKHURMI_CLOSED, .task = NONE, .action = NONE, .item = NONE};
    bool closed = false;
    uint32_t answer = go_through(service, worker, asked, &found, &closed);
    if (work != NULL && (answer == WAKHURMI_OK || closed)) *work = shown(found);
    let_go(own, EMPTY);
    return answer_of(answer);
}

/* A service without a plan has nothing to do. */
static wakhurmi_answer ask_next(wakhurmi_service *service, uint32_t worker, plan_request asked, wakhurmi_work *work) {
    if (work == NULL || !is_ours(service)) return WAKHURMI_MISUSED;
    if (service->is_planned) return perform_planned(service, worker, asked, work);
    if (worker >= service->count) return WAKHURMI_BAD_NUMBER;
    if (has_ended(service)) return WAKHURMI_MISUSED;
    *work = (wakhurmi_work){WAKHURMI_ENDED, NONE, NONE, NONE, false};
    return WAKHURMI_OK;
}

wakhurmi_answer wakhurmi_next(wakhurmi_service *service, uint32_t worker, wakhurmi_work *work) {
    return ask_next(service, worker, (plan_request){.what = NEXT, .sleeps = true}, work);
}

wakhurmi_answer wakhurmi_try_next(wakhurmi_service *service, uint32_t worker, wakhurmi_work *work) {
    return ask_next(service, worker, (plan_request){.what = NEXT}, work);
}

wakhurmi_answer wakhurmi_done(wakhurmi_service *service, uint32_t worker, bool passed, uint64_t number) {
    if (!is_ours(service) || !service->is_planned) return WAKHURMI_MISUSED;
    return perform_planned(service, worker, (plan_request){DONE, true, passed, number}, NULL);
}

wakhurmi_answer wakhurmi_done_next(wakhurmi_service *service, uint32_t worker, bool passed, uint64_t number, wakhurmi_work *work) {
    if (work == NULL || !is_ours(service) || !service->is_planned) return WAKHURMI_MISUSED;
    return perform_planned(service, worker, (plan_request){DONE_NEXT, true, passed, number}, work);
}

wakhurmi_answer wakhurmi_enter_planned(wakhurmi_service *service, uint32_t worker) {
    return perform_planned(service, worker, (plan_request){.what = PLAN_ENTER}, NULL);
}

wakhurmi_answer wakhurmi_leave_planned(wakhurmi_service *service, uint32_t worker) {
    return perform_planned(service, worker, (plan_request){.what = PLAN_LEAVE, .sleeps = true}, NULL);
}

uint32_t wakhurmi_count_planned(wakhurmi_service *service, uint32_t worker, uint32_t *leases) {
    plan_told said = wakhurmi_c_plan_leases_out(&service->workers[worker].held, leases);
    deliver(service, said);
    if (said.answer == WAKHURMI_OK) ring(&service->seats[worker]);
    return said.answer;
}

/* ---- a service over a plan, and its outcomes */

/* Gives a service its handles and its seats, and begins it. */
static uint32_t open_seated(wakhurmi_plan *plan, wakhurmi_service *service, uint32_t max_leases) {
    service->is_planned = true;
    uint32_t answer = wakhurmi_c_open_plan(&plan->held.held, max_leases, service->handles, service->count);
    if (answer != WAKHURMI_OK) return answer;
    service->seats = wakhurmi_make_seats(service->count);
    return wakhurmi_begin_service(service, max_leases, UINT64_MAX) ? WAKHURMI_OK : WAKHURMI_NO_MEMORY;
}

wakhurmi_answer wakhurmi_open_plan(wakhurmi_plan *plan, uint32_t workers, uint32_t max_leases, wakhurmi_service **opened) {
    if (opened == NULL) return WAKHURMI_MISUSED;
    if (workers < 1 || workers > MAX_WORKERS) return WAKHURMI_BAD_NUMBER;
    if (!claim_plan(plan)) return WAKHURMI_MISUSED;
    wakhurmi_service *service = wakhurmi_allocate(workers);
    uint32_t answer = service == NULL ? WAKHURMI_NO_MEMORY : open_seated(plan, service, max_leases);
    let_go(&plan->held, EMPTY);
    if (answer == WAKHURMI_OK) {
        *opened = service;
    } else {
        wakhurmi_give_up(service);
    }
    return answer_of(answer);
}

/* What is told of a task or a unit. */
static wakhurmi_answer tell_outcome(wakhurmi_service *service, uint32_t answer, plan_outcome found, wakhurmi_outcome *outcome, uint64_t *number) {
    let_go(&service->book, EMPTY);
    if (answer == WAKHURMI_OK) {
        *outcome = (wakhurmi_outcome)found.outcome;
        if (number != NULL) *number = found.number;
    }
    return answer_of(answer);
}

wakhurmi_answer wakhurmi_task_outcome(wakhurmi_service *service, uint32_t task, wakhurmi_outcome *outcome) {
    if (outcome == NULL || !is_ours(service) || !claim(&service->book, EMPTY, IN_CALL)) return WAKHURMI_MISUSED;
    plan_outcome found;
    uint32_t answer = wakhurmi_c_task_outcome(&service->book.held, task, &found);
    return tell_outcome(service, answer, found, outcome, NULL);
}

wakhurmi_answer wakhurmi_item_outcome(wakhurmi_service *service, uint32_t task, uint32_t action, uint32_t item, wakhurmi_outcome *outcome,
                                      uint64_t *number) {
    if (outcome == NULL || !is_ours(service) || !claim(&service->book, EMPTY, IN_CALL)) return WAKHURMI_MISUSED;
    plan_outcome found;
    uint32_t answer = wakhurmi_c_item_outcome(&service->book.held, task, action, item, &found);
    return tell_outcome(service, answer, found, outcome, number);
}
