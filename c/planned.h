/* Plans and services over them: what plan.c shares with wakhurmi.c and run.c. What a worker does next, which entry that makes and whom it wakes
 * the proved library says (crates/planned_work). */
#ifndef WAKHURMI_PLANNED_H
#define WAKHURMI_PLANNED_H
#include "service.h"

/* What the proved library answers with a plan, beside the words of slots.h. */
enum { CYCLE = 11, TOO_MANY = 12, GOES_ON = 13, STUCK = 14 };

/* No worker, task, action or item. */
#define NONE UINT32_MAX

typedef struct {
    uint32_t answer;
    uint32_t wakes, wakes_too;
    bool wakes_all, wakes_takers;
} plan_told;

typedef struct {
    uint32_t what, task, action, item;
    bool passed;
} plan_work;

typedef struct {
    uint32_t outcome;
    uint64_t number;
} plan_outcome;

uint32_t wakhurmi_c_make_plan(handle *plan, uint32_t locks);
uint32_t wakhurmi_c_plan_task(handle *plan, uint32_t lock, uint32_t *task);
uint32_t wakhurmi_c_plan_after(handle *plan, uint32_t task, const uint32_t *before, size_t count);
uint32_t wakhurmi_c_plan_action(handle *plan, uint32_t task, uint32_t retention, uint32_t items, bool fetch);
uint32_t wakhurmi_c_close_plan(handle *plan);
uint32_t wakhurmi_c_open_plan(handle *plan, uint32_t max_leases, handle *workers, size_t count);
plan_told wakhurmi_c_next(handle *worker, bool sleeps, plan_work *work);
plan_told wakhurmi_c_done(handle *worker, bool sleeps, bool passed, uint64_t number);
plan_told wakhurmi_c_done_next(handle *worker, bool sleeps, bool passed, uint64_t number, plan_work *work);
plan_told wakhurmi_c_plan_enter(handle *worker);
plan_told wakhurmi_c_plan_leave(handle *worker, bool sleeps);
uint32_t wakhurmi_c_plan_stop(handle *worker);
plan_told wakhurmi_c_plan_leases_out(handle *worker, uint32_t *leases);
uint32_t wakhurmi_c_plan_close(handle *worker);
uint32_t wakhurmi_c_plan_finish(handle *workers, size_t count, handle *book);
uint32_t wakhurmi_c_task_outcome(handle *book, uint32_t task, plan_outcome *outcome);
uint32_t wakhurmi_c_item_outcome(handle *book, uint32_t task, uint32_t action, uint32_t item, plan_outcome *outcome);

/* Where a worker of a plan sleeps. Each has a cache line of its own. */
struct wakhurmi_seat {
    _Alignas(64) atomic_uint rings;
    atomic_bool asleep;
    pthread_mutex_t mutex;
    pthread_cond_t bell;
};

#pragma GCC visibility push(hidden)

/* A section of a worker of a plan. */
wakhurmi_answer wakhurmi_enter_planned(wakhurmi_service *service, uint32_t worker);
wakhurmi_answer wakhurmi_leave_planned(wakhurmi_service *service, uint32_t worker);

/* Wakes each worker of a plan, so that it hears of a stop. */
void wakhurmi_ring_all(wakhurmi_service *service);

/* Tells how many leases are out by the handle of a worker of a plan, which looks again if it sleeps. */
uint32_t wakhurmi_count_planned(wakhurmi_service *service, uint32_t worker, uint32_t *leases);

/* Seats for so many workers, or null. */
wakhurmi_seat *wakhurmi_make_seats(uint32_t count);
void wakhurmi_free_seats(wakhurmi_seat *seats, uint32_t count);

#pragma GCC visibility pop
#endif
