/* Four threads sum the squares of ten numbers, and then double the sum: the second task comes after the first. */
#include <stdio.h>
#include <wakhurmi.h>

enum { NUMBERS = 10 };

static uint64_t squares[NUMBERS];

/* The first task has an item for each number, and the second has one. */
static bool work(void *sum, wakhurmi_service *service, uint32_t worker, const wakhurmi_work *work, uint64_t *number) {
    (void)service, (void)worker;
    if (work->what == WAKHURMI_ACTION && work->task == 0) {
        for (int i = 0; i < NUMBERS; i++) *(uint64_t *)sum += squares[i];
    }
    if (work->what != WAKHURMI_ITEM) return true;
    *number = work->task == 0 ? (uint64_t)work->item * work->item : 2 * *(uint64_t *)sum;
    if (work->task == 0) squares[work->item] = *number;
    return true;
}

int main(void) {
    wakhurmi_plan *plan;
    wakhurmi_service *service;
    wakhurmi_outcome outcome;
    uint32_t first, second;
    uint64_t sum = 0, doubled;
    if (wakhurmi_make_plan(2, &plan) || wakhurmi_plan_task(plan, 0, &first) || wakhurmi_plan_task(plan, 1, &second)) return 1;
    if (wakhurmi_plan_after(plan, second, &first, 1) || wakhurmi_plan_action(plan, first, WAKHURMI_RETAIN, NUMBERS, false)) return 1;
    if (wakhurmi_plan_action(plan, second, WAKHURMI_RETAIN, 1, false) || wakhurmi_run(plan, 4, 4, work, &sum, &service)) return 1;
    if (wakhurmi_item_outcome(service, second, 0, 0, &outcome, &doubled) || outcome != WAKHURMI_PASSED) return 1;
    printf("%llu\n", (unsigned long long)doubled);
    wakhurmi_close(service);
    wakhurmi_close_plan(plan);
    return 0;
}
