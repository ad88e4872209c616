/* A plan run on threads that are made here. No proof covers this file: it makes calls of the header alone. */
#define _GNU_SOURCE
#include "wakhurmi.h"
#include <pthread.h>
#include <stdlib.h>

typedef struct {
    wakhurmi_service *service;
    wakhurmi_do work;
    void *context;
} team;

typedef struct {
    const team *of;
    uint32_t worker;
    bool is_made;
    pthread_t thread;
    wakhurmi_answer answer;
} member;

static bool is_unit(const wakhurmi_work *work) { return work->what == WAKHURMI_ITEM || work->what == WAKHURMI_FETCH; }

/* Does what is next until all tasks have ended, or there is no more work. A worker without memory stops the others. */
static void *work_through(void *of) {
    member *own = of;
    const team *all = own->of;
    wakhurmi_work work = {0};
    wakhurmi_answer answer = wakhurmi_next(all->service, own->worker, &work);
    while (answer == WAKHURMI_OK && work.what != WAKHURMI_ENDED) {
        uint64_t number = 0;
        bool passed = all->work(all->context, all->service, own->worker, &work, &number);
        answer = is_unit(&work) ? wakhurmi_done_next(all->service, own->worker, passed, number, &work)
                                : wakhurmi_next(all->service, own->worker, &work);
    }
    if (answer != WAKHURMI_OK) wakhurmi_stop(all->service);
    own->answer = answer;
    return NULL;
}

/* What came of a run whose workers answered so: of want of memory, misuse and a stop the first that a worker has. */
static wakhurmi_answer came_of(const member *members, uint32_t count) {
    static const wakhurmi_answer worst[] = {WAKHURMI_NO_MEMORY, WAKHURMI_MISUSED, WAKHURMI_STOPPED};
    for (size_t at = 0; at < sizeof worst / sizeof *worst; at++) {
        for (uint32_t number = 0; number < count; number++) {
            if (members[number].answer == worst[at]) return worst[at];
        }
    }
    return WAKHURMI_OK;
}

/* The first worker is the caller's thread. A thread that can't be made is left out. */
static wakhurmi_answer work_together(const team *all, member *members, uint32_t count) {
    for (uint32_t number = 0; number < count; number++) members[number] = (member){.of = all, .worker = number};
    for (uint32_t number = 1; number < count; number++) {
        members[number].is_made = pthread_create(&members[number].thread, NULL, work_through, &members[number]) == 0;
    }
    work_through(&members[0]);
    for (uint32_t number = 1; number < count; number++) {
        if (members[number].is_made) pthread_join(members[number].thread, NULL);
    }
    return came_of(members, count);
}

wakhurmi_answer wakhurmi_run(wakhurmi_plan *plan, uint32_t threads, uint32_t max_leases, wakhurmi_do work, void *context,
                             wakhurmi_service **service) {
    if (work == NULL || service == NULL) return WAKHURMI_MISUSED;
    team all = {NULL, work, context};
    wakhurmi_answer answer = wakhurmi_open_plan(plan, threads, max_leases, &all.service);
    if (answer != WAKHURMI_OK) return answer;
    member *members = calloc(threads, sizeof *members);
    answer = members == NULL ? WAKHURMI_NO_MEMORY : work_together(&all, members, threads);
    free(members);
    bool came = answer == WAKHURMI_OK || answer == WAKHURMI_STOPPED;
    if (came && wakhurmi_finish(all.service) != WAKHURMI_OK) {
        answer = WAKHURMI_NO_MEMORY;
        came = false;
    }
    if (came) {
        *service = all.service;
    } else {
        wakhurmi_close(all.service);
    }
    return answer;
}
