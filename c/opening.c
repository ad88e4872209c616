/* How a service without a plan is opened: which options there may be, and which locks the proved part is asked for. No proof covers this file. */
#define _GNU_SOURCE
#include "service.h"
#include <stdlib.h>
#include <string.h>

static bool are_maxima(const uint32_t *maxima, size_t count) {
    if (count < 1 || count > MAX_SERVICES) return false;
    for (size_t at = 0; at < count; at++) {
        if (maxima[at] < 1 || maxima[at] > MAX_USES) return false;
    }
    return true;
}

static bool are_options(const wakhurmi_options *asked) {
    if (asked->workers < 1 || asked->workers > MAX_WORKERS) return false;
    if (asked->maxima == NULL) return asked->locks <= MAX_LOCKS - (asked->all_projects ? 1 : 0);
    return asked->locks == 0 && !asked->all_projects && are_maxima(asked->maxima, asked->services);
}

/* How many locks a service has: as many as its options say, or as the maxima are together. */
static uint32_t lock_count(const wakhurmi_options *asked) {
    uint32_t locks = asked->locks + (asked->all_projects ? 1 : 0);
    for (size_t at = 0; asked->maxima != NULL && at < asked->services; at++) locks += asked->maxima[at];
    return locks;
}

static bool has_maxima(wakhurmi_service *service, const wakhurmi_options *asked) {
    if (asked->maxima == NULL) return true;
    service->maxima = calloc(asked->services, sizeof *service->maxima);
    if (service->maxima == NULL) return false;
    memcpy(service->maxima, asked->maxima, asked->services * sizeof *service->maxima);
    service->services = (uint32_t)asked->services;
    return true;
}

/* The options are such as there may be, but for the number of leases, which the proved part tests. */
static wakhurmi_answer open_service(const wakhurmi_options *asked, wakhurmi_service **opened) {
    wakhurmi_service *service = wakhurmi_allocate(asked->workers);
    if (service == NULL) return WAKHURMI_NO_MEMORY;
    uint32_t answer = wakhurmi_c_open(asked->max_leases, lock_count(asked), asked->all_projects, service->handles, asked->workers);
    uint64_t entries = asked->drops_history ? asked->kept_entries : UINT64_MAX;
    bool fails = answer == WAKHURMI_OK && (!has_maxima(service, asked) || !wakhurmi_begin_service(service, asked->max_leases, entries));
    if (fails) answer = WAKHURMI_NO_MEMORY;
    if (answer != WAKHURMI_OK) {
        wakhurmi_give_up(service);
        return (wakhurmi_answer)answer;
    }
    service->locks = lock_count(asked);
    if (asked->all_projects) service->all = asked->locks;
    *opened = service;
    return WAKHURMI_OK;
}

wakhurmi_answer wakhurmi_open_with(const wakhurmi_options *options, wakhurmi_service **opened) {
    if (options == NULL || opened == NULL) return WAKHURMI_MISUSED;
    /* Options of another size may have no member behind the first. */
    if (options->size != sizeof *options) return WAKHURMI_BAD_NUMBER;
    if (options->maxima == NULL && options->services > 0) return WAKHURMI_MISUSED;
    return are_options(options) ? open_service(options, opened) : WAKHURMI_BAD_NUMBER;
}

wakhurmi_answer wakhurmi_open_keeping(uint32_t workers, uint32_t max_leases, uint32_t locks, uint64_t entries, wakhurmi_service **opened) {
    wakhurmi_options asked = {.size = sizeof asked, .workers = workers, .max_leases = max_leases, .locks = locks};
    asked.drops_history = true;
    asked.kept_entries = entries;
    return wakhurmi_open_with(&asked, opened);
}

wakhurmi_answer wakhurmi_open(uint32_t workers, uint32_t max_leases, uint32_t locks, wakhurmi_service **opened) {
    return wakhurmi_open_keeping(workers, max_leases, locks, UINT64_MAX, opened);
}
