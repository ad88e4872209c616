/* What the programs in C share. */
#ifndef C_COMMON_H
#define C_COMMON_H
#include <pthread.h>
#include <stdbool.h>
#include <stdint.h>
#include <stdio.h>
#include <stdlib.h>
#include <string.h>
#include <time.h>
#include <wakhurmi.h>

#define SECOND 1000000000L

/* Ends the program with status 1 where something isn't as it has to be. */
static inline void demand(bool holds, const char *what) {
    if (holds) return;
    fprintf(stderr, "wrong: %s\n", what);
    exit(1);
}

static inline void expect(wakhurmi_answer wanted, wakhurmi_answer answer, const char *what) {
    if (wanted == answer) return;
    fprintf(stderr, "wrong: %s answers %d in place of %d\n", what, (int)answer, (int)wanted);
    exit(1);
}
#define EXPECT(wanted, call) expect(WAKHURMI_##wanted, call, #call)

static inline long nanoseconds_of(clockid_t clock) {
    struct timespec time;
    clock_gettime(clock, &time);
    return time.tv_sec * SECOND + time.tv_nsec;
}

static inline long now(void) { return nanoseconds_of(CLOCK_MONOTONIC); }

static inline void sleep_for(long nanoseconds) { nanosleep(&(struct timespec){nanoseconds / SECOND, nanoseconds % SECOND}, NULL); }

static inline pthread_t start(void *(*body)(void *), void *argument) {
    pthread_t thread;
    demand(pthread_create(&thread, NULL, body, argument) == 0, "a thread");
    return thread;
}

/* Whether a text begins with a number, and this stands behind it. sscanf would go through the whole text for it. */
static inline bool begins_with_number(const char *text, const char *behind, uint64_t *number) {
    char *end;
    *number = strtoull(text, &end, 10);
    return end != text && strncmp(end, behind, strlen(behind)) == 0;
}

/* One lock more than are taken: a plan's run has the all-projects lock there, and its check of the history asks for as many. */
static inline wakhurmi_service *open_to_check(size_t threads, uint32_t leases, uint32_t locks) {
    wakhurmi_service *service;
    EXPECT(OK, wakhurmi_open((uint32_t)threads, leases, locks + 1, &service));
    return service;
}

/* The rest of a round of a worker that has taken some locks or uses: works with them, and again behind a section if it enters one; then hands back. */
static inline void end_round(wakhurmi_service *service, uint32_t worker, const uint32_t *numbers, size_t count, bool enters,
                             void (*work)(const uint32_t *numbers, size_t count)) {
    work(numbers, count);
    if (enters) {
        EXPECT(OK, wakhurmi_enter(service, worker));
        EXPECT(OK, wakhurmi_leave(service, worker));
        work(numbers, count);
    }
    EXPECT(OK, wakhurmi_hand_back(service, worker));
}

/* Ends a service, prints its history, and closes it. */
static inline void print_history(wakhurmi_service *service) {
    char buffer[4096];
    uint64_t place = 0;
    size_t written;
    EXPECT(OK, wakhurmi_finish(service));
    do {
        EXPECT(OK, wakhurmi_history(service, &place, buffer, sizeof buffer, &written));
        fwrite(buffer, 1, written, stdout);
    } while (written > 0);
    wakhurmi_close(service);
}
#endif
