/* In which order calls that sleep get what they wait for. A part of wakhurmi.c, whose mutex is locked around each call of this one.
 *
 * Whoever looks first gets what is free, which is fast: a worker that takes again and again needs no other thread for it. But who sleeps looks
 * late, so such a worker could keep it waiting for ever. So what is free goes by turns. A worker that got what it had slept for has a turn, in which
 * it may take again. Where one gives something back whose turn has ended, or who never slept, the first call that waits for it is queued, if it
 * has slept for PATIENCE. From then on a later call is kept back, and sleeps without a look, where locks that they take conflict, or where the queued
 * one found all leases out. Locks conflict where they are the same, or one is the all-projects lock. So what becomes free comes to the one that is
 * queued, also where that takes several locks which are never free at once by chance. It is then that worker's turn.
 *
 * In a turn of another a later call may be quicker than the first. So a call that OVERTAKES later ones have overtaken is queued as soon as something is
 * given back. Thus a call waits for the turns of those that came before it, and for few others'.
 *
 * Two kinds of calls aren't kept back. That of a worker that has a lease or locks: the queued one may wait for just these. And one that
 * was kept back for KEPT_BACK in all: a worker may have a lock, and wait outside of this service for the one that is kept back. For a lease's sake
 * alone that of a worker in its turn isn't either, nor one that was woken for a lease: there may be one more free.
 *
 * A wakhurmi_leave is queued and kept back as a take of the locks that its worker had when it entered. Which these are the proved part tells when
 * such a call is about to sleep, so no other call notes what it took. */
#ifndef WAKHURMI_QUEUE_H
#define WAKHURMI_QUEUE_H
#include <stdbool.h>
#include <stddef.h>
#include <stdint.h>

#define MAX_WORKERS 256
#define MAX_LOCKS 65536
#define MAX_SERVICES 64
#define MAX_USES 32
/* In place of the all-projects lock's number, where no lock is that. */
#define NO_LOCK UINT32_MAX
/* In nanoseconds: how long a turn is at most, and how long the turns of all calls that sleep are together. Where locks are had for microseconds, to
 * hand one over to a thread that sleeps takes longer than the work: a turn has room for many such pieces. Of longer work it has one. */
#define LONGEST_TURN 2000000
#define ALL_TURNS 32000000
/* A call isn't queued before it has slept for so many nanoseconds. Where locks are had for less and seldom asked for, whoever is woken gets them
 * without that, and nobody is kept back for it. */
#define PATIENCE 2000000
/* A call that so many later ones have overtaken is queued whoever has a turn. */
#define OVERTAKES 4
#define KEPT_BACK 100000000

/* Locks by marks, of which each lock has one, and the all-projects lock has all: lists without a mark in common have no locks that conflict. */
typedef uint64_t lock_marks;

#define ALL_MARKS UINT64_MAX

/* Whether one of some locks, which strictly rise, is the all-projects lock. That is the last of a service's locks. */
static inline bool has_all(const uint32_t *locks, size_t count, uint32_t all) { return count > 0 && locks[count - 1] == all; }

static inline lock_marks marks_of(const uint32_t *locks, size_t count, uint32_t all) {
    if (has_all(locks, count, all)) return ALL_MARKS;
    lock_marks marks = 0;
    for (size_t at = 0; at < count; at++) marks |= (lock_marks)1 << (locks[at] % 64);
    return marks;
}

/* A call that sleeps. */
typedef struct {
    uint64_t number; /* The lower came earlier. */
    const uint32_t *locks; /* Those that it takes, or the services whose uses it takes. They strictly rise. */
    size_t count;
    lock_marks marks;
    bool takes_all;  /* One of them is the all-projects lock. */
    bool found_none; /* At its last look all leases were out. */
} arrival;

typedef struct {
    uint32_t length;
    const arrival **calls; /* Those that are queued, in the order in which they came. There is room for one of each worker. */
} queue;

/* Whether locks of two lists conflict. Both strictly rise. */
static inline bool have_a_conflict(const arrival *one, const arrival *other) {
    if ((one->marks & other->marks) == 0) return false;
    if (one->takes_all || other->takes_all) return true;
    for (size_t i = 0, k = 0; i < one->count && k < other->count;) {
        if (one->locks[i] == other->locks[k]) return true;
        if (one->locks[i] < other->locks[k]) {
            i++;
        } else {
            k++;
        }
    }
    return false;
}

/* Whether a call has to let one go first that came earlier: for its locks, or for a lease where it brings none that was given back for it. */
static inline bool has_to_let_go_first(const queue *all, const arrival *call, bool brings_lease) {
    for (uint32_t at = 0; at < all->length && all->calls[at]->number < call->number; at++) {
        if ((all->calls[at]->found_none && !brings_lease) || have_a_conflict(all->calls[at], call)) return true;
    }
    return false;
}

/* Queues a call, which isn't. */
static inline void queue_up(queue *all, const arrival *call) {
    uint32_t at = all->length++;
    for (; at > 0 && all->calls[at - 1]->number > call->number; at--) all->calls[at] = all->calls[at - 1];
    all->calls[at] = call;
}

/* A call leaves the queue, in which it is. */
static inline void depart(queue *all, const arrival *call) {
    uint32_t at = 0;
    while (all->calls[at] != call) at++;
    for (all->length--; at < all->length; at++) all->calls[at] = all->calls[at + 1];
}
#endif
