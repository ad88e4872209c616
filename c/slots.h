/* Slots: who touches a handle of the proved library, and how calls that meet wait for a moment.
 *
 * The proved library asks that one call at a time has a handle. So each lies in a slot, whose use says who has it. Between calls it says
 * what the worker has: it is EMPTY, or IN_SECTION, or HOLDING a lease. A call changes it to IN_CALL by one compare-and-exchange, and back as
 * the last thing that it does with the service. A second call with this worker, and wakhurmi_finish, find it IN_CALL and answer MISUSED.
 * While a call sleeps it doesn't touch the handle, and the use is ASLEEP. wakhurmi_leases_out and wakhurmi_take_history have a handle that no
 * call touches LENT to them for one call of the proved library, and wakhurmi_finish has all; who finds the own handle LENT looks again after a
 * moment. From the end of the service on they are GONE. The handles of a book and of parts lie in slots too, and are EMPTY where no call has
 * them.
 * The exchange acquires and the change back releases, so a call sees what the one before it did to the handle.
 *
 * A call that finds another worker inside looks again after a pause or a short nap. Nobody wakes it, so there is no wake-up to lose. */
#ifndef WAKHURMI_SLOTS_H
#define WAKHURMI_SLOTS_H
#include <pthread.h>
#include <stdatomic.h>
#include <stdbool.h>
#include <stddef.h>
#include <stdint.h>
#include <time.h>

/* What the proved library exports. A handle is emptied and filled by its calls alone. An empty one is all zeros. */
typedef struct {
    void *at;
    bool full;
} handle;

typedef struct {
    uint32_t answer;
    bool wakes;
} told;

/* Answers of the proved library that no caller of this one sees. */
enum { REFUSED = 2, AGAIN = 4 };

uint32_t wakhurmi_c_open(uint32_t max_leases, uint32_t locks, bool all_projects, handle *workers, size_t count);
told wakhurmi_c_take(handle *worker, const uint32_t *locks, size_t count);
told wakhurmi_c_try_take(handle *worker, const uint32_t *locks, size_t count);
told wakhurmi_c_take_uses(handle *worker, const uint32_t *maxima, size_t of, const uint32_t *services, size_t count);
told wakhurmi_c_try_take_uses(handle *worker, const uint32_t *maxima, size_t of, const uint32_t *services, size_t count);
told wakhurmi_c_hand_back(handle *worker);
told wakhurmi_c_enter(handle *worker);
told wakhurmi_c_leave(handle *worker);
uint32_t wakhurmi_c_stop(handle *worker);
uint32_t wakhurmi_c_leases_out(handle *worker, uint32_t *leases);
uint32_t wakhurmi_c_parked(handle *worker, size_t place, uint32_t *lock);
uint32_t wakhurmi_c_close(handle *worker);
uint32_t wakhurmi_c_finish(handle *workers, size_t count, handle *book);
uint32_t wakhurmi_c_history(handle *book, uint64_t part, uint8_t *buffer, size_t size, size_t *written);
uint32_t wakhurmi_c_close_book(handle *book);
uint32_t wakhurmi_c_take_history(handle *worker, handle *part);
uint32_t wakhurmi_c_part(handle *part, uint64_t line, uint8_t *buffer, size_t size, size_t *written);
uint32_t wakhurmi_c_empty_part(handle *part);
uint32_t wakhurmi_c_close_part(handle *part);

/* A worker that takes or gives back a lock or two is inside for less than a microsecond. With many locks it is longer by their number,
 * and by some microseconds where the system has to give its history new memory. So a call that finds it there pauses before it looks
 * again, each time twice as long, and after so many looks it naps before each. Naps come where the worker inside doesn't get a
 * processor, and where workers do little between their calls. There a call that looked again at once would take the book's cache lines
 * from the worker inside, and each would slow the other: so one worker makes many calls, and then the next one does. Both lengths are
 * nanoseconds. */
#define LOOKS 8
#define FIRST_PAUSE 150
#define NAP 50000
#define SECOND 1000000000
/* So often a call looks again, behind such pauses, before it sleeps: for some 2 microseconds, where to sleep and to be woken takes 10 or more. */
#define LOOKS_BEFORE_SLEEP 4

/* While the use is one of the first four no call touches the handle. */
typedef enum { EMPTY, IN_SECTION, HOLDING, ASLEEP, IN_CALL, LENT, GONE } use;

static inline bool is_untouched(use found) { return found <= ASLEEP; }

/* Each has a cache line of its own, since each call writes its worker's. */
typedef struct {
    _Alignas(64) _Atomic(use) use;
    handle held;
    int64_t until_counted; /* How many entries the worker makes until they are counted (history.c). */
    uint64_t marks; /* Of the locks or services that the worker has, or has parked (queue.h). */
    const uint32_t *maxima; /* Of the shared services, or null. */
    uint32_t services; /* How many there are. */
} slot;

/* With WAKHURMI_ONE_AT_A_TIME each call of the proved library is made under a mutex, and each use is changed by an exchange, so that tools
 * that know mutexes and exchanges alone can follow. */
#ifdef WAKHURMI_ONE_AT_A_TIME
extern pthread_mutex_t wakhurmi_inside __attribute__((visibility("hidden")));
static inline void go_in(void) { pthread_mutex_lock(&wakhurmi_inside); }
static inline void go_out(void) { pthread_mutex_unlock(&wakhurmi_inside); }
static inline void let_go(slot *held, use next) { atomic_exchange(&held->use, next); }
#else
static inline void go_in(void) {}
static inline void go_out(void) {}
static inline void let_go(slot *held, use next) { atomic_store_explicit(&held->use, next, memory_order_release); }
#endif

/* Nanoseconds of CLOCK_MONOTONIC. */
typedef int64_t moment;
#define NEVER INT64_MAX

static inline moment now(void) {
    struct timespec time;
    clock_gettime(CLOCK_MONOTONIC, &time);
    return (moment)time.tv_sec * SECOND + time.tv_nsec;
}

/* A time that is too far away to be told is never, and one before the clock's first is the first. */
static inline moment moment_of(const struct timespec *time) {
    if (time->tv_sec < 0) return 0;
    return time->tv_sec >= NEVER / SECOND ? NEVER : (moment)time->tv_sec * SECOND + time->tv_nsec;
}

static inline void pause_for(moment length) {
    moment begin = now();
    do {
#if defined(__x86_64__)
        __builtin_ia32_pause();
#elif defined(__aarch64__)
        __asm__ volatile("yield");
#endif
    } while (now() - begin < length);
}

static inline void nap(void) {
    int state;
    pthread_setcancelstate(PTHREAD_CANCEL_DISABLE, &state);
    nanosleep(&(struct timespec){.tv_nsec = NAP}, NULL);
    pthread_setcancelstate(state, NULL);
}

/* `looks` is how many were in vain. */
static inline void wait_a_moment(unsigned looks) {
    if (looks < LOOKS) {
        pause_for((moment)FIRST_PAUSE << (looks - 1));
    } else {
        nap();
    }
}

/* What stands in each call. What is seldom needed stands in functions of its own. */
#define IN_EACH_CALL static inline __attribute__((always_inline))
#define SELDOM static __attribute__((noinline, cold))

/* Changes a slot's use at once. False says that it wasn't what it had to be before. */
IN_EACH_CALL bool claim_at_once(slot *wanted, use before, use after) {
    return atomic_compare_exchange_strong_explicit(&wanted->use, &before, after, memory_order_acquire, memory_order_relaxed);
}

/* The same, and waits while the handle is lent. */
static inline bool claim(slot *wanted, use before, use after) {
    for (unsigned looks = 1;; looks++) {
        if (claim_at_once(wanted, before, after)) return true;
        use found = atomic_load(&wanted->use);
        if (found != LENT && found != before) return false;
        wait_a_moment(looks);
    }
}
#endif
