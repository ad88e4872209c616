/* What the files of the part in C share: a service, and what they ask of each other. */
#ifndef WAKHURMI_SERVICE_H
#define WAKHURMI_SERVICE_H
#include "wakhurmi.h"
#include "queue.h"
#include "slots.h"

/* What a service has put aside of its history, where it keeps the last entries alone. The use of `older` is LENT to who changes any of it. */
typedef struct {
    slot older;               /* The entries before those in the book. */
    handle spare;             /* Room for those that are put aside next. */
    atomic_ullong counted;    /* How many entries came since the last were put aside. Some aren't counted yet. */
    unsigned long long most;  /* So many are put aside at once. */
} kept_entries;

/* Locks, and for how many there is room. */
typedef struct {
    uint32_t *locks;
    size_t room;
} lock_list;

typedef struct wakhurmi_seat wakhurmi_seat; /* Where a worker of a plan sleeps (planned.h). */

/* A worker's call that sleeps (sleeps.h). What others read or change of it they do under the mutex, and so does its own thread. */
typedef struct {
    bool has_news;        /* It was woken, and hasn't looked since. */
    bool is_represented;  /* An earlier call takes the same, and is woken for both. */
    bool is_kept_back;    /* It waits for one that is queued. Else it looked in vain, or looks. */
    bool awaits_lease;    /* A lease may be all that it waits for. */
    bool brings_lease;    /* It was woken for a lease that was given back, and hasn't ended the look that it makes for it. */
    bool is_queued;
    lock_marks marks;     /* Of the locks that it takes. */
    uint64_t inside[MAX_WORKERS / 64]; /* Workers whose calls may have given back a lease that it didn't see, by bits. */
    int64_t came;       /* When it began. */
    unsigned overtaken; /* How many turns later calls have had meanwhile. */
    arrival call;
    /* Its own thread's alone, or constant while it sleeps. */
    bool may_be_kept_back, may_lack_lease;
    bool may_be_represented; /* All that it takes is known: the call's locks, of which there are some, and a lease. */
    bool has_slept;
    bool begins_with_look;   /* It wasn't represented from the first. */
    uint64_t given_back;     /* That of the service, when it began its look. */
    int64_t kept_until;
    int64_t turn_began; /* When the worker last got what it had slept for. */
    lock_list parked; /* The locks that a leave takes, once it has slept. */
    pthread_cond_t woken;
} sleeper;

struct wakhurmi_service {
    pthread_mutex_t mutex;
    atomic_int sleepers; /* See below. */
    atomic_bool stopped;
    bool is_planned; /* Its handles are those of a plan's workers. */
    uint32_t count, max_leases, locks;
    uint32_t all; /* The all-projects lock, or NO_LOCK. */
    uint32_t services; /* How many shared services there are. */
    uint32_t *maxima; /* Theirs, in place of locks, or null. */
    unsigned forks;
    atomic_uint usual; /* `forks`, with those of the notes below that hold. */
    queue queue; /* Under the mutex, as the next eight. */
    uint64_t arrivals, given_back; /* How many calls slept, and how often something was given back while some did. */
    uint32_t bringers;  /* So many calls bring a lease. */
    bool is_lease_left; /* One may have been given back for which nobody was woken. */
    lock_marks marks_awaited; /* Of the locks that calls which sleep take. */
    bool some_are_unsure; /* A call that doesn't wait for a lease may yet be woken for one, by who was inside. */
    uint32_t asleep_count;
    sleeper **asleep; /* The calls that sleep, or are about to, in the order in which they came. */
    slot book;
    kept_entries kept;
    /* By worker: its call that sleeps; its use and its handle, while a call has those of all workers. */
    sleeper *sleeping;
    use *uses;
    handle *handles;
    wakhurmi_seat *seats; /* One for each worker of a plan, and else null. */
    slot workers[]; /* As many as `count`. */
};

/* Notes: a call is queued; somebody asks by the handle of any worker, and asked in vain; and two that are never taken away. */
#define SOMEBODY_QUEUED (1u << 31)
#define SOMEBODY_ASKS (1u << 30)
/* It is a service over a plan: so no call of it is as most are. */
#define OVER_A_PLAN (1u << 29)
/* The same of a service with shared services. */
#define WITH_MAXIMA (1u << 28)

/* `sleepers` says in one comparison what a call that gave something back has to do yet. Each call that sleeps adds SLEEPER, and a service that
 * counts its entries begins with COUNTS_ENTRIES. So it is 0 where there is nothing to do, above 0 where somebody sleeps, and below 0 where
 * nobody does and entries are counted. */
#define SLEEPER 2
#define COUNTS_ENTRIES (-1)

/* The names that one file has for another are none of a program's. */
#pragma GCC visibility push(hidden)

/* How many forks lie between this process and the one that opened the first service. It changes while there is one thread. To ask for the
 * process's number would be a system call in each call. */
extern atomic_uint wakhurmi_forks;

/* Asks by the handle of any worker that is in no call, or asleep, until one has been asked and nobody else was inside. */
typedef uint32_t question(wakhurmi_service *service, uint32_t worker, void *about);
wakhurmi_answer wakhurmi_ask_any(wakhurmi_service *service, question *ask, void *about);

/* Whether each fork is counted from now on. */
bool wakhurmi_has_forks_counted(void);

/* A service for so many workers, without handles, or null. */
wakhurmi_service *wakhurmi_allocate(uint32_t workers);

/* Begins a service with the handles of its workers, which lie in `handles`. False says that there was no memory: they lie there yet. */
bool wakhurmi_begin_service(wakhurmi_service *service, uint32_t max_leases, uint64_t entries);

/* Closes handles that lie in `handles`, and gives back the memory of a service that hasn't begun. It takes a null pointer too. */
void wakhurmi_give_up(wakhurmi_service *service);

/* Counts the entries that a worker has made since its last were counted. The worker is in a call. */
void wakhurmi_count_entries(wakhurmi_service *service, slot *own);

/* Begins to keep the history of a service that is being opened, or its last entries. */
void wakhurmi_begin_history(wakhurmi_service *service, uint64_t entries);

/* Forgets what was put aside. */
void wakhurmi_forget_history(wakhurmi_service *service);

#pragma GCC visibility pop

static inline bool is_of_this_process(unsigned opened_at) {
    return opened_at == atomic_load_explicit(&wakhurmi_forks, memory_order_relaxed);
}

static inline bool is_ours(const wakhurmi_service *service) { return service != NULL && is_of_this_process(service->forks); }

static inline bool has_ended(wakhurmi_service *service) { return atomic_load(&service->workers[0].use) == GONE; }

static inline bool has_sleepers(wakhurmi_service *service) { return atomic_load(&service->sleepers) > 0; }

/* So many entries have been made by this worker's handle since its last were noted. */
IN_EACH_CALL void note_entries(wakhurmi_service *service, slot *own, int entries) {
    own->until_counted -= entries;
    if (own->until_counted < 0) wakhurmi_count_entries(service, own);
}
#endif
