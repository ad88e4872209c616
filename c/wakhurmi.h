/* Worker leases and project locks for the threads of a build tool.
 *
 * A service has so many workers, numbered from 0. Each is used by one thread at a time; which thread, and whether it is always the
 * same, is the caller's affair. At most so many workers have a lease at once, and a project lock has one owner at most. Every call
 * that changes something makes one entry of a history: it happens whole or not at all.
 *
 * What is proved: all that a call does to the service, in the library that this one calls (crates/wakhurmi_c). By its contracts no
 * more leases are out than may be, no lock has two owners, an answer is the one that the state gives, and the history is lawful,
 * whatever the other threads do. What is not proved: the files in C beside this one, which wait and wake, and the caller's part below. Each
 * comment here says in words what the contract of the proved call says, and what those files add: waiting, deadlines, the tests of what
 * a call is given, and when the entries of a history are dropped.
 *
 * Misuse that is told. WAKHURMI_MISUSED is the answer to
 *   - a call that doesn't fit what its worker has: nothing, or a lease with or without locks, or a blocking section that it is in;
 *   - a call with a worker while another thread is in a call with it, and wakhurmi_finish while any thread is in a call with a worker;
 *   - a call with a part while another thread is in a call with it;
 *   - a call after the end of the service, and wakhurmi_history before it. A number that is no worker's answers BAD_NUMBER first;
 *   - a null pointer where one is needed. `locks` may be null where `count` is 0, and `buffer` where `size` is 0;
 *   - a call of the parent's service or part in the child of a fork, where wakhurmi_close and wakhurmi_close_part do nothing. The child may
 *     open a service of its own. What vfork or a bare system call makes isn't known as a child.
 *
 * The caller's part, of which nothing is told. A service is one that wakhurmi_open or a call like it gave and wakhurmi_close hasn't
 * taken, and while it is closed no other call of it runs: a second close can't be told from the first. The same holds of a part, which
 * wakhurmi_take_history gives and wakhurmi_close_part takes. Pointers are valid for what is read or written there. Numbers may be any: each
 * is tested.
 *
 * Where calls may be made. wakhurmi_stop, wakhurmi_leases_out and wakhurmi_take_history: in any thread, however many at once, whatever the
 * workers do. wakhurmi_history, wakhurmi_finish and the calls with a part: in any thread. The others: in a thread that uses the worker. None
 * in a signal handler, and none in a thread whose cancellation is asynchronous. Else a thread may be cancelled: no call is a cancellation
 * point, so the thread goes on until its call has answered, and waits no less. What its worker has then any thread may hand back, or a cleanup
 * handler.
 *
 * What calls cost. wakhurmi_open: by workers and locks. A call that takes or gives back K locks: by K, and more than in proportion above some
 * hundreds; 4,096 at once take milliseconds. One that is refused for its numbers reads them up to the first that is wrong. Where others wait one that
 * gives something back goes through them, and wakes one for the lease, and of those that wait for its locks the first of each that take the same; another
 * lock may be taken for one of its own where there are more than 64. One that takes uses looks at up to 32 locks of each service, and takes memory for
 * the time of the call. wakhurmi_leases_out and wakhurmi_finish: by workers. wakhurmi_stop: by those that wait, which all wake.
 * wakhurmi_history and wakhurmi_part_text: by the bytes written. wakhurmi_take_history: by the entries of an old part, outside the service; inside it
 * is constant. wakhurmi_close and wakhurmi_close_part: by the entries that are there.
 *
 * How much memory a history takes. An entry takes some 28 bytes, and 8 for each lock, and is kept until it is taken, or until wakhurmi_close. A
 * service that lives long has its history taken now and then, or is opened by wakhurmi_open_keeping: then it keeps the last entries alone, or hardly
 * any.
 *
 * In which order calls get what they wait for. Whoever looks first gets what is free; where nobody else waits a call looks for some 2 microseconds
 * before it sleeps. A worker that got what it had waited for has a turn: of 2 milliseconds, less where more than 15 calls wait, and as many times as
 * long for a lease as there are leases. Where a worker gives something back whose turn has ended, or who never waited, the call that waited longest for
 * it is queued, if it has waited for 2 milliseconds; so is one that 4 later ones have overtaken. From then on a later call waits for the queued one,
 * though it could be done at once, where both take one lock, or uses of one shared service, or one of them takes the all-projects lock and the other
 * any; or where the queued one found all leases out. Those aren't kept back so: wakhurmi_try_take and wakhurmi_try_take_uses; a call of a worker that
 * has a lease, as the queued one may wait for just what that worker has; any call that was kept back for 100 milliseconds, since a worker with a lock
 * may wait elsewhere for the one that is kept back; and for a lease's sake a worker in its turn. Calls that take the same locks go one behind the
 * other, and those 100 milliseconds count for the first of them. wakhurmi_leave is queued and kept back for its lease and its locks, as a take of these.
 *
 * Calls of several threads may meet inside the service. Then all but one pause, and after some 20 microseconds each naps, for 50 or more at a
 * time, until it finds nobody inside. No comment below calls that waiting, no deadline ends it, and nothing bounds how often a call naps.
 * Where wakhurmi_leases_out or wakhurmi_take_history has looked in vain for some 20 microseconds, calls that begin wait for it, for a nap at most.
 * Where threads did nothing but call, one hand-back in a hundred napped 32 to 42 times or more, and the worst 1,713 times. Where they work
 * between their calls, hardly any call naps. */
#ifndef WAKHURMI_H
#define WAKHURMI_H
#include <stdbool.h>
#include <stddef.h>
#include <stdint.h>
#ifdef __cplusplus
extern "C" {
#endif

struct timespec;
typedef struct wakhurmi_service wakhurmi_service;
typedef struct wakhurmi_part wakhurmi_part; /* Entries of a history, which were taken. */

/* After every answer but WAKHURMI_OK the worker has what it had, and what is written by a pointer is as it was. The history is longer
 * by a failed entry where wakhurmi_try_take or wakhurmi_try_take_uses answers WAKHURMI_BUSY, and else as the other workers leave it. */
typedef enum {
    WAKHURMI_OK = 0,         /* The call did what it says. */
    WAKHURMI_BUSY = 1,       /* Another worker has what the call takes. */
    WAKHURMI_STOPPED = 3,    /* The same, and the service has been stopped, so the call doesn't wait. */
    WAKHURMI_NO_MEMORY = 5,  /* There wasn't enough memory. */
    WAKHURMI_BAD_NUMBER = 6, /* A number isn't in range, or locks don't strictly rise. */
    WAKHURMI_MISUSED = 7,    /* The worker, or the service, isn't where this call may be made, or a pointer is null. */
    WAKHURMI_TIMED_OUT = 10, /* Another worker has what the call takes, and the deadline has passed. */
    WAKHURMI_CYCLE = 11,     /* A task comes after itself, or after one that does. */
    WAKHURMI_TOO_MANY = 12   /* There are as many as may be. */
} wakhurmi_answer;

/* Opens a service for 1 to 256 workers, of whom 1 to 256 may have a lease at once, with at most 65,536 project locks.
 *
 * OK          The service is written to `service`. Nobody has anything, and the history is empty.
 * BAD_NUMBER  One of the three numbers isn't in its range.
 * MISUSED     `service` is null.
 * NO_MEMORY */
wakhurmi_answer wakhurmi_open(uint32_t workers, uint32_t max_leases, uint32_t locks, wakhurmi_service **service);

/* The same for a service that keeps the last `entries` of its history alone, though nobody takes it. Older ones are dropped some thousands at
 * a time, and 0 says that hardly any are kept: there are at least so many, or all where fewer came, and hardly more than twice as many and
 * 200 for each worker. UINT64_MAX says that all are kept, as by wakhurmi_open.
 *
 * A call that makes an entry may be the one that drops the older. It does so behind its entry and waits for nobody. Its worker's call takes
 * longer by that: it goes through the entries that it drops. Others don't wait for this. */
wakhurmi_answer wakhurmi_open_keeping(uint32_t workers, uint32_t max_leases, uint32_t locks, uint64_t entries, wakhurmi_service **service);

/* What a service is opened with. `size` is sizeof(wakhurmi_options): by it a later version of this library knows which members there are. What isn't
 * set is 0 and says none, as in
 *     wakhurmi_options options = {.size = sizeof options, .workers = 8, .max_leases = 4, .locks = 100, .all_projects = true}; */
typedef struct {
    size_t size;
    uint32_t workers;    /* 1 to 256. */
    uint32_t max_leases; /* 1 to 256. */
    uint32_t locks;      /* At most 65,536 project locks, the all-projects lock included. */
    bool all_projects;   /* Whether there is one lock more, whose number is `locks`: the all-projects lock. */
    bool drops_history;  /* Whether the last `kept_entries` of the history are kept alone, as by wakhurmi_open_keeping. Else all are kept. */
    uint64_t kept_entries;
    const uint32_t *maxima; /* In place of locks: for each of some shared services how many workers may use it at once, 1 to 32. They are copied. */
    size_t services;        /* How many services there are: 1 to 64, or 0 where `maxima` is null. */
} wakhurmi_options;

/* Opens a service with options. While a worker owns the all-projects lock no other worker owns a lock. It is taken as the others are, by its number,
 * once no other worker owns one; and a call that takes another lock has to wait for its owner, or answers WAKHURMI_BUSY, as for the owner of that lock.
 *
 * A service with `maxima` has no project locks. Its workers take uses of shared services by wakhurmi_take_uses and the two calls behind it, and
 * by wakhurmi_take a lease alone. wakhurmi_hand_back gives the uses back, wakhurmi_enter parks them, and wakhurmi_leave takes them again. To the history
 * a use is a lock: service 0 has as many as its maximum from 0 on, and each other as many behind those before it. A leave takes the very locks that were
 * parked, so it may wait for a worker that has one of them while another lock of that service is free.
 *
 * OK          The service is written to `service`. Nobody has anything, and the history is empty.
 * BAD_NUMBER  `size` is another, a member isn't in its range, or there are locks beside `maxima`.
 * MISUSED     `options` or `service` is null, or `maxima` is where there are services.
 * NO_MEMORY */
wakhurmi_answer wakhurmi_open_with(const wakhurmi_options *options, wakhurmi_service **service);

/* Takes a lease and these locks in one entry: the locks that the worker doesn't own yet, and the lease where it has none. It waits
 * while another worker owns one of the locks, or the worker has no lease and as many as may be are out; and for calls that are queued, as
 * said above. `count` may be 0.
 *
 * OK          The worker has a lease, these locks, and all that it had before.
 * STOPPED     The call would have to wait, and the service has been stopped.
 * BAD_NUMBER  There is no such worker or no such lock, or the locks don't strictly rise.
 * MISUSED     As said above, or the worker is in a blocking section.
 * NO_MEMORY
 *
 * Who takes locks one call after another can wait for one who does so in another order: that is the caller's to avoid. */
wakhurmi_answer wakhurmi_take(wakhurmi_service *service, uint32_t worker, const uint32_t *locks, size_t count);

/* The same, and waits until the deadline at most, which is a time of CLOCK_MONOTONIC. With one that has passed the call doesn't wait.
 *
 * TIMED_OUT   The call would have to wait beyond the deadline. There is no entry.
 * BAD_NUMBER  As wakhurmi_take, or the deadline's nanoseconds aren't below 1,000,000,000. */
wakhurmi_answer wakhurmi_take_until(wakhurmi_service *service, uint32_t worker, const uint32_t *locks, size_t count,
                                    const struct timespec *deadline);

/* The same as wakhurmi_take without waiting, also once the service has been stopped.
 *
 * OK, BAD_NUMBER, MISUSED, NO_MEMORY   As wakhurmi_take.
 * BUSY        At the moment of its entry another worker owned one of the locks, or the worker had no lease and as many as may be were
 *             out. The history shows the failed entry. */
wakhurmi_answer wakhurmi_try_take(wakhurmi_service *service, uint32_t worker, const uint32_t *locks, size_t count);

/* Takes a lease and one use of each of these shared services in one entry, for a worker that has nothing: the lowest lock of each that nobody owns. It
 * waits while as many workers use one of them as may, or as many leases as may be are out; and for calls that are queued, as said above. `count` may be
 * 0.
 *
 * OK          The worker has a lease and the uses.
 * STOPPED     The call would have to wait, and the service has been stopped.
 * BAD_NUMBER  There is no such worker or no such shared service, or the numbers of these don't strictly rise.
 * MISUSED     As said above, or the worker has a lease or is in a blocking section, or the service was opened without `maxima`.
 * NO_MEMORY */
wakhurmi_answer wakhurmi_take_uses(wakhurmi_service *service, uint32_t worker, const uint32_t *services, size_t count);

/* The same, and waits until the deadline at most, as wakhurmi_take_until.
 *
 * TIMED_OUT   The call would have to wait beyond the deadline. There is no entry.
 * BAD_NUMBER  As wakhurmi_take_uses, or the deadline's nanoseconds aren't below 1,000,000,000. */
wakhurmi_answer wakhurmi_take_uses_until(wakhurmi_service *service, uint32_t worker, const uint32_t *services, size_t count,
                                         const struct timespec *deadline);

/* The same as wakhurmi_take_uses without waiting, also once the service has been stopped.
 *
 * OK, BAD_NUMBER, MISUSED, NO_MEMORY   As wakhurmi_take_uses.
 * BUSY        At the moment of its entry as many workers as may used one of the services, or as many leases as may be were out. The history
 *             shows the failed entry. */
wakhurmi_answer wakhurmi_try_take_uses(wakhurmi_service *service, uint32_t worker, const uint32_t *services, size_t count);

/* Hands back the lease and all locks of the worker, in one entry. It waits for no lease and no lock. What other workers have doesn't keep
 * it from that, and those that are inside the service do for a moment, as said above.
 *
 * OK          The worker has nothing.
 * BAD_NUMBER  There is no such worker.
 * MISUSED     As said above, or the worker has nothing, or is in a blocking section.
 * NO_MEMORY */
wakhurmi_answer wakhurmi_hand_back(wakhurmi_service *service, uint32_t worker);

/* Enters a blocking section, for the time in which the worker waits for something else: hands back the lease and all locks in one
 * entry, and notes the locks. It waits as little as wakhurmi_hand_back.
 *
 * OK          The worker has nothing, and is in a section.
 * BAD_NUMBER  There is no such worker.
 * MISUSED     As said above, or the worker has no lease, or is in a blocking section.
 * NO_MEMORY */
wakhurmi_answer wakhurmi_enter(wakhurmi_service *service, uint32_t worker);

/* Leaves the blocking section: takes a lease and all locks that the worker had when it entered, in one entry. It waits while another
 * worker owns one of them, or as many leases as may be are out.
 *
 * OK          The worker is in no section, and has a lease and those locks.
 * STOPPED     The call would have to wait, and the service has been stopped. The worker is in its section yet.
 * BAD_NUMBER  There is no such worker.
 * MISUSED     As said above, or the worker is in no blocking section.
 * NO_MEMORY   The worker is in its section yet. */
wakhurmi_answer wakhurmi_leave(wakhurmi_service *service, uint32_t worker);

/* The same, and waits until the deadline at most, as wakhurmi_take_until.
 *
 * TIMED_OUT   The call would have to wait beyond the deadline. The worker is in its section yet, and there is no entry.
 * BAD_NUMBER  There is no such worker, or the deadline's nanoseconds aren't below 1,000,000,000. */
wakhurmi_answer wakhurmi_leave_until(wakhurmi_service *service, uint32_t worker, const struct timespec *deadline);

/* Stops the service: a call that waits to take or to leave, or would have to wait from now on, answers STOPPED. Work that is under way goes
 * on, and all calls that needn't wait do what they did. It needs no worker and waits for none.
 *
 * OK          The service is stopped, by this call or by one that was earlier.
 * MISUSED     As said above: the service has been ended, say. */
wakhurmi_answer wakhurmi_stop(wakhurmi_service *service);

/* Tells how many leases are out. It needs no worker. Where calls of all workers are inside at once it looks again until one isn't.
 *
 * OK          So many leases were out at a moment during the call. The number is written to `leases`.
 * MISUSED     As said above: the service has been ended, say. */
wakhurmi_answer wakhurmi_leases_out(wakhurmi_service *service, uint32_t *leases);

/* Takes the history so far, while the service runs: the entries that it keeps become those of a part. The service goes on from the state as
 * it is, and keeps the entries that come. It needs no worker, and waits for none. Where calls of all workers are inside at once it looks again
 * until one isn't. What it does inside takes constant time, however many entries there are.
 *
 * `*part` is null, or a part whose entries are needed no more, of this service or another: it gets the new ones, and its room serves again. So
 * the memory of a service that lives long doesn't grow where its history is taken now and then, into two parts by turns.
 *
 * OK          The part, which isn't null, is written to `part`. It may be without entries. It doesn't need the service.
 * MISUSED     As said above: the service has been ended, say, or another thread is in a call with the part.
 * BAD_NUMBER  The history has more than 2^62 entries.
 * NO_MEMORY   Only where `*part` is null.
 * After another answer than OK the service has all entries that it had, and an old part has its own or none. */
wakhurmi_answer wakhurmi_take_history(wakhurmi_service *service, wakhurmi_part **part);

/* Writes the next whole lines of a part's text, as wakhurmi_history does. The texts of a service's parts, in the order in which they were taken,
 * and then what wakhurmi_history writes are one text: the first part that has entries begins with the head, each entry's line has its number,
 * and a part has no last line. So written behind each other they can be checked as that text.
 *
 * OK, BAD_NUMBER, NO_MEMORY   As wakhurmi_history.
 * MISUSED     As said above. */
wakhurmi_answer wakhurmi_part_text(wakhurmi_part *part, uint64_t *place, char *buffer, size_t size, size_t *written);

/* Gives a part's memory back. It takes a null pointer too, and doesn't need the service. */
void wakhurmi_close_part(wakhurmi_part *part);

/* Ends the service. What workers still have stays theirs in the history.
 *
 * OK          The history can be read from now on, and no worker can do anything.
 * MISUSED     A worker is in a call, or the service was ended before.
 * NO_MEMORY   It isn't ended. */
wakhurmi_answer wakhurmi_finish(wakhurmi_service *service);

/* Writes the next whole lines of the history's text that fit into the buffer, and how many bytes they have. `place` is 0 at first,
 * and each call moves it on. The text is what `leases run --history` prints: a head of two lines, which are written together, a line
 * for each entry, and a last one. Of a service whose history was taken it is what comes behind the parts, and where entries were dropped what
 * comes behind those: then there is no head, and the text can be read and not checked.
 *
 * `leases check PLAN` checks the text by a plan whose run has as many locks. To a plan's run the last lock is the all-projects lock, which
 * nobody may own while another worker owns a project's. Here it is a lock like the others: a history in which it was owned beside
 * another isn't lawful there. So who wants to check opens the service with one lock more, and never takes the last; or by wakhurmi_open_with
 * with the all-projects lock, which is the same lock to both.
 *
 * OK          So many bytes are written to `written`, 0 behind the last line.
 * BAD_NUMBER  The buffer is too small for the next line. A line has less than 1,800,000 bytes, and that of an entry that takes or gives
 *             back K locks less than 100 + 26 K.
 * MISUSED     The service hasn't been ended, or another thread reads the history at this moment.
 * NO_MEMORY   For a moment a call takes as much as the buffer has, and at most 16 times as much as the longest of its lines, or 1,024 bytes. */
wakhurmi_answer wakhurmi_history(wakhurmi_service *service, uint64_t *place, char *buffer, size_t size, size_t *written);

/* ---- Plans: what there is to do, and workers that are told what to do next
 *
 * A plan has tasks. Each has a project lock, or all projects, comes after other tasks, and has actions in order. An action has a number of items,
 * which run on any worker each with a lease, and perhaps a fetch before them, which the task's worker runs without one. A service over a plan says
 * to each worker what it does next, and has made the entry that this needs:
 *
 *   what             the worker has                     then it calls
 *   WAKHURMI_TASK    the task's lock and a lease        work of its own, and wakhurmi_next
 *   WAKHURMI_FETCH   neither, and runs the fetch        wakhurmi_done or wakhurmi_done_next
 *   WAKHURMI_ITEM    a lease, and runs the item         wakhurmi_done or wakhurmi_done_next
 *   WAKHURMI_ACTION  the lock and a lease again, but    work of its own, and wakhurmi_next
 *                    behind WAKHURMI_RELEASE neither
 *   WAKHURMI_ENDED   nothing: all tasks have ended      whatever it likes; wakhurmi_next says ENDED again
 *
 * A task is started once all that it comes after have passed, and skipped once one of these has failed or was skipped; that isn't told, but by
 * wakhurmi_task_outcome. The worker of a task begins each action's fetch, queues its items and runs items itself until these have ended, of its task
 * or another. What it does with its lock meanwhile its action says. Where a unit fails, the action's others run to their end, and behind the action
 * the task ends as failed. A task without items passes. Of several items, tasks to skip and tasks to start the lowest of the first sort is next.
 *
 * Which call may be made where; others answer WAKHURMI_MISUSED, make no entry and change nothing:
 *   behind nothing, ENDED, wakhurmi_done of an item, or BUSY, STOPPED or NO_MEMORY of wakhurmi_next    wakhurmi_next, wakhurmi_try_next
 *   behind TASK, ACTION with a lock, wakhurmi_done of a fetch, wakhurmi_leave                     wakhurmi_next, wakhurmi_try_next, wakhurmi_enter
 *   behind ACTION of WAKHURMI_RELEASE                                                            wakhurmi_next, wakhurmi_try_next
 *   behind ITEM or FETCH                                                                         wakhurmi_done, wakhurmi_done_next
 *   behind wakhurmi_enter                                                                        wakhurmi_leave
 * There is no section inside an item: its lock may be parked, and a section takes all up again. wakhurmi_stop, wakhurmi_leases_out and
 * wakhurmi_finish are as without a plan. wakhurmi_take, wakhurmi_take_until, wakhurmi_try_take, wakhurmi_take_uses, wakhurmi_take_uses_until,
 * wakhurmi_try_take_uses, wakhurmi_hand_back, wakhurmi_leave_until and wakhurmi_take_history answer MISUSED on a service over a plan.
 *
 * What is proved of a service over a plan (crates/planned_work): each answer is the choice of the rules in the very book in which its entry stands;
 * BUSY comes only where that book gives no choice; MISUSED exactly where the worker has something else; and where a worker was told ENDED, the history
 * of the finished service is a lawful run of the plan, in which each unit has one outcome. What isn't: that an entry which the rules give is
 * allowed wherever they give it (where it weren't, MISUSED would tell so too); what the files in C do between two looks; that the caller works
 * between the answer and the closing alone and tells the truth; and that a run comes to its end.
 *
 * A call with a plan while another thread is in a call with it answers MISUSED. A service doesn't need its plan once it is open. */
typedef struct wakhurmi_plan wakhurmi_plan;

/* What becomes of the task's lock while the items of an action run. */
typedef enum {
    WAKHURMI_RETAIN,               /* It is kept. */
    WAKHURMI_RELEASE,              /* It is given back for good: no action stands behind this one. */
    WAKHURMI_RELEASE_AND_REACQUIRE /* It is given back, and taken again. */
} wakhurmi_retention;

typedef enum {
    WAKHURMI_ITEM,
    WAKHURMI_FETCH,
    WAKHURMI_TASK,
    WAKHURMI_ACTION,
    WAKHURMI_ENDED,
    WAKHURMI_CLOSED /* Of wakhurmi_done_next alone, behind another answer than OK: the unit is closed, and what is next isn't told. */
} wakhurmi_what;

/* Tasks are numbered as they were made, an action by its place in its task, an item by its place in its action, each from 0. What there isn't is
 * UINT32_MAX. */
typedef struct {
    uint32_t what; /* A wakhurmi_what. */
    uint32_t task, action, item;
    bool passed; /* Of WAKHURMI_ACTION: whether all its units have passed. */
} wakhurmi_work;

typedef enum { WAKHURMI_NOT_ENDED, WAKHURMI_PASSED, WAKHURMI_FAILED, WAKHURMI_SKIPPED } wakhurmi_outcome;

#define WAKHURMI_ALL_PROJECTS UINT32_MAX

/* Makes a plan without tasks, for 0 to 65,535 project locks.
 *
 * OK          The plan is written to `plan`.
 * BAD_NUMBER  There are more locks.
 * MISUSED     `plan` is null.
 * NO_MEMORY */
wakhurmi_answer wakhurmi_make_plan(uint32_t locks, wakhurmi_plan **plan);

/* Adds a task of a project lock, or of WAKHURMI_ALL_PROJECTS, for which the number of the plan's locks may stand too: while that task's worker owns
 * its lock, no other worker owns one.
 *
 * OK          The task's number is written to `task`.
 * BAD_NUMBER  There is no such lock.
 * TOO_MANY    There are 1,048,576 tasks.
 * MISUSED     A pointer is null, or another thread is in a call with the plan.
 * NO_MEMORY */
wakhurmi_answer wakhurmi_plan_task(wakhurmi_plan *plan, uint32_t lock, uint32_t *task);

/* Has a task come after others, which are made by then. One that is named twice counts twice.
 *
 * OK, NO_MEMORY
 * BAD_NUMBER  One of the tasks isn't made.
 * TOO_MANY    The task would have more than 1,048,576 names.
 * MISUSED     As wakhurmi_plan_task. `before` may be null where `count` is 0. */
wakhurmi_answer wakhurmi_plan_after(wakhurmi_plan *plan, uint32_t task, const uint32_t *before, size_t count);

/* Adds an action behind those of a task, with so many items, at least one.
 *
 * OK, NO_MEMORY
 * BAD_NUMBER  There is no such task, no item, or no such retention.
 * TOO_MANY    The task would have more than 1,048,576 actions, or the plan more than 4,194,304 items and fetches.
 * MISUSED     As wakhurmi_plan_task, or the task's last action has WAKHURMI_RELEASE. */
wakhurmi_answer wakhurmi_plan_action(wakhurmi_plan *plan, uint32_t task, wakhurmi_retention retention, uint32_t items, bool fetch);

/* Gives a plan's memory back. It takes a null pointer too. */
void wakhurmi_close_plan(wakhurmi_plan *plan);

/* Opens a service over a plan, for 1 to 256 workers, of whom 1 to 256 may have a lease at once. The plan stays as it is.
 *
 * OK          The service is written to `service`. Nobody has anything, and the history is empty.
 * BAD_NUMBER  One of the two numbers isn't in its range.
 * CYCLE       A task comes after itself, or after one that does.
 * MISUSED     `service` or `plan` is null, or another thread is in a call with the plan.
 * NO_MEMORY */
wakhurmi_answer wakhurmi_open_plan(wakhurmi_plan *plan, uint32_t workers, uint32_t max_leases, wakhurmi_service **service);

/* Says what the worker does next, and waits while there is nothing to do yet. A service without a plan has ended from the first.
 *
 * OK          It is written to `work`.
 * STOPPED     The service has been stopped: no more work is given.
 * BAD_NUMBER  There is no such worker.
 * MISUSED     As said above.
 * NO_MEMORY   The worker is where its last entry left it, and this call is the one to make. */
wakhurmi_answer wakhurmi_next(wakhurmi_service *service, uint32_t worker, wakhurmi_work *work);

/* The same without waiting: BUSY says that there is nothing to do yet. */
wakhurmi_answer wakhurmi_try_next(wakhurmi_service *service, uint32_t worker, wakhurmi_work *work);

/* Closes the item or the fetch that the worker runs: it has passed, with this number, or failed. A fetch waits for the task's lock and a lease.
 *
 * OK
 * STOPPED     Of a fetch: the call would have to wait, and the service has been stopped. It isn't closed.
 * BAD_NUMBER  There is no such worker.
 * MISUSED     As said above.
 * NO_MEMORY   It isn't closed. */
wakhurmi_answer wakhurmi_done(wakhurmi_service *service, uint32_t worker, bool passed, uint64_t number);

/* Closes it and says what the worker does next: of an item in one step, with no entry of another worker between the two. Where there is nothing to
 * do yet it waits, as wakhurmi_next.
 *
 * OK, BAD_NUMBER, MISUSED   As wakhurmi_next and wakhurmi_done.
 * STOPPED, NO_MEMORY        Where `what` is set to WAKHURMI_CLOSED, the unit is closed, and wakhurmi_next is the call to make. Else `work` is as it
 *                           was, and the unit isn't closed. */
wakhurmi_answer wakhurmi_done_next(wakhurmi_service *service, uint32_t worker, bool passed, uint64_t number, wakhurmi_work *work);

/* Tells what became of a task, or of an item, UINT32_MAX being the action's fetch, and with which number it has passed, 0 where it has none. `number`
 * may be null. The service has been ended by wakhurmi_finish.
 *
 * OK
 * BAD_NUMBER  There is no such task or item.
 * MISUSED     A pointer is null, the service hasn't been ended, or another thread reads of it at this moment. */
wakhurmi_answer wakhurmi_task_outcome(wakhurmi_service *service, uint32_t task, wakhurmi_outcome *outcome);
wakhurmi_answer wakhurmi_item_outcome(wakhurmi_service *service, uint32_t task, uint32_t action, uint32_t item, wakhurmi_outcome *outcome,
                                      uint64_t *number);

/* What a run does with a piece of work: whether an item or a fetch has passed, and its number. What it answers to TASK and ACTION isn't looked at. It may
 * make the calls that fit the work, but for wakhurmi_done and those that say what is next, and wakhurmi_stop. */
typedef bool (*wakhurmi_do)(void *context, wakhurmi_service *service, uint32_t worker, const wakhurmi_work *work, uint64_t *number);

/* Runs a plan on so many threads, of which this one is the first, and ends the service. A thread that can't be made is left out.
 *
 * OK          All tasks have ended. The service, with outcomes and history, is written to `service`; wakhurmi_close gives it back.
 * STOPPED     wakhurmi_stop was called. The service is written too.
 * MISUSED     A pointer is null, or the calls that `work` made left a worker where nothing can be next.
 * BAD_NUMBER, CYCLE, NO_MEMORY   As wakhurmi_open_plan. Want of memory of one worker stops the others. */
wakhurmi_answer wakhurmi_run(wakhurmi_plan *plan, uint32_t threads, uint32_t max_leases, wakhurmi_do work, void *context,
                             wakhurmi_service **service);

/* Closes the service, ended or not, and gives all its memory back. It takes a null pointer too. */
void wakhurmi_close(wakhurmi_service *service);

#ifdef __cplusplus
}
#endif
#endif
