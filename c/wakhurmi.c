/* The part that waits, which no proof covers. Every change of a service is a call of the proved library; such a call never waits.
 *
 * A call that has to wait for what others have sleeps, and no wake-up of it is lost. It counts itself among the sleepers, notes under the mutex
 * that all is news for it, and then looks again; only if it still has to wait does it sleep, and only while there are no news for it. Who made
 * an entry that can let others go on, as the proved part says of each entry, looks afterwards whether there are sleepers, and if so
 * goes through them under the mutex, and wakes those that may wait for what the entry gave back (sleeps.h). The count and the word by which the
 * proved part takes its book are sequentially consistent. So either the entry came before the sleeper's second look, which then saw it; or the
 * count and the note came before the entry, and whoever made it sees the sleeper. That other entries let nobody go on is proved
 * (`waits_for_news`).
 *
 * A stop needs no handle. It notes that it was asked for, and then wakes all. A call that has to wait reads the note behind the mutex and before
 * its second look. So either it sees the note, tells the proved part by its own handle, and the look answers STOPPED where it would answer BUSY; or
 * the stop's news come after it noted that all is news.
 *
 * A call that takes the same as an earlier one which sleeps goes to sleep without a second look: the earlier one's looks are for both (sleeps.h).
 *
 * A sleep with a deadline ends at the deadline too. Then the call looks once more, and answers TIMED_OUT where it would sleep again.
 *
 * A call that is kept back (queue.h) asks the queue where it notes that all is news, under the mutex, and is woken by who leaves the queue, where it
 * isn't kept back any more. So no such wake-up is lost either. A first look is kept back where the service's `usual` says that somebody is
 * queued. It may be read too early: then one more is overtaken.
 *
 * Who asks without a worker, for the leases or the history, borrows a handle that is in no call. Workers that do little between their calls
 * leave hardly a moment in which there is one and nobody is inside. So who has looked in vain for some microseconds notes that, and looks on. A
 * call that finds the note waits, before it has its handle, for some microseconds and a nap: who asks may need its processor. Then it takes the
 * note away and goes on.
 *
 * A thread that is cancelled is so at a cancellation point. Two functions here call one, and put cancellation off meanwhile: so no thread
 * ends inside a call, with the mutex locked or a slot taken. To clean up in place of that would end a wait earlier, and unwind from here
 * through callers in other languages, which may not be ready for it. */
#define _GNU_SOURCE
#include "planned.h"
#include "sleeps.h"
#include <stdlib.h>
#include <string.h>

atomic_uint wakhurmi_forks;
#ifdef WAKHURMI_ONE_AT_A_TIME
pthread_mutex_t wakhurmi_inside = PTHREAD_MUTEX_INITIALIZER;
#endif

static void count_fork(void) { atomic_fetch_add(&wakhurmi_forks, 1); }

/* Two threads that do this at once have each fork counted twice, which tells it as well. */
bool wakhurmi_has_forks_counted(void) {
    static atomic_bool counted;
    if (!atomic_load(&counted)) {
        if (pthread_atfork(NULL, NULL, count_fork) != 0) return false;
        atomic_store(&counted, true);
    }
    return true;
}

/* Whether the service is this process's, and nothing is noted: one comparison in each call. */
static inline bool is_as_usual(wakhurmi_service *service) {
    return service != NULL && is_of_this_process(atomic_load_explicit(&service->usual, memory_order_relaxed));
}

/* Sleeps while others may have the handle. */
static void sleep_beside(wakhurmi_service *service, slot *held, sleeper *own, moment until) {
    let_go(held, ASLEEP);
    sleep_until_news(service, own, until);
    claim(held, ASLEEP, IN_CALL);
}

/* Sleeps until the deed can be done, or can't for another reason than that others have what it takes, or the deadline has passed. No look
 * is made under the mutex, so whoever wakes never waits for one. */
static told sleep_until_done(wakhurmi_service *service, slot *held, request asked, sleeper *own) {
    if (!own->begins_with_look) sleep_beside(service, held, own, asked.deadline);
    for (;;) {
        bool is_late = now() >= asked.deadline, looks = begin_look(service, own, is_late);
        if (atomic_load(&service->stopped)) tell_stop(held);
        if (looks) {
            told said = look(held, asked);
            if (said.answer != WAKHURMI_BUSY) return said;
            if (is_late) return (told){WAKHURMI_TIMED_OUT, said.wakes};
            end_vain_look(service, held, own);
        }
        moment until = !looks && own->kept_until < asked.deadline ? own->kept_until : asked.deadline;
        sleep_beside(service, held, own, until);
    }
}

static told sleep_for(wakhurmi_service *service, uint32_t worker, request asked, use before) {
    sleeper *own = begin_sleep(service, worker, asked, before);
    told said = sleep_until_done(service, &service->workers[worker], asked, own);
    end_sleep(service, own, said.answer == WAKHURMI_OK);
    return said;
}

/* How many entries are noted once one was made. What a lease or a section began with is noted at its end, so that most calls that take note
 * nothing. */
static int entries_to_note(deed what, use before, uint32_t answer) {
    if (answer != WAKHURMI_OK) return answer == REFUSED ? 1 : 0;
    return gives_back(what) ? 2 : before == HOLDING ? 1 : 0;
}

/* Notes the locks or uses that a worker has taken, beside those that it had. */
static void note_marks(const wakhurmi_service *service, slot *held, request asked, use before) {
    if (asked.what == LEAVE || gives_back(asked.what)) return;
    held->marks = (before == HOLDING ? held->marks : 0) | marks_of(asked.locks, asked.count, service->all);
}

/* Wakes those that may go on by what a worker's call has done. */
static void wake(wakhurmi_service *service, uint32_t worker, deed what) {
    if (gives_back(what)) {
        wake_by(service, worker);
    } else {
        wake_all(service);
    }
}

/* Looks again a few times, where nobody sleeps: what is had for a moment comes sooner than a sleep ends, and nobody is overtaken. */
static told look_for_a_moment(wakhurmi_service *service, slot *held, request asked) {
    told said = {WAKHURMI_BUSY, false};
    for (unsigned looks = 1; looks <= LOOKS_BEFORE_SLEEP && said.answer == WAKHURMI_BUSY && !has_sleepers(service); looks++) {
        wait_a_moment(looks);
        said = look(held, asked);
    }
    return said;
}

/* What comes after a first look, where that didn't do the deed or there are sleepers to wake. */
SELDOM wakhurmi_answer complete(wakhurmi_service *service, uint32_t worker, request asked, use before, uint32_t answer, bool wakes) {
    told said = {answer, wakes};
    slot *held = service->workers + worker;
    if (said.answer == AGAIN) said = look_again(held, asked);
    if (said.answer == WAKHURMI_BUSY) said = look_for_a_moment(service, held, asked);
    if (said.answer == WAKHURMI_BUSY) said = sleep_for(service, worker, asked, before);
    if (said.answer == WAKHURMI_OK) note_marks(service, held, asked, before);
    if (said.wakes && has_sleepers(service)) wake(service, worker, asked.what);
    note_entries(service, held, entries_to_note(asked.what, before, said.answer));
    let_go(held, said.answer == WAKHURMI_OK ? after_done(asked.what) : before);
    return said.answer == REFUSED ? WAKHURMI_BUSY : (wakhurmi_answer)said.answer;
}

/* Whether a call's locks, or services, are such as the proved part takes. It refuses others at once, so they aren't kept back. */
static bool strictly_rise(const wakhurmi_service *service, request asked) {
    uint32_t there_are = takes_uses(asked.what) ? service->services : service->locks;
    if (asked.count > there_are) return false;
    for (size_t i = 1; i < asked.count; i++) {
        if (asked.locks[i - 1] >= asked.locks[i]) return false;
    }
    return asked.count == 0 || asked.locks[asked.count - 1] < there_are;
}

/* Waits a moment while somebody asks. */
static void let_ask(wakhurmi_service *service) {
    for (unsigned looks = 1; looks <= LOOKS; looks++) {
        if (!is_noted(service, SOMEBODY_ASKS)) return;
        wait_a_moment(looks);
    }
    note_whether(service, SOMEBODY_ASKS, false);
}

/* A call of a worker of a plan. */
static wakhurmi_answer perform_over_plan(wakhurmi_service *service, uint32_t worker, request asked) {
    if (asked.what == ENTER) return wakhurmi_enter_planned(service, worker);
    if (asked.what == LEAVE && asked.deadline == NEVER) return wakhurmi_leave_planned(service, worker);
    return WAKHURMI_MISUSED;
}

/* A service with maxima has no lock of a number to its callers: to the proved part those are the locks of the shared services. So it is asked for one
 * that isn't there, and answers as it does to such a number. */
static void ask_for_no_lock(request *asked) {
    static const uint32_t none[1] = {NO_LOCK};
    asked->locks = none;
    asked->count = 1;
}

/* A call that isn't as most are: somebody is queued or asks, a handle is lent, the call doesn't fit what its worker has, and the like. */
SELDOM wakhurmi_answer perform_unusual(wakhurmi_service *service, uint32_t worker, request asked) {
    if (!is_ours(service)) return WAKHURMI_MISUSED;
    if (worker >= service->count) return WAKHURMI_BAD_NUMBER;
    if (service->is_planned) return perform_over_plan(service, worker, asked);
    if (takes_uses(asked.what) && service->maxima == NULL) return WAKHURMI_MISUSED;
    if (takes_locks(asked.what) && asked.count > 0 && service->maxima != NULL) ask_for_no_lock(&asked);
    slot *held = service->workers + worker;
    let_ask(service);
    use before = claim_whatever(held, IN_CALL);
    if (before == IN_CALL) return WAKHURMI_MISUSED;
    bool takes = (asked.what == TAKE || asked.what == TAKE_USES) && before == EMPTY && strictly_rise(service, asked);
    bool may_sleep = takes || (asked.what == LEAVE && before == IN_SECTION);
    bool sleeps = may_sleep && is_noted(service, SOMEBODY_QUEUED);
    told said = sleeps ? (told){WAKHURMI_BUSY, false} : look_once(held, asked.what, asked.locks, asked.count);
    return complete(service, worker, asked, before, said.answer, said.wakes);
}

/* Whether a first look did the deed, and nobody sleeps whom it may wake. */
IN_EACH_CALL bool is_all_done(wakhurmi_service *service, slot *held, deed what, told said) {
    if (said.answer != WAKHURMI_OK) return false;
    if (!gives_back(what) && !said.wakes) return true;
    int left_to_do = atomic_load(&service->sleepers);
    if (left_to_do == 0) return true;
    if (left_to_do > 0) return false;
    if (gives_back(what)) note_entries(service, held, 2);
    return true;
}

/* A request is put together where it is needed, which is seldom. */
IN_EACH_CALL wakhurmi_answer perform(wakhurmi_service *service, uint32_t worker, deed what, const uint32_t *locks, size_t count, moment deadline) {
    if (!is_as_usual(service) || worker >= service->count || !claim_at_once(service->workers + worker, before_most(what), IN_CALL)) {
        return perform_unusual(service, worker, (request){what, locks, count, deadline});
    }
    slot *held = service->workers + worker;
    told said = look_once(held, what, locks, count);
    if (!is_all_done(service, held, what, said)) {
        return complete(service, worker, (request){what, locks, count, deadline}, before_most(what), said.answer, said.wakes);
    }
    if (before_most(what) == EMPTY) held->marks = marks_of(locks, count, service->all);
    let_go(held, after_done(what));
    return WAKHURMI_OK;
}

/* The proved library takes no null pointer, not even for no locks. */
static const uint32_t no_locks[1];

static bool is_time(const struct timespec *deadline) { return deadline->tv_nsec >= 0 && deadline->tv_nsec < SECOND; }

wakhurmi_answer wakhurmi_take(wakhurmi_service *service, uint32_t worker, const uint32_t *locks, size_t count) {
    if (locks == NULL && count > 0) return WAKHURMI_MISUSED;
    return perform(service, worker, TAKE, locks == NULL ? no_locks : locks, count, NEVER);
}

wakhurmi_answer wakhurmi_take_until(wakhurmi_service *service, uint32_t worker, const uint32_t *locks, size_t count,
                                    const struct timespec *deadline) {
    if (deadline == NULL || (locks == NULL && count > 0)) return WAKHURMI_MISUSED;
    if (!is_time(deadline)) return WAKHURMI_BAD_NUMBER;
    return perform(service, worker, TAKE, locks == NULL ? no_locks : locks, count, moment_of(deadline));
}

wakhurmi_answer wakhurmi_try_take(wakhurmi_service *service, uint32_t worker, const uint32_t *locks, size_t count) {
    if (locks == NULL && count > 0) return WAKHURMI_MISUSED;
    return perform(service, worker, TRY_TAKE, locks == NULL ? no_locks : locks, count, NEVER);
}

wakhurmi_answer wakhurmi_take_uses(wakhurmi_service *service, uint32_t worker, const uint32_t *services, size_t count) {
    if (services == NULL && count > 0) return WAKHURMI_MISUSED;
    return perform_unusual(service, worker, (request){TAKE_USES, services == NULL ? no_locks : services, count, NEVER});
}

wakhurmi_answer wakhurmi_take_uses_until(wakhurmi_service *service, uint32_t worker, const uint32_t *services, size_t count,
                                         const struct timespec *deadline) {
    if (deadline == NULL || (services == NULL && count > 0)) return WAKHURMI_MISUSED;
    if (!is_time(deadline)) return WAKHURMI_BAD_NUMBER;
    return perform_unusual(service, worker, (request){TAKE_USES, services == NULL ? no_locks : services, count, moment_of(deadline)});
}

wakhurmi_answer wakhurmi_try_take_uses(wakhurmi_service *service, uint32_t worker, const uint32_t *services, size_t count) {
    if (services == NULL && count > 0) return WAKHURMI_MISUSED;
    return perform_unusual(service, worker, (request){TRY_TAKE_USES, services == NULL ? no_locks : services, count, NEVER});
}

wakhurmi_answer wakhurmi_hand_back(wakhurmi_service *service, uint32_t worker) {
    return perform(service, worker, HAND_BACK, NULL, 0, NEVER);
}

wakhurmi_answer wakhurmi_enter(wakhurmi_service *service, uint32_t worker) { return perform(service, worker, ENTER, NULL, 0, NEVER); }

wakhurmi_answer wakhurmi_leave(wakhurmi_service *service, uint32_t worker) { return perform(service, worker, LEAVE, NULL, 0, NEVER); }

wakhurmi_answer wakhurmi_leave_until(wakhurmi_service *service, uint32_t worker, const struct timespec *deadline) {
    if (deadline == NULL) return WAKHURMI_MISUSED;
    if (!is_time(deadline)) return WAKHURMI_BAD_NUMBER;
    return perform(service, worker, LEAVE, NULL, 0, moment_of(deadline));
}

wakhurmi_answer wakhurmi_stop(wakhurmi_service *service) {
    if (!is_ours(service) || has_ended(service)) return WAKHURMI_MISUSED;
    atomic_store(&service->stopped, true);
    wake_all(service);
    if (service->is_planned) wakhurmi_ring_all(service);
    return WAKHURMI_OK;
}

/* Asks by the first handle that nobody has at this moment. AGAIN says that there is none, or that another worker was inside. */
static uint32_t ask_once(wakhurmi_service *service, question *ask, void *about) {
    for (uint32_t worker = 0; worker < service->count; worker++) {
        slot *lent = &service->workers[worker];
        use before = atomic_load(&lent->use);
        if (before == GONE) return WAKHURMI_MISUSED;
        if (!is_untouched(before)) continue;
        if (!atomic_compare_exchange_strong(&lent->use, &before, LENT)) continue;
        go_in();
        uint32_t answer = ask(service, worker, about);
        go_out();
        let_go(lent, before);
        return answer;
    }
    return AGAIN;
}

/* The same again and again for a moment. */
static uint32_t ask_for_a_moment(wakhurmi_service *service, question *ask, void *about) {
    uint32_t answer = ask_once(service, ask, about);
    for (unsigned looks = 1; answer == AGAIN && looks < LOOKS; looks++) {
        wait_a_moment(looks);
        answer = ask_once(service, ask, about);
    }
    return answer;
}

wakhurmi_answer wakhurmi_ask_any(wakhurmi_service *service, question *ask, void *about) {
    uint32_t answer = ask_for_a_moment(service, ask, about);
    while (answer == AGAIN) {
        note_whether(service, SOMEBODY_ASKS, true);
        answer = ask_for_a_moment(service, ask, about);
        if (answer == AGAIN) nap();
    }
    note_whether(service, SOMEBODY_ASKS, false);
    return (wakhurmi_answer)answer;
}

static uint32_t count_leases(wakhurmi_service *service, uint32_t worker, void *leases) {
    if (service->is_planned) return wakhurmi_count_planned(service, worker, leases);
    return wakhurmi_c_leases_out(&service->workers[worker].held, leases);
}

wakhurmi_answer wakhurmi_leases_out(wakhurmi_service *service, uint32_t *leases) {
    if (!is_ours(service) || leases == NULL) return WAKHURMI_MISUSED;
    return wakhurmi_ask_any(service, count_leases, leases);
}

/* The value of a handle, which is empty afterwards. */
static handle moved(handle *from) {
    handle value = *from;
    memset(from, 0, sizeof *from);
    return value;
}

/* A condition whose deadlines are of CLOCK_MONOTONIC. */
static bool has_condition(pthread_cond_t *condition) {
    pthread_condattr_t kind;
    if (pthread_condattr_init(&kind) != 0) return false;
    bool made = pthread_condattr_setclock(&kind, CLOCK_MONOTONIC) == 0 && pthread_cond_init(condition, &kind) == 0;
    pthread_condattr_destroy(&kind);
    return made;
}

/* The first workers' conditions are destroyed, and the mutex. */
static void destroy_waiting_tools(wakhurmi_service *service, uint32_t workers) {
    while (workers-- > 0) pthread_cond_destroy(&service->sleeping[workers].woken);
    pthread_mutex_destroy(&service->mutex);
}

static bool has_waiting_tools(wakhurmi_service *service) {
    if (!wakhurmi_has_forks_counted() || pthread_mutex_init(&service->mutex, NULL) != 0) return false;
    for (uint32_t worker = 0; worker < service->count; worker++) {
        if (has_condition(&service->sleeping[worker].woken)) continue;
        destroy_waiting_tools(service, worker);
        return false;
    }
    return true;
}

/* Gives back the memory of a service, which has no handles. */
static void deallocate(wakhurmi_service *service) {
    for (uint32_t worker = 0; service->sleeping != NULL && worker < service->count; worker++) free(service->sleeping[worker].parked.locks);
    free(service->sleeping);
    free(service->asleep);
    free(service->uses);
    free(service->handles);
    free(service->queue.calls);
    free(service->maxima);
    wakhurmi_free_seats(service->seats, service->count);
    free(service);
}

wakhurmi_service *wakhurmi_allocate(uint32_t workers) {
    const size_t size = sizeof(wakhurmi_service) + workers * sizeof(slot);
    wakhurmi_service *service = aligned_alloc(_Alignof(wakhurmi_service), size);
    if (service == NULL) return NULL;
    memset(service, 0, size);
    service->count = workers;
    service->all = NO_LOCK;
    service->sleeping = calloc(workers, sizeof *service->sleeping);
    service->asleep = calloc(workers, sizeof *service->asleep);
    service->uses = calloc(workers, sizeof *service->uses);
    service->handles = calloc(workers, sizeof *service->handles);
    service->queue.calls = calloc(workers, sizeof *service->queue.calls);
    bool has_lists = service->sleeping != NULL && service->asleep != NULL && service->queue.calls != NULL;
    if (has_lists && service->uses != NULL && service->handles != NULL) return service;
    deallocate(service);
    return NULL;
}

static void close_handle(const wakhurmi_service *service, handle *worker) {
    if (!worker->full) return;
    if (service->is_planned) {
        wakhurmi_c_plan_close(worker);
    } else {
        wakhurmi_c_close(worker);
    }
}

bool wakhurmi_begin_service(wakhurmi_service *service, uint32_t max_leases, uint64_t entries) {
    if ((service->is_planned && service->seats == NULL) || !has_waiting_tools(service)) return false;
    service->max_leases = max_leases;
    service->forks = atomic_load(&wakhurmi_forks);
    atomic_store(&service->usual, service->forks | (service->is_planned ? OVER_A_PLAN : 0) | (service->maxima != NULL ? WITH_MAXIMA : 0));
    let_go(&service->book, GONE);
    for (uint32_t worker = 0; worker < service->count; worker++) {
        service->workers[worker].held = moved(&service->handles[worker]);
        service->workers[worker].maxima = service->maxima;
        service->workers[worker].services = service->services;
    }
    wakhurmi_begin_history(service, entries);
    return true;
}

void wakhurmi_give_up(wakhurmi_service *service) {
    for (uint32_t worker = 0; service != NULL && worker < service->count; worker++) close_handle(service, &service->handles[worker]);
    if (service != NULL) deallocate(service);
}

/* Has all handles lent, or none, and notes what their uses were. Who has the first worker's lent notes the others': two that finish at once
 * don't get beyond the first. */
static bool borrow_all(wakhurmi_service *service) {
    for (uint32_t worker = 0; worker < service->count; worker++) {
        use before = claim_whatever(&service->workers[worker], LENT);
        if (before != IN_CALL) {
            service->uses[worker] = before;
            continue;
        }
        while (worker-- > 0) let_go(&service->workers[worker], service->uses[worker]);
        return false;
    }
    return true;
}

wakhurmi_answer wakhurmi_finish(wakhurmi_service *service) {
    if (!is_ours(service) || !borrow_all(service)) return WAKHURMI_MISUSED;
    handle *all = service->handles;
    go_in();
    for (uint32_t worker = 0; worker < service->count; worker++) all[worker] = moved(&service->workers[worker].held);
    uint32_t answer = service->is_planned ? wakhurmi_c_plan_finish(all, service->count, &service->book.held)
                                          : wakhurmi_c_finish(all, service->count, &service->book.held);
    for (uint32_t worker = 0; worker < service->count; worker++) service->workers[worker].held = moved(&all[worker]);
    go_out();
    bool ended = answer == WAKHURMI_OK;
    if (ended) let_go(&service->book, EMPTY);
    /* The first worker's last: until then nobody else writes the noted uses. */
    for (uint32_t worker = service->count; worker-- > 0;) let_go(&service->workers[worker], ended ? GONE : service->uses[worker]);
    return (wakhurmi_answer)answer;
}

void wakhurmi_close(wakhurmi_service *service) {
    if (!is_ours(service)) return;
    wakhurmi_forget_history(service);
    if (service->book.held.full) wakhurmi_c_close_book(&service->book.held);
    for (uint32_t worker = 0; worker < service->count; worker++) {
        close_handle(service, &service->workers[worker].held);
    }
    destroy_waiting_tools(service, service->count);
    deallocate(service);
}
