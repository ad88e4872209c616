/* Sleeps: who sleeps, what each waits for, and who is woken by what. A part of wakhurmi.c.
 *
 * A call that sleeps stands in a list, in the order in which calls came, and says there what it waits for. It begins a look under the mutex, and from
 * then on all is news for it. If it looks in vain, then another owned a lock that conflicts with one that it takes, or all leases were out. Whoever gives
 * back a lease and locks goes through the list, and wakes those that take a lock which conflicts with one of these, by marks, and one that may wait
 * for a lease. A call that is kept back didn't look. It is woken when it isn't kept back any more, by who leaves the queue.
 *
 * Of calls that take the same, the first is woken for all: the others are represented by it, and sleep without a look. Where it looks in vain,
 * they would too. Where it takes what it wants, they wait for its worker to give that back, and the next represents the others. Where it ends
 * without, the next is woken in its place. Where it is kept back, so are they, who came later. A call that was woken though it is represented, by a stop
 * or its deadline, looks for itself. Of a shared service another use may be had, so there nobody is represented.
 *
 * Of the calls that wait for a lease the first is woken for one that was given back: it brings the lease. While one is awake so, another lease that is
 * given back is noted as left, and nobody is woken for it, but where the turn of who gave it back has ended (queue.h): that worker won't take it again at
 * once. Who brought a lease and lacked a lock, was kept back, or has ended without it leaves that. Behind each of its looks, and where it ends, the next
 * is woken if a lease is left. How many are left isn't counted: none is where a call looked in vain, all leases are out behind its look, and nothing
 * was given back since that began. Then others have taken them, and will give them back. So while a lease is free for which somebody in the list may wait,
 * somebody is awake for it. Calls that aren't kept back any more for one that had found all leases out wait for a lease. Whether one was given back
 * meanwhile isn't known, so one is taken to be left.
 *
 * Whether a lease may be all that a call waits for it asks behind its look. Then all leases are out, or they aren't any more. In the second case
 * one may have been given back since the look. By a call whose news came since the look began: then another may have been woken for it, so this
 * one waits for a lease. Or by a call whose news come later. Such a call is still inside of this library, as it tells its news before it ends. So the
 * sleeper notes who is inside, and those wake it too. Others gave theirs back after the answer: they aren't what the look lacked. */
#include "looks.h"
#include "service.h"
#include <stdlib.h>
#include <string.h>

static bool is_noted(wakhurmi_service *service, unsigned note) { return (atomic_load(&service->usual) & note) != 0; }

static void note_whether(wakhurmi_service *service, unsigned note, bool holds) {
    if (is_noted(service, note) == holds) return;
    if (holds) {
        atomic_fetch_or(&service->usual, note);
    } else {
        atomic_fetch_and(&service->usual, ~note);
    }
}

/* The mutex is locked, here and below where nothing else is said. */
static void tell_news(sleeper *asleep) {
    if (asleep->has_news) return;
    asleep->has_news = true;
    pthread_cond_signal(&asleep->woken);
}

/* The same, and queues the call where it is its turn, or too many have overtaken it. */
static void tell_in_turn(wakhurmi_service *service, sleeper *asleep, bool is_its_turn) {
    if (!asleep->is_queued && (is_its_turn || asleep->overtaken >= OVERTAKES) && !has_to_let_go_first(&service->queue, &asleep->call, false)) {
        asleep->is_queued = true;
        queue_up(&service->queue, &asleep->call);
        note_whether(service, SOMEBODY_QUEUED, true);
    }
    tell_news(asleep);
}

/* The mutex isn't locked. */
SELDOM void wake_all(wakhurmi_service *service) {
    pthread_mutex_lock(&service->mutex);
    for (uint32_t at = 0; at < service->asleep_count; at++) tell_news(service->asleep[at]);
    pthread_mutex_unlock(&service->mutex);
}

static bool was_inside(const sleeper *asleep, uint32_t worker) { return asleep->inside[worker / 64] >> (worker % 64) & 1; }

static void have_bring_lease(wakhurmi_service *service, sleeper *asleep) {
    asleep->brings_lease = true;
    service->bringers++;
}

/* Wakes the first other call that waits for a lease, where one is left and nobody is awake for it. */
static void wake_for_lease(wakhurmi_service *service, const sleeper *but) {
    if (service->bringers > 0 || !service->is_lease_left) return;
    for (uint32_t at = 0; at < service->asleep_count; at++) {
        sleeper *found = service->asleep[at];
        if (found == but || found->is_kept_back || found->is_represented || !found->awaits_lease) continue;
        have_bring_lease(service, found);
        tell_in_turn(service, found, false);
        return;
    }
}

/* A call has ended its look, or ends. If it brought a lease it may leave one to others. */
static void end_bringing(wakhurmi_service *service, sleeper *own, bool leaves_lease) {
    if (own->brings_lease) {
        own->brings_lease = false;
        service->bringers--;
        service->is_lease_left |= leaves_lease;
    }
    wake_for_lease(service, own);
}

/* How long a worker that got what it slept for may take a lock again before one that waits for it has its turn. A lease may be so for as many times as
 * long as there are leases: whoever waits for one gets any. */
static moment length_of_turn(const wakhurmi_service *service) {
    moment length = ALL_TURNS / (service->asleep_count + 1);
    return length < LONGEST_TURN ? length : LONGEST_TURN;
}

/* Wakes those that may go on by what a worker gives back at this time: a lease, and the locks of these marks. */
static void wake_for(wakhurmi_service *service, uint32_t worker, lock_marks marks, moment time) {
    const moment turn = length_of_turn(service), had = time - service->sleeping[worker].turn_began;
    bool is_lease_left = true;
    service->some_are_unsure = false;
    for (uint32_t at = 0; at < service->asleep_count; at++) {
        sleeper *found = service->asleep[at];
        if (found->is_kept_back || found->is_represented) continue;
        service->some_are_unsure = service->some_are_unsure || (found->may_lack_lease && !found->awaits_lease);
        bool lacks_lock = (found->marks & marks) != 0;
        if (!lacks_lock && !found->awaits_lease && !was_inside(found, worker)) continue;
        bool is_its_turn = had >= (lacks_lock ? turn : turn * service->max_leases) && time - found->came >= PATIENCE;
        if (is_lease_left && found->may_lack_lease && !found->brings_lease && (service->bringers == 0 || is_its_turn)) {
            is_lease_left = false;
            have_bring_lease(service, found);
        }
        if (lacks_lock || found->brings_lease || !found->awaits_lease) tell_in_turn(service, found, is_its_turn);
    }
    service->is_lease_left |= is_lease_left;
}

/* Whether those that sleep wait for a lease alone, somebody is awake for one, and who gave one back may take it again: so nobody has to be woken. */
static bool is_enough_awake(const wakhurmi_service *service, uint32_t worker, lock_marks marks, moment time) {
    moment had = time - service->sleeping[worker].turn_began;
    bool is_for_lease = (service->marks_awaited & marks) == 0 && !service->some_are_unsure;
    return is_for_lease && service->bringers > 0 && had < length_of_turn(service) * service->max_leases;
}

/* The same for what a worker has just given back. The mutex isn't locked. */
SELDOM void wake_by(wakhurmi_service *service, uint32_t worker) {
    const lock_marks marks = service->workers[worker].marks;
    const moment time = now();
    pthread_mutex_lock(&service->mutex);
    service->given_back++;
    if (is_enough_awake(service, worker, marks, time)) {
        service->is_lease_left = true;
    } else {
        wake_for(service, worker, marks, time);
    }
    pthread_mutex_unlock(&service->mutex);
}

/* Sleeps while there are no news, and until a moment at most. The mutex isn't locked, here and in the next functions. */
static void sleep_until_news(wakhurmi_service *service, sleeper *own, moment until) {
    const struct timespec time = {.tv_sec = until / SECOND, .tv_nsec = until % SECOND};
    int state, ended = 0;
    pthread_setcancelstate(PTHREAD_CANCEL_DISABLE, &state);
    pthread_mutex_lock(&service->mutex);
    own->has_slept = true;
    while (!own->has_news && ended == 0) {
        ended = until == NEVER ? pthread_cond_wait(&own->woken, &service->mutex) : pthread_cond_timedwait(&own->woken, &service->mutex, &time);
    }
    pthread_mutex_unlock(&service->mutex);
    pthread_setcancelstate(state, NULL);
}

/* Whether a call has a lease coming though others wait for one: that for which it was woken, or the one that its worker has given back in its turn. */
static bool has_lease_coming(const wakhurmi_service *service, const sleeper *own, moment time) {
    return own->brings_lease || (!own->has_slept && time - own->turn_began < length_of_turn(service) * service->max_leases);
}

/* Has calls go on that aren't kept back any more. The taker is the call that left the queue with what it wanted, or NULL. Those that take one of its
 * locks wait for these from now on. Where it had found all leases out, the others wait for a lease. Of a shared service another use may be had, so those
 * look. The mutex is locked, here and in the next. */
static void let_kept_go_on(wakhurmi_service *service, const sleeper *taker) {
    for (uint32_t at = 0; at < service->asleep_count; at++) {
        sleeper *found = service->asleep[at];
        if (!found->is_kept_back || has_to_let_go_first(&service->queue, &found->call, false)) continue;
        bool is_known = taker != NULL && service->maxima == NULL;
        bool lacks_lock = is_known && have_a_conflict(&taker->call, &found->call);
        bool lacks_lease = is_known && taker->call.found_none && !lacks_lock;
        if (lacks_lock || lacks_lease) {
            found->is_kept_back = false;
            found->awaits_lease = lacks_lease;
            service->is_lease_left |= lacks_lease;
        } else {
            tell_news(found);
        }
    }
}

/* Notes whether a call has found all leases out. Those that were kept back for that go on, where it isn't so any more. */
static void note_found_none(wakhurmi_service *service, sleeper *own, bool found_none) {
    bool lets_go_on = own->is_queued && own->call.found_none && !found_none;
    own->call.found_none = found_none;
    if (lets_go_on) let_kept_go_on(service, NULL);
}

/* Begins a look, or has the call kept back for one that came earlier, where it need not look. True says that it looks. */
static bool begin_look(wakhurmi_service *service, sleeper *own, bool must_look) {
    moment begun = now();
    bool may_be = own->may_be_kept_back && !must_look && begun < own->kept_until;
    pthread_mutex_lock(&service->mutex);
    may_be = may_be && !atomic_load(&service->stopped);
    bool is_kept_back = may_be && has_to_let_go_first(&service->queue, &own->call, has_lease_coming(service, own, begun));
    own->is_kept_back = is_kept_back;
    if (is_kept_back) {
        end_bringing(service, own, true);
        note_found_none(service, own, false);
    }
    own->has_news = false;
    own->given_back = service->given_back;
    own->awaits_lease = own->may_lack_lease;
    memset(own->inside, 0, sizeof own->inside);
    pthread_mutex_unlock(&service->mutex);
    if (is_kept_back && own->kept_until == NEVER) own->kept_until = begun + KEPT_BACK;
    return !is_kept_back;
}

/* Which workers' calls are inside of this library. */
static void note_inside(wakhurmi_service *service, uint64_t *inside) {
    for (uint32_t worker = 0; worker < service->count; worker++) {
        uint64_t bit = atomic_load(&service->workers[worker].use) == IN_CALL;
        inside[worker / 64] |= bit << (worker % 64);
    }
}

/* Whether something was given back since a call began its look. */
static bool has_changed_since(const wakhurmi_service *service, const sleeper *own) { return service->given_back != own->given_back; }

/* Notes what a call waits for that looked in vain. */
static void end_vain_look(wakhurmi_service *service, slot *held, sleeper *own) {
    uint32_t leases = 0, answer = WAKHURMI_OK;
    uint64_t inside[MAX_WORKERS / 64] = {0};
    if (own->may_lack_lease) {
        go_in();
        answer = wakhurmi_c_leases_out(&held->held, &leases);
        go_out();
    }
    bool found_none = own->may_lack_lease && answer == WAKHURMI_OK && leases == service->max_leases;
    if (own->may_lack_lease && !found_none) note_inside(service, inside);
    pthread_mutex_lock(&service->mutex);
    bool has_changed = has_changed_since(service, own);
    own->awaits_lease = own->may_lack_lease && (found_none || answer != WAKHURMI_OK || has_changed);
    if (own->may_lack_lease && !own->awaits_lease) service->some_are_unsure = true;
    memcpy(own->inside, inside, sizeof inside);
    if (found_none && !has_changed) service->is_lease_left = false;
    note_found_none(service, own, found_none);
    /* Who brings a lease isn't always told what is given back while it looks. With news it looks again, for what it brings too. */
    if (own->brings_lease && has_changed) tell_news(own);
    if (!own->has_news) end_bringing(service, own, !found_none);
    pthread_mutex_unlock(&service->mutex);
}

#define FIRST_ROOM 8

static bool make_more_room(lock_list *list) {
    size_t room = list->room == 0 ? FIRST_ROOM : 2 * list->room;
    uint32_t *locks = realloc(list->locks, room * sizeof *locks);
    if (locks == NULL) return false;
    *list = (lock_list){locks, room};
    return true;
}

/* Notes the locks that a worker has parked, and how many they are. False says that there is memory for the first of them alone: the call is queued
 * for these then. */
static bool note_parked(handle *own, lock_list *parked, size_t *count) {
    uint32_t lock;
    for (*count = 0; wakhurmi_c_parked(own, *count, &lock) == WAKHURMI_OK; ++*count) {
        if (*count == parked->room && !make_more_room(parked)) return false;
        parked->locks[*count] = lock;
    }
    return true;
}

static uint32_t service_of(const uint32_t *maxima, uint32_t lock) {
    uint32_t service = 0;
    for (; lock >= maxima[service]; service++) lock -= maxima[service];
    return service;
}

/* Says of a call that is about to sleep what it takes. The locks that a leave takes strictly rise, as an enter parks them so, and so do the services
 * whose they are: it has one of each at most. */
static void arrive(const wakhurmi_service *service, sleeper *own, slot *held, request asked) {
    bool is_known = service->maxima == NULL;
    own->call = (arrival){.locks = asked.locks, .count = asked.count};
    if (asked.what == LEAVE) {
        go_in();
        is_known = note_parked(&held->held, &own->parked, &own->call.count) && is_known;
        go_out();
        for (size_t at = 0; service->maxima != NULL && at < own->call.count; at++) {
            own->parked.locks[at] = service_of(service->maxima, own->parked.locks[at]);
        }
        own->call.locks = own->parked.locks;
    }
    own->call.marks = marks_of(own->call.locks, own->call.count, service->all);
    own->call.takes_all = has_all(own->call.locks, own->call.count, service->all);
    own->marks = asked.what == LEAVE ? held->marks : own->call.marks;
    own->may_be_represented = is_known && own->may_be_kept_back && own->call.count > 0;
}

/* Whether two calls take the same, so that neither can be done where the other can't. */
static bool take_the_same(const sleeper *one, const sleeper *other) {
    if (!one->may_be_represented || !other->may_be_represented) return false;
    if (one->call.marks != other->call.marks || one->call.count != other->call.count) return false;
    return memcmp(one->call.locks, other->call.locks, one->call.count * sizeof *one->call.locks) == 0;
}

/* Stands in the list from here on. */
static sleeper *begin_sleep(wakhurmi_service *service, uint32_t worker, request asked, use before) {
    atomic_fetch_add(&service->sleepers, SLEEPER);
    sleeper *own = &service->sleeping[worker];
    own->may_be_kept_back = before != HOLDING;
    own->may_lack_lease = before != HOLDING && service->max_leases < service->count;
    own->kept_until = NEVER;
    own->came = now();
    arrive(service, own, &service->workers[worker], asked);
    pthread_mutex_lock(&service->mutex);
    own->is_represented = false;
    for (uint32_t at = 0; at < service->asleep_count && !own->is_represented; at++) own->is_represented = take_the_same(service->asleep[at], own);
    if (atomic_load(&service->stopped)) own->is_represented = false;
    own->has_news = own->begins_with_look = !own->is_represented;
    own->is_kept_back = own->awaits_lease = own->brings_lease = own->has_slept = own->is_queued = false;
    own->overtaken = 0;
    memset(own->inside, 0, sizeof own->inside);
    own->call.number = service->arrivals++;
    service->marks_awaited |= own->marks;
    service->asleep[service->asleep_count++] = own;
    pthread_mutex_unlock(&service->mutex);
    return own;
}

/* Takes a call from the list, and answers where it stood. The mutex is locked, here and below. */
static uint32_t leave_list(wakhurmi_service *service, const sleeper *own) {
    uint32_t place = 0;
    while (service->asleep[place] != own) place++;
    service->asleep_count--;
    for (uint32_t at = place; at < service->asleep_count; at++) service->asleep[at] = service->asleep[at + 1];
    service->marks_awaited = 0;
    for (uint32_t at = 0; at < service->asleep_count; at++) service->marks_awaited |= service->asleep[at]->marks;
    return place;
}

/* Has the next of those that a call represented represent the others. It came later than that call, which stood at this place. */
static void have_next_represent(wakhurmi_service *service, const sleeper *own, uint32_t place, bool has_taken) {
    uint32_t at = place;
    while (at < service->asleep_count && !(service->asleep[at]->is_represented && take_the_same(service->asleep[at], own))) at++;
    if (at == service->asleep_count) return;
    sleeper *next = service->asleep[at];
    next->is_represented = next->is_kept_back = next->awaits_lease = false;
    if (!has_taken) tell_news(next);
}

/* A call has what it slept for, and its worker a turn. Those that came earlier and wait for the same were overtaken. */
static void begin_turn(wakhurmi_service *service, sleeper *taker, uint32_t place) {
    taker->turn_began = now();
    for (uint32_t at = 0; at < place; at++) {
        sleeper *found = service->asleep[at];
        bool take_a_lease = taker->may_lack_lease && found->awaits_lease;
        if (take_a_lease || have_a_conflict(&taker->call, &found->call)) found->overtaken++;
    }
}

/* The call ends, and has taken what it was to take or hasn't. The mutex isn't locked. */
static void end_sleep(wakhurmi_service *service, sleeper *own, bool has_taken) {
    atomic_fetch_sub(&service->sleepers, SLEEPER);
    pthread_mutex_lock(&service->mutex);
    uint32_t place = leave_list(service, own);
    if (!own->is_represented) have_next_represent(service, own, place, has_taken);
    if (has_taken && own->has_slept) begin_turn(service, own, place);
    if (own->is_queued) {
        depart(&service->queue, &own->call);
        note_whether(service, SOMEBODY_QUEUED, service->queue.length > 0);
        let_kept_go_on(service, has_taken ? own : NULL);
    }
    /* Where something was given back meanwhile, that may be one more lease than it has taken. */
    end_bringing(service, own, !has_taken || has_changed_since(service, own));
    pthread_mutex_unlock(&service->mutex);
}
