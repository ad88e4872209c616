/* The history of a service: taken while the service runs, forgotten, and written. No proof covers this file. Each change of a history is a call of
 * the proved library, which moves the entries of a book into a part in constant time.
 *
 * Who takes the history needs a handle, and borrows one that no call touches, as wakhurmi_leases_out does. A worker finds its handle lent for the
 * time of that one call. What goes through the entries of a part, or takes memory for one, stands outside of it as far as it can.
 *
 * A service that keeps the last entries alone has them in two: the book, and a part with those before the book's. Each worker counts its entries
 * in its own slot, that with which a lease began at its end, and adds them to those of all after every few. Once all are enough, the next that
 * does so moves the book's to a spare part, by its own handle within its own call, and the two parts change places: what was there before is
 * forgotten. It tries once. Where another worker is inside, or changes the parts, it leaves that to the next one that counts. So nobody waits,
 * and nothing is forgotten before as many newer entries are there. That each that was made is counted later, by its worker, is made up for by
 * UNCOUNTED_EACH more of them for each worker. All count from 0 again once the book's were moved, and not before: else entries that were moved
 * would be taken for newer ones.
 *
 * Who takes such a history has both, in that order, and keeps others from the parts meanwhile, as between the two takings nothing may change
 * places. */
#define _GNU_SOURCE
#include "service.h"
#include <stdlib.h>
#include <string.h>

/* A worker counts so many entries at once, so that it seldom writes what all write. It may have made two more of which it hasn't noted the last. */
#define COUNTED_AT_ONCE 32
#define UNCOUNTED_EACH (COUNTED_AT_ONCE + 2)

/* A part has what a service put aside before, and what was in its book then. The use of `newest` is EMPTY, or IN_CALL while a call has it. */
struct wakhurmi_part {
    slot newest;
    handle older;
    unsigned forks;
};

static void exchange(handle *one, handle *other) {
    handle value = *one;
    *one = *other;
    *other = value;
}

void wakhurmi_begin_history(wakhurmi_service *service, uint64_t entries) {
    bool keeps_all = entries == UINT64_MAX;
    uint64_t uncounted = (uint64_t)service->count * UNCOUNTED_EACH;
    service->kept.most = entries < UINT64_MAX - uncounted ? entries + uncounted : UINT64_MAX;
    if (!keeps_all) atomic_store(&service->sleepers, COUNTS_ENTRIES);
    for (uint32_t worker = 0; worker < service->count; worker++) service->workers[worker].until_counted = keeps_all ? INT64_MAX : COUNTED_AT_ONCE;
}

void wakhurmi_forget_history(wakhurmi_service *service) {
    wakhurmi_c_close_part(&service->kept.older.held);
    wakhurmi_c_close_part(&service->kept.spare);
}

/* Puts the entries of the book aside, by the handle of a worker that is in a call. */
static void put_aside(kept_entries *kept, slot *own) {
    if (atomic_load(&kept->counted) < kept->most) return;
    go_in();
    wakhurmi_c_empty_part(&kept->spare);
    bool taken = wakhurmi_c_take_history(&own->held, &kept->spare) == WAKHURMI_OK;
    if (taken) exchange(&kept->older.held, &kept->spare);
    go_out();
    if (taken) atomic_store(&kept->counted, 0);
}

void wakhurmi_count_entries(wakhurmi_service *service, slot *own) {
    kept_entries *kept = &service->kept;
    own->until_counted += COUNTED_AT_ONCE;
    if (atomic_fetch_add(&kept->counted, COUNTED_AT_ONCE) + COUNTED_AT_ONCE < kept->most) return;
    if (!claim_at_once(&kept->older, EMPTY, LENT)) return;
    put_aside(kept, own);
    let_go(&kept->older, EMPTY);
}

static uint32_t take_book(wakhurmi_service *service, uint32_t worker, void *part) {
    return wakhurmi_c_take_history(&service->workers[worker].held, part);
}

/* Takes what is put aside, and what is in the book, or neither. */
static wakhurmi_answer take_all(wakhurmi_service *service, wakhurmi_part *part) {
    kept_entries *kept = &service->kept;
    go_in();
    wakhurmi_c_empty_part(&part->older);
    wakhurmi_c_empty_part(&part->newest.held);
    go_out();
    claim(&kept->older, EMPTY, LENT);
    wakhurmi_answer answer = wakhurmi_ask_any(service, take_book, &part->newest.held);
    if (answer == WAKHURMI_OK) {
        go_in();
        exchange(&kept->older.held, &part->older);
        go_out();
        atomic_store(&kept->counted, 0);
    }
    let_go(&kept->older, EMPTY);
    return answer;
}

static wakhurmi_part *open_part(void) {
    wakhurmi_part *part = aligned_alloc(_Alignof(wakhurmi_part), sizeof *part);
    if (part == NULL) return NULL;
    memset(part, 0, sizeof *part);
    part->forks = atomic_load(&wakhurmi_forks);
    return part;
}

static bool claim_part(wakhurmi_part *part) {
    return part != NULL && is_of_this_process(part->forks) && claim_at_once(&part->newest, EMPTY, IN_CALL);
}

wakhurmi_answer wakhurmi_take_history(wakhurmi_service *service, wakhurmi_part **part) {
    if (!is_ours(service) || has_ended(service) || service->is_planned || part == NULL) return WAKHURMI_MISUSED;
    bool is_new = *part == NULL;
    wakhurmi_part *taken = is_new ? open_part() : *part;
    if (taken == NULL) return WAKHURMI_NO_MEMORY;
    if (!claim_part(taken)) return WAKHURMI_MISUSED;
    wakhurmi_answer answer = take_all(service, taken);
    let_go(&taken->newest, EMPTY);
    if (answer == WAKHURMI_OK) {
        *part = taken;
    } else if (is_new) {
        wakhurmi_close_part(taken);
    }
    return answer;
}

void wakhurmi_close_part(wakhurmi_part *part) {
    if (part == NULL || !is_of_this_process(part->forks)) return;
    wakhurmi_c_close_part(&part->older);
    wakhurmi_c_close_part(&part->newest.held);
    free(part);
}

/* The proved library takes a byte more than a line has room for a moment, so a line is tried in little room first, and in so many times as much
 * in each next try. */
#define SHORT_LINE 1023
#define MORE_ROOM 16

/* What has lines, and by which call of the proved library they are written. */
typedef struct {
    uint32_t (*write)(handle *from, uint64_t line, uint8_t *buffer, size_t size, size_t *written);
    handle *from;
} source;

/* Room for lines, and how much of it they fill. */
typedef struct {
    char *bytes;
    size_t size, filled;
} room;

/* The proved library takes no null pointer, not even for no room. */
static char nothing[1];

/* A line, where it fits. */
static uint32_t write_line(source from, uint64_t line, const room *to, size_t *length) {
    uint8_t *bytes = (uint8_t *)to->bytes + to->filled;
    size_t left = to->size - to->filled, tried = left < SHORT_LINE ? left : SHORT_LINE;
    uint32_t answer;
    while ((answer = from.write(from.from, line, bytes, tried, length)) == WAKHURMI_BAD_NUMBER && tried < left) {
        tried = tried < left / MORE_ROOM ? tried * MORE_ROOM : left;
    }
    return answer;
}

/* The lines that fit, from one on. `line` is the next behind them. */
static uint32_t write_lines(source from, uint64_t *line, room *to) {
    size_t length = 0;
    uint32_t answer;
    while ((answer = write_line(from, *line, to, &length)) == WAKHURMI_OK && length > 0) {
        to->filled += length;
        ++*line;
    }
    return answer;
}

/* A place in a text of two is the number of a line of the older one, or this and that of a line of the newest. */
#define NEWEST (UINT64_C(1) << 63)

/* The next lines of two that fit, one behind the other, and at least one of them. */
static wakhurmi_answer write_text(source older, source newest, uint64_t *place, room to, size_t *written) {
    uint64_t line = *place & ~NEWEST, behind = *place & NEWEST;
    uint32_t answer = WAKHURMI_OK;
    if (older.from->full && behind == 0) {
        answer = write_lines(older, &line, &to);
        if (answer == WAKHURMI_OK) {
            line = 0;
            behind = NEWEST;
        }
    }
    if (answer == WAKHURMI_OK) answer = write_lines(newest, &line, &to);
    if (answer != WAKHURMI_OK && to.filled == 0) return (wakhurmi_answer)answer;
    *place = line | behind;
    *written = to.filled;
    return WAKHURMI_OK;
}

static bool is_room(const uint64_t *place, const char *buffer, size_t size, const size_t *written) {
    return place != NULL && written != NULL && (buffer != NULL || size == 0);
}

static room room_in(char *buffer, size_t size) { return (room){size == 0 ? nothing : buffer, size, 0}; }

wakhurmi_answer wakhurmi_part_text(wakhurmi_part *part, uint64_t *place, char *buffer, size_t size, size_t *written) {
    if (!is_room(place, buffer, size, written) || !claim_part(part)) return WAKHURMI_MISUSED;
    source older = {wakhurmi_c_part, &part->older}, newest = {wakhurmi_c_part, &part->newest.held};
    go_in();
    wakhurmi_answer answer = write_text(older, newest, place, room_in(buffer, size), written);
    go_out();
    let_go(&part->newest, EMPTY);
    return answer;
}

wakhurmi_answer wakhurmi_history(wakhurmi_service *service, uint64_t *place, char *buffer, size_t size, size_t *written) {
    if (!is_ours(service) || !is_room(place, buffer, size, written)) return WAKHURMI_MISUSED;
    if (!claim(&service->book, EMPTY, IN_CALL)) return WAKHURMI_MISUSED;
    /* Who began to take the history before the end may still have what was put aside. */
    claim(&service->kept.older, EMPTY, LENT);
    source older = {wakhurmi_c_part, &service->kept.older.held}, newest = {wakhurmi_c_history, &service->book.held};
    go_in();
    wakhurmi_answer answer = write_text(older, newest, place, room_in(buffer, size), written);
    go_out();
    let_go(&service->kept.older, EMPTY);
    let_go(&service->book, EMPTY);
    return answer;
}
