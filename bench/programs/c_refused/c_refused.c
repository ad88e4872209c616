/* Refuses memory to each allocation of a taking, of a part's text, and of a service that drops entries, one after the other. It prints nothing
 * where every answer is right and nothing is lost. In such an allocation it also makes other calls: it has a worker make entries while another's
 * call drops older ones, and has calls with a part refused while its text is written.
 *
 *     c_refused
 *
 * It is linked with --wrap for malloc, realloc, calloc and aligned_alloc. */
#include "../c_refusing.h"
#include <unistd.h>

enum { ENTRIES = 40, KEPT = 200, ROUNDS = 1500, MOST_REFUSED = 1000, ROOM = 1 << 16, LIMIT = 600 };
enum { LARGE = 1 << 14, MEANWHILE = 3000, FEW = 128 };

static void make_awaited(void);
static void try_busy(void);

void *__wrap_malloc(size_t size) {
    if (size >= LARGE) make_awaited();
    try_busy();
    return refuses() ? NULL : __real_malloc(size);
}

static wakhurmi_service *service;

static void open_service(uint64_t kept) { demand(wakhurmi_open_keeping(1, 1, 1, kept, &service) == WAKHURMI_OK, "opened"); }

static void make_entry_by(uint32_t worker, int number) {
    wakhurmi_answer answer = number % 2 == 0 ? wakhurmi_take(service, worker, NULL, 0) : wakhurmi_hand_back(service, worker);
    demand(answer == WAKHURMI_OK, "an entry");
}

static void make_entry(int number) { make_entry_by(0, number); }

/* Whether another worker's entries are to be made once room is taken for a new part. Room that grows is large too, but comes from realloc. */
static bool are_awaited;

static void make_awaited(void) {
    if (!are_awaited) return;
    are_awaited = false;
    for (int entry = 0; entry < MEANWHILE; entry++) make_entry_by(1, entry);
}

/* A part that is in a call, where others are to be tried. */
static wakhurmi_part *busy;

static void try_busy(void) {
    wakhurmi_part *part = busy;
    uint64_t place = 0;
    size_t written;
    char byte;
    if (part == NULL) return;
    busy = NULL;
    demand(wakhurmi_take_history(service, &part) == WAKHURMI_MISUSED, "a taking into a part that is in a call");
    demand(wakhurmi_part_text(part, &place, &byte, 1, &written) == WAKHURMI_MISUSED, "the text of a part that is in a call");
}

/* The text of a part, or what was refused while it was written. */
static char *text_of(wakhurmi_part *part) {
    static char text[ROOM];
    uint64_t place = 0;
    size_t length = 0, written;
    do {
        uint64_t before = place;
        written = ROOM;
        wakhurmi_answer answer = wakhurmi_part_text(part, &place, text + length, ROOM - 1 - length, &written);
        demand(answer == WAKHURMI_OK || (answer == WAKHURMI_NO_MEMORY && place == before && written == ROOM), "a part's text");
        if (answer == WAKHURMI_NO_MEMORY) continue;
        length += written;
    } while (written > 0);
    text[length] = 0;
    return text;
}

static void demand_all_entries(wakhurmi_part *part) {
    char wanted[32];
    snprintf(wanted, sizeof wanted, "\n%d w0 handback ", ENTRIES);
    const char *text = text_of(part);
    demand(strncmp(text, "history 2\n", 10) == 0 && strstr(text, "\n1 w0 acquire ") != NULL && strstr(text, wanted) != NULL, "all entries");
}

/* Where a taking is refused memory nothing is taken, and the next taking has all. */
static bool check_taking(int number, bool is_new) {
    wakhurmi_part *part = NULL;
    open_service(UINT64_MAX);
    if (!is_new) demand(wakhurmi_take_history(service, &part) == WAKHURMI_OK, "a part");
    for (int entry = 0; entry < ENTRIES; entry++) make_entry(entry);
    wakhurmi_part *before = part;
    refuse(number);
    wakhurmi_answer answer = wakhurmi_take_history(service, &part);
    bool was = was_refused();
    demand(answer == (was ? WAKHURMI_NO_MEMORY : WAKHURMI_OK), "what a taking answers");
    if (was) {
        demand(part == before, "nothing is written where nothing is taken");
        demand(wakhurmi_take_history(service, &part) == WAKHURMI_OK, "a taking behind a refused one");
    }
    demand_all_entries(part);
    refuse(number);
    demand_all_entries(part);
    bool text_was = was_refused();
    wakhurmi_close(service);
    wakhurmi_close_part(part);
    return was || text_was;
}

static void check_busy(void) {
    wakhurmi_part *part = NULL;
    open_service(UINT64_MAX);
    for (int entry = 0; entry < ENTRIES; entry++) make_entry(entry);
    demand(wakhurmi_take_history(service, &part) == WAKHURMI_OK, "a part");
    busy = part;
    demand_all_entries(part);
    demand(busy == NULL, "a text takes memory");
    wakhurmi_close(service);
    wakhurmi_close_part(part);
}

static bool check_opening(int number) {
    service = NULL;
    refuse(number);
    wakhurmi_answer answer = wakhurmi_open_keeping(2, 1, 1, KEPT, &service);
    bool was = was_refused();
    demand(answer == (was ? WAKHURMI_NO_MEMORY : WAKHURMI_OK) && (service == NULL) == was, "what an opening answers");
    wakhurmi_close(service);
    return was;
}

/* Two shared services, of which the first may have two users. */
static const uint32_t maxima[2] = {2, 1};

static wakhurmi_answer open_with_maxima(void) {
    const wakhurmi_options options = {.size = sizeof options, .workers = 2, .max_leases = 1, .maxima = maxima, .services = 2};
    return wakhurmi_open_with(&options, &service);
}

static bool check_opening_with_maxima(int number) {
    service = NULL;
    refuse(number);
    wakhurmi_answer answer = open_with_maxima();
    bool was = was_refused();
    demand(answer == (was ? WAKHURMI_NO_MEMORY : WAKHURMI_OK) && (service == NULL) == was, "what an opening with maxima answers");
    wakhurmi_close(service);
    return was;
}

/* A call that is refused memory leaves its worker where it was, so it can be made again. */
static bool check_uses(int number) {
    static const uint32_t both[2] = {0, 1};
    char text[ROOM / 16];
    uint64_t place = 0;
    size_t written;
    demand(open_with_maxima() == WAKHURMI_OK, "opened with maxima");
    refuse(number);
    wakhurmi_answer answers[5] = {0};
    while ((answers[0] = wakhurmi_take_uses(service, 0, both, 2)) == WAKHURMI_NO_MEMORY) {}
    while ((answers[1] = wakhurmi_try_take_uses(service, 1, both, 1)) == WAKHURMI_NO_MEMORY) {}
    while ((answers[2] = wakhurmi_enter(service, 0)) == WAKHURMI_NO_MEMORY) {}
    while ((answers[3] = wakhurmi_leave(service, 0)) == WAKHURMI_NO_MEMORY) {}
    while ((answers[4] = wakhurmi_hand_back(service, 0)) == WAKHURMI_NO_MEMORY) {}
    bool was = was_refused();
    for (int at = 0; at < 5; at++) demand(answers[at] == (at == 1 ? WAKHURMI_BUSY : WAKHURMI_OK), "a call with uses");
    demand(wakhurmi_finish(service) == WAKHURMI_OK, "ended");
    demand(wakhurmi_history(service, &place, text, sizeof text - 1, &written) == WAKHURMI_OK, "its history");
    text[written] = 0;
    demand(strstr(text, "\n1 w0 acquire | lock 0, lock 2, take\n2 w1 acquire | failed\n") != NULL && strstr(text, "\nend 5\n") != NULL, "its entries");
    wakhurmi_close(service);
    return was;
}

/* Ends the service, in which so many entries were made. The last are there, as many as are kept; the number of the first of them. */
static uint64_t end_and_find_first(uint64_t made) {
    static char text[ROOM];
    uint64_t place = 0, first = 0, last = 0;
    size_t written;
    demand(wakhurmi_finish(service) == WAKHURMI_OK, "ended");
    do {
        demand(wakhurmi_history(service, &place, text, sizeof text - 1, &written) == WAKHURMI_OK, "the rest");
        text[written] = 0;
        for (const char *line = text; *line != 0; line = strchr(line, '\n') + 1) {
            uint64_t entry;
            if (!begins_with_number(line, " w", &entry)) continue;
            demand(first == 0 || entry == last + 1, "the next entry");
            if (first == 0) first = entry;
            last = entry;
        }
    } while (written > 0);
    demand(last == made && last - first + 1 >= KEPT, "the last entries");
    wakhurmi_close(service);
    return first;
}

/* An entry that is refused memory can be made afterwards. Where entries can't be dropped for want of memory, they are later. */
static bool check_dropping(int number) {
    open_service(KEPT);
    refuse(number);
    for (int entry = 0; entry < 2 * ROUNDS; entry++) {
        wakhurmi_answer answer;
        do {
            answer = entry % 2 == 0 ? wakhurmi_take(service, 0, NULL, 0) : wakhurmi_hand_back(service, 0);
        } while (answer == WAKHURMI_NO_MEMORY);
        demand(answer == WAKHURMI_OK, "an entry or no memory");
    }
    bool was = was_refused();
    demand(end_and_find_first(2 * ROUNDS) > 1, "older entries are dropped");
    return was;
}

/* Entries that another worker makes while a call puts entries aside aren't taken for newer ones. Where all calls are made under a mutex no other
 * worker can. */
static void check_meanwhile(void) {
#ifndef WAKHURMI_ONE_AT_A_TIME
    int made = 0;
    demand(wakhurmi_open_keeping(2, 2, 1, KEPT, &service) == WAKHURMI_OK, "opened");
    for (are_awaited = true; are_awaited && made < 2 * ROUNDS; made++) make_entry(made);
    demand(!are_awaited, "room is taken for a new part");
    for (int entry = 0; entry < FEW; entry++) make_entry(made++);
    end_and_find_first((uint64_t)made + MEANWHILE);
#endif
}

static bool check_new(int number) { return check_taking(number, true); }
static bool check_old(int number) { return check_taking(number, false); }

int main(void) {
    alarm(LIMIT);
    demand(refuse_each(check_new, MOST_REFUSED) > 3, "a new part takes memory");
    demand(refuse_each(check_old, MOST_REFUSED) > 0, "a text takes memory");
    demand(refuse_each(check_opening, MOST_REFUSED) > 3, "an opening takes memory");
    demand(refuse_each(check_opening_with_maxima, MOST_REFUSED) > 4, "an opening with maxima takes memory");
    demand(refuse_each(check_uses, MOST_REFUSED) > 1, "uses take memory");
    demand(refuse_each(check_dropping, MOST_REFUSED) > 3, "entries take memory");
    check_meanwhile();
    check_busy();
    return 0;
}
