/* Histories that are taken while their service runs, and services that keep the last entries alone.
 *
 *     c_history calls                    answers that are known beforehand; it prints nothing where all are right
 *     c_history parts THREADS ROUNDS     threads work, and one more takes the history into two parts by turns: the texts behind each other
 *     c_history cancel COUNT             the same of a part that so many threads take which are cancelled at random moments */
#include "../c_common.h"
#include <stdatomic.h>
#include <sys/wait.h>
#include <unistd.h>

enum { MOST = 2, LOCKS = 3, MAX_THREADS = 32, ROUNDS = 5000, SHARED_ROUNDS = 100, LIMIT = 600 };
enum { FEW_BYTES = 300, MANY_BYTES = 4096, TAKE_EACH = 100000, LONGEST_DELAY = 300000, BODY = 10000, ROUNDS_A_TAKER = 100 };
/* A service that keeps N entries hardly keeps more than twice as many and this. */
enum { BEYOND = 4000 };

typedef struct {
    char *bytes;
    size_t length, room;
} text;

/* What a text says of itself. */
typedef struct {
    uint64_t first, last, lines;
    bool has_head, has_end;
} summary;

static wakhurmi_service *service;
static atomic_bool ended;
static int rounds;

static void append(text *to, const char *bytes, size_t count) {
    if (to->length + count >= to->room) {
        to->room = 2 * (to->length + count) + 1;
        to->bytes = realloc(to->bytes, to->room);
        demand(to->bytes != NULL, "memory for a text");
    }
    memcpy(to->bytes + to->length, bytes, count);
    to->length += count;
    to->bytes[to->length] = 0;
}

/* The text of a part or, where there is none, of what the ended service has. */
static void append_history(text *to, wakhurmi_part *part, size_t size) {
    char buffer[MANY_BYTES];
    uint64_t place = 0;
    size_t written;
    do {
        EXPECT(OK, part != NULL ? wakhurmi_part_text(part, &place, buffer, size, &written) : wakhurmi_history(service, &place, buffer, size, &written));
        append(to, buffer, written);
    } while (written > 0);
}

/* Entries have to be numbered one after another, and nothing stands before the head or behind the end. */
static summary summary_of(const text *of) {
    summary all = {0};
    for (const char *line = of->bytes; line != NULL && *line != 0; line = strchr(line, '\n') + 1) {
        demand(!all.has_end && strchr(line, '\n') != NULL, "a whole line, before the end");
        all.lines++;
        uint64_t number;
        if (strncmp(line, "history 2\n", 10) == 0) {
            demand(all.lines == 1, "the head comes first");
            all.has_head = true;
        } else if (all.lines == 2 && all.has_head) {
            demand(strncmp(line, "workers ", 8) == 0, "the head's second line");
        } else if (strncmp(line, "end ", 4) == 0) {
            demand(begins_with_number(line + 4, "", &number), "a number at the end");
            demand(all.last == 0 || number == all.last, "the number at the end");
            all.last = number;
            all.has_end = true;
        } else {
            demand(begins_with_number(line, " w", &number) && (all.last == 0 || number == all.last + 1), "the next entry");
            if (all.first == 0) all.first = number;
            all.last = number;
        }
    }
    return all;
}

static uint64_t entries_of(summary of) { return of.first == 0 ? 0 : of.last - of.first + 1; }

static summary part_summary(wakhurmi_part *part) {
    text own = {0};
    append_history(&own, part, MANY_BYTES);
    summary all = summary_of(&own);
    free(own.bytes);
    demand(!all.has_end, "a part has no end");
    return all;
}

static summary rest_summary(void) {
    text own = {0};
    append_history(&own, NULL, MANY_BYTES);
    summary all = summary_of(&own);
    free(own.bytes);
    demand(all.has_end, "the rest has an end");
    return all;
}

static void demand_entries(summary of, uint64_t first, uint64_t last, const char *what) {
    demand(of.first == first && of.last == last && of.has_head == (first == 1), what);
}

/* Two entries each. */
static void make_rounds(uint32_t worker, int count) {
    for (int round = 0; round < count; round++) {
        EXPECT(OK, wakhurmi_take(service, worker, NULL, 0));
        EXPECT(OK, wakhurmi_hand_back(service, worker));
    }
}

static void check_misuse(void) {
    wakhurmi_part *part = NULL;
    uint64_t place = 0;
    size_t written = 9;
    char buffer[MANY_BYTES];
    EXPECT(MISUSED, wakhurmi_take_history(NULL, &part));
    EXPECT(MISUSED, wakhurmi_part_text(NULL, &place, buffer, sizeof buffer, &written));
    EXPECT(MISUSED, wakhurmi_open_keeping(1, 1, 1, 0, NULL));
    EXPECT(BAD_NUMBER, wakhurmi_open_keeping(257, 1, 1, 0, &service));
    wakhurmi_close_part(NULL);
    EXPECT(OK, wakhurmi_open(2, MOST, LOCKS, &service));
    EXPECT(MISUSED, wakhurmi_take_history(service, NULL));
    demand(part == NULL, "nothing is written where nothing is taken");
    EXPECT(OK, wakhurmi_take_history(service, &part));
    EXPECT(OK, wakhurmi_part_text(part, &place, NULL, 0, &written));
    demand(place == 0 && written == 0, "a part without entries has no text");
    make_rounds(0, 3);
    EXPECT(OK, wakhurmi_take_history(service, &part));
    EXPECT(MISUSED, wakhurmi_part_text(part, NULL, buffer, sizeof buffer, &written));
    EXPECT(MISUSED, wakhurmi_part_text(part, &place, NULL, 1, &written));
    EXPECT(MISUSED, wakhurmi_part_text(part, &place, buffer, sizeof buffer, NULL));
    written = 9;
    EXPECT(BAD_NUMBER, wakhurmi_part_text(part, &place, buffer, 10, &written));
    EXPECT(BAD_NUMBER, wakhurmi_part_text(part, &place, NULL, 0, &written));
    demand(place == 0 && written == 9, "a small buffer");
    static const uint64_t far[] = {7, 1000, UINT64_C(1) << 63 | 7, UINT64_MAX};
    for (size_t at = 0; at < sizeof far / sizeof *far; at++) {
        place = far[at];
        EXPECT(OK, wakhurmi_part_text(part, &place, buffer, sizeof buffer, &written));
        demand(place == far[at] && written == 0, "behind the last line");
    }
    demand_entries(part_summary(part), 1, 6, "a part's entries");
    make_rounds(1, 1);
    EXPECT(OK, wakhurmi_finish(service));
    EXPECT(MISUSED, wakhurmi_take_history(service, &part));
    demand_entries(part_summary(part), 1, 6, "a part after the end of its service");
    demand_entries(rest_summary(), 7, 8, "what wasn't taken");
    wakhurmi_close(service);
    demand_entries(part_summary(part), 1, 6, "a part without its service");
    wakhurmi_close_part(part);
}

/* The same text in small buffers and in large ones, and of a part that has served another service. */
static void check_texts(void) {
    wakhurmi_part *part = NULL;
    text small = {0}, large = {0};
    for (int turn = 0; turn < 2; turn++) {
        EXPECT(OK, wakhurmi_open(1 + (uint32_t)turn, 1, LOCKS, &service));
        make_rounds(0, 500);
        EXPECT(OK, wakhurmi_take_history(service, &part));
        make_rounds(0, 500);
        EXPECT(OK, wakhurmi_finish(service));
        small.length = large.length = 0;
        append_history(&small, part, FEW_BYTES);
        append_history(&small, NULL, FEW_BYTES);
        append_history(&large, part, MANY_BYTES);
        append_history(&large, NULL, MANY_BYTES);
        demand(small.length == large.length && memcmp(small.bytes, large.bytes, small.length) == 0, "one text in any buffer");
        demand_entries(summary_of(&small), 1, 2000, "a whole text");
        demand(strstr(small.bytes, turn == 0 ? "\nworkers 1 " : "\nworkers 2 ") != NULL, "the head of the part's service");
        wakhurmi_close(service);
    }
    wakhurmi_close_part(part);
    free(small.bytes);
    free(large.bytes);
}

static void *take_zero_by_one(void *argument) {
    (void)argument;
    EXPECT(OK, wakhurmi_take(service, 1, (const uint32_t[]){0}, 1));
    return NULL;
}

/* What the child of a fork says of its parent's service and parts, and of its own. */
static void be_a_child(wakhurmi_part *part) {
    uint64_t place = 0;
    size_t written = 0;
    char buffer[MANY_BYTES];
    wakhurmi_part *none = NULL, *same = part;
    EXPECT(MISUSED, wakhurmi_take_history(service, &none));
    EXPECT(MISUSED, wakhurmi_take_history(service, &same));
    EXPECT(MISUSED, wakhurmi_part_text(part, &place, buffer, sizeof buffer, &written));
    wakhurmi_close_part(part);
    EXPECT(OK, wakhurmi_open(1, 1, 1, &service));
    make_rounds(0, 2);
    EXPECT(MISUSED, wakhurmi_take_history(service, &same));
    EXPECT(OK, wakhurmi_take_history(service, &none));
    demand_entries(part_summary(none), 1, 4, "a child's part");
    wakhurmi_close_part(none);
    wakhurmi_close(service);
    // At an exit a tool would judge what the parent's other threads had. So the child becomes another program.
    execlp("true", "true", (char *)NULL);
}

/* One worker sleeps, and another has what it waits for. The history can be taken all the same, and nobody else is kept from that. */
static void check_sleeper_and_fork(uint64_t kept) {
    wakhurmi_part *part = NULL;
    int status;
    EXPECT(OK, wakhurmi_open_keeping(2, MOST, LOCKS, kept, &service));
    EXPECT(OK, wakhurmi_take(service, 0, (const uint32_t[]){0}, 1));
    pthread_t sleeper = start(take_zero_by_one, NULL);
    sleep_for(50000000);
    for (int turn = 0; turn < 100; turn++) EXPECT(OK, wakhurmi_take_history(service, &part));
    demand_entries(part_summary(part), 0, 0, "nothing came since");
    pid_t child = fork();
    if (child == 0) be_a_child(part);
    demand(waitpid(child, &status, 0) == child && WIFEXITED(status) && WEXITSTATUS(status) == 0, "the child of a fork");
    EXPECT(OK, wakhurmi_hand_back(service, 0));
    pthread_join(sleeper, NULL);
    EXPECT(OK, wakhurmi_take_history(service, &part));
    demand_entries(part_summary(part), 2, 3, "the entries since");
    EXPECT(OK, wakhurmi_hand_back(service, 1));
    wakhurmi_close(service);
    wakhurmi_close_part(part);
}

/* Where all calls are made under a mutex, who calls again at once keeps others from it. */
static void let_others_call(void) {
#ifdef WAKHURMI_ONE_AT_A_TIME
    sleep_for(BODY);
#endif
}

static void *take_until_the_end(void *argument) {
    wakhurmi_part *part = NULL;
    wakhurmi_answer answer;
    (void)argument;
    while ((answer = wakhurmi_take_history(service, &part)) == WAKHURMI_OK) let_others_call();
    demand(answer == WAKHURMI_MISUSED, "who takes hears of the end");
    wakhurmi_close_part(part);
    return NULL;
}

/* Who takes the history keeps nobody from ending the service, in which all workers are between two calls. */
static void check_end(void) {
    for (int turn = 0; turn < SHARED_ROUNDS; turn++) {
        EXPECT(OK, wakhurmi_open_keeping(2, MOST, LOCKS, turn % 2 == 0 ? UINT64_MAX : 0, &service));
        pthread_t takers[2] = {start(take_until_the_end, NULL), start(take_until_the_end, NULL)};
        make_rounds(0, turn);
        EXPECT(OK, wakhurmi_finish(service));
        summary rest = rest_summary();
        demand(rest.last == 2 * (uint64_t)turn && entries_of(rest) <= rest.last, "the last entry");
        for (int at = 0; at < 2; at++) pthread_join(takers[at], NULL);
        wakhurmi_close(service);
    }
}

static wakhurmi_part *shared;

static void *share_the_part(void *argument) {
    char buffer[FEW_BYTES];
    (void)argument;
    for (int round = 0; round < SHARED_ROUNDS; round++) {
        wakhurmi_part *part = shared;
        uint64_t place = 0;
        size_t written;
        wakhurmi_answer taken = wakhurmi_take_history(service, &part);
        wakhurmi_answer written_out = wakhurmi_part_text(shared, &place, buffer, sizeof buffer, &written);
        demand(taken == WAKHURMI_OK || taken == WAKHURMI_MISUSED, "a taking into a shared part");
        demand(written_out == WAKHURMI_OK || written_out == WAKHURMI_MISUSED, "the text of a shared part");
    }
    return NULL;
}

static void check_shared_part(void) {
    EXPECT(OK, wakhurmi_open(2, MOST, LOCKS, &service));
    EXPECT(OK, wakhurmi_take_history(service, &shared));
    pthread_t crowd[4];
    for (int at = 0; at < 4; at++) crowd[at] = start(share_the_part, NULL);
    make_rounds(0, SHARED_ROUNDS);
    for (int at = 0; at < 4; at++) pthread_join(crowd[at], NULL);
    wakhurmi_close(service);
    wakhurmi_close_part(shared);
}

/* All that a service keeps that keeps so many, after so many rounds of one worker. */
static void check_kept(uint64_t entries, int count) {
    uint64_t made = 2 * (uint64_t)count;
    EXPECT(OK, wakhurmi_open_keeping(1, 1, 1, entries, &service));
    make_rounds(0, count);
    EXPECT(OK, wakhurmi_finish(service));
    summary rest = rest_summary();
    demand(rest.last == made && rest.has_head == (rest.first == 1), "the last entries");
    demand(entries_of(rest) >= (entries < made ? entries : made), "as many as are kept, or all");
    demand(entries >= made || entries_of(rest) <= 2 * entries + BEYOND, "not many more than are kept");
    wakhurmi_close(service);
}

/* The last entries are taken, and go on without a gap. */
static void check_kept_and_taken(void) {
    wakhurmi_part *part = NULL;
    EXPECT(OK, wakhurmi_open_keeping(1, 1, 1, 100, &service));
    make_rounds(0, ROUNDS);
    EXPECT(OK, wakhurmi_take_history(service, &part));
    summary taken = part_summary(part);
    demand(taken.last == 2 * ROUNDS && entries_of(taken) >= 100 && entries_of(taken) <= 200 + BEYOND, "the last entries, taken");
    make_rounds(0, 10);
    EXPECT(OK, wakhurmi_take_history(service, &part));
    demand_entries(part_summary(part), 2 * ROUNDS + 1, 2 * ROUNDS + 20, "those behind them");
    EXPECT(OK, wakhurmi_take_history(service, &part));
    demand_entries(part_summary(part), 0, 0, "none came back that was taken");
    make_rounds(0, ROUNDS);
    EXPECT(OK, wakhurmi_finish(service));
    summary rest = rest_summary();
    demand(rest.last == 4 * ROUNDS + 20 && entries_of(rest) >= 100 && entries_of(rest) <= 200 + BEYOND, "the last entries of all");
    wakhurmi_close(service);
    wakhurmi_close_part(part);
}

static void *work_for_rounds(void *worker) {
    make_rounds((uint32_t)(size_t)worker, rounds);
    return NULL;
}

/* Entries are counted whatever they are of: takes of a worker that has a lease, tries that are refused, or sections. */
static void check_kept_of_each_call(void) {
    enum { KEPT = 100 };
    for (int kind = 0; kind < 3; kind++) {
        EXPECT(OK, wakhurmi_open_keeping(2, 1, LOCKS, KEPT, &service));
        EXPECT(OK, wakhurmi_take(service, 0, NULL, 0));
        for (int round = 0; round < ROUNDS; round++) {
            if (kind == 0) EXPECT(OK, wakhurmi_take(service, 0, NULL, 0));
            if (kind == 1) EXPECT(BUSY, wakhurmi_try_take(service, 1, NULL, 0));
            if (kind == 2) EXPECT(OK, round % 2 == 0 ? wakhurmi_enter(service, 0) : wakhurmi_leave(service, 0));
        }
        EXPECT(OK, wakhurmi_finish(service));
        summary rest = rest_summary();
        demand(rest.last == ROUNDS + 1 && entries_of(rest) >= KEPT && entries_of(rest) <= 2 * KEPT + BEYOND, "the last entries of each call");
        wakhurmi_close(service);
    }
}

static void check_kept_by_threads(void) {
    enum { THREADS = 8, KEPT = 1000 };
    pthread_t threads[THREADS];
    rounds = ROUNDS;
    EXPECT(OK, wakhurmi_open_keeping(THREADS, MOST, LOCKS, KEPT, &service));
    for (size_t at = 0; at < THREADS; at++) threads[at] = start(work_for_rounds, (void *)at);
    for (size_t at = 0; at < THREADS; at++) pthread_join(threads[at], NULL);
    EXPECT(OK, wakhurmi_finish(service));
    summary rest = rest_summary();
    demand(rest.last == 2 * (uint64_t)rounds * THREADS, "all entries were made");
    // How many more depends on the system: a thread that loses its processor while it drops entries lets others make many meanwhile.
    demand(entries_of(rest) >= KEPT && rest.first > 1, "the last of them are kept");
    wakhurmi_close(service);
}

static void check_calls(void) {
    check_misuse();
    check_texts();
    check_sleeper_and_fork(UINT64_MAX);
    check_sleeper_and_fork(100);
    check_end();
    check_shared_part();
    static const uint64_t kept[] = {0, 1, 100, 1000, 10 * ROUNDS, UINT64_MAX - 1, UINT64_MAX};
    for (size_t at = 0; at < sizeof kept / sizeof *kept; at++) {
        check_kept(kept[at], ROUNDS);
        check_kept(kept[at], 50);
    }
    // So many that what is kept beyond them is less, soon after older ones were dropped.
    check_kept(3000, 2100);
    check_kept(3000, 3100);
    check_kept_of_each_call();
    check_kept_and_taken();
    check_kept_by_threads();
}

/* So many rounds may all workers make beside a taker that is cancelled. Else they would make entries faster than a tool lets it write their text. */
static atomic_int rounds_left;

/* Whether a worker makes one more round. Where their number isn't known it waits for the next taker. */
static bool may_go_on(int round) {
    if (rounds > 0) return round < rounds;
    while (!atomic_load(&ended)) {
        if (atomic_fetch_sub(&rounds_left, 1) > 0) return true;
        sleep_for(BODY);
    }
    return false;
}

/* Works with locks, by tries, and in sections. */
static void *work(void *argument) {
    uint32_t worker = (uint32_t)(size_t)argument;
    static const uint32_t all[LOCKS] = {0, 1, 2};
    for (int round = 0; may_go_on(round); round++) {
        const uint32_t *locks = &all[((uint32_t)round + worker) % LOCKS];
        size_t count = round % 7 == 0 ? (size_t)(all + LOCKS - locks) : (size_t)(round % 2);
        if (round % 11 == 5 && wakhurmi_try_take(service, worker, locks, count) == WAKHURMI_BUSY) continue;
        if (round % 11 != 5) EXPECT(OK, wakhurmi_take(service, worker, locks, count));
        if (round % 5 == 0) {
            EXPECT(OK, wakhurmi_enter(service, worker));
            EXPECT(OK, wakhurmi_leave(service, worker));
        }
        if (rounds == 0) sleep_for(BODY);
        EXPECT(OK, wakhurmi_hand_back(service, worker));
    }
    return NULL;
}

static text joined;

static void *take_by_turns(void *argument) {
    wakhurmi_part *parts[2] = {NULL, NULL};
    (void)argument;
    for (size_t turn = 0; !atomic_load(&ended); turn++) {
        EXPECT(OK, wakhurmi_take_history(service, &parts[turn % 2]));
        append_history(&joined, parts[turn % 2], MANY_BYTES);
        sleep_for(TAKE_EACH);
    }
    wakhurmi_close_part(parts[0]);
    wakhurmi_close_part(parts[1]);
    return NULL;
}

/* Nothing here is a point at which a thread is cancelled but the last call, and what the calls would be. */
static void *take_until_cancelled(void *part) {
    for (;;) {
        EXPECT(OK, wakhurmi_take_history(service, part));
        append_history(&joined, *(wakhurmi_part **)part, FEW_BYTES);
        pthread_testcancel();
    }
    return NULL;
}

static void cancel_takers(int count) {
    wakhurmi_part *part = NULL;
    unsigned seed = 1;
    for (int turn = 0; turn < count; turn++) {
        void *result;
        atomic_store(&rounds_left, ROUNDS_A_TAKER);
        pthread_t taker = start(take_until_cancelled, &part);
        sleep_for(rand_r(&seed) % LONGEST_DELAY);
        pthread_cancel(taker);
        pthread_join(taker, &result);
        demand(result == PTHREAD_CANCELED, "cancelled");
    }
    wakhurmi_close_part(part);
}

static void end_and_print(void) {
    EXPECT(OK, wakhurmi_finish(service));
    append_history(&joined, NULL, MANY_BYTES);
    fwrite(joined.bytes, 1, joined.length, stdout);
    wakhurmi_close(service);
    free(joined.bytes);
}

static void run_beside_taker(size_t threads) {
    pthread_t started[MAX_THREADS];
    service = open_to_check(threads, MOST, LOCKS);
    pthread_t taker = start(take_by_turns, NULL);
    for (size_t at = 0; at < threads; at++) started[at] = start(work, (void *)at);
    for (size_t at = 0; at < threads; at++) pthread_join(started[at], NULL);
    atomic_store(&ended, true);
    pthread_join(taker, NULL);
    end_and_print();
}

static void run_beside_cancelled(int count) {
    enum { THREADS = 4 };
    pthread_t started[THREADS];
    service = open_to_check(THREADS, MOST, LOCKS);
    for (size_t at = 0; at < THREADS; at++) started[at] = start(work, (void *)at);
    cancel_takers(count);
    atomic_store(&ended, true);
    for (size_t at = 0; at < THREADS; at++) pthread_join(started[at], NULL);
    end_and_print();
}

int main(int count, char **words) {
    // Where a call hangs, nobody else would end this.
    alarm(LIMIT);
    if (count == 2 && strcmp(words[1], "calls") == 0) {
        check_calls();
    } else if (count == 4 && strcmp(words[1], "parts") == 0) {
        rounds = atoi(words[3]);
        size_t threads = (size_t)atoi(words[2]);
        demand(threads >= 1 && threads <= MAX_THREADS && rounds > 0, "numbers");
        run_beside_taker(threads);
    } else {
        demand(count == 3 && strcmp(words[1], "cancel") == 0 && atoi(words[2]) > 0, "c_history calls | parts THREADS ROUNDS | cancel COUNT");
        run_beside_cancelled(atoi(words[2]));
    }
    return 0;
}
