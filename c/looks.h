/* Looks: one call of the proved library by a worker's handle, again and again while another worker is inside. A part of wakhurmi.c. In each
 * call of a worker the deed is known, so none chooses among them while it runs. */
#include "slots.h"

/* The same from whatever use a worker has between calls, which it gives back; IN_CALL says that it has none of these. That use changes by
 * calls with this worker alone. */
SELDOM use claim_whatever(slot *wanted, use after) {
    for (use before = EMPTY; before <= HOLDING; before++) {
        if (claim(wanted, before, after)) return before;
    }
    return IN_CALL;
}

typedef enum { TAKE, TRY_TAKE, TAKE_USES, TRY_TAKE_USES, HAND_BACK, ENTER, LEAVE } deed;

typedef struct {
    deed what;
    const uint32_t *locks; /* Or services, whose uses are taken. */
    size_t count;
    moment deadline;
} request;

IN_EACH_CALL bool gives_back(deed what) { return what == HAND_BACK || what == ENTER; }
IN_EACH_CALL bool takes_locks(deed what) { return what == TAKE || what == TRY_TAKE; }
IN_EACH_CALL bool takes_uses(deed what) { return what == TAKE_USES || what == TRY_TAKE_USES; }

/* What a worker's use is before most calls of a deed, and after one that did it. */
IN_EACH_CALL use before_most(deed what) { return what == LEAVE ? IN_SECTION : gives_back(what) ? HOLDING : EMPTY; }
IN_EACH_CALL use after_done(deed what) { return what == HAND_BACK ? EMPTY : what == ENTER ? IN_SECTION : HOLDING; }

IN_EACH_CALL told look_once(slot *own, deed what, const uint32_t *locks, size_t count) {
    go_in();
    told said;
    switch (what) {
    case TAKE: said = wakhurmi_c_take(&own->held, locks, count); break;
    case TRY_TAKE: said = wakhurmi_c_try_take(&own->held, locks, count); break;
    case TAKE_USES: said = wakhurmi_c_take_uses(&own->held, own->maxima, own->services, locks, count); break;
    case TRY_TAKE_USES: said = wakhurmi_c_try_take_uses(&own->held, own->maxima, own->services, locks, count); break;
    case HAND_BACK: said = wakhurmi_c_hand_back(&own->held); break;
    case ENTER: said = wakhurmi_c_enter(&own->held); break;
    default: said = wakhurmi_c_leave(&own->held); break;
    }
    go_out();
    return said;
}

/* Looks again while another worker is inside. */
static told look_again(slot *own, request asked) {
    for (unsigned looks = 1;; looks++) {
        wait_a_moment(looks);
        told said = look_once(own, asked.what, asked.locks, asked.count);
        if (said.answer != AGAIN) return said;
    }
}

static told look(slot *own, request asked) {
    told said = look_once(own, asked.what, asked.locks, asked.count);
    return said.answer == AGAIN ? look_again(own, asked) : said;
}

/* Has the proved part know of a stop. */
static void tell_stop(slot *own) {
    go_in();
    wakhurmi_c_stop(&own->held);
    go_out();
}
