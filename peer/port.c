/* The port, as a driver would have it: no heap, closed forms over cycles, a
 * cursor over entries. Quoted words are the documents', section names 01's.
 *
 * Each WRONG_ switch makes one deliberate error, for tests/beside-wrong. */
#include "port.h"

#include <stdbool.h>
#include <string.h>

/* ---- 14: the record ---------------------------------------------------- */

/* Four intervals, or sixteen octets, in one operation of the machine. */
typedef uint32_t four __attribute__((vector_size(16), may_alias));
typedef uint8_t sixteen __attribute__((vector_size(16), may_alias));

/* An absent list has length 0, so one rule serves both kinds: an interval in
 * every used place, nothing in any unused one. The loops over sixteen places
 * at a time only gather bits; at most fifteen used places are looked at one by
 * one, and the unused ones up to the next sixteen. */
static inline bool places_good(const struct port_list *l)
{
    if (l->length > PORT_PLACES)
        return false;
    const size_t n = (size_t)l->length;
#ifdef WRONG_UNUSED
    const size_t places = PORT_PLACES - 16;
#else
    const size_t places = PORT_PLACES;
#endif
    four bad = {0};
    size_t i = 0;
    for (; i + 16 <= n; i += 16) {
        const four *in = (const four *)(l->intervals + i);
        bad |= (four)(in[0] == 0) | (four)(in[1] == 0) | (four)(in[2] == 0) | (four)(in[3] == 0);
    }
    uint64_t left = 0;
    for (; i < n; i++)
        left |= l->intervals[i] == 0;
    for (; i % 16 != 0; i++)
        left |= l->intervals[i] | l->octets[i];
    sixteen octets = {0};
    for (; i < places; i += 16) {
        const four *in = (const four *)(l->intervals + i);
        bad |= in[0] | in[1] | in[2] | in[3];
        octets |= *(const sixteen *)(l->octets + i);
    }
    bad |= (four)octets;
    uint64_t halves[2];
    memcpy(halves, &bad, sizeof halves);
    return (left | halves[0] | halves[1]) == 0;
}

static inline bool configuration_good(const struct port_configuration *c, bool present)
{
    if (!places_good(&c->list))
        return false;
    if (!present)
        return (c->list.length | c->cycle | c->extension | c->start) == 0;
    return c->list.length >= 1 && c->cycle >= 1 && c->cycle <= PORT_LONGEST_CYCLE;
}

static bool frame_good(const struct port_frame *f, uint64_t clock)
{
    if (!f->present)
        return (f->class | f->counted | f->start | f->last | f->end) == 0;
#ifdef WRONG_LAST_FREE
    const bool last_good = true;
#elif defined WRONG_LAST_AT_END
    const bool last_good = f->start < f->last && f->last <= f->end;
#else
    const bool last_good = f->start < f->last && f->last < f->end;
#endif
    /* The order matters: the difference means something only after it. */
    return f->class <= 7 && f->start <= clock && clock < f->end && last_good &&
           f->end - f->start <= PORT_LONGEST_FRAME;
}

/* A mark is 0 or 1: no bit but the lowest is set in any of them. */
static bool marks_good(const struct port *p)
{
    unsigned marks = p->on | p->operating_present | p->waiting_present | p->frame.present;
#ifndef WRONG_COUNTED_MARK
    marks |= p->frame.counted;
#endif
#ifdef WRONG_MARKS
    marks = 0;
#endif
    return marks <= 1;
}

unsigned port_check(const struct port *p)
{
    const struct port_configuration *o = &p->operating;
    const struct port_waiting *w = &p->waiting;

    if (!marks_good(p))
        return PORT_RECORD;
    if (p->clock > PORT_LAST_INSTANT || !frame_good(&p->frame, p->clock))
        return PORT_RECORD;
    if (!p->on && (p->operating_present || p->waiting_present))
        return PORT_RECORD;
    if (p->operating_present && o->start > p->clock)
        return PORT_RECORD;
    if (!p->waiting_present) {
        if (w->submitted != 0)
            return PORT_RECORD;
    } else {
        if (w->submitted > p->clock || p->clock >= w->configuration.start ||
            w->configuration.start > PORT_LAST_INSTANT + PORT_LONGEST_CYCLE)
            return PORT_RECORD;
        if (p->operating_present && o->start > w->submitted)
            return PORT_RECORD;
    }
    if (!configuration_good(o, p->operating_present) ||
        !configuration_good(&w->configuration, p->waiting_present))
        return PORT_RECORD;
    return PORT_OK;
}

/* ---- What the gates show ----------------------------------------------- */

/* Where a list stands at some offset: the entry's number and its end. */
struct cursor {
    uint32_t entry;
    uint64_t end;
};

static struct cursor entry_one(const struct port_list *l)
{
    return (struct cursor){0, l->intervals[0]};
}

/* "The lookup stops at the first entry whose end lies past the offset and
 * yields its number; beyond all entries the last one holds." Ends are 64
 * bits: 128 intervals of 32 bits do not fit 32. */
static struct cursor lookup(const struct port_list *l, uint64_t offset)
{
    const uint32_t last = (uint32_t)l->length - 1;
    struct cursor at = entry_one(l);
    /* Eight entries at a time while they end no later than the offset. */
    while (at.entry + 8 <= last) {
        const uint32_t *next = l->intervals + at.entry + 1;
        const uint64_t sum = ((uint64_t)next[0] + next[1]) + ((uint64_t)next[2] + next[3]) +
                             (((uint64_t)next[4] + next[5]) + ((uint64_t)next[6] + next[7]));
        if (at.end + sum > offset)
            break;
        at.end += sum;
        at.entry += 8;
    }
#ifdef WRONG_LOOKUP
    while (at.entry < last && at.end < offset)
#else
    while (at.entry < last && at.end <= offset)
#endif
        at.end += l->intervals[++at.entry];
    return at;
}

/* s of "What the gates show": the first start later than a with
 * s + c + e >= P. Both conditions ask for a start not before some instant, so
 * the later of the two instants, rounded up to a start, is s. The record's
 * extension has 64 bits and is compared without being added. A result of P
 * or more means that nothing bends. */
static uint64_t last_start(const struct port *p)
{
    const struct port_configuration *o = &p->operating;
    const uint64_t change = p->waiting.configuration.start;
#ifdef WRONG_OLD_START
    uint64_t from = p->clock + 1;
#elif defined WRONG_START_AT
    uint64_t from = p->waiting.submitted;
#else
    uint64_t from = p->waiting.submitted + 1;
#endif
    if (o->extension < change && o->cycle < change - o->extension) {
#ifdef WRONG_STRICT
        const uint64_t least = change - o->extension - o->cycle + 1;
#else
        const uint64_t least = change - o->extension - o->cycle;
#endif
        if (least > from)
            from = least;
    }
    const uint64_t over = (from - o->start) % o->cycle;
    return over ? from + (o->cycle - over) : from;
}

/* Start of the cycle running at t, for I <= t and, if one waits, t < P. */
static uint64_t cycle_start(const struct port *p, uint64_t t)
{
    if (p->waiting_present) {
        const uint64_t s = last_start(p);
        if (s <= t)
            return s;
    }
    return t - (t - p->operating.start) % p->operating.cycle;
}

/* The octet at t, not before the clock, if no further act comes. */
static uint8_t octet_at(const struct port *p, uint64_t t)
{
    if (p->waiting_present && t >= p->waiting.configuration.start) {
        const struct port_configuration *w = &p->waiting.configuration;
        return w->list.octets[lookup(&w->list, (t - w->start) % w->cycle).entry];
    }
    if (!p->operating_present)
        return p->standing;
    const struct port_list *l = &p->operating.list;
    return l->octets[lookup(l, t - cycle_start(p, t)).entry];
}

unsigned port_look(const struct port *p, uint64_t t, uint8_t *octet)
{
    if (port_check(p))
        return PORT_RECORD;
    if (t > PORT_LAST_INSTANT)
        return PORT_INSTANT;
    if (t < p->clock)
        return PORT_PAST;
    *octet = octet_at(p, t);
    return PORT_OK;
}

/* ---- Acts --------------------------------------------------------------- */

static bool is_open(uint8_t octet, unsigned class)
{
    return (octet >> class) & 1u;
}

static void count_overrun(struct port *p)
{
    p->overruns[p->frame.class]++; /* Counter64: goes from 2^64 - 1 to 0 */
    p->frame.counted = 1;
}

static bool wants_count(const struct port *p)
{
#ifdef WRONG_TWICE
    return p->frame.present;
#else
    return p->frame.present && !p->frame.counted;
#endif
}

/* "If, after an act ..., its gate is closed": asked after every accepted
 * act; only a frame that is not counted yet needs the octet. In the gap behind
 * its last octet a frame cannot overrun. */
static void after_act(struct port *p)
{
#ifdef WRONG_OVERRUN_ACT
    const uint64_t until = p->frame.end;
#else
    const uint64_t until = p->frame.last;
#endif
    if (wants_count(p) && p->clock < until && !is_open(octet_at(p, p->clock), p->frame.class))
        count_overrun(p);
}

unsigned port_new(struct port *p, uint64_t start, uint8_t standing)
{
    memset(p, 0, sizeof *p);
    if (start > PORT_LAST_INSTANT)
        return PORT_INSTANT;
    p->clock = start;
    p->standing = standing;
    return PORT_OK;
}

#ifdef WRONG_BACK
static struct port_configuration kept;
static uint8_t kept_present;
#endif

unsigned port_on(struct port *p)
{
    if (port_check(p))
        return PORT_RECORD;
#ifdef WRONG_BACK
    if (!p->on && kept_present && kept.start <= p->clock) {
        p->operating = kept;
        p->operating_present = 1;
    }
#endif
    p->on = 1;
    after_act(p);
    return PORT_OK;
}

unsigned port_off(struct port *p)
{
    if (port_check(p))
        return PORT_RECORD;
#ifdef WRONG_BACK
    kept = p->operating;
    kept_present = p->operating_present;
#endif
    p->on = 0;
    /* What is absent is all zeros already. */
    if (p->operating_present) {
        p->operating_present = 0;
        memset(&p->operating, 0, sizeof p->operating);
    }
    if (p->waiting_present) {
        p->waiting_present = 0;
        memset(&p->waiting, 0, sizeof p->waiting);
    }
    after_act(p);
    return PORT_OK;
}

unsigned port_standing(struct port *p, uint8_t standing)
{
    if (port_check(p))
        return PORT_RECORD;
    p->standing = standing;
    after_act(p);
    return PORT_OK;
}

/* For a length of at most 128: is an interval of 0 among the used places? */
static bool has_zero_interval(const struct port_list *l)
{
    const uint32_t n = (uint32_t)l->length;
    uint32_t zero = 0;
    for (uint32_t i = 0; i < n; i++)
        zero |= l->intervals[i] == 0;
    return zero != 0;
}

/* "Reading and submitting set unused ones to zero." */
static void set_list(struct port_list *to, const struct port_list *from)
{
    const size_t n = (size_t)from->length;
    memcpy(to->octets, from->octets, n);
    memset(to->octets + n, 0, PORT_PLACES - n);
    memcpy(to->intervals, from->intervals, n * sizeof *to->intervals);
    memset(to->intervals + n, 0, (PORT_PLACES - n) * sizeof *to->intervals);
    to->length = from->length;
}

/* "Until the last old cycle has begun under the waiting change": s <= now and
 * s < P. What falls due at an instant comes before its acts, so at s itself it
 * has begun. For a port with a waiting configuration. */
static bool last_cycle_begun(const struct port *p)
{
#ifdef WRONG_SEVEN_NOTHING
    if (!p->operating_present)
        return true;
#endif
    if (!p->operating_present)
        return false;
    const uint64_t s = last_start(p);
#ifdef WRONG_SEVEN_NEVER
    (void)s;
    return false;
#elif defined WRONG_SEVEN_AFTER
    return s < p->clock && s < p->waiting.configuration.start;
#else
    return s <= p->clock && s < p->waiting.configuration.start;
#endif
}

/* Both submissions: a refused one leaves all as it is, so what waits is taken
 * away only where the new one takes its place. */
static unsigned submit(struct port *p, const struct port_list *list, uint32_t numerator,
                       uint32_t denominator, uint32_t extension, uint64_t base, bool replaces)
{
    if (port_check(p))
        return PORT_RECORD;
    if (!p->on)
        return PORT_OFF;
#ifdef WRONG_S_OF_NEW
    struct port under = *p;
    if (base > p->clock && base <= PORT_LAST_INSTANT)
        under.waiting.configuration.start = base;
    if (p->waiting_present && (!replaces || last_cycle_begun(&under)))
        return PORT_WAITING;
#else
    if (p->waiting_present && (!replaces || last_cycle_begun(p)))
        return PORT_WAITING;
#endif
#ifdef WRONG_DROPPED
    p->waiting_present = 0;
    memset(&p->waiting, 0, sizeof p->waiting);
#endif
    if (denominator == 0)
        return PORT_CYCLE;
    const uint64_t product = numerator * UINT64_C(1000000000); /* below 2^62 */
    const uint64_t cycle = product / denominator;
    if (product % denominator != 0 || cycle < 1 || cycle > PORT_LONGEST_CYCLE)
        return PORT_CYCLE;
    if (base > PORT_LAST_INSTANT)
        return PORT_INSTANT;
    if (list->length < 1 || list->length > PORT_PLACES)
        return PORT_LIST_LENGTH;
    if (has_zero_interval(list))
        return PORT_INTERVAL;

    const uint64_t now = p->clock;
    uint64_t change = base;
#ifdef WRONG_BASE_NOW
    if (base <= now) {
#else
    if (base < now) {
#endif
        const uint64_t over = (now - base) % cycle;
        change = over ? now + (cycle - over) : now;
#ifdef WRONG_LATE
        change += cycle;
#endif
        p->errors += p->operating_present ? 1 : 0;
    }
#ifdef WRONG_ERROR_BACK
    if (p->waiting_present && p->operating_present)
        p->errors--;
#endif
#ifdef WRONG_FRAME_FORGOTTEN
    if (p->waiting_present)
        p->frame = (struct port_frame){0};
#endif

    struct port_configuration *to;
    if (change == now) {
        p->operating_present = 1;
        to = &p->operating;
#ifndef WRONG_REPLACED_LEFT
        if (p->waiting_present) {
            p->waiting_present = 0;
            memset(&p->waiting, 0, sizeof p->waiting);
        }
#endif
    } else {
#ifdef WRONG_OLD_A
        if (!p->waiting_present)
            p->waiting.submitted = now;
#else
        p->waiting.submitted = now;
#endif
        p->waiting_present = 1;
        to = &p->waiting.configuration;
    }
    set_list(&to->list, list);
    to->cycle = cycle;
    to->extension = extension;
    to->start = change;
    after_act(p);
    return PORT_OK;
}

unsigned port_submit(struct port *p, const struct port_list *list, uint32_t numerator,
                     uint32_t denominator, uint32_t extension, uint64_t base)
{
    return submit(p, list, numerator, denominator, extension, base, true);
}

unsigned port_submit_strict(struct port *p, const struct port_list *list, uint32_t numerator,
                            uint32_t denominator, uint32_t extension, uint64_t base)
{
#ifdef WRONG_STRICT_REPLACES
    return submit(p, list, numerator, denominator, extension, base, true);
#endif
    return submit(p, list, numerator, denominator, extension, base, false);
}

/* ---- Step ---------------------------------------------------------------- */

struct report {
    uint64_t *instants;
    uint8_t *octets;
    size_t room;
    size_t written;
    uint8_t first; /* the octet at the old clock */
    uint8_t shown; /* the octet after the last change */
};

/* The walks below return 0 if all changes before `to` fit, otherwise the
 * instant of the first that does not. No change lies at instant 0. */

/* Changes from `from` to before `to` within the cycle begun at `start`; the
 * cursor stands at `from`. Each entry is met once. */
static uint64_t walk_part(struct report *r, const struct port_list *l, uint64_t start,
                          struct cursor at, uint64_t from, uint64_t to)
{
    const uint32_t last = (uint32_t)l->length - 1;
    for (uint64_t u = from;;) {
        const uint8_t octet = l->octets[at.entry];
        if (octet != r->shown) {
            if (r->written == r->room)
                return u;
            r->instants[r->written] = u;
            r->octets[r->written] = octet;
            r->written++;
            r->shown = octet;
        }
        if (at.entry == last)
            return 0;
        u = start + at.end;
        if (u >= to)
            return 0;
        at.end += l->intervals[++at.entry];
    }
}

/* Writes the changes at start + offsets[i] that lie before `to`, by the
 * block: no decision per change. */
static uint64_t put(struct report *r, uint64_t start, const uint64_t *offsets,
                    const uint8_t *octets, uint32_t count, uint64_t to)
{
    while (count > 0 && offsets[count - 1] >= to - start)
        count--;
    const size_t left = r->room - r->written;
    const uint32_t fit = left < count ? (uint32_t)left : count;
    if (fit > 0) { /* a buffer of no places may have no address */
        uint64_t *instants = r->instants + r->written;
        for (uint32_t i = 0; i < fit; i++)
            instants[i] = start + offsets[i];
        memcpy(r->octets + r->written, octets, fit);
        r->written += fit;
    }
    if (fit < count)
        return start + offsets[fit];
    if (count > 0)
        r->shown = octets[count - 1];
    return 0;
}

static bool one_octet(const struct port_list *l)
{
    const uint32_t n = (uint32_t)l->length;
    uint8_t differs = 0;
    for (uint32_t i = 1; i < n; i++)
        differs |= l->octets[i] ^ l->octets[0];
    return differs == 0;
}

/* Changes from `from` to before `to` in plain cycles. `start` is that of the
 * cycle running at `from`, and the cursor stands at `from`.
 *
 * Every whole cycle makes the same changes. So, if more than the running
 * cycle is asked for, they are gathered once; if there are none, the walk is
 * over, however many cycles remain. Short cycles are laid end to end to make
 * longer blocks. */
static uint64_t walk_plain(struct report *r, const struct port_configuration *c, uint64_t start,
                           struct cursor at, uint64_t from, uint64_t to)
{
    const struct port_list *l = &c->list;
    const uint64_t cycle = c->cycle;
    uint64_t stop;

    if (to - start <= cycle)
        return walk_part(r, l, start, at, from, to);
    if (one_octet(l))
        return walk_part(r, l, start, at, from, from + 1);
    const bool few = r->room - r->written < 8; /* soon full: gathering would not pay */
    stop = walk_part(r, l, start, at, from, few ? start + cycle : from + 1);
    if (stop)
        return stop;

    /* One cycle's octets, neighbours that are alike taken as one. */
    uint64_t offsets[PORT_PLACES];
    uint8_t octets[PORT_PLACES];
    offsets[0] = 0;
    octets[0] = l->octets[0];
    uint32_t count = 1;
    uint64_t sum = l->intervals[0];
    uint8_t before = l->octets[0];
    for (uint32_t i = 1; i < (uint32_t)l->length && sum < cycle; i++) {
        const uint8_t octet = l->octets[i];
        offsets[count] = sum;
        octets[count] = octet;
        count += octet != before;
        before = octet;
        sum += l->intervals[i];
    }
    if (!few) {
        uint32_t k = 1;
        while (k < count && offsets[k] <= from - start)
            k++;
        stop = put(r, start, offsets + k, octets + k, count - k, start + cycle);
        if (stop)
            return stop;
    }
    start += cycle;

    /* A cycle that ends as it begins makes no change at its start. */
    const uint32_t skip = octets[0] == octets[count - 1] ? 1 : 0;
    count -= skip;
    if (count == 0)
        return 0;
    uint64_t span = cycle;
    while (skip + 2 * count <= PORT_PLACES && to - start > span && r->room - r->written > count) {
        for (uint32_t i = skip; i < skip + count; i++) {
            offsets[count + i] = offsets[i] + span;
            octets[count + i] = octets[i];
        }
        count *= 2;
        span *= 2;
    }
    for (; start < to; start += span) {
        stop = put(r, start, offsets + skip, octets + skip, count, to);
        if (stop)
            return stop;
    }
    return 0;
}

static uint64_t earlier(uint64_t a, uint64_t b)
{
    return a < b ? a : b;
}

/* All changes later than the clock and before `to`: the operating
 * configuration's plain cycles up to s or P, its last cycle from s to P, the
 * waiting one's plain cycles from P. The walk begins with the octet at the
 * clock as the one shown, so that an instant u is compared with u - 1. */
static uint64_t walk(const struct port *p, struct report *r, uint64_t to)
{
    const struct port_configuration *w = &p->waiting.configuration;
    const uint64_t change = p->waiting_present ? w->start : UINT64_MAX;
    uint64_t stop = 0;

    r->first = r->shown = p->standing;
    if (p->operating_present) {
        const struct port_configuration *o = &p->operating;
        uint64_t bend = UINT64_MAX;
        if (p->waiting_present) {
            bend = last_start(p);
            if (bend >= change)
                bend = UINT64_MAX;
        }
        const uint64_t now = p->clock;
        const uint64_t start = bend <= now ? bend : now - (now - o->start) % o->cycle;
        const struct cursor at = lookup(&o->list, now - start);
        r->first = r->shown = o->list.octets[at.entry];
        if (bend <= now) {
            stop = walk_part(r, &o->list, start, at, now, earlier(change, to));
        } else {
            stop = walk_plain(r, o, start, at, now, earlier(earlier(bend, change), to));
            if (!stop && bend < to)
                stop = walk_part(r, &o->list, bend, entry_one(&o->list), bend,
                                 earlier(change, to));
        }
    }
    if (!stop && change < to)
        stop = walk_plain(r, w, change, entry_one(&w->list), change, to);
    return stop;
}

/* "At any instant after the old clock that a step reaches", to before its
 * last octet: each octet shown there is the one at the old clock, if it lasts,
 * or a reported one. */
static bool step_overran(const struct port *p, const struct report *r, uint64_t reached)
{
    const struct port_frame *f = &p->frame;
    const uint64_t next = p->clock + 1;
#ifdef WRONG_OVERRUN_STEP
    const uint64_t until = f->end;
#else
    const uint64_t until = f->last;
#endif
    if (reached < next || until <= next)
        return false;
    if ((r->written == 0 || r->instants[0] > next) && !is_open(r->first, f->class))
        return true;
    for (size_t i = 0; i < r->written && r->instants[i] < until; i++)
        if (!is_open(r->octets[i], f->class))
            return true;
    return false;
}

unsigned port_step(struct port *p, uint64_t goal, uint64_t *instants, size_t instants_length,
                   uint8_t *octets, size_t octets_length, size_t *written)
{
    *written = 0;
    if (port_check(p))
        return PORT_RECORD;
    if (goal > PORT_LAST_INSTANT)
        return PORT_INSTANT;
    if (goal < p->clock)
        return PORT_PAST;
    if (goal - p->clock > PORT_LONGEST_STEP)
        return PORT_STEP;
    if (goal == p->clock)
        return PORT_OK; /* a step is no act: nothing is asked here */

    struct report r = {instants, octets, 0, 0, 0, 0};
    r.room = instants_length < octets_length ? instants_length : octets_length;
    const uint64_t stop = walk(p, &r, goal + 1);
#ifdef WRONG_STOP
    const uint64_t reached = stop ? stop : goal;
#else
    const uint64_t reached = stop ? stop - 1 : goal;
#endif

    if (p->frame.present) {
        if (wants_count(p) && step_overran(p, &r, reached))
            count_overrun(p);
#ifdef WRONG_FORGOT
        if (reached >= p->frame.last)
#else
        if (reached >= p->frame.end)
#endif
            p->frame = (struct port_frame){0};
    }
    if (p->waiting_present && reached >= p->waiting.configuration.start) {
        p->operating = p->waiting.configuration;
        p->operating_present = 1;
        p->waiting_present = 0;
        memset(&p->waiting, 0, sizeof p->waiting);
    }
    p->clock = reached;
    *written = r.written;
    return PORT_OK;
}

/* ---- Choosing a frame ---------------------------------------------------- */

/* "12 octet times later": from a frame's last octet to the next start. */
#define GAP 12

/* The time of an octet in ns, 8,000 / speed; 0 for a speed that is not offered. */
static inline uint64_t octet_time_at(uint64_t speed)
{
    return speed == 1000 ? 8 : speed == 100 ? 80 : speed == 10 ? 800 : 0;
}

static inline uint64_t gap_of(uint64_t octet_time)
{
#ifdef WRONG_GAP_1000
    return octet_time == 8 ? GAP * octet_time : 0;
#else
    return GAP * octet_time;
#endif
}

unsigned port_duration(uint64_t length, uint64_t speed, uint64_t *last, uint64_t *next)
{
    const uint64_t octet_time = octet_time_at(speed);
    *last = *next = 0;
#ifdef WRONG_DURATION_ORDER
    if (length - 64 > 2000 - 64)
        return PORT_HEAD;
#endif
    if (octet_time == 0)
        return PORT_SPEED;
    if (length - 64 > 2000 - 64)
        return PORT_HEAD;
    *last = (length + 8) * octet_time;
    *next = *last + gap_of(octet_time);
    return PORT_OK;
}

/* What a look ahead has found so far. Times here count from now. */
struct ahead {
    const uint64_t *heads;
    uint64_t octet_time; /* 8,000 / speed */
    unsigned open;       /* classes that were asked for and have not closed so far */
    unsigned ended;      /* closed, but not before their frame's end */
    uint64_t settled;    /* the end of the highest of both: no later closing can fail it; 0 if there is none */
#ifdef WRONG_STOP_AT_LAST
    uint64_t longest;
#endif
};

static inline uint64_t duration(const struct ahead *a, unsigned class)
{
    const uint64_t d = (a->heads[class] + 8) * a->octet_time;
#ifdef WRONG_FIT_GAP
    return d + gap_of(a->octet_time);
#elif defined WRONG_STOP_AT_LAST
    return earlier(d, a->longest);
#elif defined WRONG_CLOSING_AT_END
    return d + 1;
#else
    return d;
#endif
}

/* "Find the highest class from its leading zeros", of an octet that is not 0:
 * the number that is counted in has 32 bits. */
static inline unsigned highest(unsigned octet)
{
#ifdef WRONG_LOWEST
    return (unsigned)__builtin_ctz(octet);
#else
    return 31u - (unsigned)__builtin_clz(octet);
#endif
}

static inline void settle(struct ahead *a)
{
    const unsigned left = a->open | a->ended;
    a->settled = left ? duration(a, highest(left)) : 0;
}

/* The gates of `closing` close at time x: before the shortest frame of all has
 * ended, no class has. */
static inline void close_gates(struct ahead *a, unsigned closing, uint64_t x)
{
    a->open &= ~closing;
    if (x >= (64 + 8) * a->octet_time) {
        for (; closing; closing &= closing - 1) {
            const unsigned class = (unsigned)__builtin_ctz(closing);
            if (duration(a, class) <= x)
                a->ended |= 1u << class;
        }
    }
    settle(a);
}

/* The walks below go on at time x, before which nothing is settled, and return
 * true if the choice is settled by time `to`. */

/* One cycle's entries from the cursor on, which stands at `offset`. */
static bool ahead_part(struct ahead *a, const struct port_list *l, struct cursor at, uint64_t offset,
                       uint64_t x, uint64_t to)
{
    const size_t last = (size_t)l->length - 1;
    size_t entry = at.entry;
    uint64_t next = x + (at.end - offset); /* the next entry's time; unused for the last entry */
    for (;;) {
        const uint64_t stop = earlier(to, a->settled);
        const unsigned open = a->open;
        /* Eight entries at a time while all keep open what is open. */
        const uint64_t all = open * UINT64_C(0x0101010101010101);
        while (entry + 8 <= last) {
            uint64_t eight;
            memcpy(&eight, l->octets + entry, sizeof eight);
            if ((eight & all) != all)
                break;
            const uint32_t *i = l->intervals + entry + 1;
            x = next + (((uint64_t)i[0] + i[1]) + ((uint64_t)i[2] + i[3]) + (((uint64_t)i[4] + i[5]) + i[6]));
            if (x >= stop)
                return a->settled <= to;
            next = x + i[7];
            entry += 8;
        }
        while ((open & l->octets[entry]) == open) {
            if (entry == last || next >= stop)
                return a->settled <= to;
            x = next;
            next += l->intervals[++entry];
        }
        close_gates(a, open & ~(unsigned)l->octets[entry], x);
        if (a->settled <= x)
            return true;
    }
}

/* Plain cycles from `offset` on, time x. One whole round is enough: what it
 * leaves open stays open in every further one. */
static bool ahead_plain(struct ahead *a, const struct port_configuration *c, uint64_t offset,
                        uint64_t x, uint64_t to)
{
    const struct port_list *l = &c->list;
    const uint64_t wrap = x + (c->cycle - offset);
    const uint64_t stop = earlier(to, x + c->cycle);
    if (ahead_part(a, l, lookup(l, offset), offset, x, earlier(wrap, stop)))
        return true;
#ifdef WRONG_NO_WRAP
    return false;
#endif
    return wrap < stop && ahead_part(a, l, entry_one(l), 0, wrap, stop);
}

/* The look ahead sees what is shown if no further act comes: the operating
 * configuration's plain cycles up to s or P, its last cycle from s to P, the
 * waiting one's plain cycles from P, which may lie past the largest instant;
 * or the standing octet in the place of what does not operate. */
static void look_ahead(struct ahead *a, const struct port *p)
{
    const uint64_t now = p->clock;
    const struct port_configuration *o = &p->operating;
    const struct port_configuration *w = &p->waiting.configuration;
#ifdef WRONG_PLAIN_AHEAD
    const bool waits = false;
#elif defined WRONG_CHANGE_PAST
    const bool waits = p->waiting_present && w->start <= PORT_LAST_INSTANT;
#else
    const bool waits = p->waiting_present;
#endif
    const uint64_t change = waits ? w->start - now : UINT64_MAX;

    if (!p->operating_present) {
        close_gates(a, a->open & ~(unsigned)p->standing, 0);
        if (a->settled <= change)
            return;
#ifdef WRONG_STANDING_AHEAD
        return;
#endif
    } else {
        uint64_t bend = waits ? last_start(p) : UINT64_MAX;
        if (waits && bend >= w->start)
            bend = UINT64_MAX;
#ifdef WRONG_NO_BEND
        bend = UINT64_MAX;
#endif
        if (bend <= now) {
            const uint64_t offset = now - bend;
            if (ahead_part(a, &o->list, lookup(&o->list, offset), offset, 0, change))
                return;
        } else {
            const uint64_t last = bend == UINT64_MAX ? change : bend - now;
            if (ahead_plain(a, o, (now - o->start) % o->cycle, 0, last))
                return;
#ifdef WRONG_ONE_ROUND
            if (last > o->cycle)
                return;
#endif
            if (last < change && ahead_part(a, &o->list, entry_one(&o->list), 0, last, change))
                return;
        }
    }
#ifndef WRONG_STOP_AT_CHANGE
    if (waits)
        ahead_plain(a, w, 0, change, UINT64_MAX);
#endif
}

/* The octet of the classes of `asked` that may be chosen: its highest is the
 * highest class whose gate is open at each instant from now to before its
 * frame's end. Lower ones are left in it as far as the walk has come. */
static unsigned qualifying(const struct port *p, const uint64_t heads[8], uint64_t octet_time,
                           unsigned asked)
{
    struct ahead a = {.heads = heads, .octet_time = octet_time, .open = asked};
#ifdef WRONG_STOP_AT_LAST
    a.longest = PORT_LAST_INSTANT - p->clock + 1;
#endif
#ifdef WRONG_NONE_CHOSEN
    return 0;
#endif
    settle(&a);
    if (asked)
        look_ahead(&a, p);
    unsigned octet = a.open | a.ended;
#ifdef WRONG_BOTH
    if (octet && p->waiting_present) {
        struct port alone = *p;
        alone.waiting_present = 0;
        if (!qualifying(&alone, heads, octet_time, 1u << highest(octet)))
            octet = qualifying(p, heads, octet_time, asked & ~(1u << highest(octet)));
    }
#endif
    return octet;
}

unsigned port_transmit(struct port *p, const uint64_t heads[8], uint64_t speed)
{
    if (port_check(p))
        return PORT_RECORD;
    const uint64_t octet_time = octet_time_at(speed);
    if (octet_time == 0)
        return PORT_SPEED;
    if (p->frame.present)
        return PORT_SENDING;
    /* Each head has its bit in one of two octets, or its length is wrong. */
    unsigned asked = 0, empty = 0;
    for (unsigned k = 8; k-- > 0;) {
        asked = asked + asked + (heads[k] - 64 < 2001 - 64);
        empty = empty + empty + (heads[k] < 1);
    }
    if ((asked | empty) != 0xFF)
        return PORT_HEAD;

    const unsigned octet = qualifying(p, heads, octet_time, asked);
    if (octet) {
        const unsigned class = highest(octet);
        p->frame.present = 1;
        p->frame.class = (uint8_t)class;
        p->frame.counted = 0;
        p->frame.start = p->clock;
        p->frame.last = p->clock + (heads[class] + 8) * octet_time;
        p->frame.end = p->frame.last + gap_of(octet_time);
    }
#ifdef WRONG_CLASS_7
    else {
        p->frame.present = 1;
        p->frame.class = 7;
        p->frame.start = p->clock;
        p->frame.last = p->clock + (heads[7] + 8) * octet_time;
        p->frame.end = p->frame.last + gap_of(octet_time);
    }
#endif
    /* No overrun can follow: a frame chosen here has its gate open now. */
    return PORT_OK;
}

/* ---- The list's octets (17.7.22) ----------------------------------------- */

/* What is wrong with the entry at place `at`, in the order of document 01. */
static unsigned entry_refusal(const uint8_t *octets, size_t octets_length, size_t at)
{
    const size_t left = octets_length - at;
    if (left < 2)
        return PORT_LIST_CUT;
    if (octets[at] != 0)
        return PORT_OPERATION;
    if (octets[at + 1] != 5)
        return PORT_LENGTH_OCTET;
    return left < 7 ? PORT_LIST_CUT : PORT_INTERVAL;
}

static unsigned refuse_list(struct port_list *list, unsigned no, size_t at, size_t *place)
{
    memset(list, 0, sizeof *list);
    *place = at;
    return no;
}

unsigned port_list_read(uint64_t stated, const uint8_t *octets, size_t octets_length,
                        struct port_list *list, size_t *place)
{
    if (stated < 1 || stated > PORT_PLACES)
        return refuse_list(list, PORT_LIST_LENGTH, 0, place);
    const size_t n = (size_t)stated;
    const size_t whole = octets_length / 7 < n ? octets_length / 7 : n;
    size_t i;
    for (i = 0; i < whole; i++) {
        const uint8_t *e = octets + 7 * i;
        const uint32_t interval = (uint32_t)e[3] << 24 | (uint32_t)e[4] << 16 |
                                  (uint32_t)e[5] << 8 | (uint32_t)e[6];
        if ((e[0] | (e[1] ^ 5)) != 0 || interval == 0)
            break;
        list->octets[i] = e[2];
        list->intervals[i] = interval;
    }
    const size_t at = 7 * i;
    if (i < n)
        return refuse_list(list, entry_refusal(octets, octets_length, at), at, place);
    if (at < octets_length)
        return refuse_list(list, PORT_LIST_LENGTH, at, place);
    memset(list->octets + n, 0, PORT_PLACES - n);
    memset(list->intervals + n, 0, (PORT_PLACES - n) * sizeof *list->intervals);
    list->length = stated;
    *place = 0;
    return PORT_OK;
}

/* A number whose octets in memory are v's, most significant first. Kept apart
 * so that compilers see one reversal of four octets in it. */
static uint32_t big_endian(uint32_t v)
{
    const uint8_t octets[4] = {(uint8_t)(v >> 24), (uint8_t)(v >> 16), (uint8_t)(v >> 8), (uint8_t)v};
    uint32_t swapped;
    memcpy(&swapped, octets, sizeof swapped);
    return swapped;
}

unsigned port_list_write(const struct port_list *list, uint8_t *buffer, size_t buffer_length,
                         size_t *written)
{
    *written = 0;
    if (list->length < 1 || list->length > PORT_PLACES)
        return PORT_LIST_LENGTH;
    if (has_zero_interval(list))
        return PORT_INTERVAL;
    const size_t n = (size_t)list->length;
    if (buffer_length < 7 * n)
        return PORT_BUFFER;
    for (size_t i = 0; i < n; i++) {
        uint8_t *e = buffer + 7 * i;
        const uint32_t interval = big_endian(list->intervals[i]);
        e[0] = 0;
        e[1] = 5;
        e[2] = list->octets[i];
        memcpy(e + 3, &interval, sizeof interval);
    }
    *written = 7 * n;
    return PORT_OK;
}
