/* The same calls as port.c in the plainest way: every instant is looked at
 * one by one, and each sentence of the documents is asked as it stands. It is a
 * check on port.c and shares no code with it. Sums are taken in 128 bits so
 * that none can wrap. */
#include <stdbool.h>
#include <string.h>

#include "port.h"

typedef unsigned __int128 wide;

/* ---- 14, sentence by sentence --------------------------------------------- */

static bool all_zero(const void *part, size_t size)
{
    const unsigned char *b = part;
    for (size_t i = 0; i < size; i++)
        if (b[i] != 0)
            return false;
    return true;
}

static bool list_all_zero(const struct port_list *l)
{
    return all_zero(l->octets, sizeof l->octets) && all_zero(l->intervals, sizeof l->intervals) &&
           l->length == 0;
}

static bool list_well_formed(const struct port_list *l)
{
    if (l->length == 0)
        return false;
    if (l->length > PORT_PLACES)
        return false;
    for (uint64_t i = 0; i < PORT_PLACES; i++) {
        if (i < l->length) {
            if (l->intervals[i] == 0)
                return false;
        } else {
            if (l->intervals[i] != 0)
                return false;
            if (l->octets[i] != 0)
                return false;
        }
    }
    return true;
}

static bool is_mark(uint8_t octet)
{
    return octet == 0 || octet == 1;
}

unsigned port_check(const struct port *p)
{
    /* marks */
    if (!is_mark(p->on))
        return 14;
    if (!is_mark(p->operating_present))
        return 14;
    if (!is_mark(p->waiting_present))
        return 14;
    if (!is_mark(p->frame.present))
        return 14;
    if (!is_mark(p->frame.counted))
        return 14;
    /* clock within range */
    if (p->clock > PORT_LAST_INSTANT)
        return 14;
    /* the operating one */
    if (p->operating_present) {
        if (!p->on)
            return 14;
        if (!list_well_formed(&p->operating.list))
            return 14;
        if (p->operating.cycle == 0)
            return 14;
        if (p->operating.cycle > PORT_LONGEST_CYCLE)
            return 14;
        if (p->operating.start > p->clock)
            return 14;
    } else {
        if (!list_all_zero(&p->operating.list))
            return 14;
        if (p->operating.cycle != 0)
            return 14;
        if (p->operating.extension != 0)
            return 14;
        if (p->operating.start != 0)
            return 14;
    }
    /* the waiting one */
    if (p->waiting_present) {
        if (!p->on)
            return 14;
        if (!list_well_formed(&p->waiting.configuration.list))
            return 14;
        if (p->waiting.configuration.cycle == 0)
            return 14;
        if (p->waiting.configuration.cycle > PORT_LONGEST_CYCLE)
            return 14;
        if (p->waiting.submitted > p->clock)
            return 14;
        if (p->waiting.configuration.start <= p->clock)
            return 14;
        if (p->waiting.configuration.start > PORT_LAST_INSTANT + 1000000000)
            return 14;
        if (p->operating_present && p->operating.start > p->waiting.submitted)
            return 14;
    } else {
        if (!list_all_zero(&p->waiting.configuration.list))
            return 14;
        if (p->waiting.configuration.cycle != 0)
            return 14;
        if (p->waiting.configuration.extension != 0)
            return 14;
        if (p->waiting.configuration.start != 0)
            return 14;
        if (p->waiting.submitted != 0)
            return 14;
    }
    /* the frame */
    if (p->frame.present) {
        if (p->frame.class > 7)
            return 14;
        if (p->frame.start > p->clock)
            return 14;
        if (p->frame.end <= p->clock)
            return 14;
        if (p->frame.last <= p->frame.start)
            return 14;
        if (p->frame.last >= p->frame.end)
            return 14;
        if (p->frame.end - p->frame.start > 1616000)
            return 14;
    } else {
        if (p->frame.class != 0)
            return 14;
        if (p->frame.start != 0)
            return 14;
        if (p->frame.last != 0)
            return 14;
        if (p->frame.end != 0)
            return 14;
        if (p->frame.counted != 0)
            return 14;
    }
    return 0;
}

/* ---- What the gates show, from the definition ------------------------------ */

/* "Entry 1 covers offset 0 up to its interval, and so on." */
static uint8_t octet_at_offset(const struct port_list *l, uint64_t offset)
{
    uint64_t end = 0;
    for (uint64_t i = 0; i < l->length; i++) {
        end += l->intervals[i];
        if (offset < end)
            return l->octets[i];
    }
    return l->octets[l->length - 1];
}

/* "Starts cycles at I, I + c, I + 2c and so on". */
static uint8_t plain_octet(const struct port_configuration *c, uint64_t t)
{
    return octet_at_offset(&c->list, (t - c->start) % c->cycle);
}

/* Is I + k c a start later than a with s + c + e >= P? Once it is, it stays
 * so for every larger k. */
static bool may_be_last(const struct port *p, uint64_t k)
{
    const struct port_configuration *o = &p->operating;
    const wide s = (wide)o->start + (wide)k * o->cycle;
    return s > p->waiting.submitted &&
           s + o->cycle + o->extension >= p->waiting.configuration.start;
}

/* The first such start, found by halving: trying every k from 0 would not
 * end in a lifetime for a cycle of 1 ns. */
static wide first_last_start(const struct port *p)
{
    uint64_t low = 0, high = UINT64_C(1) << 63;
    while (low < high) {
        const uint64_t middle = low + (high - low) / 2;
        if (may_be_last(p, middle))
            high = middle;
        else
            low = middle + 1;
    }
    return (wide)p->operating.start + (wide)low * p->operating.cycle;
}

/* s for this record, or the last number if nothing bends. It depends on the
 * record's configurations only, so the scans below work it out once. */
static uint64_t bend_of(const struct port *p)
{
    if (!p->operating_present || !p->waiting_present)
        return UINT64_MAX;
    const wide s = first_last_start(p);
    return s < p->waiting.configuration.start ? (uint64_t)s : UINT64_MAX;
}

/* The octet shown at t, not before the clock, if no further act comes. */
static uint8_t shown(const struct port *p, uint64_t bend, uint64_t t)
{
    if (!p->on)
        return p->standing;
    if (p->waiting_present && t >= p->waiting.configuration.start)
        return plain_octet(&p->waiting.configuration, t);
    if (!p->operating_present)
        return p->standing;
    if (t >= bend)
        return octet_at_offset(&p->operating.list, t - bend);
    return plain_octet(&p->operating, t);
}

static uint8_t shown_now(const struct port *p)
{
    return shown(p, bend_of(p), p->clock);
}

unsigned port_look(const struct port *p, uint64_t t, uint8_t *octet)
{
    if (port_check(p) != 0)
        return 14;
    if (t > PORT_LAST_INSTANT)
        return 9;
    if (t < p->clock)
        return 10;
    *octet = shown(p, bend_of(p), t);
    return 0;
}

/* ---- Acts ------------------------------------------------------------------ */

/* At instant t the port shows `octet`: has the frame overrun? */
static void test_overrun(struct port *p, uint64_t t, uint8_t octet)
{
    if (!p->frame.present || p->frame.counted)
        return;
    if (t < p->frame.start || t >= p->frame.last)
        return;
    if (octet & (1 << p->frame.class))
        return;
    p->overruns[p->frame.class] += 1;
    p->frame.counted = 1;
}

unsigned port_new(struct port *p, uint64_t start, uint8_t standing)
{
    memset(p, 0, sizeof *p);
    if (start > PORT_LAST_INSTANT)
        return 9;
    p->clock = start;
    p->standing = standing;
    return 0;
}

unsigned port_on(struct port *p)
{
    if (port_check(p) != 0)
        return 14;
    p->on = 1;
    test_overrun(p, p->clock, shown_now(p));
    return 0;
}

unsigned port_off(struct port *p)
{
    if (port_check(p) != 0)
        return 14;
    p->on = 0;
    p->operating_present = 0;
    memset(&p->operating, 0, sizeof p->operating);
    p->waiting_present = 0;
    memset(&p->waiting, 0, sizeof p->waiting);
    test_overrun(p, p->clock, shown_now(p));
    return 0;
}

unsigned port_standing(struct port *p, uint8_t standing)
{
    if (port_check(p) != 0)
        return 14;
    p->standing = standing;
    test_overrun(p, p->clock, shown_now(p));
    return 0;
}

/* The smallest N with base + N c >= a, by halving. */
static uint64_t smallest_n(uint64_t base, uint64_t c, uint64_t a)
{
    uint64_t low = 0, high = UINT64_C(1) << 63;
    while (low < high) {
        const uint64_t middle = low + (high - low) / 2;
        if ((wide)base + (wide)middle * c >= a)
            high = middle;
        else
            low = middle + 1;
    }
    return low;
}

unsigned port_submit_strict(struct port *p, const struct port_list *list, uint32_t numerator,
                            uint32_t denominator, uint32_t extension, uint64_t base)
{
    if (port_check(p) != 0)
        return 14;
    if (!p->on)
        return 6;
    if (p->waiting_present)
        return 7;
    if (denominator == 0)
        return 8;
    const wide product = (wide)numerator * 1000000000;
    if (product % denominator != 0)
        return 8;
    const wide c = product / denominator;
    if (c < 1 || c > PORT_LONGEST_CYCLE)
        return 8;
    if (base > PORT_LAST_INSTANT)
        return 9;
    if (list->length == 0 || list->length > PORT_PLACES)
        return 5;
    for (uint64_t i = 0; i < list->length; i++)
        if (list->intervals[i] == 0)
            return 4;

    struct port_configuration made;
    memset(&made, 0, sizeof made);
    for (uint64_t i = 0; i < list->length; i++) {
        made.list.octets[i] = list->octets[i];
        made.list.intervals[i] = list->intervals[i];
    }
    made.list.length = list->length;
    made.cycle = (uint64_t)c;
    made.extension = extension;

    const uint64_t a = p->clock;
    if (base >= a) {
        made.start = base;
    } else {
        made.start = base + smallest_n(base, made.cycle, a) * made.cycle;
        if (p->operating_present)
            p->errors += 1;
    }
    if (made.start == a) {
        p->operating = made;
        p->operating_present = 1;
    } else {
        p->waiting.configuration = made;
        p->waiting.submitted = a;
        p->waiting_present = 1;
    }
    test_overrun(p, p->clock, shown_now(p));
    return 0;
}

/* "Replaces the waiting configuration as though that had never been
 * submitted": a strict submission on the record without it. "From then on it is
 * 7 as before", and so is everything else that comes before or after it. */
unsigned port_submit(struct port *p, const struct port_list *list, uint32_t numerator,
                     uint32_t denominator, uint32_t extension, uint64_t base)
{
    if (port_check(p) != 0)
        return 14;
    if (!p->waiting_present || bend_of(p) <= p->clock)
        return port_submit_strict(p, list, numerator, denominator, extension, base);
    static struct port without;
    without = *p;
    without.waiting_present = 0;
    memset(&without.waiting, 0, sizeof without.waiting);
    const unsigned no = port_submit_strict(&without, list, numerator, denominator, extension, base);
    if (no == 0)
        *p = without;
    return no;
}

/* ---- Step ------------------------------------------------------------------ */

unsigned port_step(struct port *p, uint64_t goal, uint64_t *instants, size_t instants_length,
                   uint8_t *octets, size_t octets_length, size_t *written)
{
    *written = 0;
    if (port_check(p) != 0)
        return 14;
    if (goal > PORT_LAST_INSTANT)
        return 9;
    if (goal < p->clock)
        return 10;
    if (goal - p->clock > PORT_LONGEST_STEP)
        return 11;

    const size_t room = instants_length < octets_length ? instants_length : octets_length;
    uint64_t bend = bend_of(p);
    uint8_t before = shown(p, bend, p->clock);
    while (p->clock < goal) {
        const uint64_t u = p->clock + 1;
        const uint8_t octet = shown(p, bend, u);
        if (octet != before) {
            if (*written == room)
                return 0; /* the clock stands 1 ns before it */
            instants[*written] = u;
            octets[*written] = octet;
            *written += 1;
        }
        /* The instant is reached: what falls due at it happens. */
        p->clock = u;
        before = octet;
        if (p->waiting_present && u == p->waiting.configuration.start) {
            p->operating = p->waiting.configuration;
            p->operating_present = 1;
            memset(&p->waiting, 0, sizeof p->waiting);
            p->waiting_present = 0;
            bend = UINT64_MAX;
        }
        test_overrun(p, u, octet);
        if (p->frame.present && u == p->frame.end)
            memset(&p->frame, 0, sizeof p->frame);
    }
    return 0;
}

/* ---- Choosing a frame ------------------------------------------------------ */

/* "Its gate is open at each instant before its end by the rule for the octet
 * shown, carried on past the largest instant": each nanosecond is asked. */
static bool stays_open(const struct port *p, uint64_t bend, unsigned class, uint64_t d)
{
    for (uint64_t t = p->clock; t < p->clock + d; t++)
        if (!(shown(p, bend, t) & (1 << class)))
            return false;
    return true;
}

/* "The time to the last octet and to the earliest next start, 12 octet times
 * later." */
unsigned port_duration(uint64_t length, uint64_t speed, uint64_t *last, uint64_t *next)
{
    *last = 0;
    *next = 0;
    if (!(speed == 10 || speed == 100 || speed == 1000))
        return 13;
    if (length < 64 || length > 2000)
        return 12;
    *last = (length + 8) * 8000 / speed;
    *next = (length + 8 + 12) * 8000 / speed;
    return 0;
}

unsigned port_transmit(struct port *p, const uint64_t heads[8], uint64_t speed)
{
    if (port_check(p) != 0)
        return 14;
    if (!(speed == 10 || speed == 100 || speed == 1000))
        return 13;
    if (p->frame.present)
        return 17;
    for (unsigned k = 0; k < 8; k++)
        if (!(heads[k] == 0 || (heads[k] >= 64 && heads[k] <= 2000)))
            return 12;

    const uint64_t bend = bend_of(p);
    for (unsigned i = 0; i < 8; i++) {
        const unsigned class = 7 - i;
        if (heads[class] == 0)
            continue;
        uint64_t last, next;
        port_duration(heads[class], speed, &last, &next);
        if (!stays_open(p, bend, class, last))
            continue;
        p->frame.present = 1;
        p->frame.class = (uint8_t)class;
        p->frame.start = p->clock;
        p->frame.last = p->clock + last;
        p->frame.end = p->clock + next;
        p->frame.counted = 0;
        break;
    }
    test_overrun(p, p->clock, shown_now(p));
    return 0;
}

/* ---- The list's octets ------------------------------------------------------ */

static unsigned read_entries(uint64_t stated, const uint8_t *octets, size_t n,
                             struct port_list *list, size_t *place)
{
    *place = 0;
    if (stated == 0)
        return 5;
    if (stated > PORT_PLACES)
        return 5;
    for (uint64_t i = 0; i < stated; i++) {
        const size_t first = 7 * (size_t)i;
        *place = first;
        if (first + 2 > n)
            return 1;
        if (octets[first] != 0)
            return 2;
        if (octets[first + 1] != 5)
            return 3;
        if (first + 7 > n)
            return 1;
        uint64_t interval = 0;
        for (size_t k = 3; k < 7; k++)
            interval = interval * 256 + octets[first + k];
        if (interval == 0)
            return 4;
        list->octets[i] = octets[first + 2];
        list->intervals[i] = (uint32_t)interval;
    }
    *place = 7 * (size_t)stated;
    if (n > *place)
        return 5;
    *place = 0;
    list->length = stated;
    return 0;
}

unsigned port_list_read(uint64_t stated, const uint8_t *octets, size_t octets_length,
                        struct port_list *list, size_t *place)
{
    memset(list, 0, sizeof *list);
    const unsigned no = read_entries(stated, octets, octets_length, list, place);
    if (no != 0)
        memset(list, 0, sizeof *list);
    return no;
}

unsigned port_list_write(const struct port_list *list, uint8_t *buffer, size_t buffer_length,
                         size_t *written)
{
    *written = 0;
    if (list->length == 0 || list->length > PORT_PLACES)
        return 5;
    for (uint64_t i = 0; i < list->length; i++)
        if (list->intervals[i] == 0)
            return 4;
    if (buffer_length < 7 * list->length)
        return 16;
    for (uint64_t i = 0; i < list->length; i++) {
        uint64_t rest = list->intervals[i];
        buffer[7 * i] = 0;
        buffer[7 * i + 1] = 5;
        buffer[7 * i + 2] = list->octets[i];
        for (unsigned k = 6; k >= 3; k--) {
            buffer[7 * i + k] = (uint8_t)(rest % 256);
            rest /= 256;
        }
    }
    *written = 7 * (size_t)list->length;
    return 0;
}
