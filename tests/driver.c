/* The exported transmit, called from C: each outcome, with every other octet of the port compared, also those between the fields. Freestanding headers
 * only; what it takes of the C library is declared here. */
#include "port.h"

int printf(const char *format, ...);
void *memcpy(void *to, const void *from, size_t n);
void *memset(void *to, int octet, size_t n);
int memcmp(const void *a, const void *b, size_t n);

static int passed, failed;

static void is(const char *what, uint64_t got, uint64_t want) {
    if (got == want) {
        passed++;
    } else {
        failed++;
        printf("FAILED %s: %lu, not %lu\n", what, (unsigned long)got, (unsigned long)want);
    }
}

/* List A: 80 for 300, 01 for 500; cycle 1,000; standing FF; installed at 5,000. */
static struct kurfandaz_port with_list(uint64_t clock) {
    struct kurfandaz_port p;
    memset(&p, 0, sizeof p);
    p.gates.times.clock = clock;
    p.gates.times.on = 1;
    p.gates.times.standing = 0xFF;
    p.gates.times.operates = 1;
    p.gates.octets[0] = 0x80;
    p.gates.octets[1] = 0x01;
    p.gates.intervals[0] = 300;
    p.gates.intervals[1] = 500;
    p.gates.times.len = 2;
    p.gates.times.cycle = 1000;
    p.gates.times.extension = 7;
    p.gates.times.start = 5000;
    p.gates.times.errors = 11;
    for (int k = 0; k < KURFANDAZ_CLASSES; k++) p.overruns[k] = 100 + k;
    return p;
}

/* The octets between the fields: where each run begins, and where it stops. */
static const size_t gaps[][2] = {
    {offsetof(struct kurfandaz_port, frame.counted) + 1, offsetof(struct kurfandaz_port, frame.start)},
    {offsetof(struct kurfandaz_port, gates.times.waits) + 1, offsetof(struct kurfandaz_port, gates.times.len)},
};

/* The call, and what it must answer: `last` is the instant of the last octet. A frame that was chosen is in the port, and every octet that is not of its fields is as it was; else every octet is. */
static void call(const char *what, struct kurfandaz_port *p, const uint64_t *heads, uint64_t speed, int number, int chosen, int class_, uint64_t last) {
    const uint64_t end = chosen ? last + 96000 / speed : 0; /* 12 octet times later */
    struct kurfandaz_port before;
    for (size_t k = 0; k < sizeof gaps / sizeof *gaps; k++) memset((char *)p + gaps[k][0], 0xA5, gaps[k][1] - gaps[k][0]);
    memcpy(&before, p, sizeof before);
    struct kurfandaz_answer a = kurfandaz_transmit(p, heads, speed);
    is(what, a.number, number);
    is(what, a.chosen, chosen);
    is(what, a.class_, class_);
    is(what, a.start, chosen ? before.gates.times.clock : 0);
    is(what, a.last, last);
    is(what, a.end, end);
    if (chosen) {
        is(what, p->frame.present, 1);
        is(what, p->frame.class_, class_);
        is(what, p->frame.start, before.gates.times.clock);
        is(what, p->frame.last, last);
        is(what, p->frame.end, end);
        is(what, p->frame.counted, 0);
        is(what, memcmp((char *)p + gaps[0][0], (char *)&before + gaps[0][0], gaps[0][1] - gaps[0][0]) != 0, 0);
        is(what, memcmp((char *)p + sizeof p->frame, (char *)&before + sizeof p->frame, sizeof before - sizeof p->frame) != 0, 0);
    } else {
        is(what, memcmp(p, &before, sizeof before) != 0, 0);
    }
}

int main(void) {
    uint64_t none[8] = {0}, zero[8] = {64}, all[8], bad[8] = {0, 0, 0, 0, 0, 0, 0, 63};
    for (int k = 0; k < 8; k++) all[k] = 64;
    struct kurfandaz_port p;

    /* case 9: 576 ns from 5,424 end with the gate, at 6,000 */
    p = with_list(5424);
    call("a frame that ends as its gate closes", &p, zero, 1000, 0, 1, 0, 6000);
    call("refused: a frame is being sent", &p, zero, 1000, KURFANDAZ_FRAME_SENDING, 0, 0, 0);
    p = with_list(5425);
    call("nothing: it would end 1 ns later", &p, zero, 1000, 0, 0, 0, 0);
    call("nothing: every queue is empty", &p, none, 1000, 0, 0, 0, 0);

    /* another list waits, and closes the gate in the frame, or as it ends */
    for (uint64_t change = 5999; change <= 6000; change++) {
        p = with_list(5424);
        p.gates.times.waits = 1;
        p.gates.times.newlen = 1;
        p.gates.times.newcycle = 1000;
        p.gates.times.since = 5424;
        p.gates.times.change = change;
        p.gates.newoctets[0] = 0x80;
        p.gates.newintervals[0] = 1;
        if (change == 6000)
            call("a change as the frame ends", &p, zero, 1000, 0, 1, 0, 6000);
        else
            call("nothing: a change in the frame", &p, zero, 1000, 0, 0, 0, 0);
    }

    /* the gates of a port that is off are those of its standing octet; the highest class of all */
    memset(&p, 0, sizeof p);
    p.gates.times.clock = KURFANDAZ_LARGEST_INSTANT;
    p.gates.times.standing = 0x7F;
    call("the highest class whose gate is open", &p, all, 10, 0, 1, 6, KURFANDAZ_LARGEST_INSTANT + 57600);

    /* case 11: 5,760 ns never fit class 0 of A */
    memset(&p, 0, sizeof p);
    p.gates.times.standing = 0x01;
    call("64 octets at 100 Mbit/s", &p, zero, 100, 0, 1, 0, 5760);
    for (uint64_t t = 5000; t < 6000; t++) {
        p = with_list(t);
        call("case 11", &p, zero, 100, 0, 0, 0, 0);
    }

    /* a cycle of 1 ns that is always open: the look ahead does not go round and round */
    p = with_list(UINT64_C(8999999999999999999));
    p.gates.octets[0] = 0xFF;
    p.gates.times.cycle = 1;
    all[7] = 2000;
    call("2,000 octets at 10 Mbit/s over a cycle of 1 ns", &p, all, 10, 0, 1, 7, UINT64_C(8999999999999999999) + 1606400);
    is("the longest span of a frame", p.frame.end - p.frame.start, KURFANDAZ_LONGEST_SPAN);

    /* refusals, in their order */
    p = with_list(5424);
    call("refused: a head length", &p, bad, 1000, KURFANDAZ_HEAD_LENGTH, 0, 0, 0);
    call("refused: the speed, before the head", &p, bad, 40, KURFANDAZ_SPEED, 0, 0, 0);
    p.gates.intervals[1] = 0;
    call("refused: the record, before the speed", &p, bad, 40, KURFANDAZ_MALFORMED_PORT, 0, 0, 0);

    /* a mark is 0 or 1: any other octet is refused, and stays */
    for (int mark = 2; mark < 256; mark++) {
        uint8_t *marks[] = {&p.frame.present, &p.frame.counted, &p.gates.times.on, &p.gates.times.operates, &p.gates.times.waits};
        for (size_t k = 0; k < sizeof marks / sizeof *marks; k++) {
            p = with_list(5424);
            *marks[k] = (uint8_t)mark;
            call("refused: a mark", &p, zero, 1000, KURFANDAZ_MALFORMED_PORT, 0, 0, 0);
        }
    }

    printf("%d passed, %d failed\n", passed, failed);
    return failed != 0;
}
