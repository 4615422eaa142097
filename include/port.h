/* The port record and the call that the archive of crate `driver` exports to C, transmit: x86-64 Linux, System V calling convention.
 *
 * What a caller must keep, since no proof reaches past the call:
 * - The pointers are not null, are aligned as the types are, and lead to a whole record and to eight whole lengths.
 * - The record and the lengths do not overlap, and no other thread touches either during the call.
 * The fields may hold any bits, the marks any octet: a record that is not well formed is refused with 14, and left as it is. A record may be laid out by hand,
 * or copied; what the octets between the fields hold does not matter.
 *
 * What the archive needs: SSE up to 4.2 (x86-64-v2), and 448 octets of stack, none of them below the stack pointer. A kernel that leaves the SSE registers to
 * its tasks must save them around a call. It calls nothing, memcpy neither: no record is copied. Its code is position-independent, and it has no data that is
 * written.
 * A call keeps no pointer, allocates nothing, and returns for every input. */
#ifndef KURFANDAZ_PORT_H
#define KURFANDAZ_PORT_H

#include <stddef.h>
#include <stdint.h>

#ifdef __cplusplus
extern "C" {
#endif

/* The traffic classes, and the places of a list record (SupportedListMax). */
#define KURFANDAZ_CLASSES 8
#define KURFANDAZ_PLACES 128

/* Limits, in nanoseconds: the largest instant, the longest cycle, the longest span of a frame. */
#define KURFANDAZ_LARGEST_INSTANT UINT64_C(9000000000000000000)
#define KURFANDAZ_LARGEST_CYCLE UINT64_C(1000000000)
#define KURFANDAZ_LONGEST_SPAN UINT64_C(1616000)

/* Frame lengths in octets, with FCS. */
#define KURFANDAZ_SHORTEST_FRAME 64
#define KURFANDAZ_LONGEST_FRAME 2000

/* A mark is an octet, 0 or 1; with any other value the record is not well formed.
 *
 * What a transmit is refused with. */
#define KURFANDAZ_HEAD_LENGTH 12    /* a head length neither 0 nor 64 to 2,000 */
#define KURFANDAZ_SPEED 13          /* the speed is not 10, 100 or 1,000 Mbit/s */
#define KURFANDAZ_MALFORMED_PORT 14 /* the record is not well formed */
#define KURFANDAZ_FRAME_SENDING 17  /* a frame is being sent */

/* The frame being sent. All zeros if absent. */
struct kurfandaz_frame {
    uint8_t present; /* mark: a frame is being sent */
    uint8_t class_;  /* its class, 0 to 7 */
    uint8_t counted; /* mark: its overrun has been counted */
    uint64_t start;  /* the instant at which it began */
    uint64_t last;   /* the instant at which its last octet is out, after start and before end */
    uint64_t end;    /* the instant from which on the next may start, and at which it is forgotten */
};

/* The numbers of a timetable. Those of a configuration that is absent are all 0. */
struct kurfandaz_times {
    uint64_t clock;        /* the present instant, in nanoseconds */
    uint8_t on;            /* mark: GateEnabled */
    uint8_t standing;      /* AdminGateStates, shown while off and while nothing operates */
    uint8_t operates;      /* mark: a configuration operates */
    uint8_t waits;         /* mark: a configuration waits for its change instant */
    size_t len;            /* of what operates: the entries in use, 1 to 128 */
    uint64_t cycle;        /* its cycle in nanoseconds, 1 to KURFANDAZ_LARGEST_CYCLE */
    uint64_t extension;    /* how much longer its last cycle may take, in nanoseconds */
    uint64_t start;        /* where its cycles start */
    size_t newlen;         /* of what waits: the entries in use */
    uint64_t newcycle;     /* its cycle */
    uint64_t newextension; /* its extension */
    uint64_t change;       /* its change instant, where its cycles start */
    uint64_t since;        /* the instant of its submission */
    uint64_t errors;       /* ConfigChangeError */
};

/* A timetable: its numbers, and the places of its two lists. Unused places are 0. */
struct kurfandaz_timetable {
    struct kurfandaz_times times;            /* the numbers */
    uint8_t octets[KURFANDAZ_PLACES];        /* of what operates: the gate octet of each entry: class 7 is the most significant bit, 1 is open */
    uint32_t intervals[KURFANDAZ_PLACES];    /* the interval of each entry in nanoseconds, at least 1 */
    uint8_t newoctets[KURFANDAZ_PLACES];     /* of what waits: the same */
    uint32_t newintervals[KURFANDAZ_PLACES]; /* the same */
};

/* A port. */
struct kurfandaz_port {
    struct kurfandaz_frame frame;         /* the frame being sent */
    struct kurfandaz_timetable gates;     /* the timetable of its gates */
    uint64_t overruns[KURFANDAZ_CLASSES]; /* TransmissionOverrun, by class */
};

/* What a transmit answers. What does not apply is 0. */
struct kurfandaz_answer {
    uint8_t number; /* 0 if it was accepted, else the number of the refusal */
    uint8_t chosen; /* 1 if a frame was chosen */
    uint8_t class_; /* its class */
    uint64_t start; /* the instant at which it begins: the clock */
    uint64_t last;  /* the instant at which its last octet is out */
    uint64_t end;   /* the instant from which on the next may start */
};

/* The layout on which the archive counts. */
#ifdef __cplusplus
#define KURFANDAZ_HOLDS(test) static_assert(test, #test)
#else
#define KURFANDAZ_HOLDS(test) _Static_assert(test, #test)
#endif
#define KURFANDAZ_AT(type, field, place) KURFANDAZ_HOLDS(offsetof(struct kurfandaz_##type, field) == (place))
#define KURFANDAZ_SIZE(type, size) KURFANDAZ_HOLDS(sizeof(struct kurfandaz_##type) == (size))
KURFANDAZ_HOLDS(sizeof(size_t) == 8);
KURFANDAZ_AT(frame, present, 0);
KURFANDAZ_AT(frame, class_, 1);
KURFANDAZ_AT(frame, counted, 2);
KURFANDAZ_AT(frame, start, 8);
KURFANDAZ_AT(frame, last, 16);
KURFANDAZ_AT(frame, end, 24);
KURFANDAZ_SIZE(frame, 32);
KURFANDAZ_AT(times, clock, 0);
KURFANDAZ_AT(times, on, 8);
KURFANDAZ_AT(times, standing, 9);
KURFANDAZ_AT(times, operates, 10);
KURFANDAZ_AT(times, waits, 11);
KURFANDAZ_AT(times, len, 16);
KURFANDAZ_AT(times, cycle, 24);
KURFANDAZ_AT(times, extension, 32);
KURFANDAZ_AT(times, start, 40);
KURFANDAZ_AT(times, newlen, 48);
KURFANDAZ_AT(times, newcycle, 56);
KURFANDAZ_AT(times, newextension, 64);
KURFANDAZ_AT(times, change, 72);
KURFANDAZ_AT(times, since, 80);
KURFANDAZ_AT(times, errors, 88);
KURFANDAZ_SIZE(times, 96);
KURFANDAZ_AT(timetable, times, 0);
KURFANDAZ_AT(timetable, octets, 96);
KURFANDAZ_AT(timetable, intervals, 224);
KURFANDAZ_AT(timetable, newoctets, 736);
KURFANDAZ_AT(timetable, newintervals, 864);
KURFANDAZ_SIZE(timetable, 1376);
KURFANDAZ_AT(port, frame, 0);
KURFANDAZ_AT(port, gates, 32);
KURFANDAZ_AT(port, overruns, 1408);
KURFANDAZ_SIZE(port, 1472);
KURFANDAZ_AT(answer, number, 0);
KURFANDAZ_AT(answer, chosen, 1);
KURFANDAZ_AT(answer, class_, 2);
KURFANDAZ_AT(answer, start, 8);
KURFANDAZ_AT(answer, last, 16);
KURFANDAZ_AT(answer, end, 24);
KURFANDAZ_SIZE(answer, 32);

/* Chooses the next frame and stores it in the port: of the highest class that has one and whose gate is open at each instant from now to before the
 * frame's last octet, by what is shown if no further act comes, a change that waits included. heads: the length in octets of the frame at the head of each class's queue, 0 if the queue is empty. speed: in Mbit/s.
 * Refused, in this order: 14, 13, 17, 12. A refused call changes no octet of the port; neither does one that chooses nothing. Else the port's frame
 * has its six fields set, and no other field changes. */
struct kurfandaz_answer kurfandaz_transmit(struct kurfandaz_port *port, const uint64_t heads[KURFANDAZ_CLASSES], uint64_t speed);

#ifdef __cplusplus
}
#endif

#endif
