/* One port of a scheduled switch: the record and its calls, from documents 01
 * and 02.
 *
 * Every call that can decline returns 0 or the refusal's number of document
 * 01 ("Numbers returned when a call declines"). A refused call leaves the
 * port and the lent memory as they were. */
#ifndef PEER_PORT_H
#define PEER_PORT_H

#include <stddef.h>
#include <stdint.h>

#define PORT_PLACES 128u                               /* SupportedListMax */
#define PORT_LAST_INSTANT UINT64_C(9000000000000000000)
#define PORT_LONGEST_CYCLE UINT64_C(1000000000)
#define PORT_LONGEST_STEP UINT64_C(1000000000)
#define PORT_LONGEST_FRAME UINT64_C(1616000)           /* 2,000 octets at 10 Mbit/s, and the gap */

enum port_refusal {
    PORT_OK = 0,
    PORT_LIST_CUT = 1,
    PORT_OPERATION = 2,
    PORT_LENGTH_OCTET = 3,
    PORT_INTERVAL = 4,
    PORT_LIST_LENGTH = 5,
    PORT_OFF = 6,
    PORT_WAITING = 7,
    PORT_CYCLE = 8,
    PORT_INSTANT = 9,
    PORT_PAST = 10,
    PORT_STEP = 11,
    PORT_HEAD = 12,
    PORT_SPEED = 13,
    PORT_RECORD = 14,
    PORT_SHEET = 15,
    PORT_BUFFER = 16,
    PORT_SENDING = 17
};

/* "A list record always has 128 places": unused ones are zero. The arrays are
 * aligned so that several places can be looked at in one operation. */
struct port_list {
    _Alignas(16) uint8_t octets[PORT_PLACES];
    _Alignas(16) uint32_t intervals[PORT_PLACES];
    uint64_t length;
};

/* start: the instant of installation I; for a waiting one, the change
 * instant P, which becomes its I. */
struct port_configuration {
    struct port_list list;
    uint64_t cycle;
    uint64_t extension;
    uint64_t start;
};

struct port_waiting {
    struct port_configuration configuration;
    uint64_t submitted;
};

/* A mark is one octet: 0 or 1. Any other value is held as it stands and makes
 * the record malformed. */
struct port_frame {
    uint8_t present;
    uint8_t class;
    uint8_t counted; /* its overrun has been counted: once per frame */
    uint64_t start;
    uint64_t last; /* of its last octet: start + d1 */
    uint64_t end;  /* of the gap behind it, where the next may start: start + d2 */
};

struct port {
    struct port_frame frame;
    uint64_t clock;
    uint8_t on;
    uint8_t standing;
    uint8_t operating_present;
    uint8_t waiting_present;
    struct port_configuration operating;
    struct port_waiting waiting;
    uint64_t errors;
    uint64_t overruns[8];
};

/* 0, or 14 for a malformed record. Every call below makes this check. */
unsigned port_check(const struct port *p);

/* A refused port_new leaves the record of all zeros. */
unsigned port_new(struct port *p, uint64_t start, uint8_t standing);
unsigned port_on(struct port *p);
unsigned port_off(struct port *p);
unsigned port_standing(struct port *p, uint8_t standing);
/* The replacing submission: what waits gives way to it until the last old
 * cycle has begun, then it is 7. The strict one gets 7 whenever one waits. The
 * list must not be one of the port's own. */
unsigned port_submit(struct port *p, const struct port_list *list, uint32_t numerator,
                     uint32_t denominator, uint32_t extension, uint64_t base);
unsigned port_submit_strict(struct port *p, const struct port_list *list, uint32_t numerator,
                            uint32_t denominator, uint32_t extension, uint64_t base);
unsigned port_look(const struct port *p, uint64_t t, uint8_t *octet);

/* Writes the number of changes to *written (0 if refused). The two buffers
 * must not overlap each other or the port. */
unsigned port_step(struct port *p, uint64_t goal, uint64_t *instants, size_t instants_length,
                   uint8_t *octets, size_t octets_length, size_t *written);

/* *last: the time to the last octet of a frame, d1; *next: to the earliest
 * start of another, d2. Both are 0 if refused. */
unsigned port_duration(uint64_t length, uint64_t speed, uint64_t *last, uint64_t *next);

/* heads[k] is the length of class k's first frame, 0 for an empty queue. A
 * chosen frame stands in p->frame; if none is, p->frame.present stays 0. */
unsigned port_transmit(struct port *p, const uint64_t heads[8], uint64_t speed);

/* A refused reading leaves the list of all zeros and the refusal's place in
 * *place (0 if accepted). */
unsigned port_list_read(uint64_t stated, const uint8_t *octets, size_t octets_length,
                        struct port_list *list, size_t *place);

/* *written: 7 times the length, or 0 if refused. */
unsigned port_list_write(const struct port_list *list, uint8_t *buffer, size_t buffer_length,
                         size_t *written);

#endif
