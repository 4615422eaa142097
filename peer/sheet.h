/* The sheet of document 01, "The sheet and the listing program". */
#ifndef PEER_SHEET_H
#define PEER_SHEET_H

#include <stddef.h>
#include <stdint.h>

#define SHEET_LONGEST 1024u

struct sheet {
    uint8_t standing;
    uint32_t numerator;
    uint32_t denominator;
    uint32_t extension;
    uint64_t base;
    uint64_t start;
    uint64_t end;
    uint64_t length;          /* the stated list length */
    const uint8_t *list;      /* the rest of the octets */
    size_t list_octets;
};

/* Reads one number of at most `bits` bits at *at and moves *at past it.
 * 0, or 15 with *at and *number unchanged. */
unsigned sheet_number(const uint8_t *octets, size_t length, size_t *at, unsigned bits,
                      uint64_t *number);

/* Writes a number in its shortest form, at most 10 octets; returns how many. */
size_t sheet_write_number(uint64_t number, uint8_t octets[10]);

/* 0, or 15 with *s unchanged. s->list points into the octets. */
unsigned sheet_read(const uint8_t *octets, size_t length, struct sheet *s);

#endif
