#include "sheet.h"

#include "port.h"

unsigned sheet_number(const uint8_t *octets, size_t length, size_t *at, unsigned bits,
                      uint64_t *number)
{
    uint64_t value = 0;
    size_t i = *at;
    for (unsigned shift = 0;; shift += 7, i++) {
        if (i >= length)
            return PORT_SHEET; /* cut short */
        const uint64_t group = octets[i] & 0x7F;
        /* The tenth group begins at bit 63: one bit of it is left, and no
         * group may follow. */
        if (shift == 63 && octets[i] > 1)
            return PORT_SHEET;
        value |= group << shift;
        if (octets[i] < 0x80) {
            if (group == 0 && shift > 0)
                return PORT_SHEET; /* a last group of 0 adds nothing: overlong */
            break;
        }
    }
    if (bits < 64 && value >> bits != 0)
        return PORT_SHEET;
    *at = i + 1;
    *number = value;
    return PORT_OK;
}

size_t sheet_write_number(uint64_t number, uint8_t octets[10])
{
    size_t n = 0;
    for (; number >= 0x80; number >>= 7)
        octets[n++] = (uint8_t)(number & 0x7F) | 0x80;
    octets[n++] = (uint8_t)number;
    return n;
}

unsigned sheet_read(const uint8_t *octets, size_t length, struct sheet *s)
{
    static const unsigned widths[8] = {8, 32, 32, 32, 64, 64, 64, 64};
    uint64_t n[8];
    size_t at = 0;
    if (length > SHEET_LONGEST)
        return PORT_SHEET;
    for (unsigned i = 0; i < 8; i++)
        if (sheet_number(octets, length, &at, widths[i], &n[i]))
            return PORT_SHEET;
    s->standing = (uint8_t)n[0];
    s->numerator = (uint32_t)n[1];
    s->denominator = (uint32_t)n[2];
    s->extension = (uint32_t)n[3];
    s->base = n[4];
    s->start = n[5];
    s->end = n[6];
    s->length = n[7];
    s->list = octets + at;
    s->list_octets = length - at;
    return PORT_OK;
}
