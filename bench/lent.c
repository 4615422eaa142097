/* lent CASE N: a transmit case of peer/README.md, N times, on a record that C lends to kurfandaz_transmit, as a driver does. It lays out the record by
 * hand, sets the frame to zeros after each call, and prints what peer/bench prints. Freestanding headers only; what it takes of the C library is declared
 * here. */
#include "port.h"

int printf(const char *format, ...);
int strcmp(const char *a, const char *b);
unsigned long strtoul(const char *text, char **end, int base);

static struct kurfandaz_port port;

/* The octet of entry i: the counting list, the closing one with the gates of `kept` always open, or the pair with class 7 closed from entry `closed` on. */
static uint8_t counting(unsigned i) { return (uint8_t)(0x80 | i); }

static uint8_t closing(unsigned i, uint8_t kept) { return (uint8_t)(i < 120 ? 0xFF : ((0xFFu << (i - 119)) & 0xFF) | kept); }

static uint8_t pair(unsigned i, unsigned closed) { return (uint8_t)((i < closed ? 0xC0 : 0x40) | (i & 0x3F)); }

int main(int argc, char **argv) {
    if (argc != 3)
        return 2;
    const char *name = argv[1];
    const unsigned long times = strtoul(argv[2], 0, 10);
    const int first = strcmp(name, "transmit-first") == 0, slow = strcmp(name, "transmit-10") == 0, change = strcmp(name, "transmit-change") == 0;
    if (!first && !slow && !change && strcmp(name, "transmit-none") != 0)
        return 2;
    uint64_t heads[KURFANDAZ_CLASSES], sum = 0;
    port.gates.times.clock = 5000;
    port.gates.times.on = port.gates.times.operates = 1;
    port.gates.times.standing = 0xFF;
    port.gates.times.len = KURFANDAZ_PLACES;
    port.gates.times.cycle = change ? 8000 : 16000;
    port.gates.times.start = 5000;
    for (unsigned i = 0; i < KURFANDAZ_PLACES; i++) {
        port.gates.octets[i] = first ? counting(i) : change ? pair(i, KURFANDAZ_PLACES) : closing(i, slow ? 0x80 : 0);
        port.gates.intervals[i] = 125;
    }
    if (change) {
        port.gates.times.waits = 1;
        port.gates.times.newlen = KURFANDAZ_PLACES;
        port.gates.times.newcycle = 8000;
        port.gates.times.since = 5000;
        port.gates.times.change = 15000;
        for (unsigned i = 0; i < KURFANDAZ_PLACES; i++) {
            port.gates.newoctets[i] = pair(i, 8);
            port.gates.newintervals[i] = 125;
        }
    }
    for (unsigned k = 0; k < KURFANDAZ_CLASSES; k++)
        heads[k] = first || change ? 1500 : 2000;
    for (unsigned long i = 0; i < times; i++) {
        struct kurfandaz_answer a = kurfandaz_transmit(&port, heads, slow ? 10 : 1000);
        if (a.number != 0)
            return 1;
        sum += port.frame.class_ + port.frame.last + port.frame.end;
        port.frame = (struct kurfandaz_frame){0};
    }
    printf("%s %lu checksum %lu\n", name, times, (unsigned long)sum);
    return 0;
}
