/* bench CASE N: does CASE N times and prints a checksum; bench all N: every
 * case. What each case sets up stands in README.md. Counting is left to the
 * caller: ../bench/run. */
#include <inttypes.h>
#include <stdbool.h>
#include <stdio.h>
#include <stdlib.h>
#include <string.h>

#include "port.h"

#define ROOM 1024

static struct port port;
static struct port_list list;
static uint8_t buffer[7 * PORT_PLACES];
static uint64_t instants[ROOM];
static uint8_t octets[ROOM];

static void need(unsigned no)
{
    if (no != 0) {
        fprintf(stderr, "bench: refused %u\n", no);
        exit(1);
    }
}

/* A port at 5,000 with standing FF, on, whose list of `length` entries of
 * `interval` ns operates from 5,000. */
static void set_up(uint64_t length, uint32_t interval, uint32_t numerator, uint32_t denominator)
{
    list.length = length;
    for (uint64_t i = 0; i < length; i++)
        list.intervals[i] = interval;
    need(port_new(&port, 5000, 0xFF));
    need(port_on(&port));
    need(port_submit(&port, &list, numerator, denominator, 0, 5000));
}

static void octets_counting(void) /* 80, 81, .. FF: class 7 is always open */
{
    for (unsigned i = 0; i < PORT_PLACES; i++)
        list.octets[i] = (uint8_t)(0x80 | i);
}

/* Classes 7 and 6 are always open; class 7 closes for good at entry `closed`. */
static void octets_pair(unsigned closed)
{
    for (unsigned i = 0; i < PORT_PLACES; i++)
        list.octets[i] = (uint8_t)((i < closed ? 0xC0 : 0x40) | (i & 0x3F));
}

/* FF for 120 entries, then class 0, class 1, .. close one by one; those in
 * `kept` stay open. */
static void octets_closing(uint8_t kept)
{
    for (unsigned i = 0; i < PORT_PLACES; i++)
        list.octets[i] = (uint8_t)(i < 120 ? 0xFF : ((0xFFu << (i - 119)) & 0xFF) | kept);
}

static uint64_t run_read(uint64_t times)
{
    uint64_t sum = 0;
    size_t place, n;
    octets_counting();
    set_up(128, 1000, 128, 1000000);
    need(port_list_write(&list, buffer, sizeof buffer, &n));
    for (uint64_t i = 0; i < times; i++) {
        need(port_list_read(128, buffer, sizeof buffer, &list, &place));
        sum += list.octets[i % 128] + list.intervals[127];
    }
    return sum;
}

static uint64_t run_write(uint64_t times)
{
    uint64_t sum = 0;
    size_t n;
    octets_counting();
    set_up(128, 1000, 128, 1000000);
    for (uint64_t i = 0; i < times; i++) {
        need(port_list_write(&list, buffer, sizeof buffer, &n));
        sum += buffer[7 * (i % 128) + 2] + n;
    }
    return sum;
}

static uint64_t run_submit(uint64_t times)
{
    uint64_t sum = 0;
    octets_counting();
    set_up(128, 1000, 128, 1000000);
    for (uint64_t i = 0; i < times; i++) {
        need(port_submit(&port, &list, 128, 1000000, 0, 5000));
        sum += port.operating.list.octets[i % 128] + port.operating.start;
    }
    return sum;
}

static uint64_t run_look(uint64_t times)
{
    uint64_t sum = 0;
    uint8_t octet = 0;
    octets_counting();
    set_up(128, 1000, 128, 1000000);
    for (uint64_t i = 0; i < times; i++) {
        need(port_look(&port, 5000 + i * 7919 % 1000000000, &octet));
        sum += octet;
    }
    return sum;
}

static uint64_t run_steps(uint64_t times, uint64_t length_of_step)
{
    uint64_t sum = 0;
    size_t n;
    for (uint64_t i = 0; i < times; i++) {
        need(port_step(&port, port.clock + length_of_step, instants, ROOM, octets, ROOM, &n));
        sum += n + port.clock;
        if (n > 0)
            sum += instants[n - 1] + octets[n - 1];
    }
    return sum;
}

static uint64_t run_transmits(uint64_t times, uint64_t head, uint64_t speed)
{
    uint64_t sum = 0;
    uint64_t heads[8];
    for (unsigned k = 0; k < 8; k++)
        heads[k] = head;
    for (uint64_t i = 0; i < times; i++) {
        need(port_transmit(&port, heads, speed));
        sum += port.frame.class + port.frame.last + port.frame.end;
        port.frame = (struct port_frame){0};
    }
    return sum;
}

static uint64_t run_check(uint64_t times)
{
    uint64_t sum = 0;
    const uint64_t heads[8] = {64, 64, 64, 64, 64, 64, 64, 64};
    octets_counting();
    set_up(128, 1000, 128, 1000000);
    need(port_submit(&port, &list, 128, 1000000, 0, 1000000));
    need(port_transmit(&port, heads, 1000));
    uint8_t octet = 0;
    for (uint64_t i = 0; i < times; i++)
        sum += port_look(&port, PORT_LAST_INSTANT + 1 + i, &octet);
    return sum;
}

static const char *const cases[] = {
    "read128", "write128", "submit", "look", "check14", "step128", "step2", "quiet", "quiet1",
    "transmit-first", "transmit-none", "transmit-10", "transmit-change",
};

static uint64_t run(const char *name, uint64_t times)
{
    memset(&list, 0, sizeof list);
    if (strcmp(name, "read128") == 0)
        return run_read(times);
    if (strcmp(name, "write128") == 0)
        return run_write(times);
    if (strcmp(name, "submit") == 0)
        return run_submit(times);
    if (strcmp(name, "look") == 0)
        return run_look(times);
    if (strcmp(name, "check14") == 0)
        return run_check(times);
    if (strcmp(name, "step128") == 0) {
        octets_counting();
        set_up(128, 1000, 128, 1000000);
        return run_steps(times, 1000000);
    }
    if (strcmp(name, "step2") == 0) {
        list.octets[0] = 0x80;
        list.octets[1] = 0x01;
        set_up(2, 1000, 2, 1000000);
        return run_steps(times, 1000000);
    }
    if (strcmp(name, "quiet") == 0) {
        memset(list.octets, 0x80, sizeof list.octets);
        set_up(128, 1, 128, 1000000000);
        return run_steps(times, 1000000000);
    }
    if (strcmp(name, "quiet1") == 0) {
        octets_counting();
        set_up(128, 1, 1, 1000000000);
        return run_steps(times, 1000000000);
    }
    if (strcmp(name, "transmit-first") == 0) {
        octets_counting();
        set_up(128, 125, 16, 1000000);
        return run_transmits(times, 1500, 1000);
    }
    if (strcmp(name, "transmit-none") == 0) {
        octets_closing(0x00);
        set_up(128, 125, 16, 1000000);
        return run_transmits(times, 2000, 1000);
    }
    if (strcmp(name, "transmit-10") == 0) {
        octets_closing(0x80);
        set_up(128, 125, 16, 1000000);
        return run_transmits(times, 2000, 10);
    }
    octets_pair(128); /* transmit-change */
    set_up(128, 125, 8, 1000000);
    octets_pair(8);
    need(port_submit(&port, &list, 8, 1000000, 0, 15000));
    return run_transmits(times, 1500, 1000);
}

int main(int argc, char **argv)
{
    if (argc != 3) {
        fputs("usage: bench CASE N, or bench all N\n", stderr);
        return 2;
    }
    const uint64_t times = strtoull(argv[2], NULL, 10);
    bool known = false;
    for (size_t k = 0; k < sizeof cases / sizeof *cases; k++) {
        if (strcmp(argv[1], "all") != 0 && strcmp(argv[1], cases[k]) != 0)
            continue;
        known = true;
        printf("%s %" PRIu64 " checksum %" PRIu64 "\n", cases[k], times, run(cases[k], times));
    }
    if (!known) {
        fputs("bench: no such case\n", stderr);
        return 2;
    }
    return 0;
}
