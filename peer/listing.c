/* The listing program of document 01: a sheet on standard input, the port's
 * changes on standard output. */
#include <inttypes.h>
#include <stdio.h>

#include "port.h"
#include "sheet.h"

#define ROOM 1024

static int refused(unsigned number)
{
    printf("refused %u\n", number);
    return fflush(stdout) == 0 ? 0 : 1;
}

int main(void)
{
    static uint8_t input[SHEET_LONGEST + 1]; /* one more, to know a sheet too long */
    static struct port port;
    static struct port_list list;
    static uint64_t instants[ROOM];
    static uint8_t octets[ROOM];
    struct sheet sheet;
    size_t place, written;
    uint8_t octet = 0;
    unsigned no;

    const size_t length = fread(input, 1, sizeof input, stdin);
    if ((no = sheet_read(input, length, &sheet)) != 0)
        return refused(no);
    if ((no = port_list_read(sheet.length, sheet.list, sheet.list_octets, &list, &place)) != 0)
        return refused(no);
    if ((no = port_new(&port, sheet.start, sheet.standing)) != 0)
        return refused(no);
    if ((no = port_on(&port)) != 0)
        return refused(no);
    if ((no = port_submit(&port, &list, sheet.numerator, sheet.denominator, sheet.extension,
                          sheet.base)) != 0)
        return refused(no);
    if ((no = port_look(&port, sheet.start, &octet)) != 0)
        return refused(no);
    /* The first step meets the refusals 9, 10 and 11 for the whole span; once
     * it is accepted, no later one can be refused, and printing may begin. */
    if ((no = port_step(&port, sheet.end, instants, ROOM, octets, ROOM, &written)) != 0)
        return refused(no);
    printf("start %" PRIu64 " %02X\n", sheet.start, octet);
    for (;;) {
        for (size_t i = 0; i < written; i++)
            printf("%" PRIu64 " %02X\n", instants[i], octets[i]);
        if (port.clock == sheet.end)
            break;
        if ((no = port_step(&port, sheet.end, instants, ROOM, octets, ROOM, &written)) != 0)
            return 1;
    }
    if (port_look(&port, sheet.end, &octet) != 0)
        return 1;
    printf("end %" PRIu64 " %02X errors %" PRIu64 "\n", sheet.end, octet, port.errors);
    return fflush(stdout) == 0 ? 0 : 1;
}
