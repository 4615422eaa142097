/* The console: one call to a line of standard input, one answer to a line of
 * standard output, as the project's page on the console lays it down. */
#include <inttypes.h>
#include <stdbool.h>
#include <stdio.h>
#include <string.h>

#include "port.h"

#define INPUT_LONGEST 1048576u
#define STEP_PLACES 4096u
#define BUFFER_PLACES 1024u
#define PRESET_INSTANT UINT64_C(7777777)
#define PRESET_OCTET 165

static struct port port; /* all zeros before the first `new` or `load` */

/* ---- Tokens --------------------------------------------------------------
 * A cursor over one line. `good` goes false at the first token that does not
 * fit its place, and stays so; then the line is no call. */

struct line {
    const char *at;
    const char *end;
    bool good;
    bool begun; /* a token was taken: the next one needs a space before it */
};

static size_t token(struct line *l, const char **text)
{
    *text = "";
    if (!l->good)
        return 0;
    if (l->begun) {
        if (l->at == l->end || *l->at != ' ') {
            l->good = false;
            return 0;
        }
        l->at++;
    }
    l->begun = true;
    *text = l->at;
    while (l->at != l->end && *l->at != ' ')
        l->at++;
    return (size_t)(l->at - *text);
}

static uint64_t number(struct line *l, uint64_t largest)
{
    const char *text;
    const size_t n = token(l, &text);
    uint64_t value = 0;
    if (n == 0)
        l->good = false;
    for (size_t i = 0; i < n && l->good; i++) {
        if (text[i] < '0' || text[i] > '9') {
            l->good = false;
            break;
        }
        const uint64_t digit = (uint64_t)(text[i] - '0');
        if (value > (UINT64_MAX - digit) / 10)
            l->good = false;
        else
            value = value * 10 + digit;
    }
    if (value > largest)
        l->good = false;
    return l->good ? value : 0;
}

static uint8_t number8(struct line *l) { return (uint8_t)number(l, UINT8_MAX); }
static uint32_t number32(struct line *l) { return (uint32_t)number(l, UINT32_MAX); }
static uint64_t number64(struct line *l) { return number(l, UINT64_MAX); }

/* K o1 i1 .. oK iK; the other places are 0. */
static void places(struct line *l, struct port_list *list)
{
    const uint64_t k = number(l, PORT_PLACES);
    memset(list->octets, 0, sizeof list->octets);
    memset(list->intervals, 0, sizeof list->intervals);
    for (uint64_t i = 0; i < k && l->good; i++) {
        list->octets[i] = number8(l);
        list->intervals[i] = number32(l);
    }
}

/* All tokens taken and all good? */
static bool whole(const struct line *l) { return l->good && l->at == l->end; }

/* ---- Answers ------------------------------------------------------------- */

static void say_ok_or(unsigned no)
{
    if (no)
        printf("refused %u", no);
    else
        fputs("ok", stdout);
}

static void say_places(const struct port_list *list)
{
    uint64_t k = PORT_PLACES;
    while (k > 0 && list->octets[k - 1] == 0 && list->intervals[k - 1] == 0)
        k--;
    printf(" %" PRIu64, k);
    for (uint64_t i = 0; i < k; i++)
        printf(" %u %" PRIu32, (unsigned)list->octets[i], list->intervals[i]);
}

static void say_port(const struct port *p)
{
    const struct port_configuration *o = &p->operating;
    const struct port_configuration *w = &p->waiting.configuration;
    const struct port_frame *f = &p->frame;
    printf("port %" PRIu64 " %u %u", p->clock, (unsigned)p->on, (unsigned)p->standing);
    printf(" %u %" PRIu64 " %" PRIu64 " %" PRIu64 " %" PRIu64, (unsigned)p->operating_present,
           o->list.length, o->cycle, o->extension, o->start);
    say_places(&o->list);
    printf(" %u %" PRIu64 " %" PRIu64 " %" PRIu64 " %" PRIu64 " %" PRIu64,
           (unsigned)p->waiting_present, w->list.length, w->cycle, w->extension,
           p->waiting.submitted, w->start);
    say_places(&w->list);
    printf(" %u %u %" PRIu64 " %" PRIu64 " %" PRIu64 " %u", (unsigned)f->present,
           (unsigned)f->class, f->start, f->last, f->end, (unsigned)f->counted);
    printf(" %" PRIu64, p->errors);
    for (unsigned k = 0; k < 8; k++)
        printf(" %" PRIu64, p->overruns[k]);
}

/* ---- Calls ---------------------------------------------------------------
 * Each takes the rest of the line; false if it is no call. */

static bool call_new(struct line *l)
{
    const uint64_t start = number64(l);
    const uint8_t standing = number8(l);
    if (!whole(l))
        return false;
    static struct port made;
    const unsigned no = port_new(&made, start, standing);
    if (!no)
        port = made;
    say_ok_or(no);
    return true;
}

static bool call_on(struct line *l)
{
    if (!whole(l))
        return false;
    say_ok_or(port_on(&port));
    return true;
}

static bool call_off(struct line *l)
{
    if (!whole(l))
        return false;
    say_ok_or(port_off(&port));
    return true;
}

static bool call_standing(struct line *l)
{
    const uint8_t octet = number8(l);
    if (!whole(l))
        return false;
    say_ok_or(port_standing(&port, octet));
    return true;
}

/* `submit` is the strict submission, `replace` the replacing one. */
static bool submission(struct line *l,
                       unsigned (*submit)(struct port *, const struct port_list *, uint32_t,
                                          uint32_t, uint32_t, uint64_t))
{
    static struct port_list list;
    list.length = number64(l);
    const uint32_t numerator = number32(l);
    const uint32_t denominator = number32(l);
    const uint32_t extension = number32(l);
    const uint64_t base = number64(l);
    places(l, &list);
    if (!whole(l))
        return false;
    say_ok_or(submit(&port, &list, numerator, denominator, extension, base));
    return true;
}

static bool call_submit(struct line *l) { return submission(l, port_submit_strict); }
static bool call_replace(struct line *l) { return submission(l, port_submit); }

static bool call_transmit(struct line *l)
{
    uint64_t heads[8];
    for (unsigned k = 0; k < 8; k++)
        heads[k] = number64(l);
    const uint64_t speed = number64(l);
    if (!whole(l))
        return false;
    const unsigned no = port_transmit(&port, heads, speed);
    if (no)
        printf("refused %u", no);
    else if (port.frame.present)
        printf("frame %u %" PRIu64 " %" PRIu64 " %" PRIu64, (unsigned)port.frame.class,
               port.frame.start, port.frame.last, port.frame.end);
    else
        fputs("none", stdout);
    return true;
}

static bool call_duration(struct line *l)
{
    const uint64_t length = number64(l);
    const uint64_t speed = number64(l);
    uint64_t last, next;
    if (!whole(l))
        return false;
    const unsigned no = port_duration(length, speed, &last, &next);
    if (no)
        printf("refused %u", no);
    else
        printf("duration %" PRIu64 " %" PRIu64, last, next);
    return true;
}

static bool call_step(struct line *l)
{
    static uint64_t instants[STEP_PLACES];
    static uint8_t octets[STEP_PLACES];
    const uint64_t goal = number64(l);
    const size_t mi = (size_t)number(l, STEP_PLACES);
    const size_t mo = (size_t)number(l, STEP_PLACES);
    size_t written;
    if (!whole(l))
        return false;
    for (size_t i = 0; i < mi; i++)
        instants[i] = PRESET_INSTANT;
    memset(octets, PRESET_OCTET, mo);
    const unsigned no = port_step(&port, goal, instants, mi, octets, mo, &written);
    if (no)
        printf("refused %u", no);
    else
        printf("ok %zu", written);
    for (size_t i = 0; i < mi; i++)
        printf(" %" PRIu64, instants[i]);
    for (size_t i = 0; i < mo; i++)
        printf(" %u", (unsigned)octets[i]);
    return true;
}

static bool call_look(struct line *l)
{
    const uint64_t t = number64(l);
    uint8_t octet = 0;
    if (!whole(l))
        return false;
    const unsigned no = port_look(&port, t, &octet);
    if (no)
        printf("refused %u", no);
    else
        printf("octet %u", (unsigned)octet);
    return true;
}

static int hex_digit(char c)
{
    if (c >= '0' && c <= '9')
        return c - '0';
    if (c >= 'A' && c <= 'F')
        return c - 'A' + 10;
    if (c >= 'a' && c <= 'f')
        return c - 'a' + 10;
    return -1;
}

static bool call_read(struct line *l)
{
    static uint8_t octets[BUFFER_PLACES];
    static struct port_list list;
    const uint64_t stated = number64(l);
    const char *text;
    size_t n = token(l, &text);
    size_t place;
    if (!whole(l))
        return false;
    if (n == 1 && text[0] == '-') {
        n = 0;
    } else if (n == 0 || n % 2 != 0 || n / 2 > BUFFER_PLACES) {
        return false;
    }
    for (size_t i = 0; i < n; i += 2) {
        const int high = hex_digit(text[i]), low = hex_digit(text[i + 1]);
        if (high < 0 || low < 0)
            return false;
        octets[i / 2] = (uint8_t)(high * 16 + low);
    }
    const unsigned no = port_list_read(stated, octets, n / 2, &list, &place);
    if (no) {
        printf("refused %u %zu", no, place);
        return true;
    }
    printf("list %" PRIu64, list.length);
    for (uint64_t i = 0; i < list.length; i++)
        printf(" %u %" PRIu32, (unsigned)list.octets[i], list.intervals[i]);
    return true;
}

static bool call_write(struct line *l)
{
    static uint8_t buffer[BUFFER_PLACES];
    static struct port_list list;
    size_t written;
    list.length = number64(l);
    const size_t n = (size_t)number(l, BUFFER_PLACES);
    places(l, &list);
    if (!whole(l))
        return false;
    memset(buffer, PRESET_OCTET, n);
    const unsigned no = port_list_write(&list, buffer, n, &written);
    if (no)
        printf("refused %u", no);
    else
        printf("ok %zu", written);
    for (size_t i = 0; i < n; i++)
        printf(" %u", (unsigned)buffer[i]);
    return true;
}

static bool call_load(struct line *l)
{
    static struct port p;
    memset(&p, 0, sizeof p);
    p.clock = number64(l);
    p.on = number8(l);
    p.standing = number8(l);
    p.operating_present = number8(l);
    p.operating.list.length = number64(l);
    p.operating.cycle = number64(l);
    p.operating.extension = number64(l);
    p.operating.start = number64(l);
    places(l, &p.operating.list);
    p.waiting_present = number8(l);
    p.waiting.configuration.list.length = number64(l);
    p.waiting.configuration.cycle = number64(l);
    p.waiting.configuration.extension = number64(l);
    p.waiting.submitted = number64(l);
    p.waiting.configuration.start = number64(l);
    places(l, &p.waiting.configuration.list);
    p.frame.present = number8(l);
    p.frame.class = number8(l);
    p.frame.start = number64(l);
    p.frame.last = number64(l);
    p.frame.end = number64(l);
    p.frame.counted = number8(l);
    p.errors = number64(l);
    for (unsigned k = 0; k < 8; k++)
        p.overruns[k] = number64(l);
    if (!whole(l))
        return false;
    port = p;
    fputs("ok", stdout);
    return true;
}

static bool call_show(struct line *l)
{
    if (!whole(l))
        return false;
    say_port(&port);
    return true;
}

static const struct {
    const char *word;
    bool (*call)(struct line *);
} calls[] = {
    {"new", call_new},           {"on", call_on},     {"off", call_off},   {"standing", call_standing},
    {"submit", call_submit},     {"step", call_step}, {"look", call_look}, {"transmit", call_transmit},
    {"read", call_read},         {"write", call_write}, {"load", call_load}, {"show", call_show},
    {"duration", call_duration}, {"replace", call_replace},
};

static void answer(const char *text, size_t length)
{
    if (length == 0 || text[0] == '#')
        return;
    struct line l = {text, text + length, true, false};
    const char *word;
    const size_t n = token(&l, &word);
    bool is_call = false;
    for (size_t i = 0; i < sizeof calls / sizeof calls[0]; i++) {
        if (strlen(calls[i].word) == n && memcmp(calls[i].word, word, n) == 0) {
            is_call = calls[i].call(&l);
            break;
        }
    }
    if (!is_call)
        fputs("not a call", stdout);
    putchar('\n');
    fflush(stdout); /* answered before the next line is looked at */
}

int main(void)
{
    static char text[INPUT_LONGEST];
    static char out[1u << 17]; /* longer than any answer, so that one answer is one write */
    size_t begin = 0, length = 0;
    int c;
    setvbuf(stdout, out, _IOFBF, sizeof out);
    while ((c = getchar()) != EOF) {
        if (length == INPUT_LONGEST) {
            puts("input too long");
            return fflush(stdout) == 0 ? 0 : 1;
        }
        text[length++] = (char)c;
        if (c == '\n') {
            answer(text + begin, length - 1 - begin);
            begin = length;
        }
    }
    answer(text + begin, length - begin); /* a last line without its newline */
    return fflush(stdout) == 0 && !ferror(stdin) ? 0 : 1;
}
