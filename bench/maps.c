/* How long a step takes, in nanoseconds, of programs that load and store through a value of a map, look elements up and update them:
 * maps [ROUNDS]
 *
 * The map's one page lies on a frame of its own, is merged with another tenant's, or lies on the zero frame. In each of 400 rounds
 * visits put the page there, which isn't measured, and then one run is; the same program on the interpreter of switch.h takes turns
 * with it, a hundred runs a round. What two readings of the clock take is taken off a run. The programs store only the zeros that are there, so that the pages can be merged again. Exits 1
 * where a call is refused, a page lies on another frame, or a run returns something else than on the interpreter of switch.h. */
#define _POSIX_C_SOURCE 199309L
#include "bpf_host.h"
#include "measure.h"
#include "switch.h"

#include <math.h>

enum { FRAMES = 4096, ROUNDS = 400, RUNS = 100, SLOTS = 4096, VALUE_SIZE = 8 };

/* As many visits as merge two pages, after any store. */
enum { VISITS = 8 };

/* Where the page lies when a run begins. */
enum pages { OWN, MERGED, ZERO, PAGES };

/* Key 0 at R6 and eight bytes of zeros at R7, both on the stack. */
static const uint8_t HEAD[6][8] = {
    {0x62, 0x0a, 0xfc, 0xff}, {0xbf, 0xa6}, {0x07, 0x06, 0, 0, 0xfc, 0xff, 0xff, 0xff},
    {0x7a, 0x0a, 0xf0, 0xff}, {0xbf, 0xa7}, {0x07, 0x07, 0, 0, 0xf0, 0xff, 0xff, 0xff},
};

/* R0 = lookup of key 0, and the end where there is none. */
static const uint8_t FIND[7][8] = {
    {0x18, 0x11}, {0}, {0xbf, 0x62}, {0x85, 0, 0, 0, LOOKUP}, {0x55, 0, 0x02}, {0xb7}, {0x95},
};

/* R9 = 1. */
static const uint8_t NUMBER[1][8] = {{0xb7, 0x09, 0, 0, 1}};

/* R9 += 1. */
static const uint8_t ADD[1][8] = {{0x07, 0x09, 0, 0, 1}};

/* R1 = [R0]; [R0] = R1. */
static const uint8_t ACCESS[2][8] = {{0x79, 0x01}, {0x7b, 0x10}};

/* R1 = [R0]; R1 += 0; [R0] = R1. */
static const uint8_t COUNT[3][8] = {{0x79, 0x01}, {0x07, 0x01}, {0x7b, 0x10}};

/* Lookup of key 0. */
static const uint8_t LOOK_UP[4][8] = {{0x18, 0x11}, {0}, {0xbf, 0x62}, {0x85, 0, 0, 0, LOOKUP}};

/* The same, and whether there is none; both ways lead on. */
static const uint8_t CHECKED_LOOK_UP[5][8] = {{0x18, 0x11}, {0}, {0xbf, 0x62}, {0x85, 0, 0, 0, LOOKUP}, {0x55}};

/* Update of key 0 to zeros. */
static const uint8_t SET[6][8] = {{0x18, 0x11}, {0}, {0xbf, 0x62}, {0xbf, 0x73}, {0xb7, 0x04}, {0x85, 0, 0, 0, UPDATE}};

/* What stands before, what stands there again and again, and how often. */
static const struct work {
    const char *name;
    const void *before, *body;
    int before_slots, body_slots, count;
} WORKS[] = {
    {"sums in a register", NUMBER, ADD, 1, 1, 2000},
    {"loads and stores through a value", FIND, ACCESS, 7, 2, 1000},
    {"one lookup, load and store", FIND, ACCESS, 7, 2, 1},
    {"the counter", FIND, COUNT, 7, 3, 1},
    {"lookups, with two moves each", NULL, LOOK_UP, 0, 4, 700},
    {"lookups, with two moves and a null check each", NULL, CHECKED_LOOK_UP, 0, 5, 600},
    {"updates, with four moves each", NULL, SET, 0, 6, 500},
    {"one update", NULL, SET, 0, 6, 1},
};

/* The text, and that for the C switch, whose wide instructions lead to its map. */
static struct insn text[SLOTS], linked[SLOTS];
static uint8_t zeros[VALUE_SIZE];
static const struct map map = {1, VALUE_SIZE, VALUE_SIZE, zeros};

static struct bpf_host host;
static struct bpf_host_refused refused;
static uint32_t failed;

/* Puts some slots at a pc of the text: the pc after them. */
static int put(int pc, const void *slots, int count)
{
    if (count != 0)
        memcpy(&text[pc], slots, 8 * (size_t)count);
    return pc + count;
}

/* Makes the text of some work: how many slots it has. */
static int make_text(const struct work *work)
{
    static const uint8_t END[2][8] = {{0xb7}, {0x95}};
    int pc = put(put(0, HEAD, 6), work->before, work->before_slots);
    for (int left = work->count; left > 0; left--)
        pc = put(pc, work->body, work->body_slots);
    int slots = put(pc, END, 2);
    memcpy(linked, text, sizeof linked);
    switch_link(linked, (uint32_t)slots, &map);
    return slots;
}

/* Opens a host with a map of one value for each of two tenants, of which the first one has the program. */
static void open_host(enum pages pages, int slots)
{
    struct bpf_host_options options = BPF_HOST_OPTIONS;
    uint32_t number = 0;
    options.use_zero_pages = pages == ZERO;
    failed |= bpf_host_new(FRAMES, 2, &options, &host);
    failed |= bpf_host_create_map(&host, 0, VALUE_SIZE, 1, true, &number, &refused);
    failed |= bpf_host_create_map(&host, 1, VALUE_SIZE, 1, true, &number, &refused);
    failed |= bpf_host_load(&host, 0, (const uint8_t *)text, 8 * (size_t)slots, 0, &number, &refused);
}

/* Puts the pages where they are to lie. By the frames that are free, two, one or none are theirs, beside the zero frame. */
static void put_pages(enum pages pages)
{
    struct bpf_host_counters counters = {0};
    failed |= bpf_host_visit(&host, pages == OWN ? 0 : VISITS, &counters);
    failed |= counters.frames_free != FRAMES - 1 - (uint32_t)(ZERO - pages);
}

/* What two readings of the clock take: more than a step. */
static double reading(void)
{
    double least = INFINITY;
    for (int at = 0; at < 1000; at++) {
        double start = now();
        keep_least(&least, now() - start);
    }
    return least;
}

/* The nanoseconds of each step of one run, which is to make so many. */
static double spent_by_host(uint32_t steps)
{
    static double clock_only = -1;
    struct bpf_host_run run = {1, 0};
    if (clock_only < 0)
        clock_only = reading();
    double start = now();
    failed |= bpf_host_run(&host, 0, 0, (const uint8_t *)text, 0, &run, &refused);
    double spent = now() - start - clock_only;
    failed |= run.ret != 0 || run.steps != steps;
    return spent / steps;
}

/* The same of a hundred runs on the C switch. */
static double spent_by_switch(uint32_t *steps)
{
    double start = now();
    for (int run = 0; run < RUNS; run++)
        failed |= switch_run(linked, NULL, steps) != 0;
    return (now() - start) / RUNS / *steps;
}

/* The least times of a step by both interpreters. */
static void measure(enum pages pages, int slots, int rounds, double *by_host, double *by_switch, uint32_t *steps)
{
    open_host(pages, slots);
    for (int round = 0; round < rounds; round++) {
        put_pages(pages);
        keep_least(by_switch, spent_by_switch(steps));
        keep_least(by_host, spent_by_host(*steps));
    }
    bpf_host_free(&host);
}

static void print_row(const struct work *work, int rounds)
{
    double by_host[PAGES] = {INFINITY, INFINITY, INFINITY};
    double by_switch = INFINITY;
    uint32_t steps = 0;
    int slots = make_text(work);
    for (int pages = OWN; pages < PAGES; pages++)
        measure((enum pages)pages, slots, rounds, &by_host[pages], &by_switch, &steps);
    printf("| %s | %u | %.2f | %.2f | %.2f | %.2f |\n", work->name, steps, by_host[OWN], by_host[MERGED], by_host[ZERO], by_switch);
}

int main(int words, char **word)
{
    int rounds = number_of(words, word, 1, ROUNDS);
    printf("| ns a step | steps | own page | merged page | zero frame | C switch |\n|---|---|---|---|---|---|\n");
    for (size_t work = 0; work < sizeof WORKS / sizeof *WORKS; work++)
        print_row(&WORKS[work], rounds);
    if (failed)
        printf("a call was refused, a page lies on another frame, or a run returned something else than on the C switch\n");
    return failed != 0;
}
