/* How long calls of the library take, in nanoseconds, on one thread: library [ROUNDS [THOUSANDS]]
 *
 * First calls by themselves; then calls that merge pages and break groups, on a host whose 16 tenants have 100, 1,000 and 4,000 pages:
 * it shows what grows; last, maps that one tenant makes and drops, a hundred thousands of them. Each time but the last ones is the
 * least of seven rounds. bench/README.md says how it is built. Exits 1 where a call is refused or pages share other frames than they
 * should. */
#define _POSIX_C_SOURCE 199309L
#include "bpf_host.h"
#include "measure.h"

#include <math.h>
#include <string.h>

enum { ROUNDS = 7, THOUSANDS = 100, CALLS = 200000 };

static const uint8_t return_42[] = {0xb7, 0, 0, 0, 42, 0, 0, 0, 0x95, 0, 0, 0, 0, 0, 0, 0};

/* Looks element 0 of map 0 up, adds 1 to it, and returns it: 11 steps. */
static const uint8_t counter[] = {
    0x62, 0x0a, 0xfc, 0xff, 0, 0, 0, 0, 0xbf, 0xa2, 0, 0, 0, 0, 0, 0, 0x07, 0x02, 0, 0, 0xfc, 0xff, 0xff, 0xff, 0x18, 0x11, 0, 0, 0, 0, 0, 0,
    0, 0, 0, 0, 0, 0, 0, 0, 0x85, 0, 0, 0, 1, 0, 0, 0, 0x55, 0, 2, 0, 0, 0, 0, 0, 0xb7, 0, 0, 0, 0, 0, 0, 0,
    0x95, 0, 0, 0, 0, 0, 0, 0, 0x79, 0x01, 0, 0, 0, 0, 0, 0, 0x07, 0x01, 0, 0, 1, 0, 0, 0, 0x7b, 0x10, 0, 0, 0, 0, 0, 0,
    0xbf, 0x10, 0, 0, 0, 0, 0, 0, 0x95, 0, 0, 0, 0, 0, 0, 0};

enum { SLOTS = 4096, FRAMES = 4096, TENANTS = 16, PAGE = 4096 };

/* r0 = 0, adds, EXIT. */
static uint8_t sum[8 * SLOTS];

static struct bpf_host host;
static struct bpf_host_refused refused;
static struct bpf_host_run run;
static uint32_t failed;

static void run_two_steps(void)
{
    static const uint8_t context[64];
    failed |= bpf_host_run(&host, 0, 0, context, sizeof context, &run, &refused);
}

static void run_counter(void)
{
    failed |= bpf_host_run(&host, 0, 1, counter, 0, &run, &refused);
}

static void run_4096_steps(void)
{
    failed |= bpf_host_run(&host, 0, 2, sum, 0, &run, &refused);
    failed |= run.steps != SLOTS;
}

static void load_4096_slots(void)
{
    uint32_t number = 0;
    failed |= bpf_host_load(&host, 0, sum, sizeof sum, 0, &number, &refused);
    failed |= bpf_host_unload(&host, 0, number);
}

static void look_up(void)
{
    uint8_t value[8];
    failed |= bpf_host_lookup(&host, 0, 0, 0, value, sizeof value);
}

static void update(void)
{
    static const uint8_t value[8] = {1};
    failed |= bpf_host_update(&host, 0, 0, 0, value, sizeof value, &refused);
}

static int rounds = ROUNDS;

/* Prints the nanoseconds of each of so many equal parts of a call. */
static void measure(const char *what, void (*call)(void), int calls, double parts)
{
    double least = INFINITY;
    for (int round = 0; round < rounds; round++) {
        double start = now();
        for (int i = 0; i < calls; i++)
            call();
        keep_least(&least, (now() - start) / calls / parts);
    }
    printf("| %s | %.1f |\n", what, least);
}

static void fill_sum(void)
{
    static const uint8_t begin[] = {0xb7, 0, 0, 0, 0, 0, 0, 0}, add[] = {0x07, 0, 0, 0, 1, 0, 0, 0}, end[] = {0x95, 0, 0, 0, 0, 0, 0, 0};
    for (int slot = 0; slot < SLOTS; slot++)
        memcpy(sum + 8 * slot, slot == 0 ? begin : slot == SLOTS - 1 ? end : add, 8);
}

static void measure_calls(void)
{
    struct bpf_host_options options = BPF_HOST_OPTIONS;
    uint32_t number = 0;
    fill_sum();
    failed |= bpf_host_new(64, 1, &options, &host);
    failed |= bpf_host_create_map(&host, 0, 8, 1, true, &number, &refused);
    failed |= bpf_host_load(&host, 0, return_42, sizeof return_42, 64, &number, &refused);
    failed |= bpf_host_load(&host, 0, counter, sizeof counter, 0, &number, &refused);
    failed |= bpf_host_load(&host, 0, sum, sizeof sum, 0, &number, &refused);
    printf("| ns a call | |\n|---|---|\n");
    measure("a run of 2 steps, context of 64 bytes", run_two_steps, CALLS, 1);
    measure("a run of 11 steps with a lookup and a store", run_counter, CALLS, 1);
    measure("a step of a run of 4,096", run_4096_steps, 200, SLOTS);
    measure("a load of 4,096 slots, and its unload", load_4096_slots, 20, 1);
    measure("a lookup of 8 bytes", look_up, CALLS, 1);
    measure("an update of 8 bytes", update, CALLS, 1);
    bpf_host_free(&host);
}

/* Pages in the order of their visits, by the tenant that has each and its first element. Each element has 16 bytes. */
enum { VALUE_SIZE = 16, VALUES = PAGE / VALUE_SIZE, SIZES = 3 };

static struct page {
    uint32_t tenant;
    uint32_t key;
} pages[FRAMES];

static uint32_t page_count;

/* How often pages got new bytes. */
static uint64_t fills;

/* Some of the pages: thirds of them in the order of visits, or all. */
enum part { FIRST, SECOND, LAST, ALL };

/* Which pages get the same bytes: each those of one of the first third; each of the second third those of one of the first; none. */
enum likeness { THIRDS, PAIRS, NONE };

enum work { LOOK_UP, FILL, UPDATE, VISIT, MERGE, SET, UNMERGE };

/* What is done in a round, in this order: to which pages, and which option gets a value. After a visit the pages of the part named
 * last, and of those before it but the first third, share frames; a row without a name isn't printed. */
static const struct step {
    const char *name;
    enum part part;
    enum work work;
    uint32_t how;
    uint32_t value;
} ROUND[] = {
    {"a lookup, one page after another", ALL, LOOK_UP, 0, 0},
    {"an update of a page on a frame of its own", ALL, UPDATE, 0, 0},
    {NULL, ALL, FILL, THIRDS, 0},
    {"a visit of a changed page", ALL, VISIT, FIRST, 0},
    {NULL, FIRST, VISIT, FIRST, 0},
    {"a visit that pairs", SECOND, VISIT, SECOND, 0},
    {"a visit that joins a group", LAST, VISIT, LAST, 0},
    {"a visit of a merged page", ALL, VISIT, LAST, 0},
    {"an update of a page of a group of three", FIRST, UPDATE, 0, 0},
    {NULL, SECOND, UPDATE, 0, 0},
    {"an update of the last page of a group", LAST, UPDATE, 0, 0},
    {NULL, ALL, MERGE, 0, 0},
    {"unmerging of all, for each page", ALL, UNMERGE, 0, 0},
    {NULL, ALL, SET, BPF_HOST_RUN, 1},
    {NULL, ALL, SET, BPF_HOST_USE_ZERO_PAGES, 1},
    {NULL, ALL, UPDATE, 0, 0},
    {NULL, ALL, VISIT, FIRST, 0},
    {"a visit that puts a page on the zero frame", ALL, VISIT, ALL, 0},
    {"an update of a page on the zero frame", ALL, UPDATE, 0, 0},
    {NULL, ALL, SET, BPF_HOST_USE_ZERO_PAGES, 0},
    {NULL, ALL, FILL, NONE, 0},
    {NULL, ALL, VISIT, FIRST, 0},
    {"a visit of a page that differs from all, no groups", ALL, VISIT, FIRST, 0},
    {NULL, ALL, FILL, PAIRS, 0},
    {NULL, ALL, VISIT, FIRST, 0},
    {NULL, FIRST, VISIT, FIRST, 0},
    {NULL, SECOND, VISIT, SECOND, 0},
    {"the same, beside groups of a third of the pages", LAST, VISIT, SECOND, 0},
    {NULL, ALL, UPDATE, 0, 0},
};

enum { STEPS = sizeof ROUND / sizeof *ROUND };

/* Where the pages of a part begin, and where they end. */
static uint32_t begin_of(enum part part)
{
    uint32_t third = (page_count + 2) / 3;
    return part == SECOND ? third : part == LAST ? 2 * third : 0;
}

static uint32_t end_of(enum part part)
{
    return part == FIRST ? begin_of(SECOND) : part == SECOND ? begin_of(LAST) : page_count;
}

/* Writes a number to the first element of a page, and zeros where it is 0. */
static void write_page(const struct page *page, uint64_t number)
{
    uint8_t value[VALUE_SIZE] = {0};
    memcpy(value, &number, sizeof number);
    failed |= bpf_host_update(&host, page->tenant, 0, page->key, value, sizeof value, &refused);
}

/* New bytes for each page, other than any that a page had before. */
static void fill(enum likeness likeness)
{
    uint32_t third = end_of(FIRST);
    fills++;
    for (uint32_t at = 0; at < page_count; at++) {
        bool alike = likeness == THIRDS || (likeness == PAIRS && at < 2 * third);
        write_page(&pages[at], fills * 2 * FRAMES + (alike ? at % third : at) + 1);
    }
}

static void look_up_pages(enum part part)
{
    uint8_t value[VALUE_SIZE];
    for (uint32_t at = begin_of(part); at < end_of(part); at++)
        failed |= bpf_host_lookup(&host, pages[at].tenant, 0, pages[at].key, value, sizeof value);
}

static void update_pages(enum part part)
{
    for (uint32_t at = begin_of(part); at < end_of(part); at++)
        write_page(&pages[at], 0);
}

/* Visits the pages of a part. Of all pages those of the second third up to a part are to share frames of other pages then, or all that
 * of zeros. */
static void visit_pages(enum part part, enum part shared)
{
    struct bpf_host_counters after = {0};
    failed |= bpf_host_visit(&host, end_of(part) - begin_of(part), &after);
    failed |= after.pages_sharing != (shared == ALL ? 0 : end_of(shared) - end_of(FIRST));
    failed |= after.ksm_zero_pages != (shared == ALL ? page_count : 0);
}

/* New bytes for each page, and the visits that put them into groups of three. */
static void merge(void)
{
    fill(THIRDS);
    visit_pages(ALL, FIRST);
    visit_pages(FIRST, FIRST);
    visit_pages(SECOND, SECOND);
    visit_pages(LAST, LAST);
}

static void make_step(const struct step *step)
{
    switch (step->work) {
    case LOOK_UP: look_up_pages(step->part); break;
    case FILL: fill((enum likeness)step->how); break;
    case UPDATE: update_pages(step->part); break;
    case VISIT: visit_pages(step->part, (enum part)step->how); break;
    case MERGE: merge(); break;
    case SET: failed |= bpf_host_set(&host, step->how, step->value); break;
    case UNMERGE: failed |= bpf_host_unmerge(&host, &refused); break;
    }
}

/* A host whose tenants share so many pages, a map each. */
static void open_pages(uint32_t count)
{
    struct bpf_host_options options = BPF_HOST_OPTIONS;
    page_count = 0;
    failed |= bpf_host_new(FRAMES, TENANTS, &options, &host);
    for (uint32_t tenant = 0; tenant < TENANTS; tenant++) {
        uint32_t map, of_tenant = count / TENANTS + (tenant < count % TENANTS);
        failed |= bpf_host_create_map(&host, tenant, VALUE_SIZE, of_tenant * VALUES, true, &map, &refused);
        for (uint32_t page = 0; page < of_tenant; page++)
            pages[page_count++] = (struct page){tenant, page * VALUES};
    }
}

/* The least nanoseconds of each step of a round, for each page of its part. */
static void measure_round(double *least)
{
    for (int at = 0; at < STEPS; at++) {
        double start = now();
        make_step(&ROUND[at]);
        keep_least(&least[at], (now() - start) / (end_of(ROUND[at].part) - begin_of(ROUND[at].part)));
    }
}

static void measure_pages(void)
{
    static const uint32_t counts[SIZES] = {100, 1000, 4000};
    static double least[SIZES][STEPS];
    for (int size = 0; size < SIZES; size++) {
        for (int at = 0; at < STEPS; at++)
            least[size][at] = INFINITY;
        open_pages(counts[size]);
        for (int round = 0; round < rounds; round++)
            measure_round(least[size]);
        bpf_host_free(&host);
    }
    printf("\n| ns a page | 100 pages | 1,000 pages | 4,000 pages |\n|---|---|---|---|\n");
    for (int at = 0; at < STEPS; at++)
        if (ROUND[at].name != NULL)
            printf("| %s | %.1f | %.1f | %.1f |\n", ROUND[at].name, least[0][at], least[1][at], least[2][at]);
}

/* Maps that the first tenant makes and drops, eight at a time, with visits between, while pages of zeros of the others are in groups. */
enum { MAPS = 8, BATCHES = 125, BATCH_VISITS = 64, OTHERS_PAGES = 100 };

/* The nanoseconds that went to a thousand maps. */
struct thousand {
    double made;
    double visited;
    double dropped;
};

/* Makes eight maps. Those of a thousand have 1 to 256 pages, each number as often as each other one or once less. */
static void make_maps(uint32_t batch)
{
    for (uint32_t map = 0; map < MAPS; map++) {
        uint32_t number = 0;
        failed |= bpf_host_create_map(&host, 0, PAGE, (batch * MAPS + map) * 256 / 1000 + 1, true, &number, &refused);
    }
}

static void drop_maps(void)
{
    for (uint32_t map = 0; map < MAPS; map++)
        failed |= bpf_host_drop_map(&host, 0, map);
}

/* What goes to a thousand maps that are made, visited and dropped. */
static struct thousand measure_thousand(void)
{
    struct thousand spent = {0, 0, 0};
    struct bpf_host_counters after = {0};
    for (uint32_t batch = 0; batch < BATCHES; batch++) {
        double start = now();
        make_maps(batch);
        double made = now();
        failed |= bpf_host_visit(&host, BATCH_VISITS, &after);
        double visited = now();
        drop_maps();
        spent.made += made - start;
        spent.visited += visited - made;
        spent.dropped += now() - visited;
    }
    return spent;
}

static void measure_drops(int thousands)
{
    struct bpf_host_options options = BPF_HOST_OPTIONS;
    struct bpf_host_counters after = {0};
    uint32_t map = 0;
    failed |= bpf_host_new(FRAMES, TENANTS, &options, &host);
    for (uint32_t tenant = 1; tenant < TENANTS; tenant++)
        failed |= bpf_host_create_map(&host, tenant, PAGE, OTHERS_PAGES, true, &map, &refused);
    failed |= bpf_host_visit(&host, 2 * (TENANTS - 1) * OTHERS_PAGES, &after);
    struct thousand first = measure_thousand(), last = first;
    for (int thousand = 1; thousand < thousands; thousand++)
        last = measure_thousand();
    bpf_host_free(&host);
    printf("\n| ns a map | the first thousand | number %d |\n|---|---|---|\n", thousands);
    printf("| made | %.0f | %.0f |\n", first.made / 1000, last.made / 1000);
    printf("| eight visits | %.0f | %.0f |\n", first.visited / 1000, last.visited / 1000);
    printf("| dropped | %.0f | %.0f |\n", first.dropped / 1000, last.dropped / 1000);
}

int main(int words, char **word)
{
    rounds = number_of(words, word, 1, ROUNDS);
    measure_calls();
    measure_pages();
    measure_drops(number_of(words, word, 2, THOUSANDS));
    if (failed)
        printf("a call was refused, or pages shared other frames than they should\n");
    return failed != 0;
}
