/* How long the library's calls take beside what its peers do for the same, in nanoseconds: peers [ROUNDS [REPEATS [TEXTS]]]
 *
 * First whole runs: of a program of two instructions, of the counter of examples/shared_pages.toml (a lookup, a load and a store), of the parser
 * of examples/packet.c, and of five programs of 20 to 60 steps out of bench/corpus_v2.texts (or TEXTS), whose jumps DPDK knows. Their answers and
 * maps are compared first. Then calls: a lookup and an update of 8 bytes, a visit of a merged page, and a load of 4,096 slots with its unload. The
 * engines take turns; the median of ROUNDS rounds (9) counts, in which each makes REPEATS (20) times as many calls as a row has. Exits 1 where
 * engines differ, or a call is refused. */
#define _POSIX_C_SOURCE 200809L
#include "engines.h"

enum { ROUNDS = 9, REPEATS = 20 };

/* The programs out of the corpus, by their files and names. */
static const char *const TAKEN[][2] = {
    {"examples/packet.c", "packet"},
    {"tools/objects_sources/buckets.c", "limit"},
    {"tools/objects_sources/statics.c", "trace"},
    {"tools/objects_sources/older.c", "result"},
    {"tools/objects_sources/flows.c", "flow"},
    {"tools/objects_sources/histogram.c", "done"},
};

static const uint8_t RETURN_42[2][8] = {{0xb7, 0, 0, 0, 42}, {0x95}};

static const uint8_t COUNTER[14][8] = {
    {0x62, 0x0a, 0xfc, 0xff}, {0xbf, 0xa2}, {0x07, 2, 0, 0, 0xfc, 0xff, 0xff, 0xff}, {0x18, 0x11}, {0}, {0x85, 0, 0, 0, 1}, {0x55, 0, 2},
    {0xb7}, {0x95}, {0x79, 1}, {0x07, 1, 0, 0, 1}, {0x7b, 0x10}, {0xbf, 0x10}, {0x95},
};

/* A host whose two tenants have a page each, which are merged. */
static struct bpf_host host;
static uint8_t host_value[8], flat_values[8];
static struct map flat = {1, sizeof flat_values, sizeof flat_values, flat_values};
static struct program sum = {.file = "sum", .name = "sum", .slots = SLOTS};
static struct linked linked_sum;
static volatile uint64_t returned;

static const struct program *find(const char *file, const char *name)
{
    for (const struct program *program = programs; program < programs + program_count; program++)
        if (strcmp(program->file, file) == 0 && strcmp(program->name, name) == 0)
            return program;
    return wanted(NULL, "the corpus lacks a program");
}

static void print_run(const struct program *program, int rounds, int repeats)
{
    static struct loaded loaded;
    if (take(program, &loaded) != 0) {
        printf("%s %s is refused\n", program->file, program->name);
        failed = 1;
        return;
    }
    measure_runs(&loaded, rounds, repeats);
    printf("| %s %s |", program->file, program->name);
    print_number(loaded.steps, 1);
    for (int engine = 0; engine < ENGINES; engine++)
        print_number(loaded.ns[engine], 1);
    print_number(loaded.ratio[LIBRARY], 2);
    print_number(loaded.ratio[DPDK], 2);
    print_number(loaded.ratio[MANY], 2);
    printf("\n");
    release(&loaded);
}

/* A program that stands here, with its text and contexts of 64 bytes. */
static const struct program *with_text(struct program *program, const uint8_t (*text)[8])
{
    program->context_size = 64;
    program->text = wanted(malloc(sizeof *text * program->slots), "memory ran out");
    memcpy(program->text, text, sizeof *text * program->slots);
    draw_contexts(program);
    return program;
}

static void print_runs(int rounds, int repeats)
{
    static struct program two = {.file = "two", .name = "instructions", .slots = 2};
    static struct program counter = {.file = "shared_pages.toml", .name = "counter", .slots = 14, .map_count = 1, .shapes = {{1, 8, 8, NULL}}};
    printf("| ns a run | steps | library | C switch | DPDK | library, 64 a call | DPDK, compiled | library / switch | DPDK / switch | 64 a call / switch |\n"
           "|---|---|---|---|---|---|---|---|---|---|\n");
    print_run(with_text(&two, RETURN_42), rounds, repeats);
    print_run(with_text(&counter, COUNTER), rounds, repeats);
    for (size_t at = 0; at < sizeof TAKEN / sizeof *TAKEN; at++)
        print_run(find(TAKEN[at][0], TAKEN[at][1]), rounds, repeats);
}

static void lookup_by_library(void)
{
    failed |= bpf_host_lookup(&host, 0, 0, 0, host_value, sizeof host_value);
}

/* The map and the key of the switch's calls, which the compiler doesn't know. */
static const struct map *volatile flat_at = &flat;
static volatile uint32_t key_at;

/* The value is copied, as the library does. */
static void lookup_by_switch(void)
{
    const uint32_t key = key_at;
    memcpy(host_value, (const void *)(uintptr_t)switch_lookup(flat_at, &key), sizeof host_value);
}

static void update_by_library(void)
{
    failed |= bpf_host_update(&host, 0, 1, 0, host_value, sizeof host_value, &refused);
}

static void update_by_switch(void)
{
    const uint32_t key = key_at;
    returned = switch_update(flat_at, &key, host_value, 0);
}

static void visit_by_library(void)
{
    struct bpf_host_counters after = {0};
    failed |= bpf_host_visit(&host, 1, &after);
}

static void load_by_library(void)
{
    uint32_t number = 0;
    failed |= bpf_host_load(&host, 0, (const uint8_t *)sum.text, sizeof *sum.text * SLOTS, 0, &number, &refused);
    failed |= bpf_host_unload(&host, 0, number);
}

static void load_by_switch(void)
{
    struct linked linked;
    link_program(&sum, &linked);
    returned = linked.text[SLOTS - 1].opcode;
    free(linked.text);
}

static void load_by_dpdk(void)
{
    struct rte_bpf *loaded = dpdk_load(linked_sum.text, SLOTS, linked_sum.maps, 0, 0);
    failed |= loaded == NULL;
    rte_bpf_destroy(loaded);
}

/* A call, how it is made by each engine that has it, and how many are made at a time. */
static const struct call {
    const char *name;
    void (*by[MANY])(void);
    int calls;
} CALLS[] = {
    {"a lookup of 8 bytes", {lookup_by_library, lookup_by_switch, NULL}, 1000},
    {"an update of 8 bytes", {update_by_library, update_by_switch, NULL}, 1000},
    {"a visit of a merged page", {visit_by_library, NULL, NULL}, 1000},
    {"a load of 4,096 slots, and its unload", {load_by_library, load_by_switch, load_by_dpdk}, 1},
};

/* Whether an engine has a call. Without DPDK its way would do nothing. */
static bool makes(const struct call *call, enum engine engine)
{
#ifndef WITH_DPDK
    if (engine == DPDK)
        return false;
#endif
    return call->by[engine] != NULL;
}

static void print_call(const struct call *call, int rounds, int repeats)
{
    double ns[MANY][MOST_ROUNDS];
    int calls = call->calls * repeats;
    for (int round = 0; round < rounds; round++)
        for (int engine = 0; engine < MANY; engine++) {
            double start = used();
            for (int left = calls; left > 0 && makes(call, (enum engine)engine); left--)
                call->by[engine]();
            ns[engine][round] = (used() - start) / calls;
        }
    printf("| %s |", call->name);
    for (int engine = 0; engine < MANY; engine++)
        print_number(makes(call, (enum engine)engine) ? median(ns[engine], rounds) : NAN, 1);
    printf("\n");
}

/* A host whose first tenant has a map that is merged with the second one's, and one that isn't. */
static void open_host(void)
{
    struct bpf_host_options options = BPF_HOST_OPTIONS;
    struct bpf_host_counters after = {0};
    uint32_t number = 0;
    failed |= bpf_host_new(64, 2, &options, &host);
    failed |= bpf_host_create_map(&host, 0, sizeof host_value, 1, true, &number, &refused);
    failed |= bpf_host_create_map(&host, 1, sizeof host_value, 1, true, &number, &refused);
    failed |= bpf_host_visit(&host, 8, &after);
    failed |= after.pages_sharing != 1;
    failed |= bpf_host_create_map(&host, 0, sizeof host_value, 1, false, &number, &refused);
}

/* r0 = 0, adds, EXIT. */
static void make_sum(void)
{
    static const uint8_t BEGIN[8] = {0xb7}, ADD[8] = {0x07, 0, 0, 0, 1}, END[8] = {0x95};
    sum.text = wanted(malloc(sizeof *sum.text * SLOTS), "memory ran out");
    for (int slot = 0; slot < SLOTS; slot++)
        memcpy(&sum.text[slot], slot == 0 ? BEGIN : slot == SLOTS - 1 ? END : ADD, 8);
    link_program(&sum, &linked_sum);
}

int main(int words, char **word)
{
    int rounds = number_of(words, word, 1, ROUNDS), repeats = number_of(words, word, 2, REPEATS);
    rounds = rounds < 1 ? 1 : rounds < MOST_ROUNDS ? rounds : MOST_ROUNDS;
    read_corpus(words > 3 ? word[3] : "bench/corpus_v2.texts");
    print_runs(rounds, repeats);
    open_host();
    make_sum();
    printf("\n| ns a call | library | C switch | DPDK |\n|---|---|---|---|\n");
    for (size_t at = 0; at < sizeof CALLS / sizeof *CALLS; at++)
        print_call(&CALLS[at], rounds, repeats);
    bpf_host_free(&host);
    if (failed)
        printf("a call was refused, or engines differ\n");
    return failed != 0;
}
