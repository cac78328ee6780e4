/* How long a step takes, in nanoseconds, of programs of 4,096 slots: steps [TRIES]
 *
 * A run in one call of the library, a run by a call a step, and the same program on the interpreter of switch.h take turns, a hundred
 * runs in a try. The least of 100 tries counts, as does that of the calls that unload and load the program. Exits 1 where a call is
 * refused or a run returns something else than on the interpreter of switch.h. */
#define _POSIX_C_SOURCE 199309L
#include "bpf_host.h"
#include "measure.h"
#include "switch.h"

#include <math.h>

enum { SLOTS = 4096, RUNS = 100, TRIES = 100 };

/* Sets R6 to R9 and the bytes of the stack that the programs read. */
static const uint8_t SETUP[8][8] = {
    {0xb7, 0x06, 0, 0, 0x01},    {0xb7, 0x07, 0, 0, 0x02},    {0xb7, 0x08, 0, 0, 0x03},    {0xb7, 0x09, 0, 0, 0x04},
    {0x7b, 0x7a, 0xf8, 0xff},    {0x63, 0x7a, 0xf4, 0xff},    {0x6b, 0x7a, 0xf2, 0xff},    {0x73, 0x7a, 0xf1, 0xff},
};

/* Arithmetic of both widths on R6 to R9. */
static const uint8_t ARITHMETIC[16][8] = {
    {0x07, 0x06, 0, 0, 0x01}, {0x0f, 0x67},             {0x1f, 0x86}, {0x27, 0x07, 0, 0, 0x03}, {0x3f, 0x98},
    {0x4f, 0x79},             {0x57, 0x06, 0, 0, 0xff, 0x7f},         {0x67, 0x07, 0, 0, 0x03}, {0x77, 0x08, 0, 0, 0x02},
    {0x97, 0x09, 0, 0, 0x07}, {0xaf, 0x76},             {0xb7, 0x08, 0, 0, 0x05},               {0xcf, 0x89},
    {0x04, 0x06, 0, 0, 0x09}, {0xbc, 0x67},             {0xdc, 0x08, 0, 0, 0x20},
};

/* A product that waits for the one before it. */
static const uint8_t PRODUCT[8] = {0x27, 0x06, 0, 0, 0x03};

/* Stores to the stack and loads from it, of each size. */
static const uint8_t STACK[8][8] = {
    {0x7b, 0x7a, 0xf8, 0xff}, {0x79, 0xa8, 0xf8, 0xff}, {0x63, 0x8a, 0xf4, 0xff}, {0x61, 0xa9, 0xf4, 0xff},
    {0x6b, 0x6a, 0xf2, 0xff}, {0x69, 0xa7, 0xf2, 0xff}, {0x73, 0x9a, 0xf1, 0xff}, {0x91, 0xa6, 0xf1, 0xff},
};

/* A jump over the next instruction, so that two ways come together at every second slot. */
static const uint8_t JUMPS[2][8] = {{0x15, 0x06, 0x01, 0, 0x05}, {0x07, 0x06, 0, 0, 0x01}};

enum mix { RANDOM_ARITHMETIC, PRODUCTS, STACK_ACCESS, JUMPING, MIXES };

static const char *const NAMES[MIXES] = {"random arithmetic", "chain of products", "stack access", "jumps"};

static struct insn text[SLOTS];
static struct bpf_host host;
static struct bpf_host_refused refused;
static uint32_t failed;

/* The instruction at a pc, by a number that is drawn for it. */
static const uint8_t *drawn_insn(enum mix mix, int pc, uint32_t drawn)
{
    switch (mix) {
    case RANDOM_ARITHMETIC: return ARITHMETIC[drawn / 65536 % 16];
    case PRODUCTS: return PRODUCT;
    case STACK_ACCESS: return STACK[pc % 8];
    default: return JUMPS[pc % 2];
    }
}

static void make_text(enum mix mix)
{
    static const uint8_t END[2][8] = {{0xbf, 0x60}, {0x95}};
    uint32_t drawn = 1;
    memcpy(text, SETUP, sizeof SETUP);
    for (int pc = 0; pc < SLOTS - 10; pc++) {
        drawn = drawn * 1103515245 + 12345;
        memcpy(&text[8 + pc], drawn_insn(mix, pc, drawn), 8);
    }
    memcpy(&text[SLOTS - 2], END, sizeof END);
}

static struct bpf_host_run run_at_once(void)
{
    struct bpf_host_run run = {0, 0};
    failed |= bpf_host_run(&host, 0, 0, (const uint8_t *)text, 0, &run, &refused);
    return run;
}

static struct bpf_host_run run_by_steps(void)
{
    struct bpf_host_run run = {0, 0};
    bool ended = false;
    failed |= bpf_host_begin(&host, 0, 0, (const uint8_t *)text, 0, &refused);
    while (!ended && failed == 0)
        failed |= bpf_host_step(&host, 0, 1, &ended, &run);
    return run;
}

static struct bpf_host_run run_by_switch(void)
{
    struct bpf_host_run run;
    run.ret = switch_run(text, NULL, &run.steps);
    return run;
}

/* The nanoseconds of each step of a hundred runs, each of which is to return this. */
static double spent(struct bpf_host_run (*way)(void), struct bpf_host_run wanted)
{
    double start = now();
    for (int run = 0; run < RUNS; run++) {
        struct bpf_host_run found = way();
        failed |= found.ret != wanted.ret || found.steps != wanted.steps;
    }
    return (now() - start) / RUNS / wanted.steps;
}

static void load(void)
{
    uint32_t program = 0;
    failed |= bpf_host_load(&host, 0, (const uint8_t *)text, sizeof text, 0, &program, &refused);
}

/* The microseconds that the program is loaded and unloaded in. */
static double loading(void)
{
    double start = now();
    failed |= bpf_host_unload(&host, 0, 0);
    load();
    return (now() - start) / 1000;
}

static void print_row(enum mix mix, int tries)
{
    double at_once = INFINITY, by_steps = INFINITY, by_switch = INFINITY, loaded = INFINITY;
    make_text(mix);
    load();
    struct bpf_host_run wanted = run_by_switch();
    for (int try = 0; try < tries; try++) {
        keep_least(&at_once, spent(run_at_once, wanted));
        keep_least(&by_steps, spent(run_by_steps, wanted));
        keep_least(&by_switch, spent(run_by_switch, wanted));
        keep_least(&loaded, loading());
    }
    failed |= bpf_host_unload(&host, 0, 0);
    printf("| %-17s | %6.2f | %6.2f | %6.2f | %6.1f |\n", NAMES[mix], at_once, by_steps, by_switch, loaded);
}

int main(int words, char **word)
{
    struct bpf_host_options options = BPF_HOST_OPTIONS;
    int tries = number_of(words, word, 1, TRIES);
    failed |= bpf_host_new(2, 1, &options, &host);
    printf("| ns a step | one call a run | a call a step | C switch | load and unload, us |\n|---|---|---|---|---|\n");
    for (int mix = 0; mix < MIXES; mix++)
        print_row((enum mix)mix, tries);
    bpf_host_free(&host);
    if (failed)
        printf("a call was refused, or returned something else than the C switch\n");
    return failed != 0;
}
