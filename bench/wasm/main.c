/* How long the filters of filters.c take as WebAssembly that wasm2c and the C compiler compiled, in nanoseconds a run, with the copy of a context into
 * the module's memory: wasm [ROUNDS]. Exits 1 where a filter returns something else than it should. bench/README.md says how it is built. */
#define _POSIX_C_SOURCE 200809L
#include "../measure.h"
#include "filters.h"

#include <string.h>

enum { CONTEXTS = 64, LONGEST = 256, ROUNDS = 200, REPEATS = 100, ISSUED = 24, COMPLETED = 32 };

typedef u64 filter_call(Z_filters_instance_t *);

static Z_filters_instance_t module;
static uint8_t *context;
static uint8_t contexts[CONTEXTS][LONGEST];
static volatile uint64_t returned;

/* The size is constant at each call, so that the copy is part of the loop. */
static inline __attribute__((always_inline)) void print(const char *name, size_t size, filter_call *filter, int rounds)
{
    double least = 1e18;
    for (int round = 0; round < rounds; round++) {
        uint64_t all = 0;
        double start = now();
        for (int run = 0; run < REPEATS * CONTEXTS; run++) {
            memcpy(context, contexts[run % CONTEXTS], size);
            all = all * 31 + filter(&module);
        }
        keep_least(&least, (now() - start) / REPEATS / CONTEXTS);
        returned = all;
    }
    printf("| %s | %.1f |\n", name, least);
}

static void check(const char *name, uint64_t found, uint64_t wanted)
{
    if (found == wanted)
        return;
    printf("%s returns %llu, not %llu\n", name, (unsigned long long)found, (unsigned long long)wanted);
    exit(1);
}

/* What `done` of histogram.c returns of a request that took so long: how many took as long, by powers of two. */
static uint64_t slot_of(uint64_t latency)
{
    const uint64_t issued = 1000, completed = issued + latency;
    memcpy(context + ISSUED, &issued, sizeof issued);
    memcpy(context + COMPLETED, &completed, sizeof completed);
    return Z_filtersZ_slot(&module);
}

static void check_filters(void)
{
    check("two", Z_filtersZ_two(&module), 42);
    check("counter", Z_filtersZ_counter(&module), 1);
    check("counter", Z_filtersZ_counter(&module), 2);
    check("done", slot_of(8), 1);
    check("done", slot_of(15), 2);
    check("done", slot_of(16), 1);
}

int main(int words, char **word)
{
    int rounds = number_of(words, word, 1, ROUNDS);
    wasm_rt_init();
    Z_filters_init_module();
    Z_filters_instantiate(&module);
    context = Z_filtersZ_memory(&module)->data + Z_filtersZ_context_at(&module);
    check_filters();
    for (int number = 0; number < CONTEXTS; number++)
        for (int at = 0; at < LONGEST; at++)
            contexts[number][at] = (uint8_t)rand();
    print("two instructions", 64, Z_filtersZ_two, rounds);
    print("counter", 64, Z_filtersZ_counter, rounds);
    print("histogram.c done", 256, Z_filtersZ_slot, rounds);
    Z_filters_free(&module);
    return 0;
}
