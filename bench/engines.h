/* Engines that run the programs of corpus.h by turns: the library, the C switch of switch.h, DPDK's interpreter where it is built in
 * (dpdk.h), the library again with one call for all contexts, and what DPDK compiles. A file that includes this defines _POSIX_C_SOURCE first,
 * as 200809L. */
#ifndef ENGINES_H
#define ENGINES_H

#include "bpf_host.h"
#include "corpus.h"
#include "dpdk.h"

#include <math.h>

enum { MOST_ROUNDS = 101, PAGE = 4096 };

enum engine { LIBRARY, SWITCH, DPDK, MANY, COMPILED, ENGINES };

static const char *const ENGINE_NAMES[ENGINES] = {"library", "switch", "dpdk", "many", "compiled"};

/* A program that all engines have loaded. DPDK's is NULL where it refuses the program. */
struct loaded {
    const struct program *program;
    /* `many` makes many runs in a call, on contexts that stand one after the other. */
    struct bpf_host host, many;
    uint8_t *contexts;
    struct linked by_switch, by_dpdk, by_compiled;
    struct rte_bpf *dpdk;
    dpdk_function compiled;
    double steps;
    /* Of a run by each engine: the median of its rounds, the least, and the median of each round's time over that of the C switch. */
    double ns[ENGINES], least[ENGINES], ratio[ENGINES];
};

static struct bpf_host_refused refused;
static uint32_t failed;

/* As many frames as the pages of a program's maps need, with as many again that a run may reserve for them. */
static uint32_t frames_of(const struct program *program)
{
    uint32_t pages = 1;
    for (uint32_t map = 0; map < program->map_count; map++)
        pages += (program->shapes[map].stride * program->shapes[map].entries + PAGE - 1) / PAGE;
    return 2 * pages;
}

/* Opens a host with the program's maps and their first values, and loads it: 0, or what refuses it. */
static uint32_t load(const struct program *program, struct bpf_host *host)
{
    struct bpf_host_options options = BPF_HOST_OPTIONS;
    uint32_t number, code = bpf_host_new(frames_of(program), 1, &options, host);
    for (uint32_t map = 0; map < program->map_count; map++) {
        const struct map *shape = &program->shapes[map];
        code |= bpf_host_create_map(host, 0, shape->value_size, shape->entries, true, &number, &refused);
    }
    for (uint32_t at = 0; at < program->update_count; at++) {
        const struct first_value *update = &program->updates[at];
        uint32_t size = program->shapes[update->map].value_size;
        code |= bpf_host_update(host, 0, update->map, update->key, update->bytes, size, &refused);
    }
    failed |= code;
    size_t size = sizeof *program->text * program->slots;
    return bpf_host_load(host, 0, (const uint8_t *)program->text, size, program->context_size, &number, &refused);
}

/* Each of these runs a program on a context: what it returns. */
static inline uint64_t run_by_library(struct loaded *loaded, const uint8_t *context, uint32_t *steps)
{
    struct bpf_host_run run = {0, 0};
    failed |= bpf_host_run(&loaded->host, 0, 0, context, loaded->program->context_size, &run, &refused);
    *steps = run.steps;
    return run.ret;
}

static inline uint64_t run_by_switch(struct loaded *loaded, const uint8_t *context, uint32_t *steps)
{
    return switch_run(loaded->by_switch.text, context, steps);
}

static inline uint64_t run_by_dpdk(struct loaded *loaded, const uint8_t *context)
{
    return rte_bpf_exec(loaded->dpdk, (void *)(uintptr_t)context);
}

static inline uint64_t run_compiled(struct loaded *loaded, const uint8_t *context)
{
    return loaded->compiled((void *)(uintptr_t)context);
}

/* Runs a program on all contexts in one call, and writes what each run returns. */
static inline void run_many(struct loaded *loaded, uint64_t rets[CONTEXTS])
{
    size_t made, size = CONTEXTS * loaded->program->context_size;
    failed |= bpf_host_run_many(&loaded->many, 0, 0, loaded->contexts, size, rets, CONTEXTS, &made, &refused);
}

/* Goes over the contexts so many times, with a call each time: a number of all that the runs returned. */
static uint64_t many_runs(struct loaded *loaded, int repeats)
{
    uint64_t all = 0, rets[CONTEXTS];
    for (int call = 0; call < repeats; call++) {
        run_many(loaded, rets);
        for (int run = 0; run < CONTEXTS; run++)
            all = all * 31 + rets[run];
    }
    return all;
}

/* Goes over the contexts so many times: a number of all that the runs returned. */
static uint64_t runs(enum engine engine, struct loaded *loaded, int repeats)
{
    if (engine == MANY)
        return many_runs(loaded, repeats);
    const uint8_t(*contexts)[LONGEST_CONTEXT] = loaded->program->contexts;
    uint64_t all = 0;
    uint32_t steps;
    for (int run = 0; run < repeats * CONTEXTS; run++)
        switch (engine) {
        case LIBRARY: all = all * 31 + run_by_library(loaded, contexts[run % CONTEXTS], &steps); break;
        case SWITCH: all = all * 31 + run_by_switch(loaded, contexts[run % CONTEXTS], &steps); break;
        case COMPILED: all = all * 31 + run_compiled(loaded, contexts[run % CONTEXTS]); break;
        default: all = all * 31 + run_by_dpdk(loaded, contexts[run % CONTEXTS]); break;
        }
    return all;
}

static bool has(const struct loaded *loaded, enum engine engine)
{
    return engine == DPDK ? loaded->dpdk != NULL : engine != COMPILED || loaded->compiled != NULL;
}

static void differs(const struct loaded *loaded, const char *what, enum engine engine)
{
    printf("%s %s: %s by %s differs from that of the C switch\n", loaded->program->file, loaded->program->name, what, ENGINE_NAMES[engine]);
    failed = 1;
}

/* Compares what the maps of an engine that is a host hold with those of the C switch. */
static void compare_host(struct loaded *loaded, struct bpf_host *host, enum engine engine)
{
    for (uint32_t map = 0; map < loaded->program->map_count; map++) {
        const struct map *values = &loaded->by_switch.maps[map];
        bool differ = false;
        for (uint32_t key = 0; key < values->entries; key++) {
            uint8_t value[LONGEST_VALUE];
            failed |= bpf_host_lookup(host, 0, map, key, value, values->value_size);
            differ |= memcmp(value, values->values + (uint64_t)key * values->stride, values->value_size) != 0;
        }
        if (differ)
            differs(loaded, "a map", engine);
    }
}

/* Compares what the maps of an engine of DPDK hold with those of the C switch. */
static void compare_linked(struct loaded *loaded, const struct linked *linked, enum engine engine)
{
    for (uint32_t map = 0; map < loaded->program->map_count && has(loaded, engine); map++) {
        const struct map *values = &loaded->by_switch.maps[map];
        if (memcmp(linked->maps[map].values, values->values, (uint64_t)values->stride * values->entries) != 0)
            differs(loaded, "a map", engine);
    }
}

/* Compares what the engines' maps hold. */
static void compare_maps(struct loaded *loaded)
{
    compare_host(loaded, &loaded->host, LIBRARY);
    compare_host(loaded, &loaded->many, MANY);
    compare_linked(loaded, &loaded->by_dpdk, DPDK);
    compare_linked(loaded, &loaded->by_compiled, COMPILED);
}

/* Runs the program on each context by all engines, and compares answers, numbers of steps and maps. */
static void compare(struct loaded *loaded)
{
    uint64_t all = 0, rets[CONTEXTS];
    run_many(loaded, rets);
    for (int run = 0; run < CONTEXTS; run++) {
        const uint8_t *context = loaded->program->contexts[run];
        uint32_t steps, wanted_steps;
        uint64_t ret = run_by_switch(loaded, context, &wanted_steps);
        if (run_by_library(loaded, context, &steps) != ret)
            differs(loaded, "an answer", LIBRARY);
        if (rets[run] != ret)
            differs(loaded, "an answer", MANY);
        if (steps != wanted_steps)
            differs(loaded, "the number of steps", LIBRARY);
        if (loaded->dpdk && run_by_dpdk(loaded, context) != ret)
            differs(loaded, "an answer", DPDK);
        if (loaded->compiled && run_compiled(loaded, context) != ret)
            differs(loaded, "an answer", COMPILED);
        all += wanted_steps;
    }
    compare_maps(loaded);
    loaded->steps = (double)all / CONTEXTS;
}

/* Frees what a program was loaded into. */
static inline void release(struct loaded *loaded)
{
    bpf_host_free(&loaded->host);
    bpf_host_free(&loaded->many);
    free(loaded->contexts);
}

/* A linked program, loaded by DPDK: NULL where it is refused. */
static inline struct rte_bpf *loaded_by_dpdk(const struct program *program, const struct linked *linked)
{
    return dpdk_load(linked->text, program->slots, linked->maps, program->map_count, program->context_size);
}

/* Loads a program by all engines and compares them: 0, or what the verifier answers. */
static inline uint32_t take(const struct program *program, struct loaded *loaded)
{
    size_t size = program->context_size;
    *loaded = (struct loaded){.program = program, .contexts = wanted(malloc(CONTEXTS * size + 1), "memory ran out")};
    for (size_t number = 0; number < CONTEXTS; number++)
        memcpy(loaded->contexts + number * size, program->contexts[number], size);
    uint32_t code = load(program, &loaded->host) | load(program, &loaded->many);
    if (code != 0) {
        release(loaded);
        return code;
    }
    link_program(program, &loaded->by_switch);
    link_program(program, &loaded->by_dpdk);
    link_program(program, &loaded->by_compiled);
    loaded->dpdk = loaded_by_dpdk(program, &loaded->by_dpdk);
    loaded->compiled = dpdk_compiled(loaded_by_dpdk(program, &loaded->by_compiled));
    compare(loaded);
    return 0;
}

static inline int by_size(const void *a, const void *b)
{
    double x = *(const double *)a, y = *(const double *)b;
    return (x > y) - (x < y);
}

/* The middle one of some numbers, which are put in order. */
static inline double median(double *numbers, int count)
{
    qsort(numbers, (size_t)count, sizeof *numbers, by_size);
    return numbers[count / 2];
}

/* Writes what an engine's rounds come to, beside those of the C switch. */
static inline void sum_up(struct loaded *loaded, enum engine engine, const double *ns, const double *by_switch, int rounds)
{
    double sorted[MOST_ROUNDS], ratios[MOST_ROUNDS];
    for (int round = 0; round < rounds; round++) {
        sorted[round] = ns[round];
        ratios[round] = ns[round] / by_switch[round];
    }
    loaded->ns[engine] = median(sorted, rounds);
    loaded->least[engine] = sorted[0];
    loaded->ratio[engine] = median(ratios, rounds);
}

/* Measures a program, in nanoseconds a run. */
static inline void measure_runs(struct loaded *loaded, int rounds, int repeats)
{
    double ns[ENGINES][MOST_ROUNDS];
    for (int round = 0; round < rounds; round++) {
        uint64_t answers[ENGINES];
        for (int engine = 0; engine < ENGINES; engine++) {
            double start = used();
            answers[engine] = has(loaded, (enum engine)engine) ? runs((enum engine)engine, loaded, repeats) : answers[LIBRARY];
            ns[engine][round] = has(loaded, (enum engine)engine) ? (used() - start) / repeats / CONTEXTS : NAN;
            if (answers[engine] != answers[LIBRARY])
                differs(loaded, "an answer of a round", (enum engine)engine);
        }
    }
    for (int engine = 0; engine < ENGINES; engine++)
        sum_up(loaded, (enum engine)engine, ns[engine], ns[SWITCH], rounds);
}

/* Prints a number of a row, or a dash where there is none. */
static inline void print_number(double number, int digits)
{
    if (isnan(number))
        printf(" - |");
    else
        printf(" %.*f |", digits, number);
}

#endif
